#!/usr/bin/env python3
"""Gives this repository's own definitions, lemmas and fields the spelling of today's Rattle, after the kit's script has run.

usage: tools/snake_names.py [ROOT]      once, on files that have the kit's new spelling and no edit by hand

    fromDegrees, byInverse-sound          ->  from_degrees, by_inverse-sound
    let-line, run-is-machine              ->  let_line, run_is_machine      (constructors and fields of a record, and what specs/ defines)
    same_word, where sameWord is renamed  ->  same_word_lem                 (a lemma of its function's name)

It rewrites .antt and .rt files below crates/, and the texts of wrong programs (.edit files). Functions of src/ have this spelling already; strings stay.
It prints each name that it turns, with the new one.
"""
import os
import re
import sys

ROOT = sys.argv[1] if len(sys.argv) > 1 else "."
CAMEL = re.compile(r"[a-z][a-z0-9_]*[A-Z]")
NAME = re.compile(r"\"(?:[^\"\\\n]|\\.)*\"|[^\s(){}\[\].,;:\"`«»]+")
SIGNATURE = re.compile(r"(\s*)(?:unfoldable |abbrev )?(?:pub )?([^\s:={}(),.]+) :(?:\s|$)")
OPENING = re.compile(r"(\s*)(?:pub )?(?:record|data) .*where\s*$")
# what the kit's script left of names that the library has lost
LOST = {"getD": "get_or", "is_Within": "is_within", "kindOr255": "kind_or_255"}
# names that would fall together with another of the repository's
APART = {
    "letLine": "line_of_let",  # let-line is a constructor
    "apartLine": "apart_answer",  # apart-line is a constructor
    "stand-apart": "collars_stand_apart",  # a field of what a run owes; standApart is a definition
    "bad-line": "first_bad_line",  # a field of a lemma's record; badLine is a constructor
    "far-enough": "just_far_enough",  # a field of the examples' record; farEnough is a definition
}


def files(*endings):
    for top in ("crates", "compare/mutants"):
        for folder, dirs, names in os.walk(os.path.join(ROOT, top)):
            dirs[:] = sorted(d for d in dirs if d not in ("out", ".git"))
            for name in sorted(names):
                if name.endswith(endings):
                    yield os.path.join(folder, name)


def snake(part):
    """One part of a name between dashes."""
    if part in LOST:
        return LOST[part]
    if not CAMEL.match(part):
        return part
    return re.sub(r"(?<=[a-zA-Z0-9])([A-Z]+(?![a-z])|[A-Z])", lambda m: "_" + m.group(1).lower(), part).replace("__", "_")


def declared():
    """What the .antt files declare: every name, and the names whose dashes become underscores."""
    every, dashed = set(), set()
    for path in files(".antt"):
        block = None
        for line in open(path, encoding="utf-8"):
            opening = OPENING.match(line)
            if block is not None and line.strip() and len(line) - len(line.lstrip()) <= block:
                block = None
            if opening:
                block = len(opening.group(1))
                continue
            signature = SIGNATURE.match(line)
            if signature:
                name = signature.group(2)
                every.add(name)
                if "-" in name and name[0].isalpha() and (block is not None or "/specs/" in path) and "-" != name[-1]:
                    dashed.add(name)
    return every, dashed


def main():
    every, dashed = declared()
    turned = {}
    for path in files(".antt", ".rt"):
        for word in NAME.findall(open(path, encoding="utf-8").read()):
            core = word.rstrip("'")
            if word[0] == '"' or not re.fullmatch(r"[\w◌'μ\-]+", word):
                continue
            new = "-".join(snake(part) for part in core.split("-")) + word[len(core):]
            if word in dashed:
                new = new.replace("-", "_")
            new = APART.get(word, new)
            if new != word:
                turned[word] = new
    moved = {new: new + "_lem" for old, new in turned.items() if new in every and new not in turned and old in every}
    turned.update(moved)
    back = {}
    for old, new in turned.items():
        if new in back:
            print(f"fall together: {old} and {back[new]} as {new}")
        back[new] = old
    for old, new in sorted(turned.items()):
        print(f"{old} {new}")

    def put(match, antt):
        word = match.group(0)
        if word[0] == '"':
            return word
        if not antt and word in moved:  # a function of src/ keeps its name
            return word
        return turned.get(word, word)

    for path in files(".antt", ".rt", ".edit"):
        text = open(path, encoding="utf-8").read()
        if path.endswith(".antt"):
            # a lemma is renamed where it is said and cited, and not where a function's folder or a step of its code has the name
            def one(match):
                word, before = match.group(0), text[max(0, match.start() - 1):match.start()]
                if word in moved and before == ".":
                    return word
                return put(match, True)
            new = NAME.sub(one, text)
        else:
            new = NAME.sub(lambda m: put(m, False), text)
        if new != text:
            open(path, "w", encoding="utf-8").write(new)


if __name__ == "__main__":
    main()
