"""Sheets for the program `test_forms`, and what it must print for them.

    make.py stored FOLDER              the sheets of the gate: FOLDER/stdin and FOLDER/stdout
    make.py random COUNT SEED FOLDER   COUNT sheets at random, likewise

It prints how many sheets of each sort there are, and how many of them are of the grammar.
What the program must print is worked out by reader.py and by nothing of this repository's Rattle.
"""

import sys
from pathlib import Path

from edge_sheets import edges
from random_sheets import SORTS, Random
from reader import answer

SEED = 20261115
# How many of each sort at random the gate has.
STORED = {"good": 190, "a part wrong": 130, "edited": 140, "tokens": 120, "bytes": 60, "with totals": 90, "a total wrong": 90, "a total edited": 60, "tokens of totals": 60}
STORED |= {"with aparts": 90, "an apart wrong": 150, "an apart edited": 90, "tokens of aparts": 60}
# How often each comes at random.
SHARES = ["good"] * 30 + ["a part wrong"] * 25 + ["edited"] * 30 + ["tokens"] * 10 + ["bytes"] * 5
SHARES += ["with totals"] * 20 + ["a total wrong"] * 20 + ["a total edited"] * 10 + ["tokens of totals"] * 10
SHARES += ["with aparts"] * 20 + ["an apart wrong"] * 25 + ["an apart edited"] * 15 + ["tokens of aparts"] * 10
# What is no sheet within its size ends the program's run.
NO_CASE = "4001 28\n"


def stored():
    r = Random(SEED)
    for sort, sheets in edges(SEED).items():
        yield from ((sort, sheet) for sheet in sheets)
    for sort, count in STORED.items():
        yield from ((sort, SORTS[sort](r)) for _ in range(count))


def at_random(count, seed):
    r = Random(seed)
    for _ in range(count):
        sort = r.pick(SHARES)
        yield sort, SORTS[sort](r)


def write(cases, folder):
    """Writes the cases and their answers; how many of each sort there are, and how many are good."""
    counts = {}
    with open(folder / "stdin", "w") as given, open(folder / "stdout", "w") as expected:
        for sort, sheet in cases:
            assert 1 <= len(sheet) <= 16384
            said = answer(sheet)
            given.write("%04x %s\n" % (len(sheet), sheet.hex()))
            expected.write(said)
            total, fine = counts.get(sort, (0, 0))
            counts[sort] = total + 1, fine + said.startswith("fine")
        given.write(NO_CASE)
        expected.write("?\n")
    return counts


def main(words):
    if words[0] == "stored":
        counts = write(stored(), Path(words[1]))
    else:
        counts = write(at_random(int(words[1]), int(words[2])), Path(words[3]))
    for sort, (total, fine) in counts.items():
        print("%s: %d sheets, %d of the grammar" % (sort, total, fine))
    print("all: %d sheets, %d of the grammar" % tuple(map(sum, zip(*counts.values()))))


main(sys.argv[1:])
