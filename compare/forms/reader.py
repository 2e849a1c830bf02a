"""A reader of sheets, by document 01's section on a sheet's bytes and the lines of document 02's requests Two and Three.

It uses nothing of crates/sheets, neither code nor definitions, and goes another way: the sheet
is cut at its LFs first, and in an expression the brackets that hold no bracket are taken away,
again and again. Python's own float() rounds a NUM to the nearest double.
"""

import re
import struct

WORD = rb"[a-z][a-z0-9]{0,11}"
PLAIN = rb"[0-9]{1,9}(?:\.[0-9]{1,6})?"
NUM = rb"-?%s" % PLAIN
# What a bracket leaves behind; no byte of the grammar.
GONE = b"#"

LET = re.compile(rb"\(let (%s) (.+)\)" % WORD, re.DOTALL)
SHOW = re.compile(rb"\(show (%s)\)" % WORD)
TOTAL = re.compile(rb"\(total\)")
APART = re.compile(rb"\(apart (%s)\)" % PLAIN)
WGS84 = re.compile(rb"\(ellipsoid wgs84\)")
CUSTOM = re.compile(rb"\(ellipsoid (%s) (%s)\)" % (NUM, NUM))
ONE = re.compile(rb"%s|%s|%s" % (WORD, NUM, GONE))
BRACKET = re.compile(rb"\(%s(?: (?:%s)){0,5}\)" % (WORD, ONE.pattern))
TOKEN = re.compile(rb"[ ()]|[^ ()]+")


def bits(num):
    """A NUM's nearest double, by its sixteen hexadecimal digits."""
    return struct.pack(">d", float(num)).hex()


def deepest(text):
    """How deep the brackets of a line nest, its own included."""
    depth = most = 0
    for byte in text:
        depth += (byte == ord("(")) - (byte == ord(")"))
        most = max(most, depth)
    return most


def is_expr(text):
    """Whether the bytes are an EXPR, however deep."""
    if GONE in text:
        return False
    before = None
    while before != text:
        before, text = text, BRACKET.sub(GONE, text)
    return ONE.fullmatch(text) is not None


def shown(expr):
    """An EXPR with each NUM as its double's bits."""
    tokens = (token.decode() for token in TOKEN.findall(expr))
    return "".join(bits(token) if token[0] in "-0123456789" else token for token in tokens)


def first_line(text):
    """What line 1 says, None where it is not of the grammar."""
    if WGS84.fullmatch(text):
        return "ellipsoid wgs84"
    found = CUSTOM.fullmatch(text)
    return found and "ellipsoid %s %s" % (bits(found[1]), bits(found[2]))


def other_line(text):
    """What another line says, None where it is not of the grammar."""
    found = SHOW.fullmatch(text)
    if found:
        return "show %s" % found[1].decode()
    found = LET.fullmatch(text)
    if found and is_expr(found[2]) and deepest(text) <= 12:
        return "let %s %s" % (found[1].decode(), shown(found[2]))
    if TOTAL.fullmatch(text):
        return "total"
    found = APART.fullmatch(text)
    return found and "apart %s" % bits(found[1])


def read(sheet):
    """The number of the first bad line, or 0, and what each line says, with its place."""
    *full, rest = sheet.split(b"\n")
    found, place = [], 0
    for number, text in enumerate(full, 1):
        said = None
        if number <= 96 and len(text) + 1 <= 200:
            said = first_line(text) if number == 1 else other_line(text)
        if said is None:
            return number, found
        found.append("%d %s" % (place, said))
        place += len(text) + 1
    if rest or not full:
        return len(full) + 1, found
    return 0, found


def answer(sheet):
    """The lines that the program prints for a sheet."""
    bad, found = read(sheet)
    if bad:
        return "bad %d\n" % bad
    return "".join(line + "\n" for line in ["fine %d" % len(found)] + found)
