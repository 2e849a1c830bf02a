"""The tried sheets of the program `test_sheets`, and what it must print for them.

    tried.py FOLDER    writes FOLDER/stdin and FOLDER/stdout

Sheets and answers are written here from document 01: first its "Sheets to try", in its order, then sheets on its other
statements; behind them from the requests of document 02. Nothing is taken from the program's output, and nothing of this
repository's Rattle is used. A sheet of which 01 says only that it passes shows nothing but numbers that stand in it or
among its readings. `compare/tried-run` makes both files anew and compares them with the first part of the stored ones;
the gate runs the program and compares what it prints.
"""

import sys
from pathlib import Path

from tried_aparts import aparts
from tried_cases import WGS84, bits, joined, passes, refused, shown, stops
from tried_lending import lending
from tried_numbers import line_numbers
from tried_table import NO_ROWS, TABLE
from tried_totals import TOTAL, totals

POLE = "(ellipsoid 6400000 128)"
NAN = 0x7FF8000000000000
PI_HALF = 1.5707963267948966
WHOLE_TURN = 4 * PI_HALF


# ---- "Sheets to try", in document 01's order

FIRST = [
    POLE,
    "(let p (lla (deg 90) (deg 0) (m 0)))",
    "(let f (enu p))",
    "(let v (venu (m 1) (m 2) (m 3)))",
    "(let w (swap v))",
    "(let z (to f (origin f)))",
    "(show f)",
    "(show w)",
    "(show z)",
]

# Word for word as document 01 prints it.
FIRST_TEXT = """\
f fenu 0000000000000000 0000000000000000 4158392c00000000 bff0000000000000 0000000000000000 0000000000000000 0000000000000000 bff0000000000000 0000000000000000 0000000000000000 0000000000000000 3ff0000000000000
w vned 4000000000000000 3ff0000000000000 c008000000000000
z venu 0000000000000000 0000000000000000 0000000000000000
"""


def from_centre(x):
    return [POLE, "(let f (enu (geo (m %s) (m 0) (m 0))))" % x]


def elevation(z):
    """elev of enu (0, 0, z), z as r1's bits."""
    return [WGS84, "(let e (elev (venu (m r0) (m r0) (m r1))))", "(show e)"], {1: bits(z)}


def deep(brackets):
    """A let whose brackets nest so deep, its own included."""
    negs = brackets - 3
    return [WGS84, "(let v " + "(neg " * negs + "(venu (m 1) (m 2) (m 3))" + ")" * negs + ")"]


def sheets_to_try():
    yield passes(FIRST, "d fenu venu vned venu fenu vned venu", FIRST_TEXT)
    yield passes(from_centre("3200000"), "fenu")
    yield stops(from_centre("3199999"), "fenu", 8, 2)
    yield stops(from_centre("0"), "fenu", 8, 2)
    yield passes([WGS84, "(let a 100000000)", "(show a)"], "n n", shown("a", "n", 100000000.0))
    yield stops([WGS84, "(let a 100000000.000001)"], "n", 7, 2)
    yield stops([WGS84, "(let a r0)"], "n", 7, 2, readings={0: NAN})
    yield passes([WGS84, "(let a r1)", "(show a)"], "n n", shown("a", "n", 0.0), readings={0: NAN})
    yield passes([WGS84, "(let a (deg 3666))"], "a")
    yield stops([WGS84, "(let a (deg 3667))"], "a", 7, 2)
    yield refused([WGS84, "(let v (vbody (m 1) (m 2) (m 3)))", "(let w (swap v))"], 6, 3)
    yield refused([WGS84, "(let r3 1)"], 5, 2)
    for z, e in (2.0**-51, PI_HALF), (2.0**-52, 0.0):
        lines, readings = elevation(z)
        yield passes(lines, "a a", shown("e", "a", e), readings)
    many = [WGS84, "(let a 1)"] + ["(show a)"] * 94
    yield passes(many, "n " * 95, shown("a", "n", 1.0) * 94)
    yield refused(many + ["(show a)"], 3, 97)
    yield passes(deep(12), "venu")
    yield refused(deep(13), 3, 2)


# ---- sheets on the other statements of document 01

# An expression of 69 bytes.
LONG = "(venu " + " ".join(["(m 000000001.000000)"] * 3) + ")"


def sizes():
    """Refusal 1: 0 and 16,385 bytes are no sheet, 16,384 are."""
    names = ["tip%05d" % i if i < 26 else "tip%04d" % i for i in range(95)]
    lines = [WGS84] + ["(let %s (neg (neg (add %s %s))))" % (name, LONG, LONG) for name in names]
    assert len(joined(lines)) == 16384 and max(map(len, lines)) < 200
    yield refused(b"", 1, 0)
    yield passes(lines, "venu " * 95)
    yield refused(joined(lines) + b"\n", 1, 0)
    yield refused(b"\0" * 16385, 1, 0)


def grammar():
    """The edges of the grammar: the longest word, the most digits and arguments, the longest line."""
    one = shown("abcdefghij01", "n", 1.0)
    yield passes([WGS84, "(let abcdefghij01 1)", "(show abcdefghij01)"], "n n", one)
    yield refused([WGS84, "(let abcdefghij012 1)"], 3, 2)
    yield refused([WGS84, "(let a 1)", "(show A)"], 3, 3)
    yield passes([WGS84, "(let a -012345678.500000)", "(show a)"], "n n", shown("a", "n", -12345678.5))
    yield refused([WGS84, "(let a 0012345678)"], 3, 2)
    yield refused([WGS84, "(let a 1.0000000)"], 3, 2)
    yield refused([WGS84, "(let a 1.)"], 3, 2)
    yield refused([WGS84, "(let a (tip 1 2 3 4 5))"], 6, 2)
    yield refused([WGS84, "(let a (tip 1 2 3 4 5 6))"], 3, 2)
    long = "(let %s " + "(neg " * 7 + "(add %s %s)" % (LONG, LONG) + ")" * 8
    assert len(long % "tip05") == 199
    yield passes([WGS84, long % "tip05"], "venu")
    yield refused([WGS84, long % "tip005"], 3, 2)


def order():
    """Refusals 3 to 6, the earlier before the later, 5 and 6 as they are met."""
    unknown = "(show a)"
    for radius, flattening in ("999999.999999", "128"), ("10000000.000001", "128"), ("6400000", "99.999999"), ("6400000", "1000.000001"):
        yield refused(["(ellipsoid %s %s)" % (radius, flattening), unknown], 4, 1)
    for radius, flattening in ("1000000", "100"), ("10000000", "1000"):
        yield passes(["(ellipsoid %s %s)" % (radius, flattening), "(let a 1)"], "n")
    yield refused(["(ellipsoid 1 1)", unknown, "(show  a)"], 3, 3)
    yield refused(["(ellipsoid grs80)", unknown], 3, 1)
    yield refused(joined([WGS84, unknown])[:-1], 3, 2)
    yield refused([WGS84, unknown], 5, 2)
    yield refused([WGS84, "(let a a)"], 5, 2)
    yield refused([WGS84, "(let a 1)", "(let a 2)"], 5, 3)
    yield refused([WGS84, "(let deg 1)"], 5, 2)
    yield refused([WGS84, "(let a deg)"], 5, 2)
    # the expression first, then the name
    yield refused([WGS84, "(let r3 (swap 1))"], 6, 2)
    yield refused([WGS84, "(let a 1)", "(let a (deg 1 2))"], 6, 3)
    yield refused([WGS84, "(let deg (deg (m 1)))"], 6, 2)
    # a bracket opened by another word has no row; arguments go from left to right
    yield refused([WGS84, "(let a (tip 1))"], 6, 2)
    yield refused([WGS84, "(let a (add b (tip 1)))"], 5, 2)
    yield refused([WGS84, "(let a (add (tip 1) b))"], 6, 2)
    # what would stop the run later is no matter of the check, which comes first
    yield refused([WGS84, "(let a 100000001)", "(show a)", "(show b)"], 5, 4)


def stopping():
    """Refusals 7 and 8 leave the text of the earlier shows; 9 is in tried_aparts.py."""
    one = shown("a", "n", 1.0)
    begin = [WGS84, "(let a 1)", "(show a)"]
    yield stops(begin + ["(let b 100000001)", "(show a)"], "n n n n", 7, 4, one)
    yield stops(begin + ["(show r15)", "(show a)"], "n n n n", 7, 4, one, {15: NAN})
    # a fix that never came: three zeros
    fix = begin + ["(let p (geo (m r0) (m r1) (m r2)))"]
    for made, kind in (
        ("(enu p)", "fenu"),
        ("(ned p)", "fned"),
        ("(wan (deg 0) p)", "fwan"),
        ("(body (deg 0) (deg 0) (deg 0) p)", "fbody"),
        ("(look p p (deg 0))", "fbody"),
        ("(tolla p)", "d"),
    ):
        yield stops(fix + ["(let f %s)" % made, "(show a)"], "n n g %s n" % kind, 8, 5, one)
    # no number at all
    for reading in NAN, 0x7FF0000000000001, 0xFFFFFFFFFFFFFFFF, bits(float("inf")), bits(float("-inf")):
        yield stops(begin + ["(let l (m r7))"], "n n l", 7, 4, one, {7: reading})
    yield passes([WGS84, "(let a -100000000)"], "n")
    yield stops([WGS84, "(let a -100000000.000001)"], "n", 7, 2)
    yield stops([WGS84, "(let a (deg -3667))"], "a", 7, 2)


def showing():
    """The readings, and numbers as they are written."""
    values = [-0.0, 5e-324, -0.1, 100000000.0] + [i + 0.5 for i in range(4, 16)]
    text = "".join(shown("r%d" % i, "n", x) for i, x in enumerate(values))
    readings = {i: bits(x) for i, x in enumerate(values)}
    yield passes([WGS84] + ["(show r%d)" % i for i in range(16)], "n " * 16, text, readings)
    yield refused([WGS84, "(show r16)"], 5, 2)
    yield passes([WGS84, "(let a -0)", "(show a)"], "n n", shown("a", "n", -0.0))
    yield passes([WGS84, "(let length (m 2))", "(show length)"], "l l", shown("length", "l", 2.0))


def operators():
    """The operators of vectors, on whole numbers so small that doubles hold every result."""
    begin = [WGS84, "(let v (venu (m 1) (m 2) (m 3)))", "(let w (venu (m 6) (m 5) (m -4)))"]
    for made, result in (
        ("(neg v)", (-1.0, -2.0, -3.0)),
        ("(add v w)", (7.0, 7.0, -1.0)),
        ("(sub v w)", (-5.0, -3.0, 7.0)),
        ("(scale v 2)", (2.0, 4.0, 6.0)),
    ):
        yield passes(begin + ["(let x %s)" % made, "(show x)"], "venu venu venu venu", shown("x", "venu", *result))


def table():
    """Every row once and more, for its kind; and, behind them, what is no row."""
    lines = [WGS84] + ["(let x%s %s)" % (name, made) for name, made, _ in TABLE]
    yield passes(lines, " ".join(kind for _, _, kind in TABLE))
    for made in NO_ROWS:
        yield refused(lines + ["(let y %s)" % made], 6, len(lines) + 1)


# ---- document 02

# So little east with 1 metre north is its own atan2, since the polynomial in its square is 1; its sum with 2 PI is one
# addition. -2^-51 lies half way to the double below 2 PI, a tie, which goes to 2 PI.
LEAST = -(2.0**-51)
GREATEST = -(2.0**-1074)


def bearings(east, bearing):
    """East, as r0, and 1 metre north, by each orientation."""
    lines, text = [WGS84], ""
    for kind, vector in ("venu", "(m r0) (m 1)"), ("vned", "(m 1) (m r0)"), ("vbody", "(m 1) (m r0)"), ("vwan", "(m 1) (m r0)"):
        lines += ["(let %s (bearing (%s %s (m 0))))" % ("b" + kind, kind, vector), "(show b%s)" % kind]
        text += shown("b" + kind, "a", bearing)
    return passes(lines, "a " * 8, text, {0: bits(east)})


def whole_turn():
    """Request One: a bearing is never a whole turn, and a look's yaw neither."""
    below = LEAST - 2.0**-103
    assert below + WHOLE_TURN < LEAST + WHOLE_TURN == WHOLE_TURN and bits(below + WHOLE_TURN) == 0x401921FB54442D17
    for east in LEAST, -1e-300, GREATEST:
        yield bearings(east, 0.0)
    yield bearings(below, below + WHOLE_TURN)
    yield bearings(-0.0, -0.0)
    # tenths that do not add up to zero
    lines = [WGS84, "(let u (add (venu (m 0.1) (m 0) (m 0)) (venu (m 0.2) (m 0) (m 0))))", "(let v (sub (venu (m 0.3) (m 1) (m 0)) u))"]
    east = 0.3 - (0.1 + 0.2)
    assert LEAST < east < 0
    text = shown("v", "venu", east, 1.0, 0.0) + shown("a", "a", 0.0)
    yield passes(lines + ["(let a (bearing v))", "(show v)", "(show a)"], "venu venu a venu a", text)
    # the sine of 360 degrees is what remains of them, the cosine 1
    assert LEAST < (360 * (2 * PI_HALF / 180) - 4 * 1.5707963267341256) - 4 * 6.077100506506192e-11 < 0
    yield passes([WGS84, "(let a (bearing (aenu (deg 360) (deg 0) (m 1))))", "(show a)"], "a a", shown("a", "a", 0.0))
    # at the pole of the first sheet north is (0, -1, 0) and west (1, 0, 0); a look due north and one a hair west of it, both
    # level, have that place's own axes: each factor is 0, 1 or -1
    lines = [POLE, "(let p (geo (m 0) (m 0) (m 6350000)))"]
    for name, x in ("f", "0"), ("g", "r0"):
        lines += ["(let %s (look p (geo (m %s) (m -1000) (m 6350000)) (deg 0)))" % (name, x), "(show %s)" % name]
    fields = (0.0, 0.0, 6350000.0, 0.0, -1.0, 0.0, -1.0, 0.0, 0.0, 0.0, 0.0, -1.0)
    for west in -1000 * LEAST, 1e-300:
        yield passes(lines, "g" + " fbody" * 4, shown("f", "fbody", *fields) + shown("g", "fbody", *fields), {0: bits(west)})


def first_totalled():
    """Request Two on the first sheet: frames and vectors are no lengths."""
    kinds = "d fenu venu vned venu l fenu vned venu l"
    yield passes(FIRST[:6] + [TOTAL] + FIRST[6:] + [TOTAL], kinds, shown("total", "l", 0.0) + FIRST_TEXT + shown("total", "l", 0.0))


def first_apart():
    """Request Three on the first sheet: a frame and a d are no g, and the frame's origin is one by each of its names."""
    lines = FIRST + ["(show p)", "(let o (origin f))", "(show o)", "(apart 100000000)", "(let q (origin f))", "(show q)", "(apart 0)", "(apart 1)"]
    at = (0.0, 0.0, 6350000.0)
    text = FIRST_TEXT + shown("p", "d", 0.0, 0.0, 1.0, 0.0) + shown("o", "g", *at) + shown("q", "g", *at)
    yield stops(lines, "d fenu venu vned venu fenu vned venu d g g apart g g apart apart", 9, 17, text)


def main(folder):
    count = 0
    with open(folder / "stdin", "w") as given, open(folder / "stdout", "w") as expected:
        for cases in sheets_to_try, sizes, lending, grammar, order, stopping, showing, operators, table, whole_turn, totals, first_totalled, aparts, first_apart, line_numbers:
            for sheet, said in cases():
                given.write(sheet)
                expected.write(said)
                count += 1
    print("%d sheets" % count)


main(Path(sys.argv[1]))
