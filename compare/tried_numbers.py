"""Request Four of document 02 for `tried.py`: the line that is answered, on sheets of up to 96 lines.

A line's number is its position among the lines that are put together here, line 1 first. No answer is new: what comes first
is document 01's "Refusals in checking order", and for totals and aparts requests Two and Three.
"""

from tried_cases import WGS84, joined, refused, shown, stops

FIRST_LINES = WGS84, "(ellipsoid 6400000 128)"
NO_ELLIPSOID = "(ellipsoid 1 1)"
# r0 is no number, the others are 0.
READINGS = {0: 0x7FF8000000000000}

# A row is a line from the second on, its kind, and what it writes. In those that pass, # becomes the row's own number.
LET = "(let t# 1)", "n", ""
SHOW = "(show r1)", "n", shown("r1", "n", 0.0)
TOTAL = "(total)", "l", shown("total", "l", 0.0)
APART = "(apart 5)", "apart", ""
MIXED = [LET, SHOW, TOTAL, APART]
FORMS = [LET], [SHOW], [TOTAL], [APART], MIXED

# Two lengths that go beyond the limit together, and two collars 5 metres apart, which the APART above allows.
SIXTY = shown("w", "l", 6e7)
LENGTHS = [("(let w (m 60000000))", "l", ""), ("(show w)", "l", SIXTY), ("(show w)", "l", SIXTY)]
COLLARS = [
    ("(let p (geo (m 0) (m 0) (m 0)))", "g", ""),
    ("(let q (geo (m 3) (m 4) (m 0)))", "g", ""),
    ("(show p)", "g", shown("p", "g", 0.0, 0.0, 0.0)),
    ("(show q)", "g", shown("q", "g", 3.0, 4.0, 0.0)),
]


def bad(*lines):
    """A fault of each line, which the check refuses: it has no kind and writes nothing."""
    return [[(line, "", "")] for line in lines]


# The faults by their refusal. A fault is rows; the last of them is refused, and the others are there for it.
FAULTS = {
    3: bad("(show  r1)", "(let x)", "(total)\r", "(apart -5)", "x" * 300),
    5: bad("(show x)", "(let x y)", "(let r3 1)", "(let x (m (tip y)))", "(let deg 1)"),
    6: bad("(let y (tip 1))", "(let y (m (m 1)))", "(let r3 (deg))", "(let y (neg 1))", "(let y (tip r0))"),
    7: [
        [("(let n 100000001)", "n", "")],
        [("(show r0)", "n", "")],
        LENGTHS + [("(total)", "l", "")],
        [("(apart 100000001)", "apart", "")],
    ],
    8: [[("(let f (enu (geo (m 0) (m 0) (m 0))))", "fenu", "")], [("(let d (tolla (geo (m 0) (m 0) (m 0))))", "d", "")]],
    9: [COLLARS + [("(apart 6)", "apart", "")]],
}


def rows(form):
    """Lines 2 to 96 of a sheet that passes, of one form or of several in turn."""
    return [(line.replace("#", str(k)), kind, text) for k, (line, kind, text) in enumerate((form * 95)[:95])]


def placed(made, line, fault):
    """The same, with a fault's last row as this line and its other rows right before."""
    first = line - 1 - len(fault)
    assert first >= 0
    return made[:first] + fault + made[line - 1 :]


def lines_of(made, first=WGS84):
    return [first] + [line for line, _, _ in made]


def answered(made, number, line, first=WGS84):
    """3 to 6 are the check's and write nothing; 7, 8 and 9 leave the text of the lines before."""
    if number <= 6:
        return refused(lines_of(made, first), number, line, READINGS)
    text = "".join(text for _, _, text in made[: line - 2])
    return stops(lines_of(made, first), " ".join(kind for _, kind, _ in made), number, line, text, READINGS)


def second():
    """On line 2; no two collars are shown before it."""
    for number in 5, 6, 7, 8:
        yield answered(placed(rows(MIXED), 2, FAULTS[number][0]), number, 2)


def behind_each_form():
    """Each refusal behind lines of each form; each of both on lines 3, 50, 95 and 96, but that 9 is never met on line 3."""
    for r, (number, faults) in enumerate(FAULTS.items()):
        for f, form in enumerate(FORMS):
            fault = faults[f % len(faults)]
            line = (3, 50, 95, 96)[(r + f) % 4]
            if line <= len(fault):
                line = 50
            yield answered(placed(rows(form), line, fault), number, line, FIRST_LINES[f % 2])


def too_many():
    """Line 97 has no form, whatever stands there and behind; a bad line before it comes first."""
    for form, tail in zip(FORMS, (b"(show r1)\n", b"\n", b"(", b"(total)", b"(total)\n" * 100)):
        yield refused(joined(lines_of(rows(form))) + tail, 3, 97)
    yield refused(joined(lines_of(placed(rows(MIXED), 50, FAULTS[3][0]))) + b"(show r1)\n", 3, 50)


def ends():
    """A line without its LF, at the end, and a line that has nothing else."""
    for line in 2, 50, 96:
        lines = lines_of(rows(MIXED))
        yield refused(joined(lines[:line])[:-1], 3, line)
        yield refused(lines[: line - 1] + [""] + lines[line:], 3, line)


def two(form, before, behind, result):
    """A fault of each number and line; 4 is line 1's."""
    made, first = rows(form), WGS84
    for number, line in before, behind:
        if number == 4:
            first = NO_ELLIPSOID
        else:
            made = placed(made, line, FAULTS[number][0])
    return answered(made, *result, first)


# Number and line of a fault, and of one behind it.
BEHIND_FIRST = [
    ((4, 1), (3, 50)),
    ((4, 1), (3, 96)),
    ((5, 2), (3, 50)),
    ((5, 3), (3, 96)),
    ((6, 2), (3, 95)),
    ((6, 49), (3, 50)),
    ((5, 95), (3, 96)),
    ((9, 49), (3, 96)),
    ((7, 2), (5, 96)),
    ((8, 50), (6, 95)),
]
AS_MET = [
    ((3, 50), (3, 96)),
    ((4, 1), (5, 2)),
    ((5, 2), (6, 96)),
    ((6, 50), (5, 96)),
    ((7, 2), (8, 3)),
    ((7, 50), (9, 96)),
    ((8, 3), (7, 95)),
    ((8, 49), (9, 95)),
    ((9, 50), (7, 51)),
    ((9, 6), (8, 96)),
]


def in_order():
    """3 comes before 4, 5 and 6 on earlier lines, and each of these before what stops the run; else the first is answered."""
    for k, (before, behind) in enumerate(BEHIND_FIRST):
        yield two(FORMS[k % 5], before, behind, behind)
    for k, (before, behind) in enumerate(AS_MET):
        yield two(FORMS[k % 5], before, behind, before)


# Three times a length of 3 metres, and room for a name.
WIDE = "(let %s (venu " + " ".join(["(range (venu (m 1.00000) (m 2.00000) (m 2.00000)))"] * 3) + "))"


def longest(fault):
    """Lines of even length, 16,384 bytes in all, the fault on line 96."""
    left = 16384 - len(joined(lines_of(fault)))
    made = []
    for count in range(95 - len(fault), 0, -1):
        size = left // count
        left -= size
        # with the LF, and without the two bytes of %s
        name = ("t%d" % count).ljust(size - 1 - (len(WIDE) - 2), "x")
        made.append((WIDE % name, "venu", ""))
    assert len(joined(lines_of(made + fault))) == 16384
    return made + fault


def long_sheets():
    """Refusals of the form, of the walk and of the run at the end of as many bytes as a sheet can have."""
    for number in 3, 6, 8:
        yield answered(longest(FAULTS[number][0]), number, 96)


def line_numbers():
    for cases in second, behind_each_form, too_many, ends, in_order, long_sheets:
        yield from cases()
