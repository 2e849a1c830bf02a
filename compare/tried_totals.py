"""Request Two of document 02 for `tried.py`: totals of the lengths shown."""

from tried_cases import KINDS, WGS84, bits, passes, refused, shown, stops

TOTAL = "(total)"


def added(*lengths):
    """The sum from plus zero, in order. Python's floats are IEEE doubles and its + is one rounded addition, to the nearest, ties
    to even; its sum() is another matter, since newer ones make up for what was rounded."""
    so_far = 0.0
    for x in lengths:
        so_far += x
    return so_far


def length(name, x):
    return shown(name, "l", x)


def total(x):
    return length("total", x)


def given(*nums):
    """Line 1, and behind it a length of each NUM, called a, b, c and so on."""
    return [WGS84] + ["(let %s (m %s))" % (name, num) for name, num in zip("abcdefgh", nums)]


def shows(names):
    return ["(show %s)" % name for name in names]


def totalled(nums, names, result, r0=0.0):
    """Lengths given, some of them shown, and their total."""
    values = {name: r0 if num == "r0" else float(num) for name, num in zip("abcdefgh", nums)}
    lines = given(*nums) + shows(names) + [TOTAL]
    text = "".join(length(name, values[name]) for name in names) + total(result)
    return passes(lines, "l " * (len(lines) - 1), text, {0: bits(r0)})


def counted():
    """What is counted: each show of a length before the total, as often as it is shown, and nothing else."""
    a, b = length("a", 12.5), length("b", 3.0)
    two = given("12.5", "3")
    yield passes([WGS84, TOTAL], "l", total(0.0))
    yield passes([WGS84, TOTAL, TOTAL], "l l", total(0.0) * 2)
    # given and not shown
    yield passes(two + [TOTAL], "l l l", total(0.0))
    yield passes(two + ["(show a)", TOTAL], "l " * 4, a + total(12.5))
    yield passes(two + ["(show a)", "(show b)", TOTAL], "l " * 5, a + b + total(15.5))
    # one name twice
    yield passes(two + ["(show a)", "(show a)", TOTAL], "l " * 5, a * 2 + total(25.0))
    yield passes(two + ["(show b)", "(show a)", "(show b)", TOTAL], "l " * 6, b + a + b + total(18.5))
    # totals aside, behind one another and between shows
    yield passes(two + ["(show a)", TOTAL, TOTAL, TOTAL], "l " * 6, a + total(12.5) * 3)
    yield passes(two + ["(show a)", TOTAL, "(show b)", TOTAL], "l " * 6, a + total(12.5) + b + total(15.5))
    yield passes(two + [TOTAL, "(show a)", "(show b)", TOTAL, "(show a)"], "l " * 7, total(0.0) + a + b + total(15.5) + a)
    # a second name of one length, and a length that is measured: the range of (3, 4, 0)
    yield passes(two + ["(let c a)", "(show c)", "(show a)", TOTAL], "l " * 6, length("c", 12.5) + a + total(25.0))
    measured = ["(let v (venu (m 3) (m 4) (m 0)))", "(let d (range v))"]
    yield passes(two + measured + ["(show d)", "(show b)", TOTAL], "l l venu l l l l", length("d", 5.0) + b + total(8.0))


def other_kinds():
    """What is no length does not count, whatever lengths are in it; a reading is a number."""
    # 90 degrees are PI/2, where longitude is dropped: the n-vector is (0, 0, 1)
    assert 90 * (2 * 1.5707963267948966 / 180) == 1.5707963267948966
    for kind, made, values in (
        ("n", "7", (7.0,)),
        ("n", "r3", (6.0,)),
        ("a", "(deg 90)", (1.5707963267948966,)),
        ("g", "(geo (m 1) (m 2) (m 3))", (1.0, 2.0, 3.0)),
        ("d", "(lla (deg 90) (deg 7) (m 2))", (0.0, 0.0, 1.0, 2.0)),
        ("venu", "(venu (m 1) (m 2) (m 3))", (1.0, 2.0, 3.0)),
        ("vned", "(vned (m 1) (m 2) (m 3))", (1.0, 2.0, 3.0)),
        ("vbody", "(vbody (m 1) (m 2) (m 3))", (1.0, 2.0, 3.0)),
        ("vwan", "(vwan (m 1) (m 2) (m 3))", (1.0, 2.0, 3.0)),
    ):
        lines = given("4") + ["(let x %s)" % made, "(show x)", TOTAL, "(show a)", "(show x)", TOTAL]
        x = shown("x", kind, *values)
        text = x + total(0.0) + length("a", 4.0) + x + total(4.0)
        yield passes(lines, "l %s %s l l %s l" % (kind, kind, kind), text, {3: bits(6.0)})
    reading = shown("r3", "n", 6.0)
    yield passes([WGS84, "(show r3)", TOTAL, "(show r3)", TOTAL], "n l n l", (reading + total(0.0)) * 2, {3: bits(6.0)})


def sums():
    """How it is added: from plus zero, one rounded addition after the other in the order of the lines."""
    tenths = "0.1", "0.2", "0.3"
    yield totalled(tenths, "abc", added(0.1, 0.2, 0.3))
    yield totalled(tenths, "cba", added(0.3, 0.2, 0.1))
    assert added(0.1, 0.2, 0.3) == 0.6000000000000001 and added(0.3, 0.2, 0.1) == 0.6
    yield totalled(["0.1"], "a" * 10, added(*[0.1] * 10))
    assert added(*[0.1] * 10) == 0.9999999999999999
    yield totalled(["0.1", "99999999.7", "-99999999.7"], "abc", added(0.1, 99999999.7, -99999999.7))
    yield totalled(["0.1", "99999999.7", "-99999999.7"], "bca", 0.1)
    # minus zero alone is plus zero, and so is what comes back to zero
    yield totalled(["-0"], "a", 0.0)
    yield totalled(["-0", "-0.0"], "abab", 0.0)
    yield totalled(["-0", "5", "-5"], "abac", 0.0)
    yield totalled(["-0", "-5"], "ab", -5.0)
    yield totalled(["-0.25", "0.5"], "aaa", -0.75)


def limit():
    """The limit for l, tested where the total stands and nowhere else; refused there, nothing of it is written."""
    six = given("60000000", "-60000000")
    up, down = length("a", 6e7), length("b", -6e7)
    yield stops(six + ["(show a)", "(show a)", TOTAL, "(show b)", TOTAL], "l " * 7, 7, 6, up * 2)
    yield stops(six + ["(show b)", TOTAL, "(show b)", TOTAL], "l " * 6, 7, 7, down + total(-6e7) + down)
    # on the way beyond it, and back
    yield passes(six + shows("aab") + [TOTAL], "l " * 6, up * 2 + down + total(6e7))
    yield passes(six + shows("aabb") + [TOTAL, "(show a)"], "l " * 8, up * 2 + down * 2 + total(0.0) + up)
    # beyond it with no total behind
    yield passes(six + [TOTAL] + shows("aaa"), "l " * 6, total(0.0) + up * 3)
    # the limit itself
    yield totalled(["50000000"], "aa", 1e8)
    yield totalled(["-100000000"], "a", -1e8)
    most, least = length("a", 1e8), length("b", 0.000001)
    yield stops(given("100000000", "0.000001") + ["(show a)", "(show b)", TOTAL], "l " * 5, 7, 6, most + least)
    below = length("a", -1e8) + length("b", -0.000001)
    yield stops(given("-100000000", "-0.000001") + ["(show a)", "(show b)", TOTAL], "l " * 5, 7, 6, below)
    # 2^-27 is half of the step to the next double and rounds away each time; both halves first are the whole step
    half = 2.0**-27
    assert added(1e8, half, half) == 1e8 < added(half, half, 1e8) == 1e8 + 2.0**-26
    yield totalled(["100000000", "r0"], "abb", 1e8, half)
    tiny = length("b", half)
    yield stops(given("100000000", "r0") + shows("bba") + [TOTAL], "l " * 6, 7, 7, tiny * 2 + most, {0: bits(half)})


def names():
    """`total` is no operator's word, and the line gives no name: it may be given and shown as any other."""
    own = [WGS84, "(let total (m 3))"]
    three = total(3.0)
    yield passes(own + ["(show total)", TOTAL], "l l l", three * 2)
    yield passes(own + [TOTAL, "(show total)", "(show total)", TOTAL], "l " * 5, total(0.0) + three * 2 + total(6.0))
    yield passes([WGS84, "(let total 3)", "(show total)", TOTAL], "n n l", shown("total", "n", 3.0) + total(0.0))
    yield passes(own + ["(let a total)", "(show a)", TOTAL], "l " * 4, length("a", 3.0) + three)
    yield passes([WGS84, "(let totals 1)", "(let tota 2)", TOTAL], "n n l", total(0.0))
    yield refused([WGS84, "(show total)"], 5, 2)
    yield refused([WGS84, TOTAL, "(show total)"], 5, 3)
    yield refused([WGS84, TOTAL, "(let a total)"], 5, 3)
    yield refused([WGS84, "(let total total)"], 5, 2)
    yield refused(own + [TOTAL, "(let total 1)"], 5, 4)
    # a bracket that it opens has no row, with no arguments too; they are walked first
    yield refused([WGS84, "(let a (total))"], 6, 2)
    yield refused(own + ["(let a (total total))"], 6, 3)
    yield refused([WGS84, "(let a (total b))"], 5, 2)
    yield refused([WGS84, "(let a (m (total)))"], 6, 2)


def places():
    """On any line from the second to the 96th."""
    zero, a = total(0.0), length("a", 0.1)
    yield passes([WGS84] + [TOTAL] * 95, "l " * 95, zero * 95)
    yield refused([WGS84] + [TOTAL] * 96, 3, 97)
    many = given("0.1") + ["(show a)"] * 93
    yield passes(many + [TOTAL], "l " * 95, a * 93 + total(added(*[0.1] * 93)))
    yield passes([WGS84, TOTAL] + many[1:], "l " * 95, zero + a * 93)
    yield refused(many + ["(show a)", TOTAL], 3, 97)
    yield refused(many + [TOTAL, TOTAL], 3, 97)
    yield refused([TOTAL], 3, 1)
    yield refused([TOTAL, WGS84], 3, 1)
    # among other lines, for the kind codes; its own is 2
    lines = [WGS84, TOTAL, "(let f (enu (lla (deg 1) (deg 2) (m 3))))", TOTAL, "(let a (deg 1))", TOTAL, "(let n 1)", "(show n)", TOTAL]
    assert KINDS.index("l") == 2
    yield passes(lines, "l fenu l a l n n l", zero * 3 + shown("n", "n", 1.0) + zero)


def beside_refusals():
    """With every other refusal; 7, 8 and 9 leave a total's text as any other."""
    lines, text = given("2") + ["(show a)", TOTAL], length("a", 2.0) + total(2.0)
    yield refused(["(ellipsoid 1 1)", TOTAL], 4, 1)
    yield refused(lines + ["(show b)", TOTAL], 5, 5)
    yield refused(lines + ["(let b (tip 1))", TOTAL], 6, 5)
    yield refused(lines + ["(show  a)", TOTAL], 3, 5)
    # what would stop the run is no matter of the check
    yield refused(given("60000000") + ["(show a)", "(show a)", TOTAL, "(show b)"], 5, 6)
    yield stops(lines + ["(let b 100000001)", TOTAL], "l l l n l", 7, 5, text)
    yield stops(lines + ["(show r0)", TOTAL], "l l l n l", 7, 5, text, {0: 0x7FF8000000000000})
    yield stops(lines + ["(let f (enu (geo (m 0) (m 0) (m 0))))", TOTAL], "l l l fenu l", 8, 5, text)
    # an unused reading without a number is no matter of the total
    yield passes(lines, "l l l", text, {0: 0x7FF8000000000000})


# Each is a line on its own.
NEARLY = [
    "(total )", "( total)", " (total)", "(total) ", "(total x)", "(total 1)", "(total a)", "(total -0)", "(total total)", "(total (m 1))",
    "(total (total))", "((total))", "(total", "total)", "total", "(total))", "(totals)", "(tota)", "(Total)", "(TOTAL)", "(total1)", "(total\t)",
    "(total)\t", "(total)\r", "(total)\0", "(total)(total)", "(total) (total)", "(total;)", "[total]", "(sum)", "(show)", "()", "", "(let total)",
]


def nearly():
    """What is no total and no other line."""
    for text in NEARLY:
        yield refused(given("1") + ["(show a)", TOTAL, text, TOTAL], 3, 5)
    yield refused(given("1") + ["(show a)", "(total", ")"], 3, 4)
    yield refused(b"(ellipsoid wgs84)\n(total)", 3, 2)
    yield refused(b"(ellipsoid wgs84)\r\n(total)\r\n", 3, 1)
    yield refused([WGS84, "(total%s)" % (" a" * 97)], 3, 2)


def totals():
    for cases in counted, other_kinds, sums, limit, names, places, beside_refusals, nearly:
        yield from cases()
