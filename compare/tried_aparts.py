"""Request Three of document 02 for `tried.py`: aparts of the collars shown."""

from math import sqrt

from tried_cases import WGS84, bits, passes, refused, shown, stops

NAMES = "abcdefgh"
NAN = 0x7FF8000000000000


def norm(x, y, z):
    """In the Rust's order. Python's floats are IEEE doubles; its operators and its sqrt are one rounded operation each."""
    return sqrt((x * x + y * y) + z * z)


def apart(num):
    return "(apart %s)" % num


def geo(place):
    return "(geo (m %s) (m %s) (m %s))" % tuple(place.split())


def given(*places):
    """Line 1, and behind it a g of each place, three NUMs, called a, b, c and so on."""
    return [WGS84] + ["(let %s %s)" % (name, geo(place)) for name, place in zip(NAMES, places)]


def shows(names):
    return ["(show %s)" % name for name in names]


def collar(name, place):
    return shown(name, "g", *map(float, place.split()))


def held(places, names, num, number=0):
    """Collars given, some of them shown in this order, and an apart, which passes or is refused."""
    lines = given(*places) + shows(names) + [apart(num)]
    text = "".join(collar(name, places[NAMES.index(name)]) for name in names)
    kinds = "g " * (len(lines) - 2) + "apart"
    return stops(lines, kinds, number, len(lines) if number else 0, text)


ZERO = "0 0 0"
FIVE = "3 4 0"
CLOSE = [ZERO, "1 0 0"]


def few():
    """Fewer than two names shown before it never break the rule, whatever else is given, and however often one is shown."""
    yield passes([WGS84, apart(5)], "apart")
    yield passes([WGS84, apart(5), apart(100000000), apart(0)], "apart " * 3)
    yield held(CLOSE, "", "5")
    yield held(CLOSE, "a", "5")
    yield held(CLOSE, "b", "100000000")
    yield held(CLOSE, "aa", "5")
    yield held(CLOSE, "aaaa", "0.000001")


def pairs():
    """Every two names, at least so far apart: exactly so far is enough."""
    for num, number in ("5", 0), ("4.999999", 0), ("0", 0), ("5.000001", 9), ("6", 9), ("100000000", 9):
        yield held([ZERO, FIVE], "ab", num, number)
    for other, num, more in ("-3 0 -4", "5", "5.000001"), ("0 0 7", "7", "7.000001"), ("-2 6 -3", "7", "7.1"):
        yield held([ZERO, other], "ba", num)
        yield held([ZERO, other], "ab", more, 9)
    # on the earth
    yield held(["6378137 0 0", "6378140 -4 0"], "ab", "5")
    yield held(["6378137 0 0", "6378140 -4 0"], "ba", "5.000001", 9)
    # not only neighbours
    line = ["0 0 0", "10 0 0", "1 0 0", "20 0 0"]
    yield held(line, "abc", "5", 9)
    yield held(line, "bca", "5", 9)
    yield held(line, "abd", "5")
    yield held(line, "abdc", "5", 9)
    yield held(line, "acbd", "1")
    yield held(line, "dbac", "1.000001", 9)
    yield held(line, "acdb", "5", 9)
    yield held(line, "dacb", "5", 9)
    # one of them shown again
    yield held([ZERO, FIVE], "aba", "5")
    yield held([ZERO, FIVE], "abbaab", "5")
    yield held(line, "abba", "10")
    yield held(line, "abbac", "10", 9)


def names():
    """By name and not by value: a second name of one position is another, at distance 0."""
    same = [ZERO, ZERO]
    yield held(same, "ab", "0.000001", 9)
    yield held(same, "ab", "0")
    yield held([ZERO, "-0 0 -0.0"], "ab", "0")
    yield held(["7 8 9", "7 8 9"], "ba", "1", 9)
    second = given("7 8 9") + ["(let b a)"]
    a, b = collar("a", "7 8 9"), collar("b", "7 8 9")
    yield stops(second + shows("ab") + [apart(1)], "g g g g apart", 9, 6, a + b)
    yield passes(second + shows("ab") + [apart(0)], "g g g g apart", a + b)
    yield passes(second + shows("aaa") + [apart(1)], "g " * 5 + "apart", a * 3)
    yield passes(second + shows("b") + [apart(1)], "g g g apart", b)
    # `apart` is no operator's word: it may be given and shown as any other
    own = [WGS84, "(let apart %s)" % geo(FIVE)]
    text = collar("apart", FIVE)
    yield passes(own + ["(show apart)", apart(5)], "g g apart", text)
    yield stops(own + ["(let b %s)" % geo(ZERO), "(show b)", "(show apart)", apart(6)], "g g g g apart", 9, 6, collar("b", ZERO) + text)
    yield passes([WGS84, "(let aparts 1)", "(let apar 2)", apart(1)], "n n apart")
    for line, number in (
        ("(show apart)", 5),
        ("(let a apart)", 5),
        ("(let a (apart b))", 5),
        ("(let a (apart 5))", 6),
        ("(let a (apart))", 6),
        ("(let a (geo (m 1) (m 2) (apart 3)))", 6),
    ):
        yield refused([WGS84, apart(5), line], number, 3)
    # a name given twice
    yield refused(given(ZERO) + ["(show a)", apart(5), "(let a %s)" % geo(FIVE)], 5, 5)


def when():
    """What is shown before its line, and nothing behind it; one after the other, each with its own distance."""
    a, b = collar("a", ZERO), collar("b", "1 0 0")
    close = given(*CLOSE)
    yield passes(close + [apart(5), "(show a)", apart(5), "(show b)"], "g g apart g apart g", a + b)
    yield stops(close + ["(show a)", apart(5), "(show b)", apart(5)], "g g g apart g apart", 9, 7, a + b)
    yield stops(close + ["(show a)", "(show b)", apart(1), apart("0.5"), apart("1.000001"), apart(0)], "g g g g" + " apart" * 4, 9, 8, a + b)
    yield passes(close + ["(show a)", "(show b)", apart(1), apart(0), apart("0.999999"), "(show a)"], "g g g g apart apart apart g", a + b + a)
    # a far one in between does not part them
    far = given(*CLOSE, "50 0 0")
    c = collar("c", "50 0 0")
    yield stops(far + ["(show a)", apart(5), "(show c)", apart(5), "(show b)", apart(5)], "g g g g apart g apart g apart", 9, 10, a + c + b)


def numbers():
    """Its NUM: n's limit, tested where the line runs and before the rule, with any count of names; a minus is no form."""
    few_or_close = ([ZERO], ""), ([ZERO], "a"), (CLOSE, "ab")
    for places, shown_names in few_or_close:
        for num in "100000000.000001", "100000001", "999999999.999999":
            yield held(places, shown_names, num, 7)
    yield held([ZERO], "a", "100000000.000000")
    limits = ["-100000000 0 0", "0 0 0", "100000000 0 0"]
    yield held(limits, "ac", "100000001", 7)
    yield held(limits, "abc", "100000000")
    yield held(limits, "ab", "99999999.999999")
    yield held(["0 0 0", "99999999.999999 0 0"], "ab", "100000000", 9)
    # however it is written
    for num in "005", "5.0", "000000005.000000":
        yield held([ZERO, FIVE], "ab", num)
    for num in "0.0", "000", "000000000.000000":
        yield held([ZERO, ZERO], "ab", num)
    for num in "-0", "-0.0", "-5", "-100000001":
        yield refused(given(*CLOSE) + shows("ab") + [apart(num), apart(5)], 3, 6)


def rounding():
    """The norm is rounded, and compared as it is; the squares are added in order."""
    for place, num, number in (
        ("0 0.5 1.2", "1.3", 0),
        ("1.2 1.2 2.1", "2.7", 0),
        ("2.1 1.2 1.2", "2.7", 9),
        ("2.2 3.3 6.6", "7.7", 9),
        ("7.8 11.7 23.4", "27.3", 0),
        ("0 18.5 44.4", "48.1", 9),
    ):
        x, y, z = map(float, place.split())
        assert (norm(x, y, z) >= float(num)) == (number == 0)
        yield held([ZERO, place], "ab", num, number)
    x, y, z = 0.0, 0.5, 1.2
    assert (x * x + y * y) + z * z < 1.3 * 1.3
    # a difference of two positions is rounded too
    assert 6378142.1 - 6378137.1 == 5.0 and 6378137.3 - 6378137.2 < 0.1 < 1000.4 - 1000.3
    yield held(["6378137.1 0 0", "6378142.1 0 0"], "ab", "5")
    yield held(["0 6378137.2 0", "0 6378137.3 0"], "ab", "0.1", 9)
    yield held(["0 0 1000.3", "0 0 1000.4"], "ab", "0.1")
    # the doubles beside 5, and one whose square is lost
    lines = [WGS84, "(let a %s)" % geo(ZERO), "(let b %s)" % geo("r0 0 0")] + shows("ab")
    for x, num, number in (5.0, 5, 0), (5.0 - 2.0**-50, 5, 9), (5.0 + 2.0**-50, 5, 0), (-5.0 + 2.0**-50, 5, 9), (5e-324, 0, 0), (5e-324, "0.000001", 9):
        text = collar("a", ZERO) + shown("b", "g", x, 0.0, 0.0)
        yield stops(lines + [apart(num)], "g g g g apart", number, 6 if number else 0, text, {0: bits(x)})


def other_kinds():
    """What is no g does not count, whatever position is in it; a reading is a number."""
    # 90 degrees are PI/2, where longitude is dropped: the n-vector is (0, 0, 1)
    for kind, made, values in (
        ("n", "0", (0.0,)),
        ("l", "(m 0)", (0.0,)),
        ("a", "(deg 0)", (0.0,)),
        ("d", "(lla (deg 90) (deg 7) (m 2))", (0.0, 0.0, 1.0, 2.0)),
        ("venu", "(venu (m 0) (m 0) (m 0))", (0.0, 0.0, 0.0)),
        ("vned", "(vned (m 0) (m 0) (m 0))", (0.0, 0.0, 0.0)),
        ("vbody", "(vbody (m 0) (m 0) (m 0))", (0.0, 0.0, 0.0)),
        ("vwan", "(vwan (m 0) (m 0) (m 0))", (0.0, 0.0, 0.0)),
    ):
        lines = given(ZERO) + ["(let x %s)" % made, "(let y x)", "(show x)", "(show a)", "(show y)", "(show r3)", apart(5)]
        text = shown("x", kind, *values) + collar("a", ZERO) + shown("y", kind, *values) + shown("r3", "n", 0.0)
        yield passes(lines, "g {0} {0} {0} g {0} n apart".format(kind), text)


def places():
    """On any line from the second to the 96th."""
    yield passes([WGS84] + [apart(5)] * 95, "apart " * 95)
    yield refused([WGS84] + [apart(5)] * 96, 3, 97)
    yield refused([apart(5)], 3, 1)
    yield refused([apart(5), WGS84], 3, 1)
    # as many as can be shown before one
    count = 47
    line = ["%d 0 0" % (5 * k) for k in range(count)]
    for last, number in (line[-1], 0), ("0 4.999999 0", 9), ("112 0 0", 9):
        all_places = line[:-1] + [last]
        lines = [WGS84] + ["(let c%d %s)" % (k, geo(place)) for k, place in enumerate(all_places)]
        lines += ["(show c%d)" % k for k in range(count)] + [apart(5)]
        text = "".join(collar("c%d" % k, place) for k, place in enumerate(all_places))
        yield stops(lines, "g " * (2 * count) + "apart", number, 96 if number else 0, text)


def beside_refusals():
    """With every other refusal. 9 leaves the text before it as 7 does, and is met in the order of the lines."""
    lines = given(*CLOSE) + shows("ab")
    text = collar("a", ZERO) + collar("b", "1 0 0")
    yield refused(["(ellipsoid 1 1)", apart(5)], 4, 1)
    yield refused(lines + [apart(5), "(show c)"], 5, 7)
    yield refused(lines + [apart(5), "(let c (tip 1))"], 6, 7)
    yield refused(lines + [apart(5), "(show  a)"], 3, 7)
    yield refused(lines + [apart(100000001), "(show c)"], 5, 7)
    centre = "(let f (enu a))"
    beyond = "(let n 100000001)"
    yield stops(lines + [apart(5), beyond, centre], "g g g g apart n fenu", 9, 6, text)
    yield stops(lines + [beyond, apart(5)], "g g g g n apart", 7, 6, text)
    yield stops(lines + [centre, apart(5)], "g g g g fenu apart", 8, 6, text)
    yield stops(lines + [apart(1), beyond], "g g g g apart n", 7, 7, text)
    yield stops(lines + [apart(1), centre], "g g g g apart fenu", 8, 7, text)
    yield stops(lines + [apart(5), "(show r0)"], "g g g g apart n", 9, 6, text, {0: NAN})
    # totals count lengths alone, aparts positions alone, and an apart writes nothing
    total = shown("total", "l", 2.0)
    mixed = lines + ["(let w (m 2))", "(show w)", "(total)", apart(1), "(total)", apart(5), "(total)"]
    yield stops(mixed, "g g g g l l l apart l apart l", 9, 11, text + shown("w", "l", 2.0) + total * 2)
    before = given(*CLOSE) + ["(let w (m 2))", "(show w)", "(show a)", "(total)", "(show w)", "(show b)", apart(5)]
    w = shown("w", "l", 2.0)
    yield stops(before, "g g l l g l l g apart", 9, 10, w + collar("a", ZERO) + total + w + collar("b", "1 0 0"))


# Each is a line on its own.
NEARLY = [
    "(apart)", "(apart )", "(apart  5)", "(apart 5 )", "( apart 5)", " (apart 5)", "(apart 5) ", "(apart 5 5)", "(apart 5", "apart 5)", "(apart 5))", "((apart 5))",
    "(apart5)", "(aparts 5)", "(Apart 5)", "(apart\t5)", "(apart 5)\r", "(apart x)", "(apart r0)", "(apart apart)", "(apart (m 5))", "(apart +5)", "(apart 5.)", "(apart .5)",
    "(apart 1234567890)", "(apart 1.1234567)", "(apart 5)(apart 5)", "(let apart)",
]


def nearly():
    """What is no apart and no other line, before an apart that would be refused."""
    for text in NEARLY:
        yield refused(given(*CLOSE) + shows("ab") + [text, apart(5)], 3, 6)
    yield refused(b"(ellipsoid wgs84)\n(apart 5)", 3, 2)


def aparts():
    for cases in few, pairs, names, when, numbers, rounding, other_kinds, places, beside_refusals, nearly:
        yield from cases()
