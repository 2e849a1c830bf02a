"""Sheets at the edges of the grammar, one step inside and one outside, each with the others."""

from random_sheets import Random, ended, long_line

WGS = "(ellipsoid wgs84)"
# EXPRs, and what is nearly one.
EXPRS = """
a z a1 zz9 abcdefghijkl abcdefghijklm a23456789012 a2345678901z0 A aB a_b a-b -a a. a.b 1a 1A let show ellipsoid
wgs84 deg r0 r15 r16 nan inf infinity e1 x1e3
0 -0 --0 -0.0 -000 00 000000000 0000000000 000000000.000000 1 -1 --1 - -- +1 +0 1. -1. .5 -.5 . -. 1.5 1..5 1.5.5 1-
1-1 -1- 1+ 123456789 -123456789 1234567890 -1234567890 12345678901 1.1 1.12 1.123456 1.1234567 -1.123456 -1.1234567
999999999 999999999.999999 -999999999.999999 0.000001 -0.000001 0.0000001 100000000 100000000.000001 0.1 0.2 0.3
0.7 2.675 1.005 4.35 8.5 0.5 123456.789012 987654321.123457 298.257223 6378137 6356752.314245 1e3 1E3 1,5 1_0 0x1 1f
() (a) (a1) (abcdefghijkl) (abcdefghijklm) (1) (-1) (A) (-) (.) ((a)) (()) (a)) ((a) (a)(b) (a(b)) ) ( )( (( ))
[a] {a} <a> "a" 'a' a,b a;b # a# #a (#)
""".split() + [
    "", " ", "  ", "a ", " a", "1 ", "a b", "1 2", "a  b", "- 1", "1 .5", "a\t", "\ta", "a\r", "a\0", "\0", "a\x7f", "a\x80", "\xff", "\xe9",
    "( a)", "(a )", "(a  b)", "(a b )", "(a\tb)", "(a b", "(a b c", "a b)", "(a b c d e)", "(a b c d e f)", "(a b c d e f g)",
    "(a 1 2 3 4 5)", "(a 1 2 3 4 5 6)", "(a 1 2 3 4 5 )", "(a (b) (c) (d) (e) (f))", "(a (b) (c) (d) (e) (f) (g))", "(a (b c d e f g))",
    "(a (b c d e f g h))", "(a (b)c)", "(a (b) c)", "(a b(c))", "(a (b)(c))", "(a () b)", "(a 1 (b 2) -3.5 c (d))", "(a -0 0)", "(a - 0)",
    "(a (b (c (d))))", "(a (b (c (d)))", "(a (b (c (d)))))", "(1 a)", "((a) b)", "(a (1))", "(a 1.)", "(a .1)", "(a 1. 2)", "(a\nb)",
]
# Lines after line 1.
LINES = [
    "", " ", "a", "1", "(", ")", "()", "(a)", "(a b)", "(let)", "(let a)", "(let a )", "(let  a 1)", "(let a  1)", "(let a 1 )", "( let a 1)", "(let a 1) ",
    " (let a 1)", "(let a 1))", "((let a 1))", "(let a 1", "let a 1)", "let a 1", "(let a 1 2)", "(let a 1)(let b 2)", "(let a 1) (let b 2)", "(let 1 1)",
    "(let -1 1)", "(let (a) 1)", "(let A 1)", "(let aB 1)", "(let abcdefghijkl 1)", "(let abcdefghijklm 1)", "(let a1b2c3d4e5f6 1)", "(let a1b2c3d4e5f67 1)",
    "(let 1a 1)", "(let let let)", "(let show (show))", "(let ellipsoid wgs84)", "(Let a 1)", "(LET a 1)", "(lett a 1)", "(le a 1)", "(let1 a 1)", "(leta 1)",
    "(let\ta 1)", "(let a\t1)", "(let a 1)\t", "(let a 1)\r", "\r", "(let a 1)\0", "\0(let a 1)", "(let\0a 1)", "(let a 1)#", "# a", "; a", "(let a=1)",
    "(show)", "(show )", "(show a)", "(show  a)", "(show a )", "( show a)", "(show a) ", " (show a)", "(show a b)", "(show 1)", "(show -1)", "(show (a))",
    "(show A)", "(show abcdefghijkl)", "(show abcdefghijklm)", "(show show)", "(shows a)", "(sho a)", "(Show a)", "(show\ta)", "(show a)\r", "show a", "(show a",
    "(show a))", "(showa)", "(show r0)", "(show deg)", "(set a 1)", "(datum 0)", "(total)", WGS, "(ellipsoid 6400000 128)", "\xef\xbb\xbf(show a)",
]
HEADS = [
    "", " ", "(", ")", "()", "(ellipsoid)", "(ellipsoid )", WGS, "(ellipsoid  wgs84)", "(ellipsoid wgs84 )", "( ellipsoid wgs84)", " " + WGS, WGS + " ", WGS + ")",
    "((ellipsoid wgs84))", "(ellipsoid wgs84", "ellipsoid wgs84", "(ellipsoid wgs84)\r", "(ellipsoid\twgs84)", "(ellipsoid wgs84\t)", "(ellipsoid WGS84)",
    "(Ellipsoid wgs84)", "(ellipsoids wgs84)", "(ellipsoi wgs84)", "(ellipsoid wgs8)", "(ellipsoid wgs844)", "(ellipsoid wgs72)", "(ellipsoid a)", "(ellipsoid (wgs84))",
    "(ellipsoid wgs84 1)", "(ellipsoid 1 wgs84)", "(ellipsoid wgs84 wgs84)", "(ellipsoid 6378137 298.257223)", "(ellipsoid 6400000 128)", "(ellipsoid 6400000)",
    "(ellipsoid 6400000 )", "(ellipsoid 6400000 128 1)", "(ellipsoid  6400000 128)", "(ellipsoid 6400000  128)", "(ellipsoid 6400000 128 )", "(ellipsoid 6400000,128)",
    "(ellipsoid 0 0)", "(ellipsoid -0 -0)", "(ellipsoid -1 -1)", "(ellipsoid --1 1)", "(ellipsoid 1 --1)", "(ellipsoid 1. 1)", "(ellipsoid 1 1.)", "(ellipsoid .5 1)",
    "(ellipsoid 1 .5)", "(ellipsoid 123456789 1)", "(ellipsoid 1234567890 1)", "(ellipsoid 1 123456789)", "(ellipsoid 1 1234567890)", "(ellipsoid 1.123456 1.123456)",
    "(ellipsoid 1.1234567 1)", "(ellipsoid 1 1.1234567)", "(ellipsoid -999999999.999999 -999999999.999999)", "(ellipsoid 00 00)", "(ellipsoid a 1)", "(ellipsoid 1 a)",
    "(ellipsoid 1 (a))", "(ellipsoid 1 1", "(ellipsoid 1 1))", "(let a 1)", "(show a)", "\xef\xbb\xbf" + WGS, "(ellipsoid\0wgs84)", WGS + "\0",
]
# Totals and what is nearly one, and other lines that have their word.
TOTALS = """
(total) (total total (total)) ((total)) (total)(total) (total)(show () (tota) (totals) (total1) (1total) (Total) (TOTAL) (totaL) (total.) (total-) (-total) (total_)
[total] (total] (total;) (total)# #(total) (tot (t) (totaltotal) (total(a)) (total"") (sum) (tally)
""".split() + [
    "(total )", "(total  )", "( total)", "( total )", " (total)", "(total) ", "(total\t)", "(\ttotal)", "(total)\t", "(total\r)", "(total)\r", "(total\0)", "(total)\0",
    "\0(total)", "(to tal)", "(total\x80)", "\xef\xbb\xbf(total)", "(total 1)", "(total -0)", "(total a)", "(total r0)", "(total l)", "(total total)", "(total (a))",
    "(total (total))", "(total a b)", "(total) (total)", "(total) (show a)", "(total)(show a)", "(show a)(total)", "(total\n)", "(total\n", "total a)", "(let total)", "(let total 1)",
    "(let total (m 1))", "(let total total)", "(let a total)", "(let a (total))", "(let a (total 1))", "(let a (m (total)))", "(let totals 1)", "(let (total) 1)", "(let total)(total)",
    "(show total)", "(show totals)", "(show (total))", "(show total )", "(show total total)", "(show total", "(show a total)", "(let total 1 )",
]
# What may stand behind an apart's word, and what may not.
DISTANCES = """
0 00 000000000 0000000000 0.0 0.000000 0.0000000 000000000.000000 000000005.000000 5 05 5.0 5.5 123456789 1234567890 999999999.999999 1.123456 1.1234567
100000000 100000000.000001 0.000001 0.1 0.3 2.675 8.5 -0 -0.0 -000 -5 --5 - -- -. -.5 +5 +0 5. .5 . 5..5 5.5.5 5- 5-5 5+ 5e1 5E1 5,0 5_0 0x5 5f 5m m5 a r0 r15 apart
deg nan inf A (5) (a) (m 5) () ( ) 5) (5 ((5)) (apart (apart) #
""".split() + [
    "", " ", "  ", " 5", "5 ", "5 5", "5 a", "a 5", "5 -5", "-5 5", "- 5", "5 .5", "5. 5", "5 m", "5\t", "\t5", "5\r", "5\0", "\0", "5\x7f", "5\x80", "(m 5)", "5 (m 5)", "5\n", "\n5",
    "(apart 5)",
]
# Aparts and what is nearly one, and other lines that have their word.
APARTS = """
(apart (apart) (apart) (apart5) (apar) (aparts) ((apart)) (apart)(apart) (5) 5 apart (let (show
""".split() + [
    "( apart 5)", " (apart 5)", "(apart 5) ", "(apart\t5)", "(\tapart 5)", "(apart 5)\t", "(apart 5)\r", "(apart 5)\0", "\0(apart 5)", "(a part 5)", "(ap art 5)",
    "\xef\xbb\xbf(apart 5)", "(apar 5)", "(aparts 5)", "(apart1 5)", "(1apart 5)", "(Apart 5)", "(APART 5)", "(aparT 5)", "(apart. 5)", "(apart- 5)", "(-apart 5)", "[apart 5]",
    "(apart 5]", "(apart 5;)", "(apart 5)#", "#(apart 5)", "(apartapart 5)", "(separate 5)", "(part 5)", "(5 apart)", "apart 5)", "(apart 5", "apart 5", "(apart 5))",
    "((apart 5))", "((apart 5)", "(apart 5)(apart 5)", "(apart 5) (apart 5)", "(apart 5)(show a)", "(show a)(apart 5)", "(total 5)", "(show 5)", "(let 5)", "(let apart)",
    "(let apart 5)", "(let apart (m 5))", "(let apart apart)", "(let a apart)", "(let a (apart))", "(let a (apart 5))", "(let a (apart -5))", "(let a (m (apart 5)))",
    "(let (apart 5) 1)", "(let apart 5 )", "(let a (apart 5)", "(show apart)", "(show aparts)", "(show (apart 5))", "(show apart )", "(show apart 5)", "(show apart",
    "(apart show)", "(apart let)", "(apart total)", "(ellipsoid apart)",
]


def nested(depth):
    """A line whose brackets nest that deep, its own included."""
    return "(let a %sb%s)" % ("(c " * (depth - 1), ")" * (depth - 1))


def many(count, text="(show a)"):
    return [WGS] + [text] * (count - 1)


def lengths():
    lines = [long_line(n) for n in (197, 198, 199, 200, 201, 202, 203)]
    sheets = [[WGS, text] for text in lines] + [[WGS, "(show a)", lines[3], lines[4], "(show a)"]]
    sheets += [[WGS, nested(n)] for n in (1, 2, 11, 12, 13, 14, 20)]
    sheets += [[WGS, "(show %s)" % ("a" * 192)], [WGS, "(let a %s)" % ("1" * 191)], ["(ellipsoid %s 1)" % ("1" * 190)], ["(ellipsoid wgs84%s)" % (" " * 190)]]
    return [ended(lines) for lines in sheets]


def counts():
    """How many lines, and where the last LF is missing or another byte follows."""
    sheets = [ended(many(n)) for n in (1, 2, 95, 96, 97, 98)]
    sheets += [ended(many(96)) + rest for rest in (b" ", b"\n", b"\0", b"(", b"(show a)")]
    sheets += [ended(many(n))[:-1] for n in (1, 2, 96, 97)]
    sheets += [ended(many(50) + ["(show A)"] + ["(show a)"] * n) for n in (45, 46)]
    sheets += [ended(many(95)) + b"(show A)\n", ended(many(96)) + b"(show A)\n", ended(many(2)) + b"\n", ended(many(2)) + b"\r\n", b"\n", b"\n\n"]
    sheets += [ended(many(3)).replace(b"\n", b"\r\n"), ended(many(3)).replace(b"\n", b"\r"), ended([long_line(170)] * 2), ended(many(2, " "))]
    return sheets


def full():
    """The largest sheet: 16,384 bytes, 96 lines."""
    sheet = ended([WGS] + [long_line(172)] * 93)
    rest = 16384 - len(sheet)
    return [sheet + ended([long_line(190), long_line(rest - 190)])]


def every_byte():
    """Every byte alone, and at three places of a line: in a word, in a number, between the two."""
    lines = ["(let ab%s 1)", "(let a 1%s2)", "(let a%s1)"]
    return [bytes([b]) for b in range(256)] + [ended([WGS, text % chr(b)]) for text in lines for b in range(256)]


def every_place(seed, lines):
    """A good sheet with a byte changed, put in or taken out at every place."""
    r = Random(seed)
    sheet = ended(lines)
    sheets = []
    for at in range(len(sheet)):
        new = bytes([ord(r.pick("() \n-.a0zA"))])
        sheets += [sheet[:at] + new + sheet[at + 1 :], sheet[:at] + new + sheet[at:], sheet[:at] + sheet[at + 1 :]]
    return sheets


def totals(seed):
    """Totals on every line that there may be, nearly totals, and each byte and place of one."""
    total = "(total)"
    sheets = [[WGS, text, "(show a)"] for text in TOTALS] + [[WGS, "(show a)", total, text, total] for text in TOTALS]
    sheets += [[text, total] for text in (total, "", "(ellipsoid total)", "(ellipsoid wgs84)(total)", "(ellipsoid 1 total)")]
    sheets += [[WGS, long_line(200), total], [WGS, total, long_line(201), total], [WGS, "(total%s)" % (" " * 192)], [WGS, total + " " * 192], [WGS, "(total%s)" % (" a" * 96)]]
    sheets += [many(n, total) for n in (2, 3, 95, 96, 97, 98)] + [many(95) + [total], many(96) + [total], many(96, total) + ["(show a)"], many(50, total) + many(47)[1:]]
    made = [ended(lines) for lines in sheets]
    made += [ended(many(n, total))[:-1] for n in (2, 96, 97)] + [ended(many(96)) + b"(total)", ended(many(2)) + b"(total)", ended(many(3, total)) + b"\n"]
    made += [ended(many(3, total)).replace(b"\n", b"\r\n"), ended(many(3, total)).replace(b"\n", b""), b"(total)\n", b"(total)"]
    made += [ended([WGS, text % chr(b)]) for text in ("(tota%s)", "(total%s") for b in range(256)]
    return made + every_place(seed, [WGS, "(let total (m 1))", "(show total)", total, total])


def aparts(seed):
    """Aparts on every line that there may be, nearly aparts, and each byte and place of one."""
    apart = "(apart 5)"
    near = APARTS + ["(apart %s)" % text for text in DISTANCES]
    sheets = [[WGS, text, "(show a)"] for text in near] + [[WGS, "(show a)", apart, text, "(apart 0.5)"] for text in near]
    sheets += [[text, apart] for text in (apart, "", "(ellipsoid apart 5)", "(ellipsoid wgs84)(apart 5)", "(ellipsoid wgs84 (apart 5))")]
    sheets += [[WGS, long_line(200), apart], [WGS, apart, long_line(201), apart], [WGS, "(apart 5%s)" % (" " * 190)], [WGS, apart + " " * 190], [WGS, "(apart %s)" % ("5" * 191)]]
    sheets += [many(n, apart) for n in (2, 3, 95, 96, 97, 98)] + [many(95) + [apart], many(96) + [apart], many(96, apart) + ["(total)"], many(50, apart) + many(47, "(total)")[1:]]
    made = [ended(lines) for lines in sheets]
    made += [ended(many(n, apart))[:-1] for n in (2, 96, 97)] + [ended(many(96)) + b"(apart 5)", ended(many(2)) + b"(apart 5)", ended(many(3, apart)) + b"\n"]
    made += [ended(many(3, apart)).replace(b"\n", b"\r\n"), ended(many(3, apart)).replace(b"\n", b""), b"(apart 5)\n", b"(apart 5)"]
    made += [ended([WGS, text % chr(b)]) for text in ("(apart%s5)", "(apart %s)") for b in range(256)]
    return made + every_place(seed, [WGS, "(let apart (geo (m 1) (m 2) (m 3)))", "(show apart)", "(apart 12.5)", "(apart 0)"])


def edges(seed):
    """Every sort of edge, by its name."""
    return {
        "expressions": [ended([WGS, "(let a %s)" % text]) for text in EXPRS],
        "lines": [ended([WGS, text, "(show a)"]) for text in LINES],
        "line 1": [ended([text, "(show a)"]) for text in HEADS],
        "lengths": lengths(),
        "counts": counts() + full(),
        "every byte": every_byte(),
        "every place": every_place(seed, ["(ellipsoid 6400000 128.5)", "(let p (lla (deg 90) -0.5 (m r0)))", "(show p)"]),
        "totals": totals(seed),
        "aparts": aparts(seed),
    }
