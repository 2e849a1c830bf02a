"""Sheets at random: over the whole grammar, with a part made wrong, edited, of tokens, of bytes; and with totals and with aparts, likewise."""

LETTERS = "abcdefghijklmnopqrstuvwxyz"
DIGITS = "0123456789"
KNOWN = (
    "deg m geo lla togeo tolla venu vned vbody vwan aenu aned abody awan enu ned wan body look turn"
    " move to at neg add sub scale swap bearing elev range origin rz ry rx r0 r7 r15 r16 let show"
    " ellipsoid wgs84 n a l g d fenu fwan"
).split()
LINES = ["(show a)\n", "(let b 1)\n", "(let c (d e))\n"]
TOKENS = ["(", ")", " ", "\n", "(let ", "(show ", "(ellipsoid ", "let", "wgs84", "a", "b1", "deg", "0", "12", "-3.5", " a", " 1", " (m 2)", ")\n", "-", "."]
WRONG_WORDS = ["", "A", "aB", "1a", "a_b", "a-b", "-a", "a.b", "abcdefghijklm", "a23456789012z"]
WRONG_NUMS = ["-", "--1", "+1", "1.", ".5", "-.5", "1234567890", "1.1234567", "1e3", "1.2.3", "1-", "1,5"]
WRONG_FORMS = ["()", "( a)", "(a )", "(a  b)", "(a\tb)", "(a b c d e f g)", "((a))", "(1)", "(a", "a)", "(a))", "(a)(b)", "(a(b))", "(a (b)c)", "a b", "[a]"]
WRONG_TOTALS = ["tota", "totals", "Total", "TOTAL", "total ", " total", "t", "tot al", "sum", "-total", "total.", "total1", "(total)", ""]
WRONG_APARTS = ["apart", "apar 5", "aparts 5", "Apart 5", "APART 5", "apart  5", "apart 5 ", " apart 5", "apart5", "apart 5 5", "apart, 5", "5", "5 apart", "a part 5", ""]


class Random:
    """SplitMix64, so that every Python makes the same sheets."""

    def __init__(self, seed):
        self.state = seed

    def bits(self):
        self.state = (self.state + 0x9E3779B97F4A7C15) % 2**64
        z = self.state
        z = (z ^ z >> 30) * 0xBF58476D1CE4E5B9 % 2**64
        z = (z ^ z >> 27) * 0x94D049BB133111EB % 2**64
        return z ^ z >> 31

    def below(self, n):
        return self.bits() % n

    def pick(self, things):
        return things[self.below(len(things))]

    def often(self, percent):
        return self.below(100) < percent


def word(r):
    if r.often(40):
        return r.pick(KNOWN)
    length = 12 if r.often(10) else 1 + r.below(1 + r.below(12))
    return r.pick(LETTERS) + "".join(r.pick(LETTERS + DIGITS) for _ in range(length - 1))


def digits(r, most):
    length = most if r.often(20) else 1 + r.below(most)
    return "".join(r.pick("0" if r.often(15) else DIGITS) for _ in range(length))


def num(r):
    sign = "-" if r.often(30) else ""
    return sign + digits(r, 9) + ("." + digits(r, 6) if r.often(50) else "")


def leaf(r):
    return word(r) if r.often(50) else num(r)


def expr(r, depth, room):
    """An EXPR of at most `depth` brackets in each other; the less room, the fewer arguments."""
    if depth == 0 or room < 20 or r.often(25):
        return leaf(r)
    count = r.below(6)
    args = [expr(r, depth - 1, room // (count + 1)) for _ in range(count)]
    return "(" + " ".join([word(r)] + args) + ")"


def deep(r, depth):
    """An EXPR of exactly `depth` brackets in each other, with a leaf here and there."""
    if depth == 0:
        return r.pick(LETTERS) if r.often(50) else r.pick(DIGITS)
    before = [r.pick(LETTERS) for _ in range(r.below(3))]
    behind = [r.pick(DIGITS) for _ in range(r.below(3))]
    return "(" + " ".join([r.pick(LETTERS)] + before + [deep(r, depth - 1)] + behind) + ")"


def any_expr(r):
    return deep(r, r.below(12)) if r.often(15) else expr(r, 11, r.pick([10, 40, 80, 150]))


def first(r):
    return "(ellipsoid wgs84)" if r.often(50) else "(ellipsoid %s %s)" % (num(r), num(r))


def line(r):
    if r.often(25):
        return "(show %s)" % word(r)
    while True:
        text = "(let %s %s)" % (word(r), any_expr(r))
        if len(text) < 200:
            return text


def good_lines(r):
    count = r.below(96) if r.often(1) else r.below(5)
    return [first(r)] + [line(r) for _ in range(count)]


def long_line(length):
    """A let of that many bytes, its LF counted: 162 to 206."""
    inner = "(m%s)" % (" abcdefghijkl" * 5)
    start = "(let a (m %s %s (n" % (inner, inner)
    letters = length - len(start + "    )))\n")
    sizes = [letters // 4 + (i < letters % 4) for i in range(4)]
    return start + "".join(" " + "a" * size for size in sizes) + ")))"


def ended(lines):
    return "".join(text + "\n" for text in lines).encode("latin-1")


def good(r):
    return ended(good_lines(r))


def wrong_expr(r):
    """An EXPR that is just outside of the grammar, or just inside where it is 11 deep."""
    part = r.below(4)
    if part == 0:
        return r.pick(WRONG_WORDS)
    if part == 1:
        return r.pick(WRONG_NUMS)
    if part == 2:
        return r.pick(WRONG_FORMS)
    return deep(r, 10 + r.below(4))


def wrong_line(r):
    texts = [
        "(let %s %s)" % (word(r), wrong_expr(r)),
        "(let %s (%s %s %s))" % (word(r), word(r), leaf(r), wrong_expr(r)),
        "(let %s %s)" % (r.pick(WRONG_WORDS), leaf(r)),
        "(show %s)" % wrong_expr(r),
        "(%s %s)" % (word(r), word(r)),
        line(r) + r.pick([" ", "\r", ")", "\n", "\0", " " + leaf(r)]),
        r.pick([" ", "\t", "(", "\n", "#"]) + line(r),
        first(r),
        long_line(196 + r.below(8)),
    ]
    return r.pick(texts)


def wrong(r):
    """A good sheet with one line made wrong, mostly."""
    lines = good_lines(r)
    at = r.below(len(lines))
    lines[at] = "(ellipsoid %s %s)" % (num(r), wrong_expr(r)) if at == 0 else wrong_line(r)
    return ended(lines)


def edit(r, sheet, start=0):
    """The sheet with one byte from `start` on put in, taken out or changed, or two exchanged."""
    sheet = bytearray(sheet)
    at = start + r.below(len(sheet) - start)
    byte = r.below(256) if r.often(30) else ord(r.pick("() \n-.a0z9A"))
    way = r.below(4)
    if way == 0:
        sheet.insert(at, byte)
    elif way == 1 and len(sheet) > 1:
        del sheet[at]
    elif way == 2:
        sheet[at] = byte
    elif at > 0:
        sheet[at - 1], sheet[at] = sheet[at], sheet[at - 1]
    return bytes(sheet)


def edited(r):
    return edit(r, good(r))


def of_tokens(r, lines, tokens):
    start = r.pick(["", "(ellipsoid wgs84)\n", "(ellipsoid wgs84)\n(let a "])
    return (start + "".join(r.pick(lines if r.often(50) else tokens) for _ in range(1 + r.below(8)))).encode()


def tokens(r):
    return of_tokens(r, LINES, TOKENS)


def any_bytes(r):
    start = r.pick([b"", b"(ellipsoid wgs84)\n", b"(ellipsoid wgs84)\n(let a "])
    return start + bytes(r.below(256) for _ in range(1 + r.below(20)))


def lines_with_totals(r):
    """Good lines with totals anywhere among them, and with their word as a name."""
    lines = good_lines(r)[:90]
    for _ in range(1 + r.below(4)):
        text = "(total)" if r.often(75) else r.pick(["(show total)", "(let total %s)" % leaf(r), "(let %s (m total))" % word(r)])
        lines.insert(1 + r.below(len(lines)), text)
    return lines


def with_totals(r):
    return ended(lines_with_totals(r))


def wrong_total(r):
    """A sheet with totals, and a line among them that is nearly one."""
    lines = lines_with_totals(r)
    inner = r.pick([" " + leaf(r), " " + any_expr(r), r.pick(LETTERS + DIGITS), r.pick(" \t\r\0().-")])
    text = r.pick(["(total%s)" % inner, "(total)%s" % inner, "%s(total)" % inner, "(%s)" % r.pick(WRONG_TOTALS), "(let total %s)" % wrong_expr(r), "(show total%s)" % inner])
    lines.insert(1 + r.below(len(lines)), text)
    return ended(lines)


def edited_total(r):
    """A sheet that ends with a total, edited there."""
    sheet = with_totals(r)
    return edit(r, sheet + b"(total)\n", len(sheet))


def total_tokens(r):
    return of_tokens(r, LINES + ["(total)\n"], TOKENS + ["(total", "total", "(total)"])


def plain(r):
    """A NUM without a minus."""
    return num(r).removeprefix("-")


def lines_with_aparts(r):
    """Good lines with aparts anywhere among them, and with their word as a name."""
    lines = good_lines(r)[:90]
    for _ in range(1 + r.below(4)):
        named = r.pick(["(show apart)", "(let apart %s)" % leaf(r), "(let %s (apart %s))" % (word(r), num(r)), "(total)"])
        lines.insert(1 + r.below(len(lines)), "(apart %s)" % plain(r) if r.often(75) else named)
    return lines


def with_aparts(r):
    return ended(lines_with_aparts(r))


def wrong_apart(r):
    """A sheet with aparts, and a line among them that is nearly one: its NUM with a minus or no NUM, something behind it, another word."""
    lines = lines_with_aparts(r)
    number, inner = plain(r), r.pick([" " + leaf(r), r.pick(LETTERS + DIGITS), r.pick(" \t\r\0().-")])
    texts = ["(apart -%s)" % number, "(apart %s)" % r.pick(WRONG_NUMS), "(apart %s)" % word(r), "(apart %s)" % wrong_expr(r), "(apart %s%s)" % (number, inner)]
    texts += ["(apart %s)%s" % (number, inner), "%s(apart %s)" % (inner, number), "(apart%s%s)" % (inner, number), "(%s)" % r.pick(WRONG_APARTS), "(show apart%s)" % inner]
    lines.insert(1 + r.below(len(lines)), r.pick(texts))
    return ended(lines)


def edited_apart(r):
    """A sheet that ends with an apart, edited there."""
    sheet = with_aparts(r)
    return edit(r, sheet + ("(apart %s)\n" % plain(r)).encode(), len(sheet))


def apart_tokens(r):
    return of_tokens(r, LINES + ["(apart 5)\n"], TOKENS + ["(apart", "(apart ", "apart", "(apart 5", "5)"])


SORTS = {
    "good": good,
    "a part wrong": wrong,
    "edited": edited,
    "tokens": tokens,
    "bytes": any_bytes,
    "with totals": with_totals,
    "a total wrong": wrong_total,
    "a total edited": edited_total,
    "tokens of totals": total_tokens,
    "with aparts": with_aparts,
    "an apart wrong": wrong_apart,
    "an apart edited": edited_apart,
    "tokens of aparts": apart_tokens,
}
