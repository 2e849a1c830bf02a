"""Refusal 2 for `tried.py`: what is lent, in lengths of every sort."""

from tried_cases import WGS84, case, codes, joined, shown

# The lengths of 01's refusal 2, each between those one less and one more, nothing at all and far more.
KIND_LISTS = 0, 95, 96, 97, 200
READINGS = 0, 15, 16, 17, 96
OUTPUTS = 0, 24575, 24576, 24577, 30000
# All of the readings with all of the output, and each with all of the kind list.
LENGTHS = [(KIND_LISTS[(i + k) % 5], READINGS[i], OUTPUTS[k]) for i in range(5) for k in range(5)]


def lent(lines, lengths, kinds="", checked=(0, 0), ran=(0, 0), text=""):
    """A sheet with these lengths lent, and what is answered where they are 01's. A check's kind list that is not 96 bytes is
    refused 2, and a run's readings that are not 16 or output that is not 24,576 bytes; 1 comes before, the others behind.
    Nothing is written with 2."""
    sheet = joined(lines)
    listed = codes(kinds) if checked == (0, 0) else []
    if 1 <= len(sheet) <= 16384:
        if lengths[0] != 96:
            listed, checked = [], (2, 0)
        if lengths[1] != 16 or lengths[2] != 24576:
            ran, text = (2, 0), ""
    return case(sheet, {}, listed, checked, ran, text, lengths)


def lending():
    """Refusal 2: lengths of every sort, with a sheet that passes and with one that each other refusal meets."""
    one = shown("a", "n", 1.0)
    begin = [WGS84, "(let a 1)", "(show a)"]
    for lengths in LENGTHS:
        yield lent(begin + ["(show r15)"], lengths, "n n n", text=one + shown("r15", "n", 0.0))
        yield lent([], lengths, checked=(1, 0), ran=(1, 0))
        yield lent(begin + ["(show  a)"], lengths, checked=(3, 4), ran=(3, 4))
    # each of the lengths once
    for lengths in LENGTHS[::6]:
        yield lent(["(ellipsoid 1 1)"], lengths, checked=(4, 1), ran=(4, 1))
        yield lent(begin + ["(show b)"], lengths, checked=(5, 4), ran=(5, 4))
        yield lent(begin + ["(let b (tip a))"], lengths, checked=(6, 4), ran=(6, 4))
        yield lent(begin + ["(let b 100000001)"], lengths, "n n n", ran=(7, 4), text=one)
        yield lent(begin + ["(let f (enu (geo (m 0) (m 0) (m 0))))"], lengths, "n n fenu", ran=(8, 4), text=one)
        twice = begin + ["(let p (geo (m 0) (m 0) (m 0)))", "(let q p)", "(show p)", "(show q)", "(apart 1)"]
        zeros = shown("p", "g", 0.0, 0.0, 0.0) + shown("q", "g", 0.0, 0.0, 0.0)
        yield lent(twice, lengths, "n n g g g g apart", ran=(9, 8), text=one + zeros)
    yield lent([" " * 16384], LENGTHS[0], checked=(1, 0), ran=(1, 0))
