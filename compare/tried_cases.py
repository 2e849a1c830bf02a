"""A case of `tried.py`: a sheet with its readings as a line of the program's input, and the lines that answer it."""

import struct

KINDS = "n a l g d venu vned vbody vwan fenu fned fbody fwan".split()
WGS84 = "(ellipsoid wgs84)"


def codes(kinds):
    """The kind codes of a sheet, line 1's and those of the lines behind it; `apart` is such a line's own."""
    return [255] + [254 if kind == "apart" else KINDS.index(kind) for kind in kinds.split()]


def bits(x):
    return struct.unpack(">Q", struct.pack(">d", x))[0]


def shown(name, kind, *values):
    """An output line."""
    return name + " " + kind + "".join(" %016x" % bits(x) for x in values) + "\n"


def joined(lines):
    return "".join(line + "\n" for line in lines).encode()


def case(sheet, readings, listed, checked, ran, text, lengths=None):
    """A line of the input and the lines that answer it. Readings are bits by their index, the others 0. Lengths are those of
    the kind list, the readings and the output that are lent, 01's where there are none."""
    words = " ".join("%016x" % readings.get(i, 0) for i in range(16))
    lent = ",%04x %04x %04x" % lengths if lengths else ""
    given = "%04x %s%s %s\n" % (len(sheet), words, lent, sheet.hex())
    said = "check %d %d%s\n" % (*checked, "".join(" %d" % c for c in listed))
    return given, said + "run %d %d %d\n%s" % (*ran, len(text), text)


def stops(lines, kinds, number, line, text="", readings={}):
    """A sheet that is admitted, with the kinds of line 2 on; the run is refused."""
    listed = codes(kinds)
    assert len(listed) == len(lines)
    return case(joined(lines), readings, listed, (0, 0), (number, line), text)


def passes(lines, kinds, text="", readings={}):
    return stops(lines, kinds, 0, 0, text, readings)


def refused(lines, number, line, readings={}):
    """A sheet that the check refuses, and so the run. Lines, or the whole sheet's bytes."""
    sheet = lines if isinstance(lines, bytes) else joined(lines)
    return case(sheet, readings, [], (number, line), (number, line), "")
