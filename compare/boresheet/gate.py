"""What the gate runs the program `boresheet` on, and what it must write.

    gate.py FOLDER    writes FOLDER/stdin, FOLDER/args, FOLDER/data/readings and FOLDER/stdout

The answers are written here from document 01: the lines that it prints for its first sheet to try, the bits of the
readings shown, and its elevations of 2^-51 and 2^-52 metres. Nothing is taken from the program's output. The last show is
of a reading that is a NaN: it is refused 7 on standard error, which leaves the text before it.
"""

import struct
import sys
from pathlib import Path

# The lines of the file of readings, and the double each stands for; None where it is shown nowhere.
READINGS = [
    ("12.5", 12.5),
    ("-0", -0.0),
    ("0.1", 0.1),
    ("3FB999999999999a", 0.1),
    ("3cc0000000000000", 2.0**-51),
    ("3CB0000000000000", 2.0**-52),
    ("8000000000000000", -0.0),
    ("123456789.123456", None),
    ("7ff8000000000001", None),
    ("fff0000000000000", None),
    ("99999999.999999", 99999999.999999),
    ("-000000007.250000", -7.25),
    ("c197d78400000000", -1e8),
    ("0000000000000001", 5e-324),
    ("000000000", 0.0),
    ("41924F80E0A1B2C3", 0x41924F80E0A1B2C3),
]

SHEET = """\
(ellipsoid 6400000 128)
(let p (lla (deg 90) (deg 0) (m 0)))
(let f (enu p))
(let v (venu (m 1) (m 2) (m 3)))
(let w (swap v))
(let z (to f (origin f)))
(show f)
(show w)
(show z)
(let up (elev (venu (m 0) (m 0) (m r4))))
(let flat (elev (venu (m 0) (m 0) (m r5))))
(show up)
(show flat)
"""

# Word for word as document 01 prints it.
TEXT = """\
f fenu 0000000000000000 0000000000000000 4158392c00000000 bff0000000000000 0000000000000000 0000000000000000 0000000000000000 bff0000000000000 0000000000000000 0000000000000000 0000000000000000 3ff0000000000000
w vned 4000000000000000 3ff0000000000000 c008000000000000
z venu 0000000000000000 0000000000000000 0000000000000000
up a 3ff921fb54442d18
flat a 0000000000000000
"""


def bits(x):
    return x if isinstance(x, int) else struct.unpack(">Q", struct.pack(">d", x))[0]


def main(folder):
    sheet, text = SHEET, TEXT
    for i, (_, value) in enumerate(READINGS):
        if value is not None:
            sheet += "(show r%d)\n" % i
            text += "r%d n %016x\n" % (i, bits(value))
    sheet += "(show r8)\n(show r0)\n"
    (folder / "data").mkdir(exist_ok=True)
    (folder / "stdin").write_text(sheet)
    (folder / "args").write_text("readings\n")
    (folder / "data" / "readings").write_text("".join(line + "\n" for line, _ in READINGS))
    (folder / "stdout").write_text(text)


main(Path(sys.argv[1]))
