"""Floats, papers and margins, for the lines of geometry and those of plans."""

import pathlib
import struct

import standard
from papers import rust_sizes
from standard import UNITS

ROOT = pathlib.Path(__file__).resolve().parent.parent
LEAST, MOST = -(2**63), 2**63 - 1

NAN, INFINITY = float("nan"), float("inf")
INFINITE = 0x7FF0 << 48  # the bits of infinity
ABOVE_ALL = 2.0**63 / UNITS  # inches, the nearest float

BAD_MARGINS = (NAN, INFINITY, -INFINITY, -1.0, -5e-324, -1e-9, 1e300, 1.7976931348623157e308)
PAPER_SIZES = rust_sizes((ROOT / "oracle/taken.rs").read_text(encoding="utf-8")) | standard.UPRIGHT


def bits(x):
    return struct.unpack("<Q", struct.pack("<d", x))[0]


def from_bits(n):
    return struct.unpack("<d", struct.pack("<Q", n))[0]


def stepped(x, steps):
    """The float so many steps further from 0 than x, or nearer to 0."""
    return from_bits(max(bits(x) + steps, 0))


def near(r, value, reach=3):
    """A whole number near the value, within i64."""
    return min(max(value + r.randint(-reach, reach), LEAST), MOST)


def half_unit(r):
    """Inches within a few steps of the middle between two units."""
    return stepped((r.getrandbits(r.randint(1, 53)) + 0.5) / UNITS, r.randint(-3, 3))


def inches(r):
    kind = r.randrange(10)
    if kind == 0:
        return from_bits(r.getrandbits(64))
    if kind == 1:
        return round(r.uniform(0, 60), r.randint(0, 6))
    if kind in (2, 3):
        return half_unit(r)
    if kind == 4:
        return stepped(ABOVE_ALL, r.randint(-6, 6))
    if kind == 5:
        return stepped(2.0 ** r.randint(-1080, 80) / UNITS, r.randint(-3, 3))
    if kind == 6:
        return -stepped(0.5 / UNITS, r.randint(-6, 6))
    if kind == 7:
        return -r.random() / UNITS
    if kind == 8:
        return from_bits(r.getrandbits(r.randint(1, 52)) | r.getrandbits(1) << 63)
    return from_bits(INFINITE | r.getrandbits(52) | r.getrandbits(1) << 63)


def plain(r, side):
    return round(r.uniform(0, max(side, 0) / UNITS / 2), r.randint(1, 4))


def pair_at_the_side(r, side):
    """Two margins whose sum is within a few steps of the side; at times one is near the middle between two units."""
    near_one = half_unit(r) % (side / UNITS) if r.randrange(2) else r.uniform(0, side / UNITS)
    far_one = stepped(max(side / UNITS - near_one, 0.0), r.randint(-3, 3))
    return (near_one, far_one) if r.randrange(2) else (far_one, near_one)


def margins_drawn(r, page):
    """Plain margins, and in most lines one thing that decides whether they hold."""
    width, height = page
    margins = [plain(r, side) for side in (width, width, height, height, height, height)]
    kind = r.randrange(6)
    if kind == 0 and width > 0:
        margins[0:2] = pair_at_the_side(r, width)
    elif kind == 1 and height > 0:
        margins[2:4] = pair_at_the_side(r, height)
    elif kind == 2 and height > 0:
        margins[r.randint(4, 5)] = stepped(height / UNITS, r.randint(-4, 3))
    elif kind == 3:
        margins[r.randrange(6)] = r.choice((r.choice(BAD_MARGINS), -0.0, inches(r)))
    return margins
