"""The papers whose sizes ECMA-376's list decides, and not the Rust (document 02, T-01): their sizes, in whole numbers; which questions
the comparison with the Rust leaves out for them; and what crates/standard_papers has to write. No code of the crates is used.
"""

import math

# As the standard gives them, and how many of the measure make ten inches.
MILLIMETRES, INCHES = 254, 10
SIZES = {
    12: (250, 353, MILLIMETRES),
    13: (176, 250, MILLIMETRES),
    24: (17, 22, INCHES),
    25: (22, 34, INCHES),
    26: (34, 44, INCHES),
}
UNITS = 98304  # in an inch
DEFAULTS = (0.7, 0.7, 0.75, 0.75, 0.3, 0.3)
FOOTER_LINE = 16384
WHY = "ECMA-376's list decides their paper, 12, 13, 24, 25 or 26"


def nearest(length, in_ten_inches):
    """A length in units, to the nearest; none of these lies in the middle between two."""
    return (length * 10 * UNITS + in_ten_inches // 2) // in_ten_inches


def units(inches):
    """Inches that are not below 0 in units, as floats are multiplied: to the nearest, halves up."""
    product = inches * 96.0 * 1024.0
    whole = int(product)
    return whole + (product - whole >= 0.5)


UPRIGHT = {code: (nearest(width, parts), nearest(height, parts)) for code, (width, height, parts) in SIZES.items()}


# ---- what the comparison with the Rust leaves out


def paper_of_line(words):
    """The code of a line to paper_geometry, if one is given."""
    return int(words[2], 16) if int(words[1], 16) else None


def paper_of_plan(words):
    """The code of a line to plan_pages, if one is given: twelve flags, thirteen lengths, and then the code."""
    return int(words[26], 16) if words[1] == "01" else None


def paper_of_job(line):
    """The code of a job that begins with PC; a job that has PC elsewhere is refused."""
    data = bytes.fromhex(line[8:])
    return int.from_bytes(data[2:4], "little") if data[:2] == b"PC" and len(data) >= 4 else None


def left_out(name, line):
    """Whether a line is not compared with the Rust, because the standard decides its paper."""
    if name == "paper_geometry":
        return paper_of_line(line.split()) in SIZES
    if name == "plan_pages":
        return paper_of_plan(line.split()) in SIZES
    return name == "plan_job" and paper_of_job(line) in SIZES


# ---- what crates/standard_papers has to write


def hold(margins, width, height):
    left, right, top, bottom, header, footer = margins
    across, along = width / 1024.0, height / 1024.0
    return (
        (left + right) * 96.0 < across
        and (top + bottom) * 96.0 < along
        and header * 96.0 < along
        and footer * 96.0 < along
    )


def content(width, height, margins):
    """Where the content stands and its sides, where header and footer stand, and whether the margins were replaced."""
    held = margins is None or hold(margins, width, height)
    left, right, top, bottom, header, footer = (units(m) for m in (margins if margins and held else DEFAULTS))
    sides = (width - left - right, height - top - bottom)
    return (left, top, *sides, header, height - footer - FOOTER_LINE, int(not held))


LIMITS = (
    ("a unit less than the side", -1, 0),
    ("the float below the side", 0, -1),
    ("the side", 0, 0),
    ("the float above the side", 0, 1),
)


def stepped(x, steps):
    """The next float above, for 1, or below, for -1."""
    return math.nextafter(x, math.inf * steps) if steps else x


def limits(width, height, more, steps):
    """Margins, by name, that take a side and so many units more, or a neighbour of that float."""
    half, high = (stepped((side + more) / UNITS, steps) for side in (width, height))
    half /= 2.0
    yield "left and right", (half, half, 0.0, 0.0, 0.0, 0.0)
    yield "top and bottom", (0.0, 0.0, high / 2.0, high / 2.0, 0.0, 0.0)
    yield "header", (0.0, 0.0, 0.0, 0.0, high, 0.0)
    yield "footer", (0.0, 0.0, 0.0, 0.0, 0.0, high)


def page_lines(width, height):
    def line(name, margins):
        return "  %s: %d %d %d %d %d %d %d" % (name, *content(width, height, margins))

    yield line("absent", None)
    yield line("3.5 and 3.5 inches", (3.5, 3.5, 0.0, 0.0, 0.0, 0.0))
    for title, more, steps in LIMITS:
        yield " " + title
        for name, margins in limits(width, height, more, steps):
            yield line(name, margins)


def lines():
    for code, (width, height) in UPRIGHT.items():
        for name, page in (("upright", (width, height)), ("landscape", (height, width))):
            yield "%d %s: %d %d 0" % (code, name, *page)
            yield from page_lines(*page)
