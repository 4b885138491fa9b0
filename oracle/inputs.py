#!/usr/bin/env python3
"""Lines of input for the functions of the crates geometry, planner and job, the same at every run.

    inputs.py NAME COUNT SEED

prints COUNT lines for the function NAME: first its limits, then lines drawn by the seed, most of them near a place
where the answer changes its kind. The format of a line stands in geometry.rs, axes.rs, plans.rs and jobs.rs. Those of
planner are made by axes.py and plans.py, those of job by jobs.py.
"""

import itertools
import random
import sys

import axes
import jobs
import plans
from margins import ABOVE_ALL, BAD_MARGINS, INFINITE, LEAST, MOST, PAPER_SIZES, UNITS
from margins import bits, inches, margins_drawn, near, stepped
from standard import DEFAULTS

PAPERS = sorted(set(PAPER_SIZES.values()))
PAGES = PAPERS + [(height, width) for width, height in PAPERS]

PERMILLES = (0, 1, 2, 100, 333, 499, 500, 501, 999, 1000, 1001, 4000, 65534, 65535)
WHOLES = (LEAST, LEAST + 1, -(2**31), -600, -3, -1, 0, 1, 3, 10, 600, 2**31, MOST - 1, MOST)


# ---- the parts of a line


def field(value):
    return bits(value) if isinstance(value, float) else value % 2**64


def line(letter, *values):
    fields = [field(v) for v in values] + [0] * (8 - len(values))
    return letter + "".join(f" {f:016x}" for f in fields) + "\n"


# ---- numbers that are drawn


def whole(r):
    kind = r.randrange(4)
    if kind == 0:
        return r.choice(WHOLES)
    size = 2 ** r.randrange(64) + r.randint(-1, 1) if kind == 1 else r.getrandbits(r.randint(1, 63))
    return near(r, r.choice((-1, 1)) * size, 0)


def permille(r):
    kind = r.randrange(3)
    if kind == 0:
        return r.choice(PERMILLES)
    return r.randint(100, 4000) if kind == 1 else r.getrandbits(16)


def cut(a, b):
    """a / b, cut toward zero."""
    return abs(a) // b if a >= 0 else -(abs(a) // b)


# ---- inches_to_fixed


def inches_limits():
    units = (0.5, 1.0, 1.5, 2.0**52, 2.0**53)
    for x in (*(n / UNITS for n in units), ABOVE_ALL / 2, ABOVE_ALL, 0.3, 0.7, 0.75):
        for steps in range(-3, 4):
            yield line("i", stepped(x, steps))
            yield line("i", -stepped(x, steps))
    # zero, the ends of the subnormals and of the finite floats, infinity, NaNs
    for n in (0, 1, 2, 2**52 - 1, 2**52, INFINITE - 1, INFINITE, INFINITE + 1, 0x7FF8 << 48, 2**63 - 1):
        yield line("i", n)
        yield line("i", n | 1 << 63)
    for pair in PAPERS:
        for side in pair:
            yield line("i", side / UNITS)


def inches_drawn(r):
    while True:
        yield line("i", inches(r))


# ---- unscaled_capacity


def capacity_limits():
    for side, p in itertools.product(WHOLES, PERMILLES):
        yield line("c", side, p, 0, 0)
    ends = (LEAST, -1, 0, 1, MOST)
    for side, titles, headings in itertools.product(ends, ends, ends):
        yield line("c", side, 1000, titles, headings)
    for titles, headings in ((5, 6), (5, 5), (5, 4), (5, 3)):
        yield line("c", 10, 1000, titles, headings)


def capacity_side(r, p):
    """A side whose quotient is near one of i64's ends, or any."""
    if r.randrange(2) and p:
        return near(r, r.choice((-1, 1)) * (2**63 * p // 1000))
    return whole(r)


def taken_off(r, value):
    """What leaves, taken off the value, a number near one of i64's ends, near 1, or any."""
    kind = r.randrange(4)
    if kind == 3:
        return whole(r)
    return near(r, value - (LEAST, MOST, 1)[kind])


def capacity_drawn(r):
    while True:
        p = permille(r)
        side = capacity_side(r, p)
        quotient = cut(side * 1000, max(p, 1))
        titles = taken_off(r, quotient)
        headings = taken_off(r, quotient - titles)
        yield line("c", side, p, titles, headings)


# ---- scale_fixed


def scale_limits():
    for size, p in itertools.product(WHOLES, PERMILLES):
        yield line("s", size, p)


def half_size(r, p):
    """A size whose product with p, coprime to 10, ends in 499, 500 or 501."""
    rest = (r.randint(499, 501) * pow(p, -1, 1000)) % 1000
    return near(r, r.choice((-1, 1)) * (r.getrandbits(r.randint(1, 53)) * 1000 + rest), 0)


def scale_drawn(r):
    while True:
        p = permille(r)
        kind = r.randrange(3)
        if kind == 0 and p:
            size = near(r, r.choice((-1, 1)) * (2**63 * 1000 // p))
        elif kind == 1 and p % 2 and p % 5:
            size = half_size(r, p)
        else:
            size = whole(r)
        yield line("s", size, p)


# ---- paper_geometry


def paper_limits():
    for landscape in (0, 1):
        yield line("p", 0, 0, landscape)
        yield line("p", 0, 9, landscape)
        for code in (*range(121), 65535):
            yield line("p", 1, code, landscape)


def paper_drawn(r):
    """Every code in both orientations, again and again."""
    while True:
        for code, landscape in itertools.product(range(65536), (0, 1)):
            yield line("p", 1, code, landscape)


# ---- content_geometry


def margins_alone(page):
    """Each margin alone at values that do not hold, and at minus zero, tiny and half of a unit."""
    for at, value in itertools.product(range(6), (*BAD_MARGINS, -0.0, 5e-324, 0.5 / UNITS)):
        margins = [0.5] * 6
        margins[at] = value
        yield line("m", *page, *margins)


def margins_at_the_side(page):
    """Sums, header and footer at exactly the side, one step below and one above."""
    wide, high = page[0] / UNITS, page[1] / UNITS
    for steps in (-1, 0, 1):
        yield line("m", *page, wide / 2, stepped(wide / 2, steps), 0.5, 0.5, 0.25, 0.25)
        yield line("m", *page, 0.5, 0.5, stepped(high, steps), 0.0, 0.25, 0.25)
        yield line("m", *page, 0.5, 0.5, 0.5, 0.5, stepped(high, steps), 0.25)
        yield line("m", *page, 0.5, 0.5, 0.5, 0.5, 0.25, stepped(high, steps))


def content_limits():
    # the least sides at which the default margins can be taken off
    across, down = LEAST + 2 * 68813, LEAST + 2 * 73728
    for width, height in itertools.product((across, 0, MOST), (down, 0, MOST)):
        for x, y in itertools.product((-1, 0, 1), (-1, 0, 1)):
            yield line("a", min(width + x, MOST), min(height + y, MOST))
    for width, height in itertools.product(WHOLES, WHOLES):
        yield line("a", width, height)
        yield line("m", width, height, *DEFAULTS)
    for page in PAGES:
        yield line("a", *page)
        yield line("m", *page, *DEFAULTS)
        yield from margins_at_the_side(page)
    for page in ((835584, 1081344), (1149460, 812750), (406375, 572795)):
        yield from margins_alone(page)


def page_drawn(r):
    kind = r.randrange(10)
    if kind < 6:
        return r.choice(PAGES)
    if kind == 6:
        return tuple(near(r, side, 1000) for side in r.choice(PAGES))
    if kind == 7:
        return near(r, LEAST + 2 * 68813), near(r, LEAST + 2 * 73728)
    return whole(r), whole(r)


def content_drawn(r):
    while True:
        page = page_drawn(r)
        if r.randrange(8) == 0:
            yield line("a", *page)
        else:
            yield line("m", *page, *margins_drawn(r, page))


# ---- lines by name

GEOMETRY = {
    "inches_to_fixed": (inches_limits, inches_drawn),
    "unscaled_capacity": (capacity_limits, capacity_drawn),
    "scale_fixed": (scale_limits, scale_drawn),
    "paper_geometry": (paper_limits, paper_drawn),
    "content_geometry": (content_limits, content_drawn),
}
PLANNER = {
    "widen_title": (axes.widen_limits, axes.widen_drawn),
    "partition_axis_with_breaks": (axes.axis_limits, axes.axes_drawn),
    "plan_pages": (plans.plan_limits, plans.plans_drawn),
    "page_numbered": (plans.page_limits, plans.pages_drawn),
}
JOBS = {"plan_job": (jobs.job_limits, jobs.jobs_drawn)}
CRATES = {"geometry": GEOMETRY, "planner": PLANNER, "jobs": JOBS}
FUNCTIONS = GEOMETRY | PLANNER | JOBS


def lines(name, seed):
    """The limits of a function, and then lines without end."""
    limits, drawn = FUNCTIONS[name]
    yield from limits()
    yield from drawn(random.Random(f"{name} {seed}"))


def limits_and(name, count, seed):
    """The limits of a function, and so many drawn lines."""
    return itertools.islice(lines(name, seed), sum(1 for _ in FUNCTIONS[name][0]()) + count)


def main(words):
    if len(words) != 3 or words[0] not in FUNCTIONS:
        sys.exit(__doc__)
    name, count, seed = words
    sys.stdout.writelines(itertools.islice(lines(name, seed), int(count)))


if __name__ == "__main__":
    main(sys.argv[1:])
