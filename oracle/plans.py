"""Lines of input for plan_pages and page_numbered of the crate planner.

The format of a line stands in plans.rs.
"""

import itertools
from dataclasses import dataclass, field, replace

import axes
import standard
from axes import COLUMNS, LARGEST, LIMITS, NUMBERS, ROWS, RUNS, U32, U64, Axis
from axes import below, chance, clamped, numbers, parts, pick
from margins import INFINITY, NAN, PAPER_SIZES, UNITS, bits, margins_drawn, stepped
from standard import DEFAULTS

LETTER = PAPER_SIZES[1]
CODES = sorted(PAPER_SIZES)
UNLISTED = (0, 32, 41, 68, 71, 119, 255, 256, 32768, 65535)
PERMILLES = (100, 101, 125, 250, 333, 499, 500, 501, 625, 750, 997, 999, 1000)
HEADINGS = (17408, 38912)  # of an axis, rows and columns
MOST_AREAS = 8


# ---- a line


def columns_axis():
    return Axis(columns=COLUMNS)


@dataclass
class Plan:
    """Settings, absent where None, and two axes, whose ranges are the area; the two have an equal number of merges."""

    paper: int = None
    landscape: int = 0
    margins: tuple = None
    percent: int = None
    fit: int = 0
    width: int = None  # targets
    height: int = None
    order: int = 0
    headings: int = 0
    limit: int = 10000
    cells: int = None  # limit
    rows: Axis = field(default_factory=Axis)
    columns: Axis = field(default_factory=columns_axis)
    areas: list = None  # where there are several: first row, first column, last row, last column of each


def areas_of(p):
    """First row, first column, last row, last column of each area."""
    (top, bottom), (left, right) = p.rows.range, p.columns.range
    return [(top, left, bottom, right)] if p.areas is None else p.areas


def spelt(form, values):
    return form * len(values) % tuple(values)


def line(p):
    rows, columns, areas = p.rows, p.columns, areas_of(p)
    settings = (p.paper, p.percent, p.width, p.height, rows.title, columns.title, p.margins, p.cells)
    given = [setting is not None for setting in settings]
    flags = (given[0], p.landscape, given[1], p.fit, *given[2:4], p.order, p.headings, *given[4:])
    corners = [[area[at] for area in areas] for at in range(4)]
    lists = (
        (rows.indexes, rows.sizes, columns.indexes, columns.sizes)
        + (rows.firsts, columns.firsts, rows.lasts, columns.lasts)
        + (rows.breaks, columns.breaks)
    )
    assert axes.fits(rows) and axes.fits(columns), (rows, columns)
    shorts = (*flags, *map(len, lists), numbers(rows.lent), numbers(columns.lent), len(areas))
    asked = (p.paper or 0, p.percent or 0, p.width or 0, p.height or 0)
    titles = (*(rows.title or (0, 0)), *(columns.title or (0, 0)))
    fields = [spelt(" %02x", shorts), spelt(" %08x", asked + titles), spelt(" %016x", (p.limit, p.cells or 0))]
    fields.append(spelt(" %016x", [bits(margin) for margin in p.margins or ()]))
    fields += [spelt(" %08x", corner) for corner in corners]
    fields += [spelt(" %016x" if at in (1, 3) else " %08x", values) for at, values in enumerate(lists)]
    return "p" + "".join(fields) + "\n"


# ---- the content's sides, near enough to draw sizes by


def sides(p):
    """Height and width."""
    page = PAPER_SIZES.get(p.paper, LETTER)
    if p.landscape:
        page = page[::-1]
    left, right, top, bottom = margins_held(p.margins, page)[:4]
    return page[1] - round((top + bottom) * UNITS), page[0] - round((left + right) * UNITS)


def margins_held(margins, page):
    """The margins, or the defaults where they do not hold."""
    if margins is None or not all(0 <= margin < 1000 for margin in margins):
        return DEFAULTS
    left, right, top, bottom, header, footer = margins
    wide, high = page[0] / UNITS, page[1] / UNITS
    return margins if left + right < wide and max(top + bottom, header, footer) < high else DEFAULTS


# ---- settings that are drawn


def paper_drawn(r):
    kind = below(r, 12)
    if kind < 4:
        return None
    return pick(r, CODES) if kind < 10 else pick(r, UNLISTED)


def plan_margins(r, page):
    kind = below(r, 12)
    if kind < 6:
        return None
    if kind < 8:
        return tuple(pick(r, (0.0, 0.25, 0.3, 0.5, 0.7, 0.75, 1.0)) for _ in range(6))
    return tuple(margins_drawn(r, page))


def percent_drawn(r):
    kind = below(r, 10)
    if kind < 4:
        return None
    if kind == 4:
        return pick(r, (0, 1, 9, 401, 402, 1000, 65535))
    if kind == 5:
        return pick(r, (10, 11, 399, 400))
    return pick(r, (100, 100, 50, 75, 85, 99, 101, 120, 33, 200, 10 + below(r, 391)))


def target_drawn(r):
    return pick(r, (None, None, 0, 0, 1, 1, 1, 2, 2, 3, 4, 5, 7, 12, 65535))


def limit_drawn(r, p):
    """Enough, few, or about as many pages as the areas may have."""
    kind = below(r, 16)
    if kind < 10:
        return 10000
    if kind == 10:
        return pick(r, (0, 1, U32, 2**63, U64))
    if kind < 14:
        return below(r, 13 * len(areas_of(p)))
    return below(r, len(areas_of(p)) * len(p.rows.indexes) * len(p.columns.indexes) + 2)


def settings_drawn(r):
    paper, landscape = paper_drawn(r), below(r, 2)
    page = PAPER_SIZES.get(paper, LETTER)
    return Plan(
        paper=paper,
        landscape=landscape,
        margins=plan_margins(r, page[::-1] if landscape else page),
        percent=percent_drawn(r),
        fit=below(r, 2),
        width=target_drawn(r),
        height=target_drawn(r),
        order=below(r, 2),
        headings=int(chance(r, 0.3)),
    )


# ---- an axis that is drawn


def room_at(r, p, side):
    """What a page holds at a scale that the settings may come to."""
    if p.fit:
        permille = pick(r, PERMILLES) if chance(r, 0.5) else 80 + below(r, 1000)
    else:
        permille = 10 * min(max(100 if p.percent is None else p.percent, 10), 400)
    return max(side * 1000 // permille, 1)


def shares(r, count, total):
    """So many sizes that come to the total, in parts that are drawn or all alike."""
    weights = [1 + below(r, pick(r, (1, 3, 10))) for _ in range(count)]
    whole = sum(weights)
    sizes = [total * weight // whole for weight in weights]
    if sizes:
        sizes[below(r, count)] += total - sum(sizes) + pick(r, (-1, 0, 0, 0, 1))
    return sizes


def sizes_drawn(r, p, count, room, target):
    """Sizes of which a few fill a page, all together so many pages, or any."""
    kind = below(r, 12)
    if kind < (6 if p.fit else 3):
        sizes = shares(r, count, room * pick(r, (1, 1, target or 1, 2, 3, 1 + below(r, 8))))
    elif kind < 8:
        part = room // (1 + below(r, 6))
        sizes = [part + pick(r, (-1, 0, 0, 0, 1)) for _ in range(count)]
    elif kind < 10:
        most = room // (1 + below(r, 4)) + 2
        sizes = [below(r, most) for _ in range(count)]
    elif kind == 10:
        sizes = [pick(r, (0, 1, room // 3, room // 2, room - 1, room, room + 1)) for _ in range(count)]
    else:
        sizes = axes.sizes_drawn(r, count)
    return [clamped(size, LARGEST) for size in sizes]


def inner_title(r, indexes):
    """A title of which the first lies after the first slot."""
    if len(indexes) < 3:
        return None
    first = 1 + below(r, len(indexes) - 2)
    return indexes[first], indexes[min(first + below(r, 4), len(indexes) - 1)]


def plan_title(r, indexes, ends, places, limit):
    kind = below(r, 16)
    if kind < 4:
        return None
    if kind < 9:
        return inner_title(r, indexes)
    if kind < 11:
        return clamped(ends[0] - below(r, 2), limit), clamped(ends[0] + below(r, 4), limit)
    if kind == 11:
        return clamped(ends[0] - below(r, 2), limit), clamped(ends[1] + below(r, 2), limit)
    return axes.title_drawn(r, places, limit)


def lent_drawn(r, count):
    """Room for runs in a lent list: enough, or any number up to that."""
    most = min(max(count, 1) + below(r, 3), RUNS)
    return (below(r, most + 1) if chance(r, 0.12) else most,) * 4


def body_slots(a, ends=None):
    """How many slots the body has, of the axis's own range or of another, where no merge widens the title."""
    first, last = ends or a.range
    if a.title and a.title[0] <= first <= a.title[1]:
        first = a.title[1] + 1
    return sum(first <= index <= last for index in a.indexes)


def places_drawn(r, columns):
    """An axis without sizes: slots, range, title, merges and breaks."""
    limit = LIMITS[columns]
    indexes = axes.slots_drawn(r, limit)
    ends = axes.range_drawn(r, indexes, limit)
    places = axes.points(r, indexes, ends, limit)
    title = plan_title(r, indexes, ends, places, limit)
    merges = axes.merges_drawn(r, places, limit) if chance(r, 0.6) else []
    if chance(r, 0.15):
        merges = axes.merges_at(r, title[1] + 1 if title else ends[0], limit)
    return Axis(
        columns=columns,
        title=title,
        range=ends,
        indexes=indexes,
        firsts=[first for first, _ in merges],
        lasts=[last for _, last in merges],
        breaks=axes.breaks_drawn(r, indexes, places),
    )


def axis_drawn(r, p, columns):
    """Most have two slots or more in the body."""
    a = places_drawn(r, columns)
    while body_slots(a) < 2 and chance(r, 0.8):
        a = places_drawn(r, columns)
    room = room_at(r, p, sides(p)[columns])
    if p.headings and chance(r, 0.7):
        room = max(room - HEADINGS[columns], 1)
    return replace(a, sizes=sizes_drawn(r, p, len(a.indexes), room, p.width if columns else p.height))


def merges_paired(p):
    """The plan with as many merges on one axis as on the other: those that lack get a single row or column."""
    count = max(len(p.rows.firsts), len(p.columns.firsts))
    paired = []
    for a in (p.rows, p.columns):
        more = [a.range[0]] * (count - len(a.firsts))
        paired.append(replace(a, firsts=a.firsts + more, lasts=a.lasts + more))
    return replace(p, rows=paired[0], columns=paired[1])


def plan_drawn(r):
    p = settings_drawn(r)
    p = merges_paired(replace(p, rows=axis_drawn(r, p, ROWS), columns=axis_drawn(r, p, COLUMNS)))
    p = rooms_drawn(r, replace(p, areas=areas_drawn(r, p)))
    return replace(p, limit=limit_drawn(r, p), cells=cells_drawn(r, areas_of(p)))


# ---- areas that are drawn


def range_near(r, a, ranges):
    """A range of an axis by one of others: equal, in it, next to it, over its end; about the title; or any."""
    limit = LIMITS[a.columns]
    first, last = pick(r, ranges)
    kind = below(r, 14)
    if kind < 3:
        return first, last
    if kind == 3:
        return axes.pair(r, [first + below(r, last - first + 1) for _ in range(2)])
    if kind < 6:
        first = min(last + 1, limit)
        return first, clamped(first + below(r, 5), limit)
    if kind == 6:
        return clamped(first - 1 - below(r, 5), limit), clamped(first - 1, limit)
    if kind == 7:
        return first + below(r, last - first + 1), clamped(last + below(r, 5), limit)
    if kind < 11 and a.title:
        first = clamped(pick(r, a.title) + pick(r, (-1, 0, 0, 1)), limit)
        return first, clamped(first + below(r, 8), limit)
    return axes.range_drawn(r, a.indexes, limit)


def areas_drawn(r, p):
    """The area that the axes have, and in about half of the plans others after it."""
    areas = areas_of(p)
    count = pick(r, (1, 1, 1, 1, 1, 1, 1, 1, 2, 2, 2, 3, 3, 4, 5, 6, 7, 8, 8))
    while len(areas) < count:
        top, bottom = range_near(r, p.rows, [(area[0], area[2]) for area in areas])
        left, right = range_near(r, p.columns, [(area[1], area[3]) for area in areas])
        areas.append((top, left, bottom, right))
    return areas


def with_rooms(p, rows, columns):
    """The plan with lent lists of such room."""
    return replace(p, rows=replace(p.rows, lent=rows), columns=replace(p.columns, lent=columns))


def rooms_drawn(r, p):
    """The plan with room for a run of each slot of each area, or less."""
    areas = areas_of(p)
    rows = sum(max(body_slots(p.rows, (area[0], area[2])), 1) for area in areas)
    columns = sum(max(body_slots(p.columns, (area[1], area[3])), 1) for area in areas)
    return with_rooms(p, lent_drawn(r, rows), lent_drawn(r, columns))


def cells_in(areas):
    """The cells that lie in at least one area, by the strips between the rows at which areas start and end."""
    edges = sorted({area[0] for area in areas} | {area[2] + 1 for area in areas})
    cells = 0
    for top, below_it in zip(edges, edges[1:]):
        reached = 0
        for left, right in sorted((area[1], area[3] + 1) for area in areas if area[0] <= top <= area[2]):
            cells += (below_it - top) * max(right - max(left, reached), 0)
            reached = max(reached, right)
    return cells


def cells_drawn(r, areas):
    """A limit of cells: absent, about as many as the areas have, or any."""
    kind = below(r, 16)
    if kind < 11:
        return None
    cells = cells_in(areas)
    if kind < 15:
        return max(cells + pick(r, (-1, 0, 0, 0, 0, 1)), 0)
    return pick(r, (0, 1, cells // 2, sum(cells_in([area]) for area in areas), 2**34, U64))


# ---- plans whose runs are known: as many slots to a page as are drawn, and lent lists and limit by the count


def even_axis(r, p, columns, areas):
    """The axis, with room by the runs of so many areas, and its number of runs."""
    count, each = 1 + below(r, 20), 1 + below(r, 8)
    side = max(sides(p)[columns], 1)
    runs = -(-count // each)
    a = Axis(
        columns=columns,
        range=(5, 4 + count),
        indexes=list(range(5, 5 + count)),
        sizes=[side // each] * count,
        lent=(clamped(areas * runs + pick(r, (-1, 0, 0, 0, 0, 1, 2)), RUNS),) * 4,
    )
    return a, runs


def even_plan(r):
    p = replace(settings_drawn(r), percent=None, fit=0, headings=0)
    areas = pick(r, (1, 1, 1, 2, 2, 3, 8))
    (rows, high), (columns, wide) = even_axis(r, p, ROWS, areas), even_axis(r, p, COLUMNS, areas)
    p = replace(p, rows=rows, columns=columns, limit=max(areas * high * wide + pick(r, (-1, 0, 0, 1)), 0))
    return replace(p, areas=areas_of(p) * areas)


# ---- faults


def with_axis(p, a):
    return replace(p, columns=a) if a.columns else replace(p, rows=a)


def axis_fault(fault):
    return lambda r, p: with_axis(p, fault(r, pick(r, (p.rows, p.columns))))


def merge_fault(r, p, bad):
    """The plan with one merge more, which is bad on one axis."""
    one, other = pick(r, ((p.rows, p.columns), (p.columns, p.rows)))
    at = below(r, len(one.firsts) + 1)
    first, last = bad(LIMITS[one.columns])
    place = other.range[0]

    def put(values, value):
        return values[:at] + [value] + values[at:]

    p = with_axis(p, replace(one, firsts=put(one.firsts, first), lasts=put(one.lasts, last)))
    return with_axis(p, replace(other, firsts=put(other.firsts, place), lasts=put(other.lasts, place)))


def reversed_pair(r, limit):
    return pick(r, ((1, 0), (limit, 5), (U32, limit)))


def outside_pair(r, limit):
    return pick(r, ((0, limit + 1), (limit + 1, limit + 1), (limit, U32), (5, 65536 + limit)))


def merge_reversed(r, p):
    return merge_fault(r, p, lambda limit: reversed_pair(r, limit))


def merge_outside(r, p):
    return merge_fault(r, p, lambda limit: outside_pair(r, limit))


def area_fault(r, p, bad):
    """The plan with one of its areas bad on an axis, or with one more that is."""
    areas = areas_of(p) or [(0, 0, 0, 0)]
    at, columns = below(r, min(len(areas) + 1, MOST_AREAS)), below(r, 2)
    area = list(areas[at] if at < len(areas) else areas[0])
    area[columns], area[columns + 2] = bad(LIMITS[columns])
    return replace(p, areas=areas[:at] + [tuple(area)] + areas[at + 1 :])


def area_reversed(r, p):
    return area_fault(r, p, lambda limit: reversed_pair(r, limit))


def area_outside(r, p):
    return area_fault(r, p, lambda limit: outside_pair(r, limit))


def areas_miscounted(r, p):
    """No area, or more than eight."""
    areas = areas_of(p)
    return replace(p, areas=pick(r, ([], (areas * 10)[:9], (areas * 10)[:10])))


def cells_short(r, p):
    areas = [area for area in areas_of(p) if area[0] <= area[2] and area[1] <= area[3]]
    return replace(p, cells=pick(r, (0, max(cells_in(areas) - 1, 0))))


FAULTS = (
    axis_fault(lambda r, a: axes.shorter(r, a, ("indexes", "sizes"))),
    axis_fault(lambda r, a: axes.shorter(r, a, ("firsts", "lasts"))),
    axis_fault(axes.lent_by_one),
    area_reversed,
    area_outside,
    areas_miscounted,
    cells_short,
    axis_fault(axes.index_falls),
    axis_fault(axes.index_outside),
    axis_fault(axes.size_outside),
    axis_fault(axes.room_short),
    merge_reversed,
    merge_outside,
)


def spoilt(r, p):
    """At times a fault, at times two."""
    while chance(r, 0.08):
        p = pick(r, FAULTS)(r, p)
    return p


def plans_drawn(r):
    while True:
        yield line(spoilt(r, even_plan(r) if chance(r, 0.06) else plan_drawn(r)))


# ---- the limits of plan_pages

# Margins that leave 200 by 200 units of Letter.
SMALL = (4.25, 417592 / UNITS, 5.5, 540472 / UNITS, 0.3, 0.3)


def slots(columns, sizes, first=0):
    """An axis of slots that follow each other, with its range, and room enough."""
    last = first + len(sizes) - 1
    indexes = list(range(first, last + 1))
    lent = (len(sizes) + 1,) * 4
    return Axis(columns=columns, range=(first, last), indexes=indexes, sizes=sizes, lent=lent)


WORKED = Plan(rows=slots(ROWS, [400000] * 3), columns=slots(COLUMNS, [400000] * 2))
FIVE = Plan(margins=SMALL, rows=slots(ROWS, [80] * 5), columns=slots(COLUMNS, [100] * 3))


def worked():
    """The worked cases of document 01."""
    yield WORKED
    yield replace(WORKED, order=1)
    four = Plan(margins=SMALL, fit=1, rows=slots(ROWS, [100] * 4), columns=slots(COLUMNS, [100]))
    for height, width in itertools.product((None, 0, 1, 2, 3), (None, 0, 1)):
        yield replace(four, height=height, width=width)
    for size in (1999, 2000, 2001, 2004, 2005, 2006):
        yield replace(four, rows=slots(ROWS, [size]))
        yield replace(four, columns=slots(COLUMNS, [size]))
        yield replace(four, rows=slots(ROWS, [size]), height=0, width=0)


def papers():
    for code, landscape in itertools.product((None, 1, 9, 32, 0, 65535, *standard.SIZES), (0, 1)):
        yield replace(WORKED, paper=code, landscape=landscape)
    for code in CODES:
        yield replace(WORKED, paper=code, fit=1)


def percents():
    for percent in (None, 0, 1, 9, 10, 11, 50, 99, 100, 101, 399, 400, 401, 65535):
        yield replace(WORKED, percent=percent)
        yield replace(WORKED, percent=percent, fit=1)


def margins():
    for at, value in itertools.product(range(6), (NAN, INFINITY, -1.0, -0.0, 1e300, 11.0, stepped(11.0, -1))):
        yield replace(WORKED, margins=tuple(value if k == at else 0.5 for k in range(6)))
    # sides of no units, and of less
    edges = ((0.5, 0.5), (1.5, 834082.5), (0.5, 835582.5), (3.5, 835579.5), (0.25, 835583.25), (417792.5, 417791.0))
    for left, right in edges:
        across = replace(WORKED, margins=(left / UNITS, right / UNITS, 0.5, 0.5, 0.3, 0.3))
        yield across
        yield replace(across, fit=1)
        yield replace(across, headings=1, columns=slots(COLUMNS, [0, 0]))


def titles_in_five():
    """Every title over five rows, with fit and without it."""
    for title in (None, *itertools.combinations_with_replacement(range(5), 2), (0, 5), (3, 2), (0, U32)):
        titled = replace(FIVE, rows=replace(FIVE.rows, title=title))
        yield titled
        yield replace(titled, rows=replace(titled.rows, breaks=[4, 2]))
        for height in (None, 2, 0):
            yield replace(titled, fit=1, height=height)
        yield replace(titled, fit=1, width=0, rows=replace(titled.rows, sizes=[80, 150, 10, 30, 80]))
        yield replace(titled, columns=replace(slots(COLUMNS, [80] * 5), title=title))


def merged(p, merges):
    """The plan with merges of first row, first column, last row and last column."""
    rows = replace(p.rows, firsts=[m[0] for m in merges], lasts=[m[2] for m in merges])
    columns = replace(p.columns, firsts=[m[1] for m in merges], lasts=[m[3] for m in merges])
    return replace(p, rows=rows, columns=columns)


def merges_in_five():
    pairs = list(itertools.combinations(range(5), 2))
    for title, (first, last) in itertools.product((None, (0, 0), (0, 1), (1, 2), (2, 3)), pairs):
        titled = replace(FIVE, rows=replace(FIVE.rows, title=title, breaks=[2, 4]))
        yield merged(titled, [(first, 0, last, 0)])
        yield merged(replace(titled, fit=1, height=3), [(first, 0, last, 1)])
    for one, other in itertools.product(pairs[::2], pairs[1::3]):
        yield merged(replace(FIVE, fit=1, height=2), [(one[0], 0, one[1], 0), (other[0], 1, other[1], 2)])


def empty_bodies():
    """No slots, none in the range, or all of them in the title."""
    bare = (
        replace(FIVE.rows, indexes=[], sizes=[]),
        replace(FIVE.rows, range=(7, 9)),
        replace(FIVE.rows, title=(0, 4)),
        replace(FIVE.rows, title=(0, LIMITS[ROWS])),
        replace(FIVE.rows, title=(0, 2), range=(1, 2)),
    )
    for rows, fit, headings in itertools.product(bare, (0, 1), (0, 1)):
        p = replace(FIVE, rows=rows, fit=fit, headings=headings)
        yield p
        yield replace(p, columns=replace(p.columns, title=(0, 2)), limit=1)
        yield replace(p, rows=replace(rows, lent=(0,) * 4))
    for size in (39, 40, 2000, 2004, 2005):
        rows = replace(FIVE.rows, title=(0, 4), sizes=[size] + [0] * 4)
        yield replace(FIVE, rows=rows, fit=1)
        yield replace(FIVE, rows=rows, percent=500)


def rooms():
    """Limits about the count of 3 by 2 pages, lent lists about the runs, and with numbers that make up no run."""
    for limit in (*range(8), U32, 2**63, U64):
        yield replace(FIVE, limit=limit)
    for high, wide in itertools.product(range(5), range(4)):
        yield with_rooms(FIVE, (high,) * 4, (wide,) * 4)
    for count in (1, 7, 9, 10, 11, 13, 14, 15, NUMBERS - 2, NUMBERS - 1, NUMBERS):
        yield replace(FIVE, rows=replace(FIVE.rows, lent=parts(count)))
        yield replace(FIVE, columns=replace(FIVE.columns, lent=parts(count)))


def many_pages():
    """Counts about twelve, and many, in both orders."""
    for high, wide, order in itertools.product((1, 3, 4, 11, 12, 13, 23), (1, 3, 4, 23), (0, 1)):
        rows, columns = slots(ROWS, [150] * high, 2), slots(COLUMNS, [150] * wide, 9)
        yield Plan(order=order, margins=SMALL, rows=rows, columns=columns)


def grid_ends():
    rows, columns = slots(ROWS, [80] * 5, LIMITS[ROWS] - 4), slots(COLUMNS, [80] * 5, LIMITS[COLUMNS] - 4)
    end = replace(FIVE, rows=rows, columns=columns)
    yield end
    for back, beyond in itertools.product((0, 2, 4), (0, 1)):
        titled = replace(
            end,
            rows=replace(rows, title=(LIMITS[ROWS] - back, LIMITS[ROWS] + beyond), breaks=[LIMITS[ROWS], U32]),
            columns=replace(columns, title=(LIMITS[COLUMNS] - back, LIMITS[COLUMNS] + beyond), breaks=[65536, U32]),
        )
        yield titled
        yield replace(titled, fit=1)
        yield merged(titled, [(LIMITS[ROWS] - 1, LIMITS[COLUMNS] - 1, LIMITS[ROWS], LIMITS[COLUMNS])])


def single_faults():
    """Each question's faults alone, and every two together."""
    base = merged(FIVE, [(1, 0, 2, 1)])
    faults = []
    for name, a, runs in (("rows", base.rows, 3), ("columns", base.columns, 2)):
        limit, count = LIMITS[a.columns], len(a.sizes)
        for change in (
            {"range": (5, 4)},
            {"lent": parts(4 * runs - 1)},
            {"sizes": a.sizes + [LARGEST + 1]},
            {"firsts": [3]},
            {"firsts": []},
            {"firsts": [0, 0], "lasts": [0, 0]},
            {"range": (0, limit + 1)},
            {"lasts": [limit + 1]},
            {"indexes": [0] * count},
            {"indexes": a.indexes[:-1] + [limit + 1]},
            {"sizes": a.sizes[:-1] + [LARGEST + 1]},
            {"lent": (1,) * 4},
        ):
            faults.append((name, change))
    for one, other in itertools.combinations_with_replacement(faults, 2):
        p = base
        for name, change in (one, other):
            p = replace(p, **{name: replace(getattr(p, name), **change)})
        yield p
    for name, change in faults:
        p = replace(base, **{name: replace(getattr(base, name), **change)})
        yield replace(p, limit=0)
        yield replace(p, margins=(NAN,) * 6, fit=1)


def printed(p, *areas, **settings):
    """The plan of such areas, with room for a run of each slot of each."""
    room = (min(6 * len(areas), RUNS),) * 4
    return with_rooms(replace(p, areas=list(areas), **settings), room, room)


ROW_RANGES = ((0, 4), (0, 0), (1, 2), (3, 4), (2, 3), (5, 9))


def two_areas():
    """Equal, one in the other, next to each other, over each other and past the slots; under titles that cover the
    first row of one and not of the other."""
    for title, one, other in itertools.product((None, (0, 0), (1, 2), (0, 4)), ROW_RANGES, ROW_RANGES):
        titled = replace(FIVE, rows=replace(FIVE.rows, title=title))
        yield printed(titled, (one[0], 0, one[1], 2), (other[0], 1, other[1], 1))
    for title, one, other in itertools.product(((0, 0), (1, 1)), ((0, 2), (1, 1), (2, 5)), ((0, 2), (1, 2), (0, 0))):
        titled = replace(FIVE, columns=replace(FIVE.columns, title=title), rows=replace(FIVE.rows, title=(1, 1)))
        yield printed(titled, (0, one[0], 4, one[1]), (1, other[0], 4, other[1]), (0, other[0], 1, one[1] + 1), order=1)


def scales_by_area():
    """Each area has a scale of its own; one may be out of reach and another not, a percent is clamped for each."""
    tall = replace(FIVE, rows=replace(FIVE.rows, sizes=[80, 80, 80, 80, 9000]))
    for one, other, height in itertools.product(ROW_RANGES[:5], ROW_RANGES[:5], (None, 2)):
        yield printed(tall, (one[0], 0, one[1], 2), (other[0], 0, other[1], 0), fit=1, height=height)
    for percent in (9, 10, 401):
        yield printed(FIVE, (0, 0, 0, 0), (1, 0, 1, 0), (0, 0, 4, 2), percent=percent, paper=99)


def cuts_by_area():
    """Merges are clipped to each area anew; a break that one of them holds shifts where it stands inside the body."""
    broken = replace(FIVE, rows=replace(FIVE.rows, breaks=[1, 3]))
    for first, last in itertools.combinations(range(5), 2):
        p = merged(broken, [(first, 0, last, 0)])
        yield printed(p, (0, 0, 0, 0), (0, 0, 1, 0), (1, 0, 2, 0), (0, 0, 4, 2))
        yield printed(p, (2, 0, 4, 0), (0, 0, 3, 0), fit=1)
    widened = replace(FIVE, rows=replace(FIVE.rows, title=(0, 0)))
    for row in range(3):
        yield printed(merged(widened, [(0, 7, row, 7)]), (0, 0, 4, 2), (1, 0, 4, 2), (2, 0, 4, 2), (0, 0, row, 0))


# Areas by how they lie to each other, the last over the whole grid.
LYING = (
    [(0, 0, 4, 2)],
    [(0, 0, 4, 2)] * 3,
    [(0, 0, 4, 2), (1, 1, 2, 1)],
    [(0, 0, 1, 2), (2, 0, 4, 2), (0, 3, 4, 3)],
    [(0, 0, 2, 2), (1, 1, 4, 4), (4, 0, 9, 1)],
    [(0, 1, 4, 1), (2, 0, 2, 2)],
    [(row, row, row + 3, row + 3) for row in range(8)],
    [(0, 0, 0, 0), (LIMITS[ROWS], LIMITS[COLUMNS], LIMITS[ROWS], LIMITS[COLUMNS])],
    [(0, 0, LIMITS[ROWS], LIMITS[COLUMNS]), (1, 1, 1, 1)],
)


def cell_limits():
    """About the cells that lie in at least one area, none, and about what all areas have together."""
    for areas in LYING:
        cells, all_cells = cells_in(areas), sum(cells_in([area]) for area in areas)
        for limit in (None, *sorted({0, cells - 1, cells, cells + 1, all_cells - 1, all_cells, 2**34, U64})):
            yield printed(FIVE, *areas, cells=limit)


def counts_of_areas():
    """None to ten; with room and limit about what all areas have together."""
    cell, five = (0, 0, 0, 0), (0, 0, 4, 2)
    for count in range(11):
        yield printed(FIVE, *[cell] * count)
        yield printed(FIVE, *[cell] * count, (0, 0, 9, 9))
        yield printed(FIVE, *[cell] * count, cells=0, limit=0)
    for limit in range(12, 16):
        yield printed(FIVE, five, cell, five, cell, limit=limit)
        yield printed(FIVE, five, cell, five, cell, limit=limit, order=1)
    for high, wide in itertools.product((0, 3, 6, 7, 8), (0, 2, 5, 6)):
        p = with_rooms(printed(FIVE, five, cell, five), (high,) * 4, (wide,) * 4)
        yield p
        yield replace(p, limit=12)


def faults_of_areas():
    """A fault in a later area, and the order of the questions 4, 6, 7, 15, 8 and 9."""
    five = (0, 0, 4, 2)
    reversed_, outside = (1, 0, 0, 0), (0, 0, 0, LIMITS[COLUMNS] + 1)
    falling, large = {"indexes": [0] * 5}, {"sizes": [LARGEST + 1] * 5}
    for bad, before in itertools.product((reversed_, outside, (U32, 0, U32, 0), (0, 0, U32, 0)), range(8)):
        yield printed(FIVE, *[five] * before, bad, *[five] * (7 - before))
    for areas in ([five] * 9, [five, reversed_], [five, outside], [five, reversed_, outside], [five, five]):
        for cells, change in itertools.product((None, 14, 15), ({}, falling, large, falling | large)):
            yield printed(replace(FIVE, rows=replace(FIVE.rows, **change)), *areas, cells=cells)


LIMIT_PARTS = (
    worked,
    papers,
    percents,
    margins,
    titles_in_five,
    merges_in_five,
    empty_bodies,
    rooms,
    many_pages,
    grid_ends,
    two_areas,
    scales_by_area,
    cuts_by_area,
    cell_limits,
    counts_of_areas,
    faults_of_areas,
    single_faults,
)


def plan_limits():
    for part in LIMIT_PARTS:
        for p in part():
            yield line(p)


# ---- page_numbered


@dataclass
class Area:
    empty: tuple = (0, 0)
    runs: tuple = (2, 3)


@dataclass
class Numbered:
    order: int = 0
    others: tuple = (1, 2)  # runs between two whose mark is 0
    rows: tuple = (3, 3, 3, 3)  # the list of runs, as `lent` of an axis
    columns: tuple = (4, 4, 4, 4)
    starts: tuple = (2000000, 2500000)  # of the lists' numbers
    areas: tuple = (Area(),)
    count: int = None  # of areas, where it is not that of the line
    pages: int = 6
    number: int = 1


def page_line(n):
    shorts = (n.order, *n.others, numbers(n.rows), numbers(n.columns), len(n.areas))
    count = len(n.areas) if n.count is None else n.count
    fields = [spelt(" %02x", shorts), spelt(" %016x", (*n.starts, count, n.pages, n.number))]
    fields += [spelt(" %02x", area.empty) + spelt(" %016x", area.runs) for area in n.areas]
    return "n" + "".join(fields) + "\n"


def about(count):
    return sorted({0, 1, 2, max(count - 1, 0), count, count + 1, U64})


def one_area_limits():
    for runs, order in itertools.product(((0, 0), (0, 3), (2, 0), (1, 1), (2, 3), (3, 2)), (0, 1)):
        count = runs[0] * runs[1]
        for pages, number in itertools.product(about(count)[::2] + [count], about(count)):
            yield Numbered(order=order, areas=(Area(runs=runs),), pages=pages, number=number)
    for number in range(8):
        yield Numbered(areas=(Area(empty=(number % 2, number // 2 % 2)),), others=(0, 0), number=number)
    for runs in ((3, 4), (4, 4), (3, 5), (4, 5), (U64, 1), (1, U64), (2**32, 2**32), (U64, U64)):
        yield Numbered(areas=(Area(runs=runs),), pages=U64, number=12)
    # lists about the runs, with numbers that make up no run
    for rows, columns in itertools.product((0, *range(6, 12), NUMBERS), (0, *range(10, 16), NUMBERS)):
        yield Numbered(rows=parts(rows), columns=parts(columns))
        yield Numbered(rows=parts(rows), columns=parts(columns), number=0)
    # firsts, lasts and marks about the largest number of 32 bits
    for start, number in itertools.product(range(U32 - 7, U32 + 2), range(1, 7)):
        yield Numbered(starts=(start, start), number=number)


# Six pages, none, two, and one whose bodies are empty.
FOUR = (Area(runs=(2, 3)), Area(runs=(0, 3)), Area(runs=(1, 2)), Area(empty=(1, 1), runs=(1, 1)))


def several_areas_limits():
    """Every page of four areas, of fewer and of more than there are; room about all runs; sums that pass 2^64."""
    room = {"rows": parts(16), "columns": parts(36)}
    for order, number in itertools.product((0, 1), range(12)):
        yield Numbered(order=order, areas=FOUR, pages=9, number=number, **room)
        yield Numbered(order=order, areas=FOUR, pages=U64, number=number, **room)
        yield Numbered(order=order, areas=FOUR[::-1], pages=8, number=number, **room)
    for count, number in itertools.product((0, 1, 2, 3, 5, 8, 9, 256, 2**32, U64), (1, 6, 7, 8, 9, 10)):
        yield Numbered(areas=FOUR, count=count, pages=9, number=number, **room)
    for rows, columns in itertools.product(range(15, 19), range(35, 39)):
        yield Numbered(areas=FOUR, pages=9, number=9, rows=parts(rows), columns=parts(columns))
    for runs in ((2**63, 0), (0, 2**63), (U64, 1), (1, U64), (2**61, 2**61), (2**64 - 2, 0)):
        yield Numbered(areas=(Area(), Area(runs=runs), Area(runs=runs)), pages=U64, number=1)
        yield Numbered(areas=(Area(runs=runs),) * 8, pages=U64, number=1)
        yield Numbered(areas=(Area(), Area(runs=runs)), count=1, pages=6, number=6)
    eight = {"areas": (Area(runs=(1, 1)),) * 8, "rows": parts(32), "columns": parts(32)}
    for number in range(9):
        yield Numbered(count=7 + number % 3, pages=8, number=number, **eight)


def page_limits():
    for n in itertools.chain(one_area_limits(), several_areas_limits()):
        yield page_line(n)


def lengths_drawn(r, runs):
    """A list of runs: with room enough, with room for one less, or with a number more or less."""
    lengths = [clamped(runs + pick(r, (0, 0, 0, 1, 2)), RUNS)] * 4
    if chance(r, 0.08):
        lengths = [clamped(runs - 1, RUNS)] * 4
    if chance(r, 0.05):
        at = below(r, 4)
        lengths[at] = clamped(lengths[at] + pick(r, (-1, 1)), RUNS)
    return tuple(lengths)


def runs_drawn(r, most):
    kind = below(r, 20)
    if kind == 0:
        return 0
    if kind == 1 and chance(r, 0.2):
        return pick(r, (49, U32, 2**32, 2**63, U64))
    return 1 + below(r, pick(r, (min(3, most), min(6, most), most)))


# One after another, and not drawn: of rows and of columns, below 2^32, about it and beyond it.
STARTS = (
    (2000000, 2500000),
    (2000000, U32 - 9),
    (2000000, 2500000),
    (U32 - 30, 2500000),
    (2000000, 2500000),
    (U32 - 50, U32 - 20),
    (2000000, 2500000),
    (2**63, U64 - NUMBERS),
)


def areas_counted(r):
    """The areas of a plan, and their count, which is at times another."""
    given = pick(r, (0, 1, 1, 1, 1, 2, 2, 3, 3, 4, 5, 6, 7, 8, 8))
    most = 24 if given < 3 else 6
    areas = []
    for _ in range(given):
        empty, runs = (below(r, 2), below(r, 2)), (runs_drawn(r, most), runs_drawn(r, most))
        areas.append(Area(empty=empty, runs=runs))
    count = pick(r, (0, 1, 7, 8, 9, U32, U64)) if chance(r, 0.15) else given
    return tuple(areas), count


def pages_drawn(r):
    for starts in itertools.cycle(STARTS):
        areas, count = areas_counted(r)
        counted = areas[:count]
        total = sum(area.runs[0] * area.runs[1] for area in counted) % 2**64
        pages = total if chance(r, 0.6) else pick(r, (below(r, total + 2), below(r, total + 2), total + 1, 0, U64))
        number = 1 + below(r, min(pages, 600))
        if chance(r, 0.3):
            number = pick(r, (0, pages, pages + 1, total, total + 1, U64))
        n = Numbered(
            order=below(r, 2),
            others=(below(r, 4), below(r, 4)),
            rows=lengths_drawn(r, sum(area.runs[0] for area in counted)),
            columns=lengths_drawn(r, sum(area.runs[1] for area in counted)),
            starts=starts,
            areas=areas,
            count=count,
            pages=pages % 2**64,
            number=number % 2**64,
        )
        yield page_line(n)
