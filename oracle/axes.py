"""Lines of input for the functions of the crate planner: titles with merges, and axes with all that cuts them.

The format of a line stands in axes.rs.
"""

import itertools
from dataclasses import dataclass, field, replace

ROWS, COLUMNS = 0, 1
LIMITS = (1048575, 16383)
LARGEST = 1073741823  # of a slot's size
U32, U64 = 2**32 - 1, 2**64 - 1
MOST = 24  # of a list that is read
RUNS = 48  # that a lent list has room for
NUMBERS = 4 * RUNS + 3  # of a list of runs


# ---- a line


@dataclass
class Axis:
    columns: int = ROWS
    title: tuple = None
    range: tuple = (0, 0)
    capacities: tuple = (0, 0)
    indexes: list = field(default_factory=list)
    sizes: list = field(default_factory=list)
    firsts: list = field(default_factory=list)  # of the merges
    lasts: list = field(default_factory=list)
    breaks: list = field(default_factory=list)
    lent: tuple = (0, 0, 0, 0)  # how many firsts, lasts, sizes and marks of runs


def numbers(lent):
    """How many numbers a lent list of runs has: four a run, and one for each of the four of which there is more."""
    return 4 * min(lent) + sum(count > min(lent) for count in lent)


def parts(count):
    """How many firsts, lasts, sizes and marks a list of so many numbers has."""
    return tuple((count + 3 - place) // 4 for place in range(4))


def lengths(a):
    return tuple(map(len, (a.indexes, a.sizes, a.firsts, a.lasts, a.breaks)))


def fits(a):
    """Whether a line can have the axis's lists."""
    return max(lengths(a)) <= MOST and numbers(a.lent) <= NUMBERS


def line(letter, a):
    assert fits(a), (lengths(a), a.lent)
    title = a.title or (0, 0)
    shorts = (a.columns, a.title is not None, *lengths(a), numbers(a.lent))
    tail = "".join(
        (
            " %08x" * len(a.indexes) % tuple(a.indexes),
            " %016x" * len(a.sizes) % tuple(a.sizes),
            " %08x" * len(a.firsts) % tuple(a.firsts),
            " %08x" * len(a.lasts) % tuple(a.lasts),
            " %08x" * len(a.breaks) % tuple(a.breaks),
        )
    )
    head = " %02x" * 8 % shorts + " %08x" * 4 % (*a.range, *title) + " %016x" * 2 % a.capacities
    return letter + head + tail + "\n"


# ---- drawing


def below(r, n):
    return int(r.random() * n)


def pick(r, items):
    return items[int(r.random() * len(items))]


def chance(r, share):
    return r.random() < share


def clamped(value, most):
    return 0 if value < 0 else most if value > most else value


def points(r, indexes, ends, limit):
    """Indexes at which something may start or end: those of the slots, their neighbours, and the ends of the range."""
    near = indexes or [ends[0]]
    most = [clamped(pick(r, near) + pick(r, (-1, 0, 0, 0, 1)), limit) for _ in range(6)]
    return most + [clamped(end + pick(r, (-1, 0, 0, 1)), limit) for end in ends]


def pair(r, places):
    """Two of the places, in order."""
    first, last = pick(r, places), pick(r, places)
    return (first, last) if first <= last else (last, first)


# ---- the parts of an axis


def slots_drawn(r, limit):
    """Rising indexes: close together or with gaps, at the start of the grid, at its end or between."""
    count = pick(r, (0, 1, 2, 3, 4, 5, 5, 6, 6, 7, 7, 8, 9, 10, 12, 12, 16, 22))
    step = pick(r, (1, 1, 1, 2, 3, 3, limit // 30))
    steps = [1 + below(r, step) for _ in range(count)]
    reach = sum(steps)
    start = pick(r, (0, 0, below(r, 6), below(r, 6), limit - reach, below(r, limit - reach)))
    return list(itertools.accumulate(steps, initial=start))[:count]


def sizes_drawn(r, count):
    kind = below(r, 7)
    if kind == 0:
        return [10] * count
    if kind == 1:
        return [LARGEST - below(r, 2) for _ in range(count)]
    if kind == 2:
        return [pick(r, (0, 0, 1, 2)) for _ in range(count)]
    if kind == 3:
        return [pick(r, (0, 1, 5, 10, 25, LARGEST)) for _ in range(count)]
    if kind == 4:
        return [below(r, LARGEST + 1) for _ in range(count)]
    return [below(r, 13) for _ in range(count)]


def capacity_drawn(r, sizes):
    """Nothing, little, the sum of some slots or next to it, or more than any sum."""
    kind = below(r, 10)
    if kind == 0:
        return pick(r, (0, 1))
    if kind == 1:
        return pick(r, (2**30, 2**40, 2**63 - 1, 2**63, U64))
    if kind == 2 or not sizes:
        return below(r, 40)
    start = below(r, len(sizes))
    return max(sum(sizes[start : start + 1 + below(r, 4)]) + pick(r, (-1, 0, 0, 0, 1)), 0)


def range_drawn(r, indexes, limit):
    """Around the slots, among them or after them."""
    least, most = (indexes[0], indexes[-1]) if indexes else (3, 3)
    kind = below(r, 16)
    if kind < 5:
        return least, most
    if kind < 9:
        return clamped(least - below(r, 4), limit), clamped(most + below(r, 4), limit)
    if kind < 11:
        return 0, limit
    if kind == 11:
        return min(most + 1, limit), min(most + 1 + below(r, 4), limit)
    places = indexes or [0, 3]
    return pair(r, [clamped(pick(r, places) + pick(r, (-1, 0, 0, 1)), limit) for _ in range(2)])


def title_drawn(r, places, limit):
    kind = below(r, 24)
    if kind < 9:
        return None
    first, last = pair(r, places)
    if kind == 9:
        return last, first
    if kind == 10:
        return first, pick(r, (limit, limit + 1, 65535, 65536, U32 - 1, U32))
    if kind == 11:
        return 0, last
    if kind == 12:
        return first, first
    if kind < 17:
        return first, min(first + below(r, 4), limit)
    return first, last


def merges_drawn(r, places, limit):
    """None to six: any two places, short ones, one slot, and at times the same again or one inside another."""
    count = pick(r, (0, 0, 1, 1, 1, 2, 2, 3, 4, 6))
    merges = []
    for _ in range(count):
        kind = below(r, 10)
        first, last = pair(r, places)
        if kind < 4:
            last = clamped(first + below(r, 3), limit)
        elif kind == 4:
            last = first
        elif kind == 5 and merges:
            first, last = pick(r, merges)
        elif kind == 6 and merges:
            around = pick(r, merges)
            first, last = pair(r, (around[0], around[1], (around[0] + around[1]) // 2))
        elif kind == 7:
            first = clamped(first - below(r, 3), limit)
        merges.append((first, last))
    return merges


def merges_at(r, start, limit):
    """Two to four that start about one place and end a little after it."""
    merges = []
    for _ in range(2 + below(r, 3)):
        first = clamped(start - 3 + below(r, 6), limit)
        merges.append((first, clamped(max(first, start) + below(r, 5), limit)))
    return merges


def breaks_drawn(r, indexes, places):
    kind = below(r, 8)
    if kind < 2:
        return []
    if kind == 2:
        return list(indexes[:8])
    count = 1 + below(r, 6)
    breaks = [pick(r, places) for _ in range(count)]
    if kind == 3:
        breaks[below(r, count)] = pick(r, (0, 65535, 65536, U32))
    if kind in (4, 5):
        breaks.sort()
    return breaks


def room_drawn(r, count):
    """Room for runs in the lent list: enough, or any number up to that."""
    room = count + below(r, 3) if chance(r, 0.6) else below(r, count + 1)
    return (min(room, MOST),) * 4


def axis_drawn(r):
    columns = below(r, 2)
    limit = LIMITS[columns]
    indexes = slots_drawn(r, limit)
    sizes = sizes_drawn(r, len(indexes))
    ends = range_drawn(r, indexes, limit)
    places = points(r, indexes, ends, limit)
    title = title_drawn(r, places, limit)
    merges = merges_drawn(r, places, limit)
    if chance(r, 0.15):
        merges = merges_at(r, title[1] + 1 if title else ends[0], limit)
    capacity = capacity_drawn(r, sizes)
    return Axis(
        columns=columns,
        title=title,
        range=ends,
        capacities=(capacity, capacity if chance(r, 0.3) else capacity_drawn(r, sizes)),
        indexes=indexes,
        sizes=sizes,
        firsts=[first for first, _ in merges],
        lasts=[last for _, last in merges],
        breaks=breaks_drawn(r, indexes, places),
        lent=room_drawn(r, len(indexes)),
    )


# ---- faults: each but lent_by_one makes the answer a refusal, where the axis has what it spoils


def shorter(r, a, names):
    """One list a place shorter than the other of its two, or a place longer."""
    name = pick(r, names)
    values = getattr(a, name)
    if values and chance(r, 0.5):
        return replace(a, **{name: values[:-1]})
    return replace(a, **{name: values + [pick(r, (0, 7))]})


def lent_by_one(r, a):
    """The lent list with a number more or less."""
    lent = list(a.lent)
    at = below(r, 4)
    lent[at] = lent[at] - 1 if lent[at] == RUNS or lent[at] and chance(r, 0.5) else lent[at] + 1
    return replace(a, lent=tuple(lent))


def range_reversed(r, a):
    first, last = a.range
    return replace(a, range=(min(last + 1, U32), first if chance(r, 0.5) else last))


def merge_spoilt(r, a, first, last):
    at = below(r, len(a.firsts) + 1)
    firsts, lasts = a.firsts[:], a.lasts[:]
    firsts.insert(at, first)
    lasts.insert(at, last)
    return replace(a, firsts=firsts, lasts=lasts)


def merge_reversed(r, a):
    last = below(r, 8)
    return merge_spoilt(r, a, last + 1 + below(r, 2), last)


def range_outside(r, a):
    limit = LIMITS[a.columns]
    return replace(a, range=(min(a.range[0], limit), pick(r, (limit + 1, 65536, U32))))


def merge_outside(r, a):
    limit = LIMITS[a.columns]
    first, last = pick(r, ((0, limit + 1), (limit + 1, limit + 1), (limit, U32), (5, 65536 + limit)))
    return merge_spoilt(r, a, first, last)


def index_put(a, at, index):
    """The axis with another index at a place, or with one slot more."""
    if at < len(a.indexes):
        return replace(a, indexes=a.indexes[:at] + [index] + a.indexes[at + 1 :])
    return replace(a, indexes=a.indexes + [index], sizes=a.sizes + [5])


def index_falls(r, a):
    if len(a.indexes) < 2:
        return replace(a, indexes=[4, 4], sizes=[5, 5])
    at = 1 + below(r, len(a.indexes) - 1)
    return index_put(a, at, clamped(a.indexes[at - 1] - below(r, 2), U32))


def index_outside(r, a):
    limit = LIMITS[a.columns]
    return index_put(a, max(len(a.indexes) - below(r, 2), 0), pick(r, (limit + 1, 65536 + limit, U32)))


def size_outside(r, a):
    size = pick(r, (LARGEST + 1, 2**31, 2**32, 2**63, U64))
    if not a.sizes:
        return replace(a, indexes=[0], sizes=[size])
    at = below(r, len(a.sizes))
    return replace(a, sizes=a.sizes[:at] + [size] + a.sizes[at + 1 :])


def room_short(r, a):
    return replace(a, lent=(below(r, 3) if len(a.indexes) > 6 else 0,) * 4)


TITLE_FAULTS = (
    lambda r, a: shorter(r, a, ("firsts", "lasts")),
    merge_reversed,
    merge_outside,
)

AXIS_FAULTS = (
    lambda r, a: shorter(r, a, ("indexes", "sizes")),
    lent_by_one,
    range_reversed,
    range_outside,
    index_falls,
    index_outside,
    size_outside,
    room_short,
    *TITLE_FAULTS,
)


def spoilt(r, a, faults):
    """At times a fault, at times several. One that makes a list longer than a line can have is left out."""
    while chance(r, 0.12):
        worse = pick(r, faults)(r, a)
        if fits(worse):
            a = worse
    return a


# ---- widen_title


def title_axis(columns, title, merges):
    return Axis(columns=columns, title=title, firsts=[f for f, _ in merges], lasts=[l for _, l in merges])


def chains():
    """Merges of which each meets the next alone, in both orders: as many passes as there are merges, or one."""
    for count in range(1, 9):
        up = [(5 + k, 6 + k) for k in range(count)]
        down = [(5 - k, 6 - k) for k in range(min(count, 5))]
        for merges in (up, up[::-1], down, down[::-1], up + down, down + up, up[::2] + up[1::2]):
            yield merges


def widen_limits():
    for columns in (ROWS, COLUMNS):
        limit = LIMITS[columns]
        ends = (0, 5, limit - 1, limit, limit + 1, 65535, 65536, U32 - 1, U32)
        yield line("t", title_axis(columns, None, []))
        yield line("t", title_axis(columns, None, [(5, 6)]))
        for first, last in itertools.product(ends, ends):
            yield line("t", title_axis(columns, (first, last), []))
            yield line("t", title_axis(columns, (first, last), [(4, 6), (limit - 1, limit)]))
        for first, last in itertools.combinations_with_replacement(range(3, 8), 2):
            for merge in itertools.combinations_with_replacement(range(3, 8), 2):
                yield line("t", title_axis(columns, (first, last), [merge]))
        for merges in chains():
            yield line("t", title_axis(columns, (5, 5), merges))
        for merge in ((6, 5), (limit, limit + 1), (limit + 1, limit), (0, U32)):
            yield line("t", title_axis(columns, (5, 5), [(5, 6), merge]))
            yield line("t", title_axis(columns, None, [merge, (5, 6)]))
        spoilt_two = title_axis(columns, (5, 5), [(limit, limit + 1), (6, 5)])
        yield line("t", spoilt_two)
        yield line("t", replace(spoilt_two, firsts=spoilt_two.firsts[:1]))


def widen_drawn(r):
    while True:
        columns = below(r, 2)
        limit = LIMITS[columns]
        start = pick(r, (0, 0, 0, below(r, limit), limit - 12))
        places = [clamped(start + below(r, 13), limit) for _ in range(8)]
        merges = merges_drawn(r, places, limit) + merges_drawn(r, places, limit)
        a = title_axis(columns, title_drawn(r, places, limit), merges)
        yield line("t", spoilt(r, a, TITLE_FAULTS))


# ---- partition_axis_with_breaks

FIVE = Axis(
    range=(0, 4),
    capacities=(25, 25),
    indexes=[0, 1, 2, 3, 4],
    sizes=[10] * 5,
    lent=(6, 6, 6, 6),
)


def moved(a, columns, by):
    """The axis, so many indexes further on."""
    return replace(
        a,
        columns=columns,
        title=a.title and (a.title[0] + by, a.title[1] + by),
        range=(a.range[0] + by, a.range[1] + by),
        indexes=[i + by for i in a.indexes],
        firsts=[i + by for i in a.firsts],
        lasts=[i + by for i in a.lasts],
        breaks=[i + by for i in a.breaks],
    )


def worked():
    """The worked cases of document 01."""
    yield FIVE
    yield replace(FIVE, firsts=[1], lasts=[2])
    yield replace(FIVE, firsts=[0], lasts=[3])
    yield replace(FIVE, breaks=[3, 1, 0, 5])
    yield replace(FIVE, firsts=[1], lasts=[2], breaks=[2])
    yield replace(FIVE, firsts=[0], lasts=[4], breaks=[2])
    yield replace(FIVE, title=(1, 2), capacities=(25, 15))
    yield replace(FIVE, indexes=[0, 1, 2], sizes=[25, 0, 1])
    yield replace(FIVE, indexes=[], sizes=[])


def places_in_five():
    """Every title, every merge and every break over five slots, one after another and some together."""
    pairs = list(itertools.combinations_with_replacement(range(5), 2))
    for title in (None, *pairs):
        yield replace(FIVE, title=title, capacities=(15, 15))
        yield replace(FIVE, title=title, capacities=(25, 15), sizes=[10, 20, 0, 20, 10])
        for b in range(6):
            yield replace(FIVE, title=title, breaks=[b])
    for title, merge in itertools.product((None, (0, 1), (1, 2), (1, 3), (2, 4)), pairs):
        a = replace(FIVE, title=title, capacities=(25, 15), firsts=[merge[0]], lasts=[merge[1]])
        yield a
        yield replace(a, breaks=[2, 4])
    for one, other in itertools.product(pairs[1::2], pairs[::3]):
        yield replace(FIVE, firsts=[one[0], other[0]], lasts=[one[1], other[1]], breaks=[3])


def ranges_in_five():
    wide = moved(FIVE, ROWS, 10)
    for first, last in itertools.combinations_with_replacement((0, 8, 9, 10, 11, 13, 14, 15, 16, 20), 2):
        yield replace(wide, range=(first, last))
        yield replace(wide, range=(first, last), title=(9, 11), firsts=[8, 12], lasts=[12, 17], breaks=[12, 14])


def clipped():
    """Merges that start before the body or differ before it only, with the body's start measured or not."""
    rows = Axis(range=(5, 9), capacities=(25, 25), indexes=list(range(5, 10)), sizes=[10] * 5, lent=(5,) * 4)
    after_title = replace(rows, range=(3, 9), title=(3, 4), indexes=list(range(3, 10)), sizes=[10] * 7)
    unmeasured = replace(rows, indexes=[7, 8, 9, 10], sizes=[10] * 4)
    beyond = replace(rows, range=(5, 8))
    crossing = ([(2, 8), (3, 7)], [(3, 7), (2, 8)], [(2, 7), (3, 8)])
    merges = (*crossing, [(4, 8), (5, 7), (5, 9)], [(5, 9), (6, 8)], [(3, 9), (4, 8)])
    for a, pairs in itertools.product((rows, after_title, unmeasured, beyond), merges):
        merged = replace(a, firsts=[f for f, _ in pairs], lasts=[l for _, l in pairs])
        for b in ([], [6], [7], [8], [9], [8, 9]):
            yield replace(merged, breaks=b)


def cut_at_the_end():
    """A cut at the end is dropped, and a later break still makes one."""
    a = replace(FIVE, firsts=[1, 1], lasts=[4, 2])
    for breaks in itertools.permutations((1, 2, 3)):
        yield replace(a, breaks=list(breaks))


def capacities_in_five():
    sums = (0, 1, 9, 10, 11, 19, 20, 21, 50, 51, 2**63 - 1, 2**63, U64)
    for untitled, titled in itertools.product(sums, (0, 1, 15, 20, U64)):
        yield replace(FIVE, capacities=(untitled, titled), title=(0, 1))
        yield replace(FIVE, capacities=(untitled, titled), title=(1, 2))
    for size in (0, LARGEST):
        for capacity in (0, LARGEST - 1, LARGEST, 2 * LARGEST, U64):
            yield replace(FIVE, sizes=[size] * 5, capacities=(capacity, capacity))


def rooms():
    """Room for as many runs as there are, fewer, more; and numbers that make up no run."""
    for room in range(7):
        yield replace(FIVE, lent=(room,) * 4)
        yield replace(FIVE, lent=(room,) * 4, title=(0, 4))
    for count in (1, 2, 3, 9, 10, 11, 13, 14, 15, NUMBERS - 2, NUMBERS - 1, NUMBERS):
        yield replace(FIVE, lent=parts(count))


def grid_ends(columns):
    limit = LIMITS[columns]
    end = moved(FIVE, columns, limit - 4)
    yield end
    beyond = ((0, limit + 1), (limit - 4, U32), (0, U32), (U32, U32), (U32, 0))
    for title in ((limit - 4, limit), (0, limit), (limit, limit), *beyond):
        yield replace(end, title=title)
        yield replace(end, title=title, range=(limit, limit))
        yield replace(end, title=title, firsts=[limit - 1], lasts=[limit], breaks=[limit, limit + 1, 65535, 65536, U32])


def single_faults(columns):
    """Each question's faults alone, and every two together."""
    limit = LIMITS[columns]
    five = replace(FIVE, columns=columns)
    faults = {
        "range": ("range", (5, 4)),
        "merge": ("firsts", [3]),
        "a number short": ("lent", parts(11)),
        "slots": ("sizes", [10] * 4 + [LARGEST + 1] * 2),
        "outside": ("range", (0, limit + 1)),
        "merge outside": ("lasts", [limit + 1]),
        "equal": ("indexes", [0, 1, 1, 3, 4]),
        "falling": ("indexes", [0, 1, 4, 3, 2]),
        "index outside": ("indexes", [0, 1, 2, 3, limit + 1]),
        "size": ("sizes", [10, 10, LARGEST + 1, 10, 10]),
        "largest size": ("sizes", [U64] * 5),
        "room": ("lent", (2, 2, 2, 2)),
    }
    merged = replace(five, firsts=[1], lasts=[2])
    for one, other in itertools.combinations_with_replacement(faults.values(), 2):
        yield replace(merged, **dict((one, other)))


def axis_limits():
    for a in worked():
        yield line("r", a)
        yield line("r", moved(a, COLUMNS, 7))
    parts = (places_in_five, ranges_in_five, clipped, cut_at_the_end, capacities_in_five, rooms)
    for a in itertools.chain.from_iterable(part() for part in parts):
        yield line("r", a)
    for columns in (ROWS, COLUMNS):
        for a in itertools.chain(grid_ends(columns), single_faults(columns)):
            yield line("r", a)


def axes_drawn(r):
    while True:
        yield line("r", spoilt(r, axis_drawn(r), AXIS_FAULTS))
