"""Lines of input for plan_job of the crate job: whole jobs, as they have to be and damaged.

The format of a line stands in jobs.rs. A job is a list of records here, each the bytes of its mark and of its body;
damage can leave any other bytes there.
"""

import itertools
import random
import struct
from dataclasses import replace

import plans
from axes import COLUMNS, LARGEST, LIMITS, ROWS, U32, U64, below, chance, pick
from margins import INFINITE, bits, stepped
from plans import Plan

# The marks in order, and what follows each, as struct has it.
BODIES = {
    "PC": "H", "LA": "", "MG": "QQQQQQ", "SC": "H", "FW": "H", "FH": "H", "FT": "B", "OD": "B", "HD": "", "LP": "Q",
    "UC": "Q", "AR": "IHIH", "TR": "II", "TC": "HH", "RW": "IQ", "CL": "HQ", "MR": "IHIH", "BR": "I", "BC": "H",
    "EN": "",
}  # fmt: skip
MARKS = [mark.encode("ascii") for mark in BODIES]
REPEATED = (b"AR", b"RW", b"CL", b"MR", b"BR", b"BC")
MOST_AREAS = plans.MOST_AREAS
HIGHEST = {"B": 255, "H": 65535, "I": U32, "Q": U64}
MOST = 60000  # bytes of a job
END = b"EN"


# ---- a job


def line(data):
    return f"{len(data):08x}{data.hex()}\n"


def record(mark, *values):
    """A record. A number that is too large for its field is the largest there; a size below 0 is two's complement."""
    letters = BODIES[mark]
    fields = [value % 2**64 if letter == "Q" else min(value, HIGHEST[letter]) for letter, value in zip(letters, values)]
    return mark.encode("ascii") + struct.pack("<" + letters, *fields)


def given(mark, value):
    """The record of a setting, if it is given."""
    if value is None:
        return []
    return [record(mark, *value) if isinstance(value, (tuple, list)) else record(mark, value)]


def bare(mark, there):
    return [record(mark)] if there else []


def settings(p, explicit):
    """The records before AR. Fit, order and limit that absence means too are written if they are explicit."""
    margins = None if p.margins is None else [m if isinstance(m, int) else bits(m) for m in p.margins]
    fits = int(p.width is not None or p.height is not None)
    fit = p.fit if p.fit != fits or "FT" in explicit else None
    order = p.order if p.order or "OD" in explicit else None
    limit = p.limit if p.limit != 10000 or "LP" in explicit else None
    return (
        given("PC", p.paper) + bare("LA", p.landscape) + given("MG", margins) + given("SC", p.percent)
        + given("FW", p.width) + given("FH", p.height) + given("FT", fit) + given("OD", order)
        + bare("HD", p.headings) + given("LP", limit) + given("UC", p.cells)
    )  # fmt: skip


def records(p, explicit=()):
    """The job of a plan."""
    rows, columns = p.rows, p.columns
    job = settings(p, explicit) + [record("AR", *area) for area in plans.areas_of(p)]
    job += given("TR", rows.title) + given("TC", columns.title)
    job += [record("RW", *slot) for slot in zip(rows.indexes, rows.sizes)]
    job += [record("CL", *slot) for slot in zip(columns.indexes, columns.sizes)]
    job += [record("MR", *merge) for merge in zip(rows.firsts, columns.firsts, rows.lasts, columns.lasts)]
    job += [record("BR", index) for index in rows.breaks] + [record("BC", index) for index in columns.breaks]
    return job + [END]


def rank(part):
    """The place of a record in the order; anything else stands last."""
    return MARKS.index(part[:2]) if part[:2] in MARKS else len(MARKS)


def added(job, new):
    """The job with a record behind those of its kind and of the kinds before it."""
    at = sum(1 for _ in itertools.takewhile(lambda part: rank(part) <= rank(new), job))
    return job[:at] + [new] + job[at:]


def put(job, new):
    """The job with a record at its place, instead of those of its kind, or behind them if it repeats and is no AR."""
    instead = new[:2] == b"AR" or new[:2] not in REPEATED
    return added([part for part in job if part[:2] != new[:2]] if instead else job, new)


def changed(job, at, *new):
    """The job with other parts instead of the one at a place."""
    return [*job[:at], *new, *job[at + 1 :]]


def places(job, marks):
    """Where records with one of the marks stand."""
    return [at for at, part in enumerate(job) if part[:2] in marks]


def fitted(data):
    """Whether fit is on in a job whose records are whole."""
    flags, at = {}, 0
    while data[at : at + 2] != END:
        mark = data[at : at + 2].decode("ascii")
        flags[mark], at = data[at + 2], at + 2 + struct.calcsize("<" + BODIES[mark])
    return bool(flags.get("FT", "FW" in flags or "FH" in flags))


# ---- faults, by the question that a job with them does not pass


def marked_anew(r, job):
    """An unknown mark: other letters, the same letters in another order or small, or no letters."""
    if not places(job, MARKS):
        return job
    at = pick(r, places(job, MARKS))
    mark = job[at][:2]
    strange = (mark[::-1], mark.lower(), b"\0\0", b"XX", bytes((mark[0] ^ 1 << below(r, 8),)) + mark[1:])
    new = pick(r, [other for other in strange if other not in MARKS])
    return changed(job, at, new + job[at][2:])


def cut_off(r, job):
    """Fewer bytes than there are up to the first EN."""
    before = job[: job.index(END)] if END in job else job
    return [b"".join(before)[: below(r, len(b"".join(before)) + 1)]]


def not_ended(_, job):
    return [part for part in job if part != END]


def goes_on(r, job):
    return job + [pick(r, (b"\0", b"E", END, b"XX", b"\n", record("HD"), record("BC", 3), b"".join(job)))]


def ends_early(r, job):
    at = below(r, len(job))
    return job[:at] + [END] + job[at:]


def no_range(_, job):
    return [part for part in job if part[:2] != b"AR"]


def two_exchanged(r, job):
    """Two records of different kinds, neither of them EN, in each other's place."""
    marks = sorted({part[:2] for part in job if part != END})
    if len(marks) < 2:
        return no_range(r, job)
    one, other = (pick(r, places(job, (mark,))) for mark in r.sample(marks, 2))
    job = list(job)
    job[one], job[other] = job[other], job[one]
    return job


def areas_in(job):
    return [struct.unpack("<IHIH", job[at][2:]) for at in places(job, (b"AR",))]


def nine_ranges(r, job):
    """More areas than there may be: the same again, or any."""
    for _ in range(MOST_AREAS + 1 + below(r, 3) - len(areas_in(job))):
        new = pick(r, areas_in(job) or [(0, 0, 0, 0)]) if chance(r, 0.7) else [below(r, 9) for _ in range(4)]
        job = added(job, record("AR", *new))
    return job


def cells_short(r, job):
    """Fewer cells than the areas have, as far as these are areas."""
    areas = [area for area in areas_in(job) if area[0] <= area[2] and area[1] <= area[3]]
    return put(job, record("UC", pick(r, (0, max(plans.cells_in(areas) - 1, 0)))))


def doubled(r, job):
    """A record twice that may stand once."""
    found = [at for at in places(job, MARKS) if job[at][:2] not in (*REPEATED, END)]
    if not found:
        return job
    at = pick(r, found)
    return changed(job, at, job[at], job[at])


def flag_beyond(r, job):
    return put(job, record(pick(r, ("FT", "OD")), pick(r, (2, 3, 128, 255))))


def area_changed(r, job, change):
    """Another AR or MR; a merge is added if there is none."""
    mark = pick(r, ("AR", "MR"))
    found = places(job, (mark.encode("ascii"),))
    if not found:
        return put(job, record(mark, *change([0, 0, 2, 2])))
    at = pick(r, found)
    return changed(job, at, record(mark, *change(list(struct.unpack("<IHIH", job[at][2:])))))


def area_reversed(r, job):
    def change(cells):
        columns = below(r, 2)
        first = pick(r, (cells[columns], LIMITS[columns], HIGHEST["IH"[columns]]))
        cells[columns], cells[columns + 2] = max(first, 1), pick(r, (max(first, 1) - 1, 0))
        return cells

    return area_changed(r, job, change)


def area_outside(r, job):
    def change(cells):
        columns = below(r, 2)
        cells[columns + 2] = pick(r, (LIMITS[columns] + 1, HIGHEST["IH"[columns]]))
        if chance(r, 0.3):
            cells[columns] = cells[columns + 2]
        return cells

    return area_changed(r, job, change)


def slot_changed(r, job, change):
    """Another RW or CL, made of its axis, index and size, and the index before it; one is added if there is none."""
    columns = below(r, 2)
    mark = ("RW", "CL")[columns]
    found = places(job, (mark.encode("ascii"),))
    if not found:
        return put(job, record(mark, *change(columns, 0, 100, None)))
    slots = [struct.unpack("<" + BODIES[mark], job[at][2:]) for at in found]
    which = below(r, len(found))
    before = slots[which - 1][0] if which else None
    return changed(job, found[which], record(mark, *change(columns, *slots[which], before)))


def index_wrong(r, job):
    """An index as the one before it, below that, or outside the grid."""

    def change(columns, _, size, before):
        outside = (LIMITS[columns] + 1, HIGHEST["IH"[columns]])
        wrong = outside if before is None else (*outside, before, before, before, max(before - 1, 0))
        return pick(r, wrong), size

    return slot_changed(r, job, change)


def size_wrong(r, job):
    """A size below 0 or above the largest."""

    def change(_, index, *__):
        return index, pick(r, (-1, -1, -(2**63), LARGEST + 1, 2**32, 2**63 - 1))

    return slot_changed(r, job, change)


def no_pages(_, job):
    return put(job, record("LP", 0))


FAULTS = {
    2: (marked_anew, cut_off, not_ended),
    3: (goes_on, ends_early),
    4: (no_range, two_exchanged, doubled, nine_ranges),
    5: (flag_beyond,),
    6: (area_reversed,),
    7: (area_outside,),
    15: (cells_short,),
    8: (index_wrong,),
    9: (size_wrong,),
    12: (no_pages,),
}
ALL_FAULTS = [(number, fault) for number, faults in FAULTS.items() for fault in faults]


def bytes_damaged(r, job):
    """One place of the bytes changed, left out, put in or said twice."""
    data = b"".join(job)
    at = below(r, len(data) + 1)
    kind = below(r, 4)
    if kind == 0:
        return [data[:at], bytes(byte ^ 1 << below(r, 8) for byte in data[at : at + 1]), data[at + 1 :]]
    if kind == 1:
        return [data[:at], data[at + 1 + below(r, 3) :]]
    if kind == 2:
        return [data[:at], bytes((pick(r, (0, 1, 69, 78, 255)),)), data[at:]]
    return [data[:at], data[max(at - below(r, 30), 0) :]]


# ---- large jobs


def padded(job, length):
    """The job with breaks of columns, and a flag and headings where it takes them, so that it has that many bytes."""
    job = put(job, record("FT", 1)) if (length - len(b"".join(job))) % 2 else job
    job = put(job, record("HD")) if (length - len(b"".join(job))) % 4 else job
    more = (length - len(b"".join(job))) // 4
    return job[:-1] + [record("BC", at % 700) for at in range(more)] + [END]


def large_axis(columns, count, size):
    return replace(plans.slots(columns, [size] * count), range=(0, count))


def large_plan(rows, columns, size):
    return Plan(rows=large_axis(ROWS, rows, size), columns=large_axis(COLUMNS, columns, size))


def areas_of_large(r, p):
    """The plan with one to eight areas, of all its slots or of a part of them."""
    area = plans.areas_of(p)[0]
    count = pick(r, (1, 2, 3, 8, 8))
    parts = [(below(r, area[2] + 1), below(r, area[3] + 1), area[2], area[3]) for _ in range(count - 1)]
    return replace(p, areas=[area, *(part if chance(r, 0.5) else area for part in parts)])


def full_plan():
    """A fit of many rows and columns with titles, merges and breaks."""
    p = replace(large_plan(2000, 700, 20000), fit=1, width=5, height=7)
    p = plans.merged(p, [(at, at // 3, at + at % 4, at // 3 + at % 2) for at in range(5, 1000, 3)])
    p.rows.title, p.columns.title, p.rows.breaks = (900, 903), (0, 1), list(range(1999, 0, -2))
    return p


def longest():
    """60,000 bytes; 60,001 with nothing else wrong; and 60,001 where every question finds a fault."""
    job = padded(records(full_plan()), MOST)
    yield job
    yield padded(records(full_plan()), MOST + 1)
    r = random.Random("longest")
    for _, fault in reversed(ALL_FAULTS):
        if fault is not cut_off:
            job = fault(r, job)
    yield [b"".join(job)[:MOST].ljust(MOST + 1, b"N")]


def large_drawn(r):
    """Many rows, many columns, many of both, or many of everything; at times 60,000 bytes or one more."""
    kind = below(r, 6)
    if kind == 0:
        p = large_plan(4270, below(r, 2), pick(r, (0, 300, 20000, 700000)))
    elif kind == 1:
        p = large_plan(below(r, 2), 4980, pick(r, (0, 300, 20000, 700000)))
    elif kind == 2:
        p = large_plan(1000 + below(r, 2000), 500 + below(r, 600), 1 + below(r, 60000))
    else:
        p = full_plan()
    fit = {"fit": 1, "width": pick(r, (0, 1, 9)), "height": pick(r, (0, 1, 9))} if chance(r, 0.4) else {}
    p = replace(p, order=below(r, 2), landscape=below(r, 2), limit=pick(r, (10000, 40000)), **fit)
    job = records(p if kind > 3 else areas_of_large(r, p))
    return padded(job, MOST + kind // 5) if kind > 3 else job


# ---- jobs that are drawn


def strange_margins(r, p):
    """At times a margin is a NaN, infinite, zero, tiny, or any float, with either sign."""
    if p.margins is None or chance(r, 0.8):
        return p
    nan = INFINITE | 1 + below(r, 2**52 - 1)
    strange = (INFINITE, 0, 1, nan, nan, r.getrandbits(63))
    margins = list(p.margins)
    margins[below(r, 6)] = pick(r, strange) | below(r, 2) << 63
    return replace(p, margins=tuple(margins))


def strewn(r):
    """Records of any kind, with numbers of any size, in any order or in that of the marks."""
    parts = [END]
    for _ in range(1 + below(r, 8)):
        mark = pick(r, list(BODIES))
        parts.append(record(mark, *(pick(r, (0, 1, below(r, 40), r.getrandbits(64))) for _ in BODIES[mark])))
    return sorted(parts, key=rank) if chance(r, 0.7) else parts[1:] + parts[:1]


def job_drawn(r):
    kind = r.random()
    if kind < 0.0004:
        return large_drawn(r)
    if kind < 0.02:
        return strewn(r)
    p = plans.even_plan(r) if kind < 0.1 else plans.plan_drawn(r)
    return records(strange_margins(r, p), [mark for mark in ("FT", "OD", "LP") if chance(r, 0.3)])


def spoilt(r, job):
    """At times a fault, at times two or more; those that leave no records come last."""
    numbers = []
    while chance(r, 0.18):
        numbers.append(pick(r, list(FAULTS)))
    for number in sorted(numbers, key=list(FAULTS).index, reverse=True):
        job = pick(r, FAULTS[number])(r, job)
    return job


def jobs_drawn(r):
    """Most are as they have to be, some have faults, some are damaged in their bytes."""
    while True:
        job = spoilt(r, job_drawn(r))
        if chance(r, 0.06):
            job = bytes_damaged(r, job)
        yield line(b"".join(job)[: MOST + 1])


# ---- the limits of plan_job

# A record of each kind, and a job of several pages that all of them matter to.
EACH = [
    record("PC", 9), record("LA"), record("MG", *map(bits, (0.5, 0.25, 1.0, 0.75, 0.3, 0.2))), record("SC", 90),
    record("FW", 1), record("FH", 2), record("FT", 0), record("OD", 1), record("HD"), record("LP", 40),
    record("UC", 60), record("AR", 0, 0, 8, 5), record("TR", 0, 0), record("TC", 0, 0), record("RW", 0, 300000),
    record("CL", 0, 200000),
    record("MR", 2, 2, 3, 3), record("BR", 3), record("BC", 4), END,
]  # fmt: skip
SLOTS = [record("RW", at, 300000) for at in range(1, 7)] + [record("CL", at, 400000) for at in range(1, 5)]
SEVERAL = sorted(EACH + SLOTS, key=rank)
UNLIMITED = [part for part in SEVERAL if part[:2] != b"UC"]
LEAST = [record("AR", 0, 0, 8, 5), END]
SMALL = [EACH[11], EACH[14], record("RW", 1, 700000), EACH[15], END]


def of_plans():
    """The limits of plan_pages, as far as a job can say them, with what may be absent absent and given."""
    parts = [part for part in plans.LIMIT_PARTS if part not in (plans.rooms, plans.single_faults)]
    for at, p in enumerate(p for part in parts for p in part()):
        yield records(p, ("FT", "OD", "LP") if at % 2 else ())


def cut_short():
    """A job cut off at every length."""
    data = b"".join(EACH)
    for length in range(len(data)):
        yield [data[:length]]


def marks():
    """Each mark, one after another, as every other mark, and as unknown ones."""
    for at, part in enumerate(EACH):
        mark, body = part[:2], part[2:]
        unknown = (mark[::-1], mark.lower(), b"\0" + mark[1:], mark[:1] + b" ", mark[:1] + bytes((mark[1] ^ 128,)))
        for other in (*MARKS, *unknown):
            if other != mark:
                yield changed(EACH, at, other + body)


def there_and_not():
    """Each kind alone and every two kinds absent, and each alone there."""
    for marks in itertools.combinations_with_replacement(MARKS, 2):
        yield [part for part in SEVERAL if part[:2] not in marks]
    for part in EACH:
        yield put(LEAST, part)
        yield put(put(SMALL, record("FW", 1)), part)


def orders():
    """Two records exchanged; a record twice; a record at the start, and at the end."""
    for one, other in itertools.combinations(range(len(EACH)), 2):
        job = list(EACH)
        job[one], job[other] = job[other], job[one]
        yield job
    for at, part in enumerate(EACH):
        yield changed(EACH, at, part, part)
        yield EACH[:-1] + [part, END]
        yield [part] + changed(EACH, at)
        yield changed(EACH, at)[:-1] + [part, END]
        yield put(SEVERAL, part)


def ends():
    """EN at every place, missing, twice; and what may follow it."""
    for at in range(len(EACH)):
        yield EACH[:at] + [END] + EACH[at:]
        yield EACH[:at] + [END]
    for behind in (b"\0", b"E", b"N", b"\n", END, END * 2, b"XX", b"en", record("HD"), record("LP", 1)[:5], *EACH):
        yield SMALL + [behind]
        yield LEAST + [behind, END]
    yield SMALL * 2
    for data in (b"", b"E", b"N", b"EN", b"NE", b"en", b"ENEN", b"AR", b"\0", b"\0\0", b"PC", b"LAEN", b"HDLAEN"):
        yield [data]


def cut_everywhere(columns, count):
    """An axis of slots of no size, with a break before each."""
    return replace(plans.slots(columns, [0] * count), breaks=list(range(count)))


def page_limits():
    """About the count of six pages; none; the largest; and 10,000 pages and one more where none is given."""
    for order, limit in itertools.product((0, 1), (*range(9), U32, 2**32, 2**63 - 1, 2**63, U64)):
        yield records(replace(plans.FIVE, order=order, limit=limit))
    for high, wide in ((100, 100), (73, 137)):
        yield records(Plan(rows=cut_everywhere(ROWS, high), columns=cut_everywhere(COLUMNS, wide)))


def odd_margins():
    """Each margin alone: NaNs; zero, tiny, the largest and infinite, with either sign; and about a side."""
    minus = 1 << 63
    nans = (INFINITE | 1, minus | INFINITE | 1, 0x7FF8 << 48, 0xFFF8 << 48, 2**63 - 1, U64, 0x7FF8DEAD << 32 | 0xBEEF)
    ends = (0, 1, INFINITE - 1, INFINITE, minus, minus | 1, minus | INFINITE - 1, minus | INFINITE)
    sides = [bits(stepped(side, steps)) for side in (8.0, 8.5, 10.5, 11.0) for steps in (-1, 0)]
    for at, value in itertools.product(range(6), (*nans, *ends, *sides)):
        margins = [bits(0.5)] * 6
        margins[at] = value
        yield put(SMALL, record("MG", *margins))
    # margins that leave a width of -1
    narrow = put(put(SMALL, record("PC", 70)), record("MG", 0x3FC35A2AAAAAAAAB, 0x400FDC82AAAAAAAA, 0, 0, 0, 0))
    yield from (narrow, put(narrow, record("HD")), put(narrow, record("FT", 1)))


def odd_titles():
    """Reversed, beyond the grid, before, about and after the range, on both axes."""
    for mark, limit, highest in (("TR", LIMITS[ROWS], U32), ("TC", LIMITS[COLUMNS], 65535)):
        pairs = [(1, 0), (limit, 0), (highest, 0), (0, 3), (2, 2), (3, 9), (limit, limit), (limit + 1, limit + 1)]
        pairs += [(0, limit), (0, limit + 1), (highest, highest), (0, highest)]
        for pair, fit in itertools.product(pairs, (0, 1)):
            yield put(put(SEVERAL, record(mark, *pair)), record("FT", fit))


def odd_slots():
    """The least and the largest indexes and sizes that are taken, and those beside them, as the last of an axis."""
    for mark, limit, highest in (("RW", LIMITS[ROWS], U32), ("CL", LIMITS[COLUMNS], 65535)):
        for index in (0, 3, 4, 5, 6, 7, limit - 1, limit, limit + 1, highest):
            yield put(SEVERAL, record(mark, index, 1000))
        for size in (0, 1, LARGEST - 1, LARGEST, LARGEST + 1, 2**31, 2**32, 2**63 - 1, 2**63, U64):
            yield put(SEVERAL, record(mark, 7, size))


def odd_areas():
    """AR and MR of one cell, the whole grid, and just outside it."""
    rows, columns = LIMITS
    corners = (0, 0, 0, 0), (rows, columns, rows, columns), (0, 0, rows, columns), (1, 1, 5, 3)
    for mark, (top, left, bottom, right) in itertools.product(("AR", "MR"), corners):
        for down, over in itertools.product((0, 1), (0, 1)):
            yield put(UNLIMITED, record(mark, top, left, bottom + down, right + over))
            yield put(UNLIMITED, record(mark, top + down, left + over, bottom, right))


def with_areas(job, *areas):
    """The job with other areas."""
    for area in areas:
        job = added(job, record("AR", *area))
    return job


NO_AREA = [part for part in UNLIMITED if part[:2] != b"AR"]


def several_areas():
    """None to ten; nested, equal, next to each other and past the slots; UC about their cells; LP about their pages."""
    for count in range(11):
        yield with_areas(NO_AREA, *[(0, 0, 8, 5)] * count)
        yield put(with_areas(NO_AREA, *[(0, 0, 8, 5)] * count), record("FT", 1))
        yield put(with_areas(NO_AREA, *[(count, 0, 8, 5)] * count), record("FT", 2))
    blocks = ((0, 0, 8, 5), (0, 0, 0, 0), (2, 2, 3, 3), (1, 0, 4, 5), (5, 0, 8, 5), (7, 6, 9, 9))
    for one, other in itertools.product(blocks, blocks):
        job, cells = with_areas(NO_AREA, one, other), plans.cells_in([one, other])
        yield job
        yield put(job, record("FT", 1))
        for limit in (0, cells - 1, cells):
            yield put(job, record("UC", limit))
    three = with_areas(NO_AREA, (0, 0, 8, 5), (0, 0, 0, 0), (1, 0, 8, 5))
    for limit in range(17, 24):
        yield put(three, record("LP", limit))
    for limit in (2**34 - 1, 2**34, U64):
        yield put(with_areas(NO_AREA, (0, 0, *LIMITS), (1, 1, 1, 1)), record("UC", limit))


def faults_of_areas():
    """A second area that is turned or outside, before and behind others, beside a limit of cells that holds or not."""
    whole = (0, 0, 8, 5)
    outside = (0, 0, 0, LIMITS[COLUMNS] + 1), (0, 0, LIMITS[ROWS] + 1, 0), (U32, 65535, U32, 65535)
    for bad in ((1, 0, 0, 0), (0, 1, 0, 0), *outside):
        for areas in ((bad,), (whole, bad), (bad, whole), (whole,) * 7 + (bad,), (whole,) * 8 + (bad,)):
            job = with_areas(NO_AREA, *areas)
            yield job
            yield put(job, record("UC", 0))
    for mark in (b"TR", b"RW", b"EN"):
        at = places(SEVERAL, (mark,))[0] + (mark != b"EN")
        yield SEVERAL[:at] + [record("AR", *whole)] + SEVERAL[at:]
    for at in range(len(UNLIMITED)):
        yield UNLIMITED[:at] + [record("UC", 60)] + UNLIMITED[at:]
    r = random.Random("faults of areas")
    two = with_areas(SEVERAL, (1, 1, 9, 5))
    for _, fault in ALL_FAULTS:
        yield fault(r, put(two, record("UC", 58)))
        yield fault(r, put(two, record("UC", 59)))


def long_areas():
    """Two areas of more runs together than a list of `plan` has room for."""
    p = large_plan(2501, 1, 700000)
    yield records(replace(p, areas=[(0, 0, 2500, 0)] * 2))


def faults():
    """Each fault alone, and every two."""
    for one, other in itertools.combinations_with_replacement(range(len(ALL_FAULTS)), 2):
        for turn in range(4):
            r = random.Random(f"faults {one} {other} {turn}")
            job = SEVERAL
            for _, fault in (ALL_FAULTS[other], ALL_FAULTS[one])[: 1 + (one != other)]:
                job = fault(r, job)
            yield job


LIMIT_PARTS = (
    of_plans,
    cut_short,
    marks,
    there_and_not,
    orders,
    ends,
    page_limits,
    odd_margins,
    odd_titles,
    odd_slots,
    odd_areas,
    several_areas,
    faults_of_areas,
    long_areas,
    faults,
    longest,
)


def job_limits():
    for part in LIMIT_PARTS:
        for job in part():
            yield line(b"".join(job))
