"""The lines of the weekly windows: worked cases, edges of windows and spans, far weeks, windows in any order, refusals, records of every kind, and what is out of form."""

import random
import sys

import records
from from_bits import bits
from model import LENT, LINE, TOP, WEEK, WINDOWS, Record, Settings
from questions import note_times, runs, wrong
from records import made, others, times_of
from sarrays import all_of

MAX = TOP - 1
DAY = 86_400

# The week in parts of 4,096 seconds: so many, and a shorter one.
PART = 4_096
PARTS = WEEK // PART

# Cases with the answers that the document gives for them.

EXAMPLES = f"""
# nothing is set, then no words: no image, whatever the windows
windows 0 1814400 21600 32400 -> refused 7
buffer 0 0 -> ok
windows 0 1814400 21600 32400 -> refused 7
windows 0 1814400 5 -> refused 7
# starts in three weeks: Monday 00:00:00, 05:59:59, 06:00:00 twice, 08:59:59, 09:00:00, Sunday 23:59:59, then Monday 00:00:00 and 06:00:00
buffer 30 9 -> ok
start 1814400 12 -> ok
reading 0 -> ok
reading 21599 -> ok
reading 21600 -> ok
reading 21600 -> ok
reading 32399 -> ok
reading 32400 -> ok
reading 604799 -> ok
reading 604800 -> ok
reading 626400 -> ok
finish 0 -> 12
# Monday 06:00 up to 09:00: the first second belongs to it, 09:00:00 does not
windows 0 1814400 21600 32400 -> 4
windows 0 604800 21600 32400 -> 3
windows 604800 1814400 21600 32400 -> 1
windows 0 1814400 21601 32400 -> 1
windows 0 1814400 21600 32399 -> 3
windows 0 1814400 21599 32401 -> 6
# the end of the span is left out
windows 0 21600 21600 32400 -> 0
windows 0 21601 21600 32400 -> 2
windows 21600 32399 21600 32400 -> 2
windows 21601 32400 21600 32400 -> 1
windows 626400 626401 21600 32400 -> 1
# the first and the last second of the week, and the whole week: every time of the span
windows 0 1814400 0 1 -> 2
windows 0 1814400 604799 604800 -> 1
windows 0 1814400 0 604800 -> 9
windows 604799 604801 0 604800 -> 2
windows 0 18446744073709551615 0 604800 -> 9
# a start in two windows counts once, and no order of the windows matters
windows 0 1814400 21600 32400 21600 32400 -> 4
windows 0 1814400 21600 30000 25000 32400 -> 4
windows 0 1814400 25000 32400 21600 25000 -> 4
windows 0 1814400 0 604800 21600 32400 -> 9
windows 0 1814400 604799 604800 0 1 -> 3
# 32 windows, and one more
windows 0 1814400{" 0 1" * 32} -> 2
windows 0 1814400{" 0 1" * 33} -> refused 17
# a reversed or empty span counts 0, and so do no windows
windows 604800 0 21600 32400 -> 0
windows 21600 21600 21600 32400 -> 0
windows 0 1814400 -> 0
windows 1814400 0 -> 0
# 17: an odd number of words, a not below b, b over 604,800; for a reversed or empty span too
windows 0 1814400 21600 -> refused 17
windows 0 1814400 21600 32400 5 -> refused 17
windows 0 1814400 21600 21600 -> refused 17
windows 0 1814400 32400 21600 -> refused 17
windows 0 1814400 0 604801 -> refused 17
windows 0 1814400 604800 604801 -> refused 17
windows 0 1814400 0 18446744073709551615 -> refused 17
windows 0 1814400 0 604800 5 4 -> refused 17
windows 604800 0 5 4 -> refused 17
windows 9 9 5 -> refused 17
# 7 comes first
poke 3 2 -> ok
windows 0 1814400 0 604800 -> refused 7
windows 0 1814400 5 4 -> refused 7
windows 604800 0 5 -> refused 7
poke 3 0 -> ok
windows 0 1814400 0 604800 -> 9
# the start and the end of the span are numbers of the line, and so is each word
windows -> bad command
windows 0 -> bad command
windows 0 -1 -> bad command
windows 0 1814400 0 18446744073709551616 -> bad command
builder -> 1814400 12 9 626400
"""


def check_counts():
    """For random times and windows: the model's counts of a span's two parts add up, the whole week counts the span's times, and order and repeats do not matter."""
    rng = random.Random(6)
    for _ in range(400):
        u = rng.choice((50, WEEK, 3 * WEEK, 2**40, MAX))
        times = times_of(rng, u, rng.randrange(40))
        record = Record()
        record.lent = Settings(u, 40).image(0, times)
        record.length = len(record.lent)
        s, m, e = sorted(rng.choice((0, u, MAX, *near(times))) for _ in range(3))
        some = windows_of(rng, times, rng.randrange(WINDOWS // 2 + 1))
        count, *parts = (record.windows(*span, flat(some)) for span in ((s, e), (s, m), (m, e)))
        again = record.windows(s, e, flat(rng.sample(some, len(some)) + some))
        week = record.windows(s, e, [0, WEEK])
        if sum(parts) != count or again != count or week != sum(1 for t in times if s <= t < e):
            sys.exit(f"{times} from {s} to {e}, parted at {m}, in {some}: {count}, {parts}, {again}, and {week} in the whole week")


# Making lines.


def flat(windows):
    return [x for window in windows for x in window]


def ask(add, s, e, windows):
    add("windows", s, e, *flat(windows))


def near(times):
    """Each time, and the seconds beside it."""
    return sorted({v for t in times for v in (t - 1, t, t + 1) if 0 <= v <= MAX})


def summed(add, times):
    """The image of these times by their prefix sums, in one line; the universe is 1 plus the last, and there is no rank index."""
    add("buffer", len(Settings(1 + times[-1], len(times)).image(0, times)), 0)
    add("sums", *(t - before for before, t in zip([0, *times], times)))


def weekly(weeks, seconds):
    """These seconds of each of these weeks, as times."""
    return [week * WEEK + x for week in weeks for x in seconds]


def cut(rng, times):
    """A place where a window may begin: at a time's second or beside it, at a multiple of 4,096 or beside it, at an end of the week, or any."""
    places = [rng.randrange(PARTS + 1) * PART, 0, WEEK, rng.randrange(WEEK), *(rng.choice(times) % WEEK for _ in range(3) if times)]
    return min(max(0, rng.choice(places) + rng.choice((-1, 0, 0, 1))), WEEK - 1)


def windows_of(rng, times, count):
    """So many windows of a few widths; some begin where one of before begins or ends."""
    widths = rng.choice(((1, 2), (1, 60, 5_400), (PART - 1, PART, PART + 1), (1, DAY, WEEK)))
    windows, ends = [], []
    for _ in range(count):
        a = rng.choice(ends) if ends and rng.randrange(4) == 0 else cut(rng, times)
        b = min(a + rng.choice(widths), WEEK)
        windows.append((a, b))
        ends += [x for x in (a, b) if x < WEEK]
    return windows


# Words that are no windows: an odd number of them, a not below b, b over 604,800.
UNFIT = ((5,), (WEEK,), (5, 5), (0, 0), (WEEK, WEEK), (6, 5), (1, 0), (WEEK, 0), (MAX, 0), (MAX, MAX))
UNFIT += ((0, WEEK + 1), (WEEK - 1, WEEK + 1), (WEEK, WEEK + 1), (2**32, 2**32 + 1), (0, MAX))


def unfit():
    """Those, pairs out of form among 31 windows, an odd number of many words, and more than 32 windows."""
    yield from UNFIT
    good = flat((3 * k, 3 * k + 2) for k in range(WINDOWS))
    for pair in ((5, 5), (6, 5), (0, WEEK + 1), (WEEK, WEEK + 1), (0, MAX)):
        for at in (0, 2, 30, 62):
            yield [*good[:at], *pair, *good[at + 2 :]]
    yield good[:3]
    yield good[:63]
    yield [*good, 9]
    yield [*good, 0, WEEK]
    yield [*good, 9, 9]
    yield [0, 1] * (WINDOWS + 1)
    yield [0, WEEK] * 100
    yield [*[0, 1] * 50, 7]


# One of each kind of question: in form, with no windows, out of form, too many; and a reversed and an empty span.
EACH = (
    "windows 0 9",
    "windows 0 9 0 604800",
    f"windows 0 {MAX} 5 9 0 1",
    "windows 9 0 0 604800",
    "windows 0 9 5",
    "windows 0 9 5 5",
    "windows 9 0 0 604801",
    "windows 9 9 1 0",
    f"windows 0 {MAX}{' 0 1' * (WINDOWS + 1)}",
)


def add_unset(add):
    add.note("no words, too few, and any: 7, also for what are no windows")
    for lines in (("buffer 0 0",), ("buffer 9 3",), ("buffer 5 0", "image 5"), ("buffer 12 1", "image 12"), ("buffer 7 0", "image 7")):
        all_of(add, (*lines, *EACH))


def add_damaged(add):
    add.note("one word changed, or one word more or less: 7 comes before 17")
    for u, n, rank, times in ((20, 4, 1, (3, 4, 4, 13)), (2 * WEEK, 3, 0, (WEEK - 1, WEEK)), (MAX, 1, 1, (MAX - 1,))):
        all_of(add, ("buffer 13 0", *made(u, n, times), f"finish {rank}", *EACH))
        held = list(add.console.record.lent[: add.console.record.length])
        for i, word in enumerate(held):
            add("poke", i, add.rng.choice(others(add, word)))
            all_of(add, add.rng.sample(EACH, 3))
            add("poke", i, word)
        for length in (len(held) - 1, len(held) + 1, 6, 1, 0):
            add("image", length)
            all_of(add, add.rng.sample(EACH, 3))
        all_of(add, (f"image {len(held)}", *EACH))


def add_edges(add):
    add.note("times before, at and after both ends of a window, in three weeks: all of them, each week, and each time alone")
    ends = (1, 2, PART - 1, PART, PART + 1, 21_600, WEEK - PART, PARTS * PART, WEEK - 1)
    windows = [(0, b) for b in (*ends[:4], WEEK - 1, WEEK)] + [(a, WEEK) for a in (1, *ends[-2:])] + [(x, x + 1) for x in ends[:6]]
    for a, b in (*windows, (PART - 1, PART + 1), (PART, 2 * PART), (21_600, 32_400), (WEEK - PART, WEEK - 1), (PARTS * PART - 1, PARTS * PART + 1)):
        weeks = (0, 1, add.rng.choice((2, 52, 10**6)))
        times = weekly(weeks, sorted({x for x in (a - 1, a, a + 1, b - 2, b - 1, b, b + 1) if 0 <= x < WEEK}))
        summed(add, times)
        for s, e in ((0, MAX), *((week * WEEK, (week + 1) * WEEK) for week in weeks), *((t, t + 1) for t in times)):
            ask(add, s, e, [(a, b)])


def add_spans(add):
    add.note("spans that begin and end at a time or beside it, in any order; repeated times, with and without the rank index")
    times = (5, 9, 9, WEEK + 5)
    note_times(add, 2 * WEEK, 4, times, (0, 1))
    ends = (0, *near(times), 2 * WEEK, MAX)
    for rank, windows in ((0, [(5, 10)]), (1, [(9, 10), (0, 5)])):
        add("finish", rank)
        for s in ends:
            for e in ends if rank == 0 else add.rng.sample(ends, 4):
                ask(add, s, e, windows)
    add.note("before the first time, after the last, one time, none; for the whole week and for no windows")
    for u, n, times in ((10 * WEEK, 8, (3 * WEEK, 3 * WEEK, 3 * WEEK + 1, 4 * WEEK - 1)), (WEEK, 9, (7,)), (MAX, 4, (2**63, 2**63 + 1, MAX - 1))):
        note_times(add, u, n, times, (0, 1))
        add("finish", len(times) % 2)
        first, last = times[0], times[-1]
        one = ((0, first), (0, first + 1), (first - 1, first), (last, last + 1), (last + 1, u), (last + 1, MAX), (first, last))
        for s, e in (*one, (last, first), (u, MAX), (u, 0), (MAX, MAX), (0, 0), (MAX, 0)):
            ask(add, s, e, [(0, WEEK)])
            ask(add, s, e, add.rng.choice(([], [(first % WEEK, first % WEEK + 1)], [(0, last % WEEK + 1), (last % WEEK, WEEK)])))


def add_weeks(add):
    add.note("weeks far apart, and the last one, which 2^64 - 1 cuts short")
    last, end = MAX // WEEK * WEEK, (MAX - 1) % WEEK
    times = (0, WEEK - 1, WEEK, 52 * WEEK + end, 2**32, 2**32, 2**63, last - 1, last, MAX - 2, MAX - 1, MAX - 1)
    note_times(add, MAX, 12, times, (0, 1))
    spans = [(s, MAX) for s in (0, 2**63, last - 1, last, MAX - 1, MAX)] + [(0, last), (last - 1, last), (0, MAX - 1), (MAX - 2, MAX - 1), (MAX - 1, MAX - 1), (MAX, 0)]
    for rank in (0, 1):
        add("finish", rank)
        for windows in ([(end, end + 1)], [(end + 1, end + 2)], [(0, end)], [(end - 1, WEEK)], [(0, 1), (WEEK - 1, WEEK)], [(0, WEEK)], [(0, end), (end + 1, WEEK)]):
            for s, e in spans if rank == 0 else add.rng.sample(spans, 4):
                ask(add, s, e, windows)
    add.note("a time in each of many weeks, at the same second or one later each week")
    for step in (WEEK, WEEK + 1, WEEK - 1, 7 * WEEK + 3_600):
        times = [300_000 + k * step for k in range(70)]
        summed(add, times)
        for windows in ([(300_000, 300_001)], [(299_990, 300_011)], [(0, 300_000), (300_001, WEEK)], [(300_000 - 40, 300_000), (300_020, 300_030), (300_060, WEEK)]):
            for s, e in ((0, MAX), (times[10], times[60]), (times[31] + 1, times[33])):
                ask(add, s, e, windows)


def orders(rng, windows):
    """The windows as they are, the other way round, every second one first, and in two other orders."""
    yield windows
    yield windows[::-1]
    yield windows[::2] + windows[1::2]
    for _ in range(2):
        yield rng.sample(windows, len(windows))


def add_orders(add):
    add.note("a time in each second around 4,096 and both ends of the week, in two weeks: two windows between five places, in both orders")
    rng = add.rng
    summed(add, weekly((0, 1), (*range(70), *range(4_060, 4_200), *range(WEEK - 70, WEEK))))
    places = (4_070, 4_071, 4_095, 4_096, 4_100)
    windows = [(a, b) for a in places for b in places if a < b]
    for one in windows:
        for other in windows:
            ask(add, 0, MAX, [one, other])
    add.note("32 windows in five orders: apart, touching, nested, overlapping, equal, with one begin, with one end, one that holds most, and any")
    many = range(WINDOWS)
    spans = ((0, WEEK), (4_080, WEEK + 4_090), (4_096, 4_097), (4_110, 4_120), (WEEK - 9, WEEK + 9), (WEEK + 4_095, MAX), (4_100, 4_070))
    for windows in (
        [(4_064 + 2 * k, 4_065 + 2 * k) for k in many],
        [(4_101 + 2 * k, 4_102 + 2 * k) for k in many],
        [(2 * k, 2 * k + 1) for k in many],
        [(WEEK - 1 - 2 * k, WEEK - 2 * k) for k in many],
        [(4_064 + k, 4_065 + k) for k in many],
        [(4_064 + k, 4_136 - k) for k in many],
        [(4_062 + 2 * k, 4_065 + 2 * k) for k in many],
        [(4_095, 4_097) for _ in many],
        [(4_070, 4_071 + k) for k in many],
        [(4_070 + k, 4_110) for k in many],
        [(4_066, 4_126), *((4_061 + 2 * k, 4_062 + 2 * k) for k in many[1:])],
        [(k * 18_900, k * 18_900 + 4_100) for k in many],
        [(a, a + rng.choice((1, 1, 2, 3))) for a in rng.sample(range(4_060, 4_198), WINDOWS)],
    ):
        for order in orders(rng, windows):
            ask(add, 0, MAX, order)
            ask(add, *rng.choice(spans), order)
    add.note("1 to 32 windows")
    for count in (*range(1, WINDOWS), WINDOWS, WINDOWS):
        windows = [(a, a + rng.choice((1, 2, 5))) for a in (rng.randrange(4_058, 4_138) for _ in range(count))]
        ask(add, 0, MAX, windows)
        ask(add, rng.randrange(4_060, 4_100), WEEK + rng.randrange(4_060, 4_140), windows)


def add_parts(add):
    add.note("windows that begin and end at multiples of 4,096 and beside them, times there too, in two weeks")
    rng = add.rng
    summed(add, weekly((0, 3), [x for k in range(PARTS + 1) for x in range(k * PART - 2, k * PART + 2) if x >= 0] + [WEEK - 2, WEEK - 1]))
    beside = lambda k: min(max(0, k * PART + rng.choice((-1, 0, 0, 1))), WEEK)
    for k in (*range(8), *rng.sample(range(8, PARTS), 12), PARTS - 1, PARTS):
        a = beside(k)
        for b in (beside(k + 1), beside(rng.randrange(k + 2, PARTS + 3)), a + 1):
            ask(add, 0, MAX, [(a, b)])
    for width in (1, 2, 3, 4):
        some = sorted(rng.sample(range(1, PARTS), WINDOWS // width))
        for windows in ([(k * PART - 1, k * PART + j) for k in some for j in range(width)], [(k * PART + j, k * PART + j + 1) for k in some for j in range(-1, width - 1)]):
            for order in (windows, rng.sample(windows, len(windows))):
                ask(add, 0, MAX, order)
                ask(add, rng.choice(some) * PART, 3 * WEEK + rng.choice(some) * PART, order)
    for step in (1, 2, 4):
        windows = [(beside(k), beside(k + 1)) for k in range(1, 1 + WINDOWS * step, step)]
        for order in orders(rng, windows):
            ask(add, 0, MAX, order)
    last = PARTS * PART
    for windows in ([(0, last)], [(last, WEEK)], [(last - 1, last), (WEEK - 1, WEEK)], [(last + 1, WEEK - 1)], [(0, 1), (last, last + 1)], [(last - 2, last), (0, 2)]):
        for s, e in ((0, MAX), (0, WEEK), (3 * WEEK, 4 * WEEK), (last, 3 * WEEK + last)):
            ask(add, s, e, windows)
    add.note("all seconds of some parts")
    bits(add, 5 * PART, range(5 * PART))
    all_of(add, ("buffer 3000 0", "from_bits 0"))
    for count in (1, 2, 3, 5, 8, 16, 31, 32, 32):
        windows = [(a, a + rng.choice((1, 2, 100, 700, PART))) for a in (rng.randrange(5 * PART) for _ in range(count))]
        ask(add, 0, MAX, windows)
        ask(add, rng.randrange(2 * PART), rng.randrange(2 * PART, 5 * PART), windows)


def add_refused(add):
    add.note("17: too many windows, an odd number of words, a pair out of form anywhere; for a reversed and an empty span too, and 7 before it")
    all_of(add, ("buffer 12 0", *made(20, 4, (3, 4, 4, 13)), "finish 1"))
    for words in unfit():
        for s, e in ((0, MAX), (9, 9), (9, 3)):
            add("windows", s, e, *words)
    all_of(add, ("words", "builder", "has_rank", "windows 0 20 0 604800", "poke 2 3"))
    for words in unfit():
        add("windows", *add.rng.choice(((0, 20), (9, 9), (20, 0))), *words)
    all_of(add, ("poke 2 4", "windows 0 20 0 604800"))


def add_records(add):
    add.note("records of every kind: no time, fewer than declared, full, all equal, u up to 2^64 - 1; with and without the rank index")
    rng = add.rng
    for u, n, times in (
        (0, 1, ()),
        (1, 1, ()),
        (1, 1, (0,)),
        (20, 4, ()),
        (20, 4, (3, 4, 4, 13)),
        (WEEK, 3, ()),
        (WEEK, 3, (WEEK - 1,) * 3),
        (WEEK + 1, 3, (0, WEEK - 1, WEEK)),
        (4 * WEEK, 60_000, ()),
        (4 * WEEK, 60_000, (5, WEEK, 2 * WEEK + 5, 4 * WEEK - 1)),
        (131_072, 65_536, (0, 131_071)),
        (2**40, 2_000, (2**39, 2**39 + 1)),
        (MAX, 1, ()),
        (MAX, 1, (MAX - 1,)),
        (MAX, 500, (0, 2**62)),
    ):
        seconds = [t % WEEK for t in times] or [0]
        for rank in (0, 1):
            note_times(add, u, n, times, (rank,))
            add("finish", rank)
            for windows in ([(0, WEEK)], [(x, x + 1) for x in seconds], [(0, seconds[-1] + 1)]):
                ask(add, 0, rng.choice((u, MAX)), windows)
            ask(add, times[0] if times else 0, u, [(0, WEEK)])
            ask(add, u, 0, [(0, WEEK)])
    add.note("prefix sums, with items of 0; of no items there are no words")
    for items in ((3, 0, 5), (0,), (0, 0, 0), (WEEK - 1, 1, 0, WEEK), (WEEK,) * 9, (MAX - 1,), ()):
        all_of(add, ("buffer 60 0", " ".join(map(str, ["sums", *items]))))
        for windows in ([(0, WEEK)], [(0, 1)], [(3, 9), (WEEK - 1, WEEK)], [(1, 0)]):
            ask(add, 0, MAX, windows)
    add.note("a record from bits, and the image of a sparse vector; zeros have none")
    for length, ones, call in (
        (5_000, (0, 1, 63, 64, 4_095, 4_096, 4_999), "from_bits 0"),
        (5_000, (0, 4_097), "from_bits 1"),
        (70, range(70), "sarray_from_bits 1"),
        (70, (), "sarray_from_bits 0"),
        (4, (0, 3), "from_bits 1"),
    ):
        bits(add, length, ones)
        all_of(add, ("buffer 60 0", call))
        for windows in ([(0, WEEK)], [(0, 1)], [(63, 65), (4_096, WEEK)], [(1, 64), (3, 4_096)]):
            ask(add, 0, MAX, windows)
        ask(add, 1, 64, [(0, WEEK)])


def add_kept(add):
    add.note("it alters nothing: words, builder and image stay, while times are noted and after")
    asked = ("windows 0 20 0 604800", "windows 0 20 5", "words", "builder")
    all_of(add, ("buffer 14 9", *asked, "start 20 4", *asked, "reading 3", *asked, "reading 4", "finish 0", *asked, "open", "reading 4", *asked))
    all_of(add, ("finish 1", *asked, "reading 13", "finish 1", *asked, "rank 4", "reading 20", "start 20 4", *asked, "image 0", *asked))
    all_of(add, ("forge 1 2 3 4", "sums 3 0 5", *asked, "image 9", *asked, "image 10", *asked, "sums_walk 4"))


def add_many(add):
    rng = add.rng
    add.note("lists around 64 times and their doubles, all apart and in runs: spans from a time or beside it")
    for m in (1, 2, 63, 64, 65, 66, 127, 128, 129, 130, 200):
        for gaps in ((1,), (0, 0, 0, 7), (0, 3_600, DAY, WEEK)):
            times = [WEEK - 40]
            while len(times) < m:
                times.append(times[-1] + rng.choice(gaps))
            summed(add, times)
            for k in sorted({k for k in (0, m // 4, m // 2, m - 65, m - 64, m - 1) if 0 <= k < m}):
                e = rng.choice((MAX, times[-1], times[rng.randrange(k, m)] + 1))
                ask(add, times[k] + rng.choice((-1, 0, 0, 1)), e, rng.choice(([(0, WEEK)], windows_of(rng, times, 4))))
    add.note("long runs of equal times with wide gaps")
    groups = ((64, 21_600), (65, 21_601), (1, WEEK - 1), (128, WEEK), (129, WEEK + 1), (300, 3 * WEEK + 5))
    groups += ((1, 10**9), (1_500, 10**12), (700, 10**12 + 1), (33, 10**15), (1, 10**15 + DAY))
    summed(add, runs(*groups))
    seconds = [t % WEEK for _, t in groups]
    ends = [0, *near([t for _, t in groups]), MAX]
    for i, (_, t) in enumerate(groups):
        for s, e in ((0, MAX), (t, t + 1), (t - 1, t), (t + 1, MAX), (0, t), (t, MAX), *(rng.sample(ends, 2) for _ in range(2))):
            ask(add, s, e, rng.choice(([(seconds[i], seconds[i] + 1)], [(x, x + 1) for x in seconds], [(0, WEEK)], windows_of(rng, [t], 3))))
    add.note("some thousand times over years, and over a thousand with the rank index")
    times = [5]
    while len(times) < 4_000:
        times.append(times[-1] + rng.choice((0, 1, 60, 600, 3_600, 40_000, DAY, WEEK)))
    summed(add, times)
    add_asked(add, times, 40)
    times = sorted(rng.randrange(20 * WEEK) for _ in range(1_200))
    note_times(add, 20 * WEEK, 1_200, times, (1,))
    add("finish 1")
    add_asked(add, times, 40)


def add_asked(add, times, count):
    """So many questions: any windows, and spans from a time or 0 to a time or 2^64 - 1, now and then reversed."""
    rng = add.rng
    for _ in range(count):
        s, e = sorted(rng.choice(near([rng.choice(times or [0])])) for _ in range(2))
        s, e = rng.choice((0, s, s)), rng.choice((MAX, e, e))
        if rng.randrange(12) == 0:
            s, e = e, s
        ask(add, s, e, windows_of(rng, times, rng.choice((1, 2, 3, 5, 10, 31, 32))))


def add_seeded(add, count):
    add.note("seeded records, windows and spans")
    rng = add.rng
    for i in range(count):
        n = rng.choice((rng.randrange(1, 9), rng.randrange(1, 9), rng.randrange(20, 90), rng.randrange(60, 200)))
        u = rng.choice((rng.randrange(1, 300), WEEK, WEEK + rng.randrange(9), 3 * WEEK, 60 * WEEK, 2 ** rng.randrange(64), rng.randrange(1, TOP)))
        times = times_of(rng, u, rng.choice((n, n, rng.randrange(n + 1))))
        if len(times) > 12:
            summed(add, times)
        else:
            note_times(add, u, n, times, (i % 2,))
            add("finish", i % 2)
        ask(add, 0, MAX, [(0, WEEK)])
        add_asked(add, times, 9)


WRONG = (
    "windows",
    "windows ",
    "windows 5",
    "windows 0 ",
    "windows 0 20 ",
    "windows  0 20",
    "windows 0  20",
    "windows 0 20  3 5",
    "windows 0 20 3  5",
    "windows 0 20 3 5 ",
    "windows 0 20 3,5",
    "windows 0 20 3-5",
    "windows 0 20 3:5",
    "windows 0 20 -3 5",
    "windows 0 20 3 +5",
    "windows 0 20 3 x",
    "windows x 20 3 5",
    "windows 0 y 3 5",
    "windows 0 20 3 5 none",
    "windows 0 20 5 3 x",
    "windows 0 20 x 5 3",
    "windows -1 20",
    "windows 0 18446744073709551616",
    "windows 18446744073709551616 0",
    "windows 0 20 0 18446744073709551616",
    "windows 0 20 99999999999999999999 1",
    "window 0 20 3 5",
    "windows_ 0 20 3 5",
    "Windows 0 20 3 5",
    "weekly_windows 0 20 3 5",
)


def add_out_of_form(add):
    add.note("out of form: nothing changes")
    all_of(add, ("buffer 13 8", *made(20, 4, (3, 4, 4, 13)), "finish 1"))
    for line in ("windows 0 20", "windows 0 20 3 5", "windows 4 14 0 4 13 604800"):
        all_of(add, (*dict.fromkeys(wrong(add, line)), line))
    all_of(add, (*WRONG, f"windows 0 20{' 0 1' * WINDOWS} x", f"windows 0 20{' 0 1' * WINDOWS}  0", "words", "builder"))
    add.note("4,096 words are in form, one more is not, whether there is an image or not; nor is one word out of form among them")
    for words in (LENT - 1, LENT, LENT + 1, LENT + 2):
        add("windows", 0, 20, *[7] * words)
    all_of(add, (f"windows 0 20{' 7' * (LENT - 1)} x", f"windows 0{' 7' * LENT} -7"))
    all_of(add, ("image 0", f"windows 0 20{' 7' * LENT}", f"windows 0 20{' 7' * (LENT + 1)}", "image 12"))
    add.note("leading zeros are allowed")
    all_of(add, ("windows 000 0020 03 0005", "windows 0 0000000000000000000000000020 000 00604800", "windows 0 20 05 5", "windows 00 00 00"))
    all_of(add, (f"windows 0 {'0' * 60}{MAX} 4 5", f"windows 0 20 4 {'0' * 60}{TOP}"))
    add.note("a line of 65,536 bytes, and one of a byte more")
    for length in (LINE, LINE + 1):
        add("windows 0 20 4 " + "5".rjust(length - len("windows 0 20 4 "), "0"))
    all_of(add, ("words", "builder", "windows 0 20 4 5"))


def add_windows(add, count):
    """The whole section; `count` records are seeded."""
    add.note("starts inside weekly windows")
    for command, _ in records.pairs(EXAMPLES):
        add(command)
    add_unset(add)
    add_damaged(add)
    add_edges(add)
    add_spans(add)
    add_weeks(add)
    add_orders(add)
    add_parts(add)
    add_refused(add)
    add_records(add)
    add_kept(add)
    add_many(add)
    add_seeded(add, count)
    add_out_of_form(add)


def exhaustive():
    """Every list of up to 3 times around a week's end, one window or two between the places around both ends of the week, and every span there."""
    lists = [()]
    for _ in range(3):
        lists += [(*times, t) for times in lists for t in range(times[-1] if times else WEEK - 2, WEEK + 2)]
    places = (0, 1, 2, WEEK - 2, WEEK - 1, WEEK)
    pairs = [(a, b) for a in places for b in places]
    good = [(a, b) for a, b in pairs if a < b]
    asked = [[], *([pair] for pair in pairs), *([one, other] for one in good for other in good)]
    lines = []
    for times in sorted(set(lists)):
        lines += ["buffer 20 0", *made(WEEK + 2, 3, times), f"finish {len(times) % 2}"]
        for s in range(WEEK - 3, WEEK + 3):
            for e in range(WEEK - 3, WEEK + 3):
                lines += [" ".join(map(str, ["windows", s, e, *flat(windows)])) for windows in asked]
    return [line.encode() for line in lines]
