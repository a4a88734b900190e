"""The lines of the limit on an image's length: worked cases, edges of universe and count, records in a buffer of just the limit, blocks in the overflow, and what is out of form."""

import random
from bisect import bisect_left

import records
from from_bits import bits
from model import BLOCK, BUFFER, FAR, LINE, MOST, TOP, Settings
from questions import runs, wrong
from records import lay, made, small_lists, times_of
from sarrays import all_of

MAX = TOP - 1

# Cases with the answers that the document gives for them.

EXAMPLES = """
# no count, and a count over 16,777,216, whatever the universe and the choice
limit 0 0 0 -> refused 1
limit 20 0 1 -> refused 1
limit 18446744073709551615 0 0 -> refused 1
limit 0 16777217 0 -> refused 2
limit 20 16777217 1 -> refused 2
limit 18446744073709551615 18446744073709551615 1 -> refused 2
# u 0, n 1: l 0, H 3, a start of 7; each index has an entry and a word of lanes
limit 0 1 0 -> 9
limit 0 1 1 -> 11
# u 20, n 4: l 2, H 11, a start of 8
limit 20 4 0 -> 10
limit 20 4 1 -> 12
# u 2^64 - 1, n 1: l 63, H 4, a start of 8
limit 18446744073709551615 1 0 -> 10
limit 18446744073709551615 1 1 -> 12
# n 31 and H 63, 64, 65: starts of 7, 7 and 8; from H 64 on each index has a word of overflow
limit 30 31 0 -> 9
limit 30 31 1 -> 11
limit 31 31 0 -> 10
limit 31 31 1 -> 13
limit 32 31 0 -> 11
limit 32 31 1 -> 14
# n 128 has 4 lanes, n 129 has 5: H 130 and 131, starts of 9, 2 words of overflow
limit 0 128 0 -> 13
limit 0 128 1 -> 18
limit 0 129 0 -> 14
limit 0 129 1 -> 19
# n 1,024 has an entry, n 1,025 has two: H 1,026 and 1,027, starts of 23, 16 words of overflow
limit 0 1024 0 -> 48
limit 0 1024 1 -> 75
limit 0 1025 0 -> 50
limit 0 1025 1 -> 77
# H 65,536, which is 3 n + 1, and 65,537: starts of 1,030 and 1,031, 22 entries and 171 words of lanes, 1,024 words of overflow
limit 43689 21845 0 -> 2247
limit 43689 21845 1 -> 3847
limit 43689 21846 0 -> 2248
limit 43689 21846 1 -> 3850
# five years of seconds, n 50,000: l 11, H 126,994, a start of 6 + 1,985 + 8,594; 49 + 391 + 1,984 for the ones, 125 + 993 + 1,984 for the zeros
limit 157680000 50000 0 -> 13009
limit 157680000 50000 1 -> 16111
# the largest count, u 0: H 16,777,218, a start of 262,151; 16,384 + 131,072 + 262,144, and 16,385 + 131,073 + 262,144
limit 0 16777216 0 -> 671751
limit 0 16777216 1 -> 1081353
# u n - 1 and n: l 0, H 33,554,433 and 33,554,434, starts of 524,295; 16,384 + 131,072 + 524,288, and 32,769 + 262,145 + 524,288
limit 16777215 16777216 0 -> 1196039
limit 16777215 16777216 1 -> 2015241
limit 16777216 16777216 0 -> 1196039
limit 16777216 16777216 1 -> 2015241
# u 2 n - 1: l 0, H 50,331,649, which is 3 n + 1, a start of 786,439; 16,384 + 131,072 + 786,432, and 49,153 + 393,217 + 786,432
limit 33554431 16777216 0 -> 1720327
limit 33554431 16777216 1 -> 2949129
# u 2 n: l 1, H 33,554,434, a start of 786,439
limit 33554432 16777216 0 -> 1458183
limit 33554432 16777216 1 -> 2277385
# u 2^63 - 1: l 38, H 50,331,649; u 2^63: l 39, H 33,554,434; starts of 10,747,911
limit 9223372036854775807 16777216 0 -> 11681799
limit 9223372036854775807 16777216 1 -> 12910601
limit 9223372036854775808 16777216 0 -> 11419655
limit 9223372036854775808 16777216 1 -> 12238857
# u 2^64 - 1: l 39, H 50,331,649, a start of 11,010,055
limit 18446744073709551615 16777216 0 -> 11943943
limit 18446744073709551615 16777216 1 -> 13172745
# a record in as many words: no start, reading or finish is refused with 3, and here the image has as many
buffer 12 9 -> ok
start 20 4 -> ok
reading 3 -> ok
reading 4 -> ok
reading 3 -> refused 4
reading 4 -> ok
reading 20 -> refused 5
reading 13 -> ok
reading 13 -> refused 6
limit 20 4 1 -> 12
finish 1 -> 12
limit 20 4 0 -> 10
words -> 20 4 4 1 0 0 77 67 0 0 1 0
builder -> 20 4 4 13
# in a word less a finish with the rank index is refused, and one without it is not
buffer 11 9 -> ok
start 20 4 -> ok
reading 3 -> ok
reading 4 -> ok
reading 4 -> ok
reading 13 -> ok
finish 1 -> refused 3
finish 0 -> 10
limit 20 4 1 -> 12
words -> 20 4 4 0 0 0 77 67 0 0 9
# out of form comes before what is refused
limit 20 4 -> bad command
limit 20 4 2 -> bad command
limit 20 0 2 -> bad command
limit 18446744073709551616 0 0 -> bad command
"""


def limit(u, n, rank):
    return Settings(u, n).limit(rank)


def universe(n, high, width):
    """The least universe for which a record of this count has so many high bits, and so many low bits for each time."""
    u = high - n - 2 << width
    settings = Settings(u, n)
    assert (settings.high, settings.l) == (high, width)
    return u


def largest(u, rank):
    """A count whose limit is within the buffer that the console lends, while that of the next is not."""
    return bisect_left(range(1, MOST), BUFFER + 1, key=lambda n: limit(u, n, rank))


# Lists with blocks in the overflow. A block of 1,024 ones is there if 64,513 zeros or more lie between its first and its last, and the other way round.

APART = FAR - BLOCK + 1


def far_ones(blocks, rng):
    """Times of so many blocks of ones, each spread over 65,537 places of a record without low bits."""
    return [b * APART + t for b in range(blocks) for t in (0, *sorted(rng.choices(range(APART + 1), k=BLOCK - 2)), APART)]


def far_zeros(blocks):
    """Times between which so many blocks of zeros lie, each spread over 65,537 places of a record without low bits."""
    return [b * BLOCK + 500 for b in range(blocks) for _ in range(APART)]


# Making lines.


def both(add, u, n):
    for rank in (0, 1):
        add("limit", u, n, rank)


def one(add, u, n):
    add("limit", u, n, add.rng.randrange(2))


def add_refused(add):
    add.note("1 and 2: no count, and one over 16,777,216")
    for n in (0, MOST + 1, MOST + 2, 2 * MOST, 2**28, 2**32, 2**32 + 4, 2**63, MAX - 1, MAX):
        for u in (0, 20, add.word(), MAX):
            one(add, u, n)


def add_universes(add):
    add.note("universes around n times a power of two, where the number of low bits changes, and around multiples of that power, where H does")
    rng = add.rng
    for n in (1, 2, 3, 5, 63, 64, 65, 1_000, 1_024, 21_846, 50_000, MOST - 1, MOST):
        top = (MAX // n).bit_length() - 1
        for k in sorted({0, 1, top, top + 1, *rng.sample(range(2, top), 3)}):
            for u in (n * 2**k - 1, n * 2**k, n * 2**k + 1):
                if u <= MAX:
                    one(add, u, n)
            u = rng.randrange(n, 2 * n) * 2**k
            if u <= MAX:
                one(add, u - 1, n)
                one(add, u, n)
    for u in (0, 1, 2, 3, 63, 64, 65, 2**32 - 1, 2**32, 2**63 - 1, 2**63, 2**63 + 1, MAX - 1, MAX):
        for n in (1, 2, *rng.sample(range(3, 200), 2)):
            both(add, u, n)


def add_counts(add):
    add.note("counts around those that fill the lanes of a word, a block, or a number of high words")
    for base in (32, 64, 96, 128, 192, 1_024, 2_048, 4_096, 21_845, 32_768, 43_690, 65_535, 65_536, 2**20, 2**23):
        for n in (base - 1, base, base + 1):
            for u in (0, *add.rng.sample((n - 1, n, 2 * n - 1, 2 * n, 100 * n + 7, MAX), 2)):
                one(add, u, n)


def add_highs(add):
    add.note("high bits around multiples of 64 and of 1,024, and where a block can be in the overflow: 65,537; for the least count, for the most, and between")
    rng = add.rng
    for around in (64, 128, 256, 1_024, 2_048, 65_536, 65_538, 65_600, 131_072, 131_074, 196_608):
        for high in (around - 1, around, around + 1):
            least, most = (high + 1) // 3, high - 2
            both(add, universe(least, high, 0), least)
            one(add, universe(least, high, rng.randrange(1, 40)), least)
            for n in (rng.randrange(least, most), most):
                one(add, universe(n, high, 0), n)
    add.note("low bits around multiples of 64")
    for width in (1, 2, 3, 5, 7, 13, 31, 32, 33, 47, 63):
        for rest in (0, 1, 2, 63):
            counts = [n for n in range(1, 300) if n * width % 64 == rest and n << width <= MAX]
            for n in rng.sample(counts, min(2, len(counts))):
                one(add, n << width, n)


def settings_of(rng):
    """A universe and a count of any kind."""
    n = rng.choice((rng.randrange(1, 70), rng.randrange(1, 3_000), rng.randrange(1, MOST + 1), 2 ** rng.randrange(1, 25) - rng.randrange(2)))
    k = rng.randrange((MAX // n).bit_length())
    return rng.choice((rng.randrange(2 * n), n * 2**k - rng.randrange(2), rng.randrange(n * 2**k), rng.randrange(TOP), 2 ** rng.randrange(64))), n


def add_seeded(add, count):
    add.note("seeded universes and counts")
    for _ in range(count):
        both(add, *settings_of(add.rng))


def add_kept(add):
    add.note("it changes nothing: bits, words, builder, image, and the sparse vector's length and choice stay")
    shown = ("words", "builder", "dump", "open", "len", "sarray_access 3")
    limits = ("limit 20 4 1", "limit 0 0 1", f"limit {MAX} {MOST} 0", f"limit 5 {MAX} 0", "limit 20 4 2")
    steps = ("bits 70 5 3 9", "buffer 14 7", "start 20 4", "reading 3", "reading 3", "reading 20", "finish 1", "sarray 20 1", "reading 4", "image 13")
    steps += ("forge 1 2 3 4", "image 12", "poke 2 3", "poke 2 2", "bits 20 8216", "from_bits 0", "sarray_from_bits 1", "sums 3 0 5", "sums", "push_bit 1")
    for step in steps:
        all_of(add, (step, *add.rng.sample(limits, 2), *add.rng.sample(shown, 2), *add.rng.sample(limits, 1), *add.rng.sample(shown, 1)))
    all_of(add, (*shown, *limits, *shown))


def add_record(add, u, n, times, rank):
    """A record in just as many words as the limit: readings good and bad, and finishes."""
    rng = add.rng
    lent = limit(u, n, rank)
    assert lent <= BUFFER
    add("limit", u, n, rank)
    add("buffer", lent, add.word())
    add("start", u, n)
    for k, t in enumerate(times):
        add("reading", t)
        if k < 3 or rng.randrange(12) == 0:
            add("reading", rng.choice((u, MAX, t - 1 if t else u)))
    if len(times) == n:
        all_of(add, (f"reading {times[-1]}", f"reading {u - 1}"))
    add("reading", rng.choice((u, MAX)))
    for choice in rng.choice(((0,), (0, 0))) if rank == 0 else rng.choice(((1,), (1, 0), (0, 1), (1, 0, 1))):
        add("finish", choice)
    all_of(add, ("builder", "open", f"select {max(1, len(times)) - 1}"))
    if lent < 20:
        add("words")


def spread(u, n, count):
    return [k * u // count for k in range(min(n, count))]


def add_records(add, count):
    add.note("records in a buffer of just the limit: no start, reading or finish is refused with 3")
    for u, n, times in (
        (0, 1, ()),
        (0, 70, ()),
        (1, 1, (0,)),
        (20, 4, ()),
        (20, 4, (3, 4, 4, 13)),
        (20, 9, (3, 4, 4, 13)),
        (30, 31, spread(30, 31, 31)),
        (31, 31, spread(31, 31, 31)),
        (62, 31, [61] * 31),
        (1, 61, [0] * 61),
        (1, 62, [0] * 20),
        (2**40, 16, spread(2**40, 16, 16)),
        (MAX, 1, (MAX - 1,)),
        (MAX, 2, (0, MAX - 1)),
        (MAX, 64, (0, 2**63, MAX - 1)),
        (157_680_000, 50_000, (5, 3_600, 3_600, 157_679_999)),
    ):
        for rank in (0, 1):
            add_record(add, u, n, times, rank)
    add.note("the largest counts whose limit the console can lend; no time, and two far apart")
    for u, rank in ((0, 1), (MAX, 0), (MAX, 1)):
        n = largest(u, rank)
        both(add, u, n + 1)
        add_record(add, u, n, (0, u - 1) if u else (), rank)
    add.note("a word less than the limit: 3 where the image is as long as it")
    for u, n, times, rank in ((0, 1, (), 0), (20, 4, (3, 4, 4, 13), 0), (20, 4, (3, 4, 4, 13), 1), (30, 31, [7] * 31, 0), (30, 31, [7] * 31, 1), (MAX, 1, (5,), 1), (31, 31, [7] * 31, 1)):
        all_of(add, (f"buffer {limit(u, n, rank) - 1} 3", *made(u, n, times), f"finish {rank}", "builder"))
    add.note("seeded records")
    rng = add.rng
    for _ in range(count):
        n = rng.choice((rng.randrange(1, 9), rng.randrange(1, 30), rng.randrange(1, 3_000)))
        u = rng.choice((rng.randrange(3 * n), rng.randrange(2**20), 2 ** rng.randrange(64), rng.randrange(TOP)))
        add_record(add, u, n, times_of(rng, u, rng.choice((min(n, 25), rng.randrange(min(n, 25) + 1)))), rng.randrange(2))


def add_far(add):
    add.note("a block of 1,024 ones in the overflow, by readings, and two ones far apart")
    rng = add.rng
    times = far_ones(1, rng)
    u = times[-1] + 1
    add_record(add, u, u // 2 + 1, times, 1)
    add_record(add, 131_072, 65_536, (0, 131_071), 0)
    add.note("blocks of ones and of zeros in the overflow, by their words; of 1,024 zeros over 65,537 places as many as H / 64 are there")
    for u, n, times, value in (
        (2 * APART + 1, APART + 1, runs((512, 0), (1_024, APART), (512, 2 * APART)), 0),
        (BLOCK - 2, APART, far_zeros(1), MAX),
        (2 * BLOCK - 2, 2 * APART, far_zeros(2), MAX),
        (BLOCK - 2, APART + 62, [300] * 40 + far_zeros(1), MAX),
        (APART + 1, APART + BLOCK, runs((512, 0), (512, APART)), 0),
    ):
        for rank, finishes in ((1, (1, 0, 1)), (0, (0,))):
            add("limit", u, n, rank)
            lay(add, u, n, times, limit(u, n, rank), value)
            all_of(add, (*(f"finish {choice}" for choice in finishes), "open", f"select {len(times) - 1}"))
    add.note("a record from bits, a sparse vector and prefix sums in a buffer of just the limit")
    length = 64 * 4_096
    for u, ones in ((length, [*range(60_000), *range(188_003, 218_003)]), (20, [3, 4, 13]), (64, range(64)), (200, range(0, 200, 3))):
        bits(add, u, ones)
        for rank in (0, 1):
            for call in ("from_bits", "sarray_from_bits"):
                all_of(add, (f"buffer {limit(u, len(ones), rank)} 1", f"{call} {rank}", "open"))
    for items in ((3, 0, 5), (MAX - 1,), (7,) * 40, [*(0,) * 20_000, 64_598, *(0,) * 12_299]):
        add("buffer", limit(1 + sum(items), len(items), 0), 2)
        add("sums", *items)
        add("sums_len")


WRONG = (
    "limit",
    "limit ",
    "limit 20",
    "limit 20 4",
    "limit 20 4 ",
    "limit 20 4 2",
    "limit 20 4 3",
    "limit 20 4 10",
    f"limit 20 4 {MAX}",
    f"limit 20 4 {TOP}",
    f"limit 20 4 {TOP + 1}",
    "limit 20 4 1 1",
    "limit 20 4 1 ",
    "limit  20 4 1",
    "limit 20  4 1",
    "limit 20 4  1",
    "limit 20 4 -0",
    "limit 20 4 +1",
    "limit -20 4 1",
    "limit 20 -4 1",
    "limit +20 4 1",
    f"limit {TOP} 4 1",
    f"limit 20 {TOP} 1",
    f"limit {TOP} 0 1",
    f"limit 99999999999999999999 {MOST + 1} 0",
    f"limit 20 {10 * TOP} 0",
    "limit 20 0 2",
    f"limit 20 {MOST + 1} 2",
    "limit 20 0 x",
    "limit x 0 0",
    "limit 20 4,1",
    "limit 20,000 4 1",
    "limit 2^4 4 1",
    "limit none 4 1",
    "limits 20 4 1",
    "limit_ 20 4 1",
    "Limit 20 4 1",
    "lim 20 4 1",
    "limit\t20 4 1",
    "limit 20 4 1#",
)


def add_out_of_form(add):
    add.note("out of form: nothing changes")
    all_of(add, ("buffer 13 8", *made(20, 4, (3, 4, 4, 13)), "finish 1", "bits 4 11"))
    for line in ("limit 20 4 0", "limit 20 4 1", "limit 20 0 0", f"limit {MAX} {MOST} 1"):
        all_of(add, (*dict.fromkeys(wrong(add, line)), line))
    all_of(add, (*WRONG, "words", "builder", "dump", "open"))
    add.note("leading zeros are allowed")
    all_of(add, ("limit 0020 04 01", "limit 00 0001 00", "limit 20 000 0", f"limit {'0' * 60}{MAX} {'0' * 30}{MOST} {'0' * 40}1", f"limit 0 0000{MOST + 1} 00", f"limit {'0' * 60}{TOP} 4 1"))
    all_of(add, ("limit 20 4 02", "limit 20 4 000000000000000000000000010"))
    add.note("a line of 65,536 bytes, and one of a byte more")
    for length in (LINE, LINE + 1):
        add("limit 20 4 " + "1".rjust(length - len("limit 20 4 "), "0"))
    all_of(add, ("words", "builder", "dump", "limit 20 4 1"))


def add_limits(add, count):
    """The whole section; `count` settings are seeded, and a third as many records."""
    add.note("the limit on an image's length")
    for command, _ in records.pairs(EXAMPLES):
        add(command)
    add_refused(add)
    add_universes(add)
    add_counts(add)
    add_highs(add)
    add_seeded(add, count)
    add_kept(add)
    add_records(add, count // 3)
    add_far(add)
    add_out_of_form(add)
    add.note("the bits of before, which the script ends with")
    add("bits 4 9")


def far_lists():
    """Records with blocks in the overflow: the least universe and count for so many of ones and of zeros, full ones, some with low bits, and some of both."""
    rng = random.Random(7)
    for blocks in (1, 2, 3, 5):
        times = far_ones(blocks, rng)
        u = times[-1] + 1
        yield u, u // 2 + 1, times
        yield u << 9, u // 2 + 1, [(t << 9) + 512 * k // len(times) for k, t in enumerate(times)]
    n = APART // 2 + 2
    yield APART + 1, n, [*far_ones(1, rng), *[APART] * (n - BLOCK)]
    yield APART + 1, n, runs((1_023, 0), (1, APART - 1))
    yield APART + 1, n, runs((1_022, 0), (2, APART))
    for blocks in (1, 2, 3):
        yield blocks * BLOCK - 2, blocks * APART, far_zeros(blocks)
    yield BLOCK - 2, APART - 1, far_zeros(1)[1:]
    yield BLOCK + 3, APART, far_zeros(1)
    yield APART << 3, APART, [t << 3 for t in far_zeros(1)]
    yield 2 * BLOCK + APART, FAR + 2 * BLOCK, [500] * FAR + [600 + t for t in far_ones(1, rng)] + [APART + 1_000] * BLOCK
    yield 3 * APART, 2 * APART + 3 * BLOCK, far_ones(1, rng) + [2 * APART] * (2 * APART)


def exhaustive():
    """The limits of all small settings; every small list in a buffer of just the limit; and long lists with blocks in the overflow."""
    lines = [f"limit {u} {n} {rank}" for u in range(140) for n in range(70) for rank in (0, 1)]
    for u, n, times in small_lists():
        for rank, finishes in ((0, (0,)), (1, (1,)), (1, (0, 1))):
            lines += [f"buffer {limit(u, n, rank)} {MAX}", *made(u, n, times), f"reading {u}", *(f"finish {choice}" for choice in finishes)]
    for u, n, times in far_lists():
        for rank, finishes in ((1, (1, 0, 1)), (0, (0,))):
            lines += [f"limit {u} {n} {rank}", f"buffer {limit(u, n, rank)} {MAX}", *made(u, n, times)]
            lines += [f"reading {u}", f"reading {times[-1] - 1}", *(f"finish {choice}" for choice in finishes)]
    return [line.encode() for line in lines]
