"""The lines of the questions over an image: worked examples, edges, seeded records, damaged images, and what is out of form."""

import sys

import records
from model import LENT, TOP, Console, Settings
from records import begin, lay, made, size, small_lists, times_of

MAX = TOP - 1

# Worked examples of the document, with the answers that it gives.

EXAMPLES = """
# u 20, n 4, times 3 4 4 13, with rank index
buffer 12 9 -> ok
start 20 4 -> ok
reading 3 -> ok
reading 4 -> ok
reading 4 -> ok
reading 13 -> ok
finish 1 -> 12
rank 4 -> 1
rank 14 -> 4
rank 20 -> 4
rank 21 -> none
predecessor 19 -> 13
predecessor 20 -> 13
predecessor 18446744073709551615 -> 13
successor 5 -> 13
successor 14 -> none
delta 0 -> 3
delta 1 -> 1
delta 2 -> 0
delta 3 -> 9
delta 4 -> none
select 4 -> none
len -> 4
universe -> 20
has_rank -> 1
walk 0 5 -> 3 4 4 13 none
walk 4 2 -> none none
walk 0 0 ->
read 2 3 -> 2 4 13 0
read 4 2 -> 0 0 0
read 0 0 -> 0
# an empty or reversed range is none wherever it lies; 9 for one that ends past m
search_range 3 3 13 -> none
search_range 3 1 13 -> none
search_range 9 9 13 -> none
search_range 18446744073709551615 5 13 -> none
search_range 0 5 13 -> refused 9
search_range 4 5 13 -> refused 9
search_range 3 4 13 -> 3
# 8 exactly where the index is needed
finish 0 -> 10
has_rank -> 0
rank 4 -> refused 8
rank 19 -> refused 8
rank 20 -> 4
rank 21 -> none
predecessor 18 -> refused 8
predecessor 19 -> 13
predecessor 20 -> 13
predecessor 18446744073709551615 -> 13
successor 0 -> refused 8
successor 19 -> refused 8
successor 20 -> none
search 4 -> 1
# 7 before 9 and 8, and for a count of 0
poke 3 2 -> ok
search_range 0 5 13 -> refused 7
rank 4 -> refused 7
walk 0 0 -> refused 7
read 0 0 -> refused 7
walk 0 4097 -> bad command
read 0 4097 -> bad command
# u 0, n 1
buffer 7 9 -> ok
start 0 1 -> ok
finish 0 -> 7
rank 0 -> 0
rank 1 -> none
predecessor 0 -> none
successor 0 -> none
delta 0 -> none
search 0 -> none
walk 0 2 -> none none
read 0 2 -> 0 0 0
len -> 0
universe -> 0
# u 2^64 - 1, n 1, time 2^64 - 2
buffer 12 9 -> ok
start 18446744073709551615 1 -> ok
reading 18446744073709551614 -> ok
finish 1 -> 12
rank 18446744073709551614 -> 0
rank 18446744073709551615 -> 1
predecessor 18446744073709551613 -> none
predecessor 18446744073709551614 -> 18446744073709551614
predecessor 18446744073709551615 -> 18446744073709551614
successor 0 -> 18446744073709551614
successor 18446744073709551615 -> none
"""


def pairs():
    return records.pairs(EXAMPLES)


# So many times 7, what is asked of them, and the answer.
EQUAL = ((64, "search 7", "0"), (65, "search 7", "0"), (65, "search_range 3 65 7", "3"))


def equal(n, question):
    lines = [f"buffer {size(8, n) + 6} 0", *made(8, n, [7] * n), "finish 0", question]
    return [line.encode() for line in lines]


def check_examples():
    """The worked examples hold in the model."""
    records.hold(EXAMPLES)
    for n, question, answer in EQUAL:
        console = Console()
        got = [console.line(line) for line in equal(n, question)][-1]
        if got != answer:
            sys.exit(f"{question} of {n} times 7: {got} instead of {answer}")


# Making lines.


def near(times, u, l):
    """Values around the times, the ends of their buckets and the universe."""
    values = {0, 1, u - 1, u, u + 1, MAX, u // 2}
    for t in times:
        low = t >> l << l
        values |= {t - 1, t, t + 1, low - 1, low, low + (1 << l) - 1, low + (1 << l)}
    return sorted(v for v in values if 0 <= v <= MAX)


def some(rng, values, count):
    return values if len(values) <= count else sorted(rng.sample(values, count))


def ask(add, u, n, times, count):
    """Each question; those with a value at up to `count` values."""
    rng, m = add.rng, len(times)
    values = near(times, u, Settings(u, n).l)
    for line in ("len", "universe", "has_rank"):
        add(line)
    numbers = [k for k in sorted({0, 1, 2, m // 2, m - 1, m, m + 1, 31, 32, 33, 63, 64, MAX}) if 0 <= k <= m + 1 or k == MAX]
    for k in some(rng, numbers, count):
        add("delta", k)
    for name in ("rank", "predecessor", "successor"):
        for v in some(rng, values, count):
            add(name, v)
    for v in some(rng, values, count // 2):
        add("search", v)
    add_ranges(add, times, values, count // 3)
    add_walks(add, m, count // 4)


def add_ranges(add, times, values, count):
    rng, m = add.rng, len(times)
    ends = [(0, m), (0, m + 1), (m, m), (m, m + 1), (m, 0), (1, 0), (MAX, MAX), (MAX - 1, MAX), (0, MAX), (MAX, 0), (m // 2, m + 1)]
    ends += [(rng.randrange(m + 1), rng.randrange(m + 1)) for _ in range(count)]
    ends += [(k, k + w) for k, w in ((rng.randrange(m + 1), rng.choice((1, 2, 63, 64, 65, 66))) for _ in range(count)) if k + w <= m]
    for a, b in some(rng, ends, count):
        add("search_range", a, b, rng.choice(times) if times and rng.randrange(2) else rng.choice(values))


def add_walks(add, m, count):
    rng = add.rng
    spans = [(0, min(m + 2, 80)), (0, 1), (0, 0), (m, 2), (m + 1, 1), (MAX, 2), (max(1, m) - 1, 3), (m // 2, 70), (1, 5)]
    for k, steps in some(rng, spans, count):
        add("walk", k, steps)
    for k, steps in some(rng, spans, count):
        add("read", k, steps)


def note_times(add, u, n, times, ranks):
    """These times before a finish with each rank choice: by readings or, where there are many, by their words."""
    longest = max(len(Settings(u, n).image(rank, times)) for rank in ranks)
    if len(times) <= 24:
        begin(add, u, n, max(0, longest - size(u, n)))
        for t in times:
            add("reading", t)
    else:
        lay(add, u, n, times, max(longest, size(u, n)))


def record(add, u, n, times, ranks, count):
    """The record of these times with each rank choice, and all questions."""
    note_times(add, u, n, times, ranks)
    for rank in ranks:
        add("finish", rank)
        ask(add, u, n, times, count if rank else count // 2)


def around(l, groups):
    """Times of which so many have the high part h, with low parts from 0 on, for each (h, so many)."""
    return [h * 2**l + min(i, 2**l - 1) for h, many in groups for i in range(many)]


def add_edges(add):
    add.note("edges: u 0, no times, one time, u 2^64 - 1")
    for u, n, times in (
        (0, 1, []),
        (0, 5, []),
        (0, 200, []),
        (1, 1, []),
        (1, 1, [0]),
        (2, 1, [1]),
        (20, 4, []),
        (20, 4, [0]),
        (20, 4, [19]),
        (20, 4, [3, 4, 4, 13]),
        (20, 4, [19] * 4),
        (20, 5, [3, 4, 4, 13]),
        (MAX, 1, []),
        (MAX, 1, [0]),
        (MAX, 1, [2**63 - 1]),
        (MAX, 1, [2**63]),
        (MAX, 1, [MAX - 1]),
        (MAX, 2, [0, MAX - 1]),
        (MAX, 4, [0, 2**62, 2**63, MAX - 1]),
        (MAX, 9, [MAX - 1] * 9),
        (2**63, 1, [2**63 - 1]),
        (2**63 + 1, 1, [2**63]),
        (2**63 - 1, 1, [2**62]),
    ):
        record(add, u, n, times, (0, 1), 14)
    add.note("low bits of no width: u at most n")
    few, many = (4, 4, [0, 1, 2, 3]), (7, 129, [0] * 40 + [3] * 40 + [6] * 49)
    for u, n, times in (few, (3, 30, [0] * 10 + [2] * 9), (64, 64, list(range(64))), (1, 70, [0] * 70), many):
        record(add, u, n, times, (0, 1), 14)
    add.note("all times equal: around 64, where the search begins to halve, and 128")
    for n in (17, 63, 64, 65, 66, 128, 129, 130, 200):
        record(add, 8, n, [7] * n, (n % 2,), 14)
        record(add, 2**40, n, [2**39 + 5] * n, (1 - n % 2,), 14)


def runs(*pairs):
    """Each time so often, for each (so often, time)."""
    return [t for many, t in pairs for _ in range(many)]


def add_runs(add):
    add.note("runs of equal times: the first of the list, and of a range that begins or ends in a run")
    for u, n, times in (
        (8, 65, runs((65, 7))),
        (20, 300, runs((100, 5), (100, 9), (100, 12))),
        (2**20, 300, runs((1, 256), (95, 257), (33, 300), (64, 511), (107, 2**19))),
        (2**20, 400, runs((31, 9), (1, 10), (32, 2_621), (33, 2_622), (65, 5_300), (97, 5_301), (141, 2**20 - 1))),
        (10**9, 2_000, runs((700, 10**6), (1_000, 10**6 + 1), (300, 10**9 - 1))),
    ):
        lay(add, u, n, times, len(Settings(u, n).image(0, times)))
        add("finish", 0)
        ends = [k for k in range(len(times)) if k == 0 or times[k] != times[k - 1]]
        for v in sorted({v for k in ends for v in (times[k] - 1, times[k], times[k] + 1)}):
            add("search", v)
        for k, end in zip(ends, [*ends[1:], len(times)]):
            for a, b in ((0, end), (k, end), (k + 3, len(times)), (k // 2, end), (k // 2, end - 1), (k // 2, k), (k, k + 1), (end - 1, len(times))):
                add("search_range", a, b, times[k])


def add_from_universe(add):
    add.note("the predecessor around the universe and past it: the last time, with and without the index; none where there is no time")
    for u, n, times in (
        (0, 1, ()),
        (1, 1, ()),
        (1, 1, (0,)),
        (2, 1, ()),
        (2, 2, (0, 0)),
        (20, 4, ()),
        (20, 4, (0,)),
        (20, 4, (3, 4, 4, 13)),
        (20, 9, (19, 19)),
        (2**40, 3, (5, 2**39)),
        (2**63, 2, (2**63 - 1,)),
        (MAX - 1, 2, (7, MAX - 2)),
        (MAX, 1, ()),
        (MAX, 2, (0, MAX - 1)),
        (131_072, 65_536, (*[0] * 1_023, 129_029, 131_071, 131_071)),
    ):
        begin(add, u, n, 300, 0) if len(times) <= 24 else lay(add, u, n, times, size(u, n) + 3_000)
        for t in times if len(times) <= 24 else ():
            add("reading", t)
        for rank in (0, 1):
            add("finish", rank)
            for v in sorted({v for v in (0, u - 3, u - 2, u - 1, u, u + 1, u + 2, 2 * u, MAX - 1, MAX) if 0 <= v <= MAX}):
                add("predecessor", v)
    add.note("the same of prefix sums, which have no index")
    for line in ("buffer 40 0", "sums 3 0 5", *(f"predecessor {v}" for v in (7, 8, 9, MAX)), "sums", "predecessor 9"):
        add(line)
    add.note("7 comes first")
    for line in ("buffer 9 0", "start 1 1", "reading 0", "finish 0", "poke 2 2", "predecessor 0", "predecessor 1", f"predecessor {MAX}"):
        add(line)


def add_buckets(add):
    add.note("buckets of up to 16 values and of more, where rank halves")
    for many in (1, 15, 16, 17, 18, 33, 65):
        l = 8
        n = 4 * many
        for first in (0, 3):
            groups = [(0, first), (2, many), (3, first)] if first else [(0, many)]
            record(add, n * 2**l, n, around(l, groups), (1,), 20)
    for many in (16, 17, 40):
        add.note(f"{many} values of one bucket, the same low bits among them")
        times = sorted([5 * 256 + x for x in (0, 0, 0, 7, 7, 255, 255)] + [5 * 256 + 7] * (many - 7))
        record(add, 256 * 50, 50, times, (1,), 30)
        record(add, 256 * 50, 50, [1, 2, *times, 6 * 256], (1,), 30)
    add.note("buckets that end at, before and after a word of the high bits")
    for end in (62, 63, 64, 65, 126, 127, 128, 129):
        for many in (1, 16, 17):
            h = end - many
            n = 70
            l = 5
            if h * 2**l < n * 2**l:
                record(add, n * 2**l + 31, n, around(l, [(h, many)]), (1,), 10)
            before = (end - many) // 2
            record(add, 140 * 2**l + 31, 140, around(l, [(end - many - before, before), (end - many - before + 1, many)]), (1,), 10)
    add.note("wide low bits that cross words")
    for u, n in ((2**40, 30), (2**50, 33), (2**62, 7), (10**18, 20), (MAX, 3), (MAX, 65)):
        record(add, u, n, times_of(add.rng, u, n), (0, 1), 12)


def add_seeded(add, count):
    add.note("seeded records, with and without the rank index")
    rng = add.rng
    for i in range(count):
        n = rng.choice((rng.randrange(1, 9), rng.randrange(1, 40), rng.randrange(60, 70), rng.randrange(1, 200)))
        u = rng.choice((rng.randrange(4), n, rng.randrange(1, 8 * n), rng.randrange(1, 300 * n), 2 ** rng.randrange(64), rng.randrange(1, TOP)))
        times = times_of(rng, u, rng.choice((n, n, n, rng.randrange(n + 1), 0)))
        record(add, u, n, times, (i % 2,) if i % 3 else (0, 1), 10)


def add_many(add):
    add.note("many times: blocks of the index, near and far")
    for u, n, m in ((5_000, 1_100, 1_100), (10**9, 500, 500), (2_000, 4_000, 3_999), (131_072, 65_536, 200)):
        times = sorted(add.rng.randrange(u) for _ in range(m))
        record(add, u, n, times, (1,), 40)
        for k, steps in ((0, LENT if m == 3_999 else 100), (m - 10, 20), (m // 2, 100)):
            add("walk", k, steps)
            add("read", k, steps)
        add("walk", 0, LENT + 1)
        add("read", 0, LENT + 1)
        add("finish", 0)
        ask(add, u, n, times, 16)
    for u, n, times in ((131_072, 65_536, [0] * 1_023 + [129_029, 131_071, 131_071]), (3_000, 66_000, [500] * 1_000 + [501] * 1_000)):
        record(add, u, n, times, (1,), 40)


# One line of each question.
EACH = (
    "select 0",
    "delta 0",
    "rank 0",
    "rank 18446744073709551615",
    "predecessor 0",
    "predecessor 18446744073709551615",
    "successor 0",
    "successor 18446744073709551615",
    "search 0",
    "search_range 0 1 0",
    "search_range 1 0 0",
    "search_range 0 18446744073709551615 0",
    "len",
    "universe",
    "has_rank",
    "walk 0 0",
    "walk 0 3",
    "read 0 0",
    "read 0 3",
)


def add_damaged(add):
    add.note("no words, too few, and any: 7 for every question")
    for lines in (("buffer 0 0",), ("buffer 5 0", "image 5"), ("buffer 12 1", "image 12"), ("buffer 7 0", "image 7")):
        for line in (*lines, *EACH):
            add(line)
    add.note("one word changed, or one word more or less: 7 for every question")
    example = (3, 4, 4, 13)
    for u, n, rank, times in ((20, 4, 1, example), (20, 4, 0, example), (MAX, 1, 1, (MAX - 1,)), (0, 1, 1, ()), (10**6, 40, 1, range(0, 800, 20))):
        begin(add, u, n, 20, 0)
        for t in times:
            add("reading", t)
        add("finish", rank)
        held = list(add.console.record.lent[: add.console.record.length])
        for i in range(len(held)):
            add("poke", i, add.rng.choice(records.others(add, held[i])))
            for line in add.rng.sample(EACH, 5):
                add(line)
            add("poke", i, held[i])
        for length in (len(held) - 1, len(held) + 1, 6, 0):
            add("image", length)
            for line in add.rng.sample(EACH, 8):
                add(line)
        add("image", len(held))
        for line in EACH:
            add(line)


def wrong(add, line):
    """The line out of form, in many ways."""
    words = line.split(" ")
    lines = [" " + line, line + " ", line.upper(), line + "\t", line + " 0", line[1:], line[0] + line]
    if len(words) > 1:
        lines += [line.replace(" ", "  ", 1), words[0], " ".join(words[:-1])]
        for word in add.rng.sample(records.WRONG_WORDS, 2):
            lines.append(" ".join([*words[:-1], word]))
            lines.append(" ".join([words[0], word, *words[2:]]))
    return lines


def add_out_of_form(add):
    add.note("questions out of form")
    for line in ("buffer 12 0", *made(20, 4, (3, 4, 4, 13)), "finish 1"):
        add(line)
    right = ("delta 1", "rank 4", "predecessor 4", "successor 5", "search 4", "search_range 0 4 13", "len", "universe", "has_rank")
    for line in (*right, "walk 1 2", "read 1 2"):
        for bad in wrong(add, line):
            add(bad)
        add(line)
    for name in ("walk", "read"):
        for count in (LENT + 1, 2**32, 2**32 + 2, MAX):
            add(name, 0, count)
    for line in ("walk 00 00003", "read 0002 004", "search_range 000 04 0013", "rank 0000000000000000000000004", "is_empty", "is_empty 0", "words"):
        add(line)


def add_questions(add, count):
    """The whole section; `count` records are seeded."""
    add.note("questions over an image")
    for command, _ in pairs():
        add(command)
    for n, question, _ in EQUAL:
        for line in equal(n, question):
            add(line)
    add.note("the smallest input of each difference from the Rust")
    for _, smallest, _ in records.DIFFERENCES[records.BUILDING : records.ASKING]:
        for line in smallest:
            add(line)
    add.note("33 times 1: the Rust says none for a range past them, since its first half ends before")
    lay(add, 2, 33, [1] * 33, size(2, 33) + 3)
    for line in ("finish 0", "search_range 0 65 0", "search_range 0 64 0", "search_range 0 33 0"):
        add(line)
    add_edges(add)
    add_buckets(add)
    add_seeded(add, count)
    add_many(add)
    add_damaged(add)
    add_out_of_form(add)
    add_runs(add)
    add_from_universe(add)


def exhaustive():
    """Each question at each small number, of every small list."""
    lines = []
    for u, n, times in small_lists():
        lines += ["buffer 20 0", *made(u, n, times)]
        for rank in (0, 1):
            lines += [f"finish {rank}", "len", "universe", "has_rank"]
            lines += [f"{name} {v}" for name in ("delta", "rank", "predecessor", "successor", "search") for v in range(u + 2)]
            lines += [f"search_range {a} {b} {v}" for a in range(3) for b in range(5) for v in range(u)]
            lines += [f"{name} {k} {c}" for name in ("walk", "read") for k in range(5) for c in (0, 1, 4)]
    return [line.encode() for line in lines]
