"""The lines of the prefix sums: worked examples, sums at the limit, lengths of the buffer, seeded lists, damaged images, and what is out of form."""

import records
from model import LENT, LINE, TOP, Settings
from records import made, size

MAX = TOP - 1

# Worked examples of the document, with the answers that it gives.

EXAMPLES = """
# items 3 0 5: the universe is 9, and word 3 is 0
buffer 12 9 -> ok
sums 3 0 5 -> 10
words -> 9 3 3 0 0 0 70 3 1 0 9 9
builder -> 0 0 0 0
open -> ok
universe -> 9
has_rank -> 0
sums_walk 4 -> 3 0 5 none
sums_access 0 -> 3
sums_access 1 -> 0
sums_access 2 -> 5
sums_access 3 -> none
sums_len -> 3
len -> 3
select 2 -> 8
delta 2 -> 5
# an item of 2^64 - 1 is refused, and changes nothing
sums 18446744073709551615 -> refused 12
words -> 9 3 3 0 0 0 70 3 1 0 9 9
sums_len -> 3
# an empty list is accepted and has no words; any record question of no words is refused with 7
sums -> 0
words -> 9 3 3 0 0 0 70 3 1 0 9 9
sums_access 0 -> none
sums_walk 3 -> none none none
sums_walk 0 ->
sums_len -> 0
len -> refused 7
select 0 -> refused 7
open -> refused 7
image 10 -> ok
sums_walk 2 -> 3 0
# every accepted image may be asked, with rank index or without
buffer 12 9 -> ok
start 20 4 -> ok
reading 3 -> ok
reading 4 -> ok
reading 4 -> ok
reading 13 -> ok
finish 1 -> 12
sums_walk 5 -> 3 1 0 9 none
sums_access 3 -> 9
sums_len -> 4
"""


def image_of(items):
    times = [sum(items[: k + 1]) for k in range(len(items))]
    return Settings(1 + sum(items), len(items)).image(0, times)


def ask(add, m, count):
    """Each question; places at up to `count` of them."""
    for line in ("open", "sums_len", "universe", "has_rank"):
        add(line)
    spots = [p for p in sorted({0, 1, 2, m // 2, m - 1, m, m + 1, 31, 32, 33, 63, 64, 1_023, 1_024, MAX}) if 0 <= p <= m + 1 or p == MAX]
    for p in spots if len(spots) <= count else sorted(add.rng.sample(spots, count)):
        add("sums_access", p)
    add("sums_walk", min(m + 2, 40))


def add_limit(add):
    add.note("sums at the limit: 2^64 - 2 is accepted, 2^64 - 1 is not, and 12 comes before 3")
    half = 2**63
    for words in (0, 40):
        add("buffer", words, 7)
        for items in ((MAX - 1,), (MAX - 2, 1), (1, MAX - 2), (half, half - 2), (half - 1, half - 1), (0, MAX - 1, 0), (0,) * 20):
            add("sums", *items)
            if words:
                ask(add, len(items), 5)
        for items in ((MAX,), (MAX, 0), (0, MAX), (MAX - 1, 1), (1, MAX - 1), (half, half - 1), (half, half), (MAX, 1), (MAX, MAX), (MAX, MAX, 2)):
            add("sums", *items)
        for line in ("sums_len", "words"):
            add(line)


def add_lengths(add):
    add.note("3 below the image's length and not from it on, and the later words stay")
    for items in ((0,), (3, 0, 5), (7,) * 33, (10**9, 1, 10**15), (MAX - 1,)):
        length = len(image_of(items))
        for words in (0, 5, length - 1, length, length + 2):
            add("buffer", words, 11)
            add("sums", *items)
            add("words")
            add("sums_len")


def add_builder(add):
    add.note("the builder stays, and what is not lent is not written")
    for line in ("buffer 20 3", "start 20 4", "reading 3", "sums 3 0 5", "builder", "words", "reading 4", "builder", "sums_len"):
        add(line)
    for line in ("forge 1 2 3 4", "sums 1 1", "builder", "sums_walk 3", "sums", "builder", "start 9 2", "sums_len", "image 9", "sums_len"):
        add(line)


def add_seeded(add, count):
    add.note("seeded lists of items")
    rng = add.rng
    for _ in range(count):
        many = rng.choice((1, 2, 3, 5, 12, 31, 32, 33, 63, 64, 65, 100))
        top = rng.choice((1, 2, 3, 10, 64, 1_000, 2**20, 2**40, 2**57))
        items = [rng.choice((0, 0, 1, top - 1, rng.randrange(top))) for _ in range(many)]
        add("buffer", len(image_of(items)) + rng.randrange(3), add.word())
        add("sums", *items)
        if many < 20:
            add("words")
        ask(add, many, 4)
        for line in (f"select {many - 1}", f"delta {rng.randrange(many)}", "rank 0", f"rank {sum(items) + 1}", f"search {sum(items[:2])}"):
            add(line)


def add_blocks(add):
    add.note("lists of more than a block, one with a block in the overflow list, and the longest line")
    rng = add.rng
    for many in (1_023, 1_024, 1_025, 2_048, 2_049):
        add("buffer 4000 0")
        add("sums", *(rng.choice((0, 1, 3, 9, 300)) for _ in range(many)))
        ask(add, many, 9)
    add("buffer 65536 0")
    for at, jump in ((20_000, 64_598), (20_000, 64_512), (20_000, 64_513), (0, 64_598), (32_299, 64_598)):
        items = [0] * 32_300
        items[at] = jump
        add("sums", *items)
        for line in ("sums_len", "universe", "open", "sums_access 0", f"sums_access {at}", f"sums_access {at + 1}", "sums_walk 3", "select 20480"):
            add(line)
    for many in (32_765, 32_766, 32_767):
        add("sums", *[0] * many)
        add("sums_len")
    longest = "sums" + " 1" * 32_700
    for line in (longest + " " + "0" * (LINE - len(longest) - 2) + "1", "sums_len", longest + " " + "0" * (LINE - len(longest) - 1) + "1", "sums_len", "sums_access 32700"):
        add(line)


EACH = ("sums_access 0", "sums_access 18446744073709551615", "sums_walk 0", "sums_walk 3", "sums_len")


def add_damaged(add):
    add.note("no words, too few, and any")
    for lines in (("buffer 0 0",), ("buffer 5 0", "image 5"), ("buffer 12 1", "image 12"), ("buffer 7 0", "image 7"), ("buffer 7 0", "start 0 1", "finish 0")):
        for line in (*lines, *EACH):
            add(line)
    add.note("one word changed, or one word more or less")
    for items in ((3, 0, 5), (MAX - 1,), (7,) * 40):
        add("buffer", len(image_of(items)) + 3, 0)
        add("sums", *items)
        held = list(add.console.record.lent[: add.console.record.length])
        for i, word in enumerate(held):
            for changed in add.rng.sample(records.others(add, word), 2):
                add("poke", i, changed)
                for line in add.rng.sample(EACH, 3):
                    add(line)
            add("poke", i, word)
        for length in (len(held) - 1, len(held) + 1, 6, 1, 0, len(held)):
            add("image", length)
            for line in EACH:
                add(line)
    add.note("records that no prefix sums made: with rank index, not full, empty")
    for u, n, rank, times in ((20, 4, 1, (3, 4, 4, 13)), (20, 9, 0, (3, 4, 4, 13)), (20, 9, 1, ()), (0, 1, 1, ()), (MAX, 3, 1, (5, MAX - 1))):
        add("buffer", size(u, n) + 9, 0)
        for line in (*made(u, n, times), f"finish {rank}", *EACH, "sums_access 1", "sums_walk 6"):
            add(line)


def add_out_of_form(add):
    add.note("prefix sums out of form change nothing")
    for line in ("buffer 12 8", "sums 3 0 5"):
        add(line)
    right = ("sums 4 4", "sums_access 1", "sums_walk 2", "sums_len")
    for line in right:
        words = line.split(" ")
        wrong = [" " + line, line + " ", line.upper(), line + "\t", line[1:], line[0] + line, line[:-1] + "x"]
        if line != "sums 4 4":
            wrong += [line + " 0", words[0] + " 0 0", words[0] + " x"]
        if len(words) > 1:
            wrong += [line.replace(" ", "  ", 1), line.replace(" ", "\t", 1)]
            for word in records.WRONG_WORDS:
                wrong += [f"{words[0]} {word}"] if line != "sums 4 4" else [f"sums {word}", f"sums 1 {word}", f"sums {word} 1"]
        for bad in wrong:
            add(bad)
    for line in ("sums_access", "sums_walk", f"sums_walk {LENT + 1}", f"sums_walk {2**32}", f"sums_walk {MAX}", "sum 1", "sums_", "sums_sum", "words", "builder"):
        add(line)
    for line in ("sums_walk 0005", "sums_access 0002", "sums 0003 00 005", "words", f"sums_walk {LENT}"):
        add(line)


def add_sums(add, count):
    """The whole section; `count` lists are seeded."""
    add.note("prefix sums")
    for command, _ in records.pairs(EXAMPLES):
        add(command)
    add.note("the smallest input of each difference from the Rust")
    for _, smallest, _ in records.DIFFERENCES[records.ASKING : records.SUMS]:
        add("buffer 0 0")
        for line in smallest:
            add(line)
    add_limit(add)
    add_lengths(add)
    add_builder(add)
    add_seeded(add, count)
    add_blocks(add)
    add_damaged(add)
    add_out_of_form(add)


def exhaustive():
    """Every list of up to 4 items up to 3, and each question of it."""
    lists = [()]
    for _ in range(4):
        lists += [(*items, x) for items in lists if len(items) < 4 for x in range(4)]
    lines = ["buffer 12 0"]
    for items in sorted(set(lists)):
        lines += [" ".join(map(str, ["sums", *items])), "sums_len", *(f"sums_access {p}" for p in range(6)), *(f"sums_walk {c}" for c in (0, 2, 6))]
    return [line.encode() for line in lines]
