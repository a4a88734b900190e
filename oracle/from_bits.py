"""The lines of a record from bits: worked cases, lengths around words, refusals, blocks in the overflow list, and what is out of form."""

import records
from model import Settings, used_words
from records import times_of

# Cases with the answers that the document gives for them.

EXAMPLES = """
# length 20, ones at 3, 4 and 13: the record of u 20, n 3
buffer 12 9 -> ok
bits 20 8216 -> ok
from_bits 1 -> 12
builder -> 0 0 0 0
open -> ok
len -> 3
universe -> 20
walk 0 4 -> 3 4 13 none
rank 14 -> 3
# 13, 10, 11, 2, 3, in this order
bits 4 16 -> ok
from_bits 0 -> refused 13
bits 65 1 -> ok
from_bits 0 -> refused 13
bits 0 -> ok
from_bits 0 -> refused 10
bits 0 5 -> ok
from_bits 1 -> refused 10
bits 4 0 -> ok
from_bits 0 -> refused 11
buffer 8 9 -> ok
bits 20 8216 -> ok
from_bits 1 -> refused 3
words -> 9 9 9 9 9 9 9 9
len -> refused 7
"""


def image_of(length, ones, rank):
    return Settings(length, len(ones)).image(rank, list(ones))


def bits(add, length, ones, later=()):
    """The bits with these ones, and later words, which are not read."""
    held = [0] * used_words(length)
    for p in ones:
        held[p // 64] |= 1 << p % 64
    add("bits", length, *held, *later)


def ask(add, length, ones):
    """Some questions of the record."""
    m = len(ones)
    for line in ("open", "len", "universe", "has_rank", f"rank {length}", f"rank {ones[m // 2]}", f"select {m - 1}", f"select {m}", f"predecessor {length - 1}"):
        add(line)
    add("successor", ones[0])
    add("sums_walk", 3)


def add_lengths(add):
    add.note("lengths around words, with and without rank index; later words of the bits are not read, those of the buffer stay")
    rng = add.rng
    for length in (1, 2, 3, 63, 64, 65, 127, 128, 129, 191, 192, 200):
        for ones in ([0], [length - 1], list(range(length)), sorted(rng.sample(range(length), max(1, length // 7)))):
            rank = rng.randrange(2)
            need = len(image_of(length, ones, rank))
            bits(add, length, ones, [add.word()] * rng.randrange(2))
            for words in (need - 1, need, need + 2):
                add("buffer", words, 11)
                add("from_bits", rank)
                if need < 20:
                    add("words")
            ask(add, length, ones)
            add("from_bits", 1 - rank)


def add_refused(add):
    add.note("refusals, each before the next, and nothing changes")
    for line in ("buffer 9 3", "forge 1 2 3 4", "image 4"):
        add(line)
    for line in ("bits 1", "bits 64", "bits 65 0", "bits 18446744073709551615 1", "bits 1 2", "bits 63 9223372036854775808", "bits 129 0 0 2", "bits 70 0 64"):
        add(line)
        add("from_bits", add.rng.randrange(2))
    for line in ("bits 0", "bits 0 7", "bits 1 0", "bits 64 0", "bits 64 0 1", "bits 200 0 0 0 0 9", "bits 1 1", "bits 5 31"):
        add(line)
        add("from_bits", add.rng.randrange(2))
    for line in ("words", "builder", "open", "buffer 0 0", "from_bits 0", "from_bits 1", "bits 0", "from_bits 0", "bits 3 0", "from_bits 1"):
        add(line)


def add_far(add):
    add.note("all the bits that the console holds, and blocks of ones in the overflow list; of zeros it would take 2^22 bits")
    length = 64 * 4_096
    spread = list(range(0, length, 9))
    # the block from 59,392 on spans 65,535 high bits, then 65,536
    near, far = (list(range(60_000)) + list(range(b, b + 30_000)) for b in (188_001, 188_003))
    for ones in ([0, length - 1], spread, near, far, list(range(90_000)) + [length - 1]):
        bits(add, length, ones)
        add("buffer 65536 0")
        for rank in (0, 1):
            add("from_bits", rank)
            ask(add, length, ones)


def add_random(add, count):
    add.note("random bits")
    rng = add.rng
    for _ in range(count):
        length = rng.choice((1, 5, 20, 64, 100, 128, 333, 640))
        ones = sorted(set(times_of(rng, length, rng.randrange(1, length + 1))))
        rank = rng.randrange(2)
        bits(add, length, ones)
        add("buffer", len(image_of(length, ones, rank)) + rng.randrange(-1, 3), add.word())
        add("from_bits", rank)
        if length < 101:
            add("words")
        ask(add, length, ones)


def add_out_of_form(add):
    add.note("from_bits out of form")
    for line in ("buffer 12 8", "bits 4 5", "from_bits", "from_bits 2", "from_bits 0 0", "from_bits -0", "from_bits  0", "from_bits 0 ", " from_bits 0", "from_bits x", "From_bits 0", "frombits 0", "from_bit_ 0"):
        add(line)
    for line in ("words", "open", "from_bits 01", "words", "open", "push_bit 1", "set_bit 0 0", "from_bits 0", "dump", "words", "walk 0 3"):
        add(line)


def add_from_bits(add, count):
    """The whole section; `count` vectors are random."""
    add.note("a record from bits")
    for command, _ in records.pairs(EXAMPLES):
        add(command)
    add.note("the smallest input of each difference from the Rust")
    for _, smallest, _ in records.DIFFERENCES[records.SUMS : records.FROM_BITS]:
        for line in smallest:
            add(line)
    add_lengths(add)
    add_refused(add)
    add_far(add)
    add_random(add, count)
    add_out_of_form(add)


def exhaustive():
    """Every vector of up to 6 bits, and each time of its record."""
    lines = ["buffer 20 0"]
    for length in range(7):
        for word in range(2**length):
            for rank in (0, 1):
                lines += [f"bits {length} {word}", f"from_bits {rank}", "open", "walk 0 8", *(f"rank {t}" for t in range(length + 2))]
    return [line.encode() for line in lines]
