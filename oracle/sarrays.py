"""The lines of the sparse vector: worked cases, short vectors, lengths around words, refusals, zeros, other images, and what is out of form."""

import documented
import records
from from_bits import bits, image_of
from model import LENT, SPARSE, TOP, Settings
from questions import near, some, wrong
from records import lay, made, size, times_of

MAX = TOP - 1

QUESTIONS = [name for name in SPARSE if name not in ("sarray", "sarray_from_bits")]
RANKED = ("sarray_rank1", "sarray_predecessor1", "sarray_successor1")

# Each question at both ends.
EACH = [f"{name} {p}" for name in QUESTIONS for p in (0, MAX)]

# Cases with the answers that the document gives for them.

EXAMPLES = """
# nothing is set: length 0, no choice, no words
sarray_access 0 -> none
sarray_select1 0 -> none
sarray_rank1 0 -> refused 8
sarray_predecessor1 0 -> refused 8
sarray_successor1 0 -> refused 8
# length 20, ones at 3, 4 and 13: the image of the record of u 20, n 3
buffer 13 9 -> ok
bits 20 8216 -> ok
sarray_from_bits 1 -> 12
words -> 20 3 3 1 0 0 37 19 0 0 1 0 9
builder -> 0 0 0 0
sarray_access 3 -> 1
sarray_access 5 -> 0
sarray_access 19 -> 0
sarray_access 20 -> none
sarray_rank1 0 -> 0
sarray_rank1 4 -> 1
sarray_rank1 20 -> 3
sarray_rank1 21 -> none
sarray_select1 0 -> 3
sarray_select1 2 -> 13
sarray_select1 3 -> none
sarray_predecessor1 2 -> none
sarray_predecessor1 12 -> 4
sarray_predecessor1 19 -> 13
sarray_predecessor1 20 -> none
sarray_successor1 5 -> 13
sarray_successor1 13 -> 13
sarray_successor1 14 -> none
sarray_successor1 20 -> none
# another length or choice: 7 for every question, before 8
sarray 21 1 -> ok
sarray_access 3 -> refused 7
sarray_rank1 22 -> refused 7
sarray 20 0 -> ok
sarray_select1 9 -> refused 7
sarray_rank1 3 -> refused 7
sarray_predecessor1 20 -> refused 7
sarray 20 1 -> ok
sarray_successor1 0 -> 3
# 13, then 3: what is refused changes nothing
bits 4 16 -> ok
sarray_from_bits 0 -> refused 13
bits 192 18446744073709551615 18446744073709551615 18446744073709551615 -> ok
sarray_from_bits 0 -> refused 3
words -> 20 3 3 1 0 0 37 19 0 0 1 0 9
sarray_rank1 20 -> 3
# without the choice: 8 before the position is looked at, unlike in the record
bits 20 8216 -> ok
sarray_from_bits 0 -> 10
sarray_access 13 -> 1
sarray_select1 1 -> 4
sarray_rank1 20 -> refused 8
sarray_rank1 21 -> refused 8
sarray_predecessor1 19 -> refused 8
sarray_successor1 18446744073709551615 -> refused 8
rank 20 -> 3
rank 21 -> none
# zeros have no image and keep length and choice, and no word is written
bits 5 0 -> ok
sarray_from_bits 1 -> 0
words -> 20 3 3 0 0 0 37 19 0 0 1 0 9
open -> refused 7
sarray_access 4 -> 0
sarray_access 5 -> none
sarray_rank1 5 -> 0
sarray_rank1 6 -> none
sarray_select1 0 -> none
sarray_predecessor1 4 -> none
sarray_successor1 0 -> none
sarray_from_bits 0 -> 0
sarray_access 4 -> 0
sarray_rank1 6 -> refused 8
# the empty vector among them, whatever the buffer; 10 and 11 do not arise
buffer 0 0 -> ok
bits 0 -> ok
sarray_from_bits 1 -> 0
sarray_access 0 -> none
sarray_rank1 0 -> 0
sarray_rank1 1 -> none
# a buffer leaves length and choice; no words are zeros of any length
sarray 18446744073709551615 1 -> ok
buffer 6 0 -> ok
sarray_rank1 18446744073709551615 -> 0
sarray_access 18446744073709551614 -> 0
sarray_access 18446744073709551615 -> none
image 6 -> ok
sarray_access 0 -> refused 7
# a repeat, m below n, and a record of the same times without either
buffer 12 0 -> ok
start 20 3 -> ok
reading 3 -> ok
reading 4 -> ok
sarray 20 1 -> ok
finish 1 -> 12
sarray_select1 0 -> refused 7
reading 4 -> ok
finish 1 -> 12
sarray_select1 0 -> refused 7
start 20 3 -> ok
reading 3 -> ok
reading 4 -> ok
reading 13 -> ok
finish 1 -> 12
sarray_select1 2 -> 13
"""

# Making lines.


def ask(add, length, ones, count):
    """Each question, at up to `count` places around the ones and those around the length; without the choice, those that need it at two."""
    rng = add.rng
    around = near(ones, length, Settings(length, len(ones)).l if ones else 0)
    values = sorted({*some(rng, around, count), *(v for v in (length - 1, length, length + 1) if 0 <= v <= MAX)})
    for name in QUESTIONS:
        if name == "sarray_select1":
            for k in sorted({0, len(ones) // 2, max(1, len(ones)) - 1, len(ones), MAX}):
                add(name, k)
        else:
            for p in values if add.console.sparse.choice or name not in RANKED else rng.sample(values, 2):
                add(name, p)


def vector(add, length, ones, rank, count):
    """The vector of these ones, in as many words as it takes, and questions."""
    bits(add, length, ones)
    add("buffer", len(image_of(length, ones, rank)) if ones else 0, 7)
    add("sarray_from_bits", rank)
    ask(add, length, ones, count)


def all_of(add, lines):
    for line in lines:
        add(line)


def each(add):
    """Each question once, at 0, at 1 or far out."""
    for name in QUESTIONS:
        add(name, add.rng.choice((0, 1, MAX)))


def add_unset(add):
    add.note("nothing is set yet: an image that is there is of another length, and no words are the empty vector")
    all_of(add, (*EACH, "buffer 0 0", *EACH))


def short(longest):
    """Every vector of up to so many bits, with and without the choice, and each question at each place up to past the length."""
    for length in range(longest + 1):
        for word in range(2**length):
            for rank in (1, 0):
                yield f"bits {length} {word}" if length else "bits 0"
                yield f"sarray_from_bits {rank}"
                for name in QUESTIONS:
                    for p in (*range(length + 2), MAX) if rank or name not in RANKED else (0, length + 1):
                        yield f"{name} {p}"


def add_short(add):
    add.note("every vector of up to 3 bits")
    add("buffer 12 5")
    all_of(add, short(3))


def add_lengths(add):
    add.note("lengths around words, and ones across them; one word too few, just enough, and later words that stay")
    rng = add.rng
    for i, length in enumerate((63, 64, 65, 127, 128, 129)):
        run = list(range(58 + i, min(length, 70)))
        for j, ones in enumerate(([0], [length - 1], list(range(length)), run, sorted(rng.sample(range(length), length // 7)))):
            rank = (i + j) % 2
            need = len(image_of(length, ones, rank))
            bits(add, length, ones, [add.word()] * rng.randrange(2))
            for words in (need - 1, need + j % 3):
                add("buffer", words, 11)
                add("sarray_from_bits", rank)
                add("sarray_access", ones[0])
                if need < 20:
                    add("words")
            ask(add, length, ones, 2)


def add_dense(add):
    add.note("low bits of no width: neighbouring ones, and runs")
    for length, ones in (
        (200, range(200)),
        (200, [p for p in range(200) if p % 4 != 2]),
        (130, [*range(60), *range(62, 130)]),
        (64, range(64)),
        (1_100, [*range(1_020), *range(1_024, 1_100)]),
        (2_049, range(2_049)),
    ):
        vector(add, length, list(ones), 1, 6)
    add.note("runs with wide gaps, so that many ones have the same high bits")
    for length, ones in (
        (2_000, [*range(5, 40), *range(1_000, 1_020)]),
        (4_096, [*range(4_000, 4_070)]),
        (3_000, [0, *range(1_500, 1_517), 2_999]),
        (5_000, [*range(64, 128), *range(192, 256), *range(4_900, 5_000)]),
    ):
        vector(add, length, ones, 1, 8)


def add_sparse(add):
    add.note("few ones in a few thousand bits, and one far out")
    rng = add.rng
    for length, ones in (
        (1_000, [999]),
        (1_440, [17, 18, 400, 401, 402, 1_300]),
        (4_096, [4_095]),
        (4_097, [0, 4_096]),
        (5_000, sorted(rng.sample(range(5_000), 5))),
        (5_000, sorted(rng.sample(range(5_000), 70))),
        (10_080, sorted(rng.sample(range(10_080), 40))),
    ):
        vector(add, length, ones, 1, 6)
        vector(add, length, ones, 0, 3)
    add.note("all the bits that the console holds; a block of ones in the overflow list")
    longest = 64 * LENT
    for ones in ([longest - 1], [0, longest - 1], range(5, longest, 70), [*range(60_000), *range(188_003, 218_003)]):
        for rank in (1, 0):
            vector(add, longest, list(ones), rank, 3)


def add_refused(add):
    add.note("13, then 3: length, choice, image, words and builder stay")
    asked = ("sarray_access 13", "sarray_access 20", "sarray_rank1 20", "sarray_rank1 21", "sarray_select1 2", "sarray_predecessor1 12", "sarray_successor1 14")
    all_of(add, ("buffer 13 6", "forge 1 2 3 4", "bits 20 8216", "sarray_from_bits 1", *asked))
    for line in ("bits 1", "bits 64", "bits 65 0", "bits 18446744073709551615 1", "bits 4 16", "bits 63 9223372036854775808", "bits 129 0 0 2", "bits 70 0 64"):
        all_of(add, (line, f"sarray_from_bits {add.rng.randrange(2)}", add.rng.choice(asked)))
    for line in ("bits 20 8216", "bits 300 1 0 0 0 1"):
        for rank in (0, 1):
            all_of(add, ("buffer 9 6", "bits 1 1", "sarray_from_bits 0", line, f"sarray_from_bits {rank}", "words", "sarray_access 0", "sarray_access 1", "builder"))
    dense = f"bits 192 {MAX} {MAX} {MAX}"
    all_of(add, ("buffer 13 6", "forge 1 2 3 4", "bits 20 8216", "sarray_from_bits 1", dense, "sarray_from_bits 0", "words", "builder", *asked))
    add.note("an image that is none stays none")
    all_of(add, ("image 11", "sarray_from_bits 0", "sarray_access 13", "bits 4 16", "sarray_from_bits 0", "sarray_access 13", "image 12", *asked))
    add.note("no words are lent")
    all_of(add, ("buffer 0 0", "sarray_access 13", "bits 1 1", "sarray_from_bits 0", "sarray_from_bits 1", "sarray_access 19", "sarray_access 20", "bits 1", "sarray_from_bits 0"))


def add_zeros(add):
    add.note("zeros: no word is written, and the image has none from then on")
    for i, line in enumerate(("bits 0", "bits 0 7", "bits 1 0", "bits 64 0", "bits 65 0 0 9", "bits 200 0 0 0 0")):
        for words, rank in ((0, i % 2), (9, 1 - i % 2)):
            all_of(add, (f"buffer {words} 3", f"image {words}", "forge 1 2 3 4", line, f"sarray_from_bits {rank}", "words", "builder", "open"))
            ask(add, int(line.split(" ")[1]), [], 0)
        all_of(add, ("image 9", "sarray_access 0"))
    bits(add, 64 * LENT, [])
    all_of(add, ("buffer 0 0", "sarray_from_bits 1"))
    ask(add, 64 * LENT, [], 0)
    add.note("zeros after ones, and ones after zeros")
    for line in ("buffer 12 0", "bits 4 9", "sarray_from_bits 1", "set_bit 0 0", "sarray_access 0", "set_bit 3 0", "sarray_access 3", "sarray_from_bits 1"):
        add(line)
    for line in ("sarray_access 3", "words", "image 12", "sarray_select1 1", "sarray_from_bits 0", "push_bit 0", "set_bit 2 1", "sarray_select1 0", "sarray_from_bits 1"):
        add(line)
    all_of(add, ("sarray_select1 0", "sarray_rank1 4", "words"))


def add_any_length(add):
    add.note("no words are zeros of any length")
    add("buffer 3 1")
    for length in (0, 1, 64, 2**32, 2**63, MAX - 1, MAX):
        for rank in (1, 0):
            add("sarray", length, rank)
            ask(add, length, [], 0)


def add_unfit(add):
    add.note("a length or a choice that is not the image's: 7 for every question")
    for length, ones, rank in ((20, [3, 4, 13], 1), (20, [3, 4, 13], 0), (1, [0], 1), (64, range(64), 0)):
        bits(add, length, ones)
        all_of(add, ("buffer 20 0", f"sarray_from_bits {rank}"))
        for other in (0, length - 1, length + 1, 2**32 + length, MAX):
            for choice in (0, 1):
                add("sarray", other, choice)
                all_of(add, add.rng.sample(EACH, 2))
        for choice in (1 - rank, rank):
            add("sarray", length, choice)
            each(add)


def add_buffers(add):
    add.note("a buffer leaves length and choice, and the image goes")
    for rank in (0, 1):
        all_of(add, ("buffer 12 0", "bits 20 8216", f"sarray_from_bits {rank}", "buffer 12 0", "sarray_select1 0", "sarray_access 19", "sarray_access 20"))
        all_of(add, ("sarray_rank1 20", "sarray_rank1 21", "image 12", "sarray_access 19", "bits 20 8216", "from_bits 0", "sarray_select1 2"))
        all_of(add, ("from_bits 1", "sarray_select1 2", "sarray_rank1 13", f"sarray 20 {1 - rank}", "sarray_select1 2", "sarray_rank1 13"))
        all_of(add, ("bits 20 7", "sarray_access 3", "bits 3", "sarray_access 3", "image 0", "sarray_access 3"))


def add_records(add):
    add.note("images of records: repeats, m below n, none at all; those without are vectors of any length")
    for u, n, times in (
        (20, 4, (3, 4, 4, 13)),
        (20, 3, (3, 3, 3)),
        (20, 4, (3, 4, 13)),
        (20, 4, ()),
        (0, 1, ()),
        (MAX, 2, (MAX - 1,)),
        (MAX, 2, (MAX - 1, MAX - 1)),
    ):
        for rank in (0, 1):
            add("buffer", size(u, n) + 9, 0)
            all_of(add, (*made(u, n, times), f"finish {rank}", f"sarray {u} {rank}", "open", f"sarray_rank1 {u}"))
            each(add)
            all_of(add, (f"sarray {u} {1 - rank}", *add.rng.sample(EACH, 2)))
    for u, n, times in (
        (20, 3, (3, 4, 13)),
        (1, 1, (0,)),
        (4, 4, (0, 1, 2, 3)),
        (10**6, 5, (0, 1, 64, 5_000, 999_999)),
        (2**40, 3, (2**39, 2**39 + 1, 2**40 - 1)),
        (2**63, 1, (2**63 - 1,)),
        (MAX, 1, (MAX - 1,)),
        (MAX, 1, (0,)),
        (MAX, 4, (0, 2**62, 2**63, MAX - 1)),
    ):
        for rank in (1, 0):
            add("buffer", size(u, n) + 9, 0)
            all_of(add, (*made(u, n, times), f"finish {rank}", f"sarray {u} {rank}"))
            ask(add, u, list(times), 3 * rank)
    add.note("one repeat, anywhere among many times; low bits of some width and of none")
    for u, n, ks in ((1_000, 70, (1, 31, 32, 63, 64, 69)), (100, 70, (1, 64, 69)), (9_000, 1_100, (1_024,))):
        for k in ks:
            times = sorted(add.rng.sample(range(u), n))
            times[k] = times[k - 1]
            lay(add, u, n, times, size(u, n) + 90)
            all_of(add, (f"finish {k % 2}", "open", f"sarray {u} {k % 2}", f"sarray_access {times[k]}", f"sarray_select1 {k}", "sarray_rank1 0"))
    add.note("the vector is over the image as it is: other readings of the same length and choice, a start, a second finish")
    all_of(add, ("buffer 12 0", "bits 20 8216", "sarray_from_bits 1", *made(20, 3, (0, 1, 19)), "sarray_access 0", "finish 1", "sarray_access 0"))
    all_of(add, ("sarray_predecessor1 18", "finish 0", "sarray_access 0", "sarray_rank1 0", "finish 1", "sarray_rank1 20"))
    all_of(add, ("start 20 3", "sarray_access 0", "reading 7", "finish 1", "sarray_access 7", "finish 0", "sarray_access 7"))
    add.note("the record's own questions stay")
    all_of(add, ("buffer 12 0", "sarray_from_bits 0", "sarray 9 1", "rank 20", "rank 13", "select 2", "predecessor 19", "predecessor 20", "search 13", "walk 0 4", "has_rank"))
    add.note("prefix sums: with an item of 0 past the first there is a repeat, and word 3 is 0")
    for items in ((3, 0, 5), (3, 1, 5), (0, 1), (0, 0), (7,), (), (1,) * 20, (0, MAX - 1)):
        u = 1 + sum(items)
        all_of(add, ("buffer 40 0", " ".join(map(str, ["sums", *items])), f"sarray {u} 0", *EACH, f"sarray_access {u - 1}", f"sarray {u} 1", "sarray_access 0"))


def add_damaged(add):
    add.note("damaged images: some bits of each word")
    rng = add.rng
    for length, ones, rank in ((20, [3, 4, 13], 1), (200, sorted(rng.sample(range(200), 40)), 0), (3_000, sorted(rng.sample(range(3_000), 9)), 1)):
        bits(add, length, ones)
        all_of(add, ("buffer 40 0", f"sarray_from_bits {rank}"))
        held = list(add.console.record.lent[: add.console.record.length])
        for i, word in enumerate(held):
            for b in sorted(rng.sample(range(64), 2 if length > 20 else 5) + [i % 5]):
                add("poke", i, word ^ 1 << b)
                add(rng.choice(QUESTIONS), rng.choice((0, length, *ones)))
            add("poke", i, word)
        add("sarray_access", ones[0])
        add.note("a word more or less, and the length or the choice of what word 0 or 3 became")
        for words in (0, 1, 5, 6, len(held) - 1, len(held) + 1, len(held)):
            add("image", words)
            all_of(add, rng.sample(EACH, 3))
        for i, other in ((0, f"sarray {length + 1} {rank}"), (1, f"sarray {length} {rank}"), (3, f"sarray {length} {1 - rank}")):
            add("poke", i, held[i] + 1 if i < 3 else 1 - rank)
            all_of(add, (other, "open", *rng.sample(EACH, 4)))
            add("poke", i, held[i])
            all_of(add, (rng.choice(EACH), f"sarray {length} {rank}", rng.choice(EACH)))


def add_from_length(add):
    add.note("from the length on the vector has no predecessor, and the record of the same image has one")
    for rank in (0, 1):
        all_of(add, ("buffer 12 0", "bits 20 8216", f"sarray_from_bits {rank}"))
        for p in (12, 13, 18, 19, 20, 21, MAX):
            all_of(add, (f"sarray_predecessor1 {p}", f"predecessor {p}"))


def add_random(add, count):
    add.note("random vectors, and what may happen to them")
    rng = add.rng
    for _ in range(count):
        length = rng.choice((1, 5, 20, 64, 100, 128, 333, 640, 2_000))
        ones = sorted(set(times_of(rng, length, rng.randrange(min(length, 90) + 1))))
        rank = rng.choice((0, 1, 1))
        bits(add, length, ones)
        add("buffer", max(0, len(image_of(length, ones, rank) if ones else ()) + rng.randrange(-1, 3)), add.word())
        add("sarray_from_bits", rank)
        if length < 101:
            add("words")
        ask(add, length, ones, 2)
        happen(add, length, ones, rank)


def happen(add, length, ones, rank):
    """One thing that may alter the vector, and some questions."""
    rng = add.rng
    lent, kind = len(add.console.record.lent), rng.randrange(6)
    if kind == 0 and lent:
        i = rng.randrange(lent)
        add("poke", i, rng.choice(records.others(add, add.console.record.lent[i])))
    elif kind == 1:
        add("sarray", rng.choice((length, length, length + 1, add.word())), rng.randrange(2))
    elif kind == 2:
        add("image", rng.randrange(lent + 1))
    elif kind == 3:
        all_of(add, (f"bits {length} 0", f"sarray_from_bits {rng.randrange(2)}"))
    elif kind == 4:
        add("buffer", size(length, len(ones) + 1) + 20, 0)
        times = sorted(rng.choices(range(length), k=rng.randrange(1, len(ones) + 2)))
        all_of(add, (*made(length, rng.choice((len(times), len(ones) + 1)), times), f"finish {rank}"))
    else:
        all_of(add, ("set_bit 0 1", f"from_bits {rank}"))
    for name in QUESTIONS:
        add(name, rng.choice((0, length, *ones)))


RIGHT = ("sarray 9 0", "sarray_from_bits 1", *(f"{name} 3" for name in QUESTIONS))

WRONG = (
    "sarray 9 2",
    "sarray 2 2",
    "sarray 9 10",
    "sarray 9 -0",
    "sarray 9 x",
    "sarray -1 0",
    "sarray 18446744073709551616 0",
    "sarray 0 18446744073709551616",
    "sarray 0 0 0",
    "sarray",
    "sarray_",
    "sarray_from_bits 2",
    "sarray_from_bits 01 0",
    "sarray_from_bits 18446744073709551615",
    "sarray_from_bits true",
    "sarray_from_bit 1",
    "sarrays 9 0",
    "Sarray 9 0",
    "sarray_rank0 1",
    "sarray_select0 0",
    "sarray_predecessor0 1",
    "sarray_successor 1",
    "sarray_len",
    "sarray_num_ones",
    "sarray_has_rank",
    "sarray_parts",
)


def add_out_of_form(add):
    add.note("commands of the sparse vector out of form change nothing")
    all_of(add, ("buffer 13 8", "bits 4 9", "sarray_from_bits 1"))
    for line in RIGHT:
        all_of(add, dict.fromkeys(wrong(add, line)))
    all_of(add, (*WRONG, "words", "builder", *(f"{name} 3" for name in QUESTIONS)))
    add.note("leading zeros are allowed")
    all_of(add, ("sarray_rank1 004", "sarray 0000000000000000000000004 000", "sarray_access 3", "sarray 04 01", "sarray_access 0003", "sarray_from_bits 00"))
    all_of(add, ("sarray_select1 00001", "sarray_predecessor1 0", "sarray_from_bits 0001", "sarray_predecessor1 02", "sarray_successor1 0002", "words"))


def add_sarrays(add, count):
    """The whole section; `count` vectors are random."""
    add.note("the sparse vector")
    add_unset(add)
    for command, _ in records.pairs(EXAMPLES):
        add(command)
    all_of(add, documented.lines(documented.SPARSE))
    add.note("the smallest input of each difference from the Rust")
    for _, smallest, _ in records.DIFFERENCES[records.FROM_BITS :]:
        all_of(add, ("buffer 0 0", *smallest))
    add_short(add)
    add_lengths(add)
    add_dense(add)
    add_sparse(add)
    add_refused(add)
    add_zeros(add)
    add_any_length(add)
    add_unfit(add)
    add_buffers(add)
    add_records(add)
    add_damaged(add)
    add_random(add, count)
    add_from_length(add)
    add_out_of_form(add)


def exhaustive():
    """Every vector of up to 8 bits."""
    return [line.encode() for line in ("buffer 20 0", *short(8))]
