#!/usr/bin/env python3
"""Makes the console's test vectors for words, bits, the record and the sparse vector, and compares them with the Rust.

    vectors.py [--oracle PATH] [--stdin PATH] [--stdout PATH]    writes both files
    vectors.py --check                                           writes nothing, and fails if they would change
    vectors.py --exhaustive [--seed N] [--random N]              compares model and Rust only

Every line is answered by the model (model.py). Every line in form is also answered by the oracle. Both agree, or the line
falls into exactly one of the named differences; anything else is an error. A table counts the differences.
"""

import argparse
import pathlib
import random
import sys
from itertools import groupby

sys.dont_write_bytecode = True
import documented
import from_bits
import limits
import questions
import records
import resumes
import sarrays
import sums
import windows
from model import LENT, LINE, ON_BUFFER, TOP, Console, used_words
from rust import ask, image

HERE = pathlib.Path(__file__).resolve().parent
MAX = TOP - 1

# Worked examples of the document, with the answers that it gives.

EXAMPLES = """
lsb 0 -> none
msb 0 -> none
lsb 44 -> 2
msb 44 -> 5
popcount 691 -> 6
select_in_word 67 2 -> 6
select_in_word 67 3 -> none
select_in_word 0 0 -> none
# get_bits: a width over 64, an end past the length, width 0 at the length, a sum that wraps
bits 4 11 -> ok
get_bits 0 4 -> 11
get_bits 0 5 -> none
get_bits 0 65 -> none
get_bits 4 0 -> 0
get_bits 5 0 -> none
get_bits 18446744073709551615 1 -> none
# rank1 at the length is the count of ones
rank1 4 -> 3
rank1 5 -> none
num_ones -> 3
# select0 never reports padding
select0 0 -> 2
select0 1 -> none
# predecessor1 at and past the length is the last one; padding is refused, and a later word is not looked at
predecessor1 2 -> 1
predecessor1 3 -> 3
predecessor1 4 -> 3
predecessor1 18446744073709551615 -> 3
bits 4 0 -> ok
predecessor1 4 -> none
bits 4 16 -> ok
predecessor1 4 -> refused 13
bits 64 1 1 -> ok
predecessor1 64 -> 0
bits 4 11 -> ok
# a walk: next takes the bit, the skips stop on it
unary 0 next skip0 0 -> 0 2
unary 0 skip1 5 next -> none none
unary 0 skip1 1 next next next -> 1 1 3 none
unary 0 position next position next next next position -> 0 0 0 1 3 none 4
unary 63 next -> none
unary 64 next -> refused 16
bits 0 7 -> ok
unary 0 -> refused 16
bits 64 9223372036854775808 -> ok
unary 64 -> refused 16
unary 63 next next position -> 63 none 64
unary 63 ->
# later words are not read
bits 4 15 9 -> ok
get_word64 1 -> 7
select1 4 -> none
select0 0 -> none
unary 0 skip1 4 -> none
unary 0 skip0 0 -> none
# refusals 13 to 16
bits 4 16 -> ok
num_ones -> refused 13
index 1 -> refused 13
push_bits 0 65 -> refused 13
dump -> 4 : 16
bits 4 11 -> ok
push_bits 0 65 -> refused 14
set_bit 4 1 -> refused 16
bits 64 5 -> ok
push_bit 1 -> refused 15
push_bits 9 0 -> ok
dump -> 64 : 5
# the index: 65,536 is far, 65,535 is not
bits 131074{0 65535} -> ok
index 1 -> 2 | 0 | 0 |
bits 131074{0 65536} -> ok
index 1 -> 2 | -1 | 65535 | 0 65536
index_select 1 0 -> 0
index_select 1 1 -> 65536
index_select 1 2 -> none
bits 0 -> ok
index 1 -> 0 | | |
dump -> 0 :
"""

# What the document says of the Rust, and the record's worked examples, in the Rust's own words.

CLAIMS = """
bits 4 11 -> ok
predecessor1 4 -> none
unary 0 next skip0 0 -> 0 0
unary 0 skip1 5 next -> none 64
get_bits 18446744073709551615 1 -> panic
start 20 0 -> error InvalidArgument
start 20 4 -> ok
reading 3 -> ok
reading 4 -> ok
reading 3 -> error InvalidArgument
reading 4 -> ok
reading 20 -> error InvalidArgument
reading 13 -> ok
reading 13 -> error InvalidState
finish 1 -> ok
parts -> 20 4 4 1 2 ; 11 : 77 ; 8 : 67 ; 4 | 0 | 0 | ; 7 | 1 | 0 |
rank 4 -> 1
rank 14 -> 4
rank 20 -> 4
rank 21 -> none
predecessor 19 -> 13
predecessor 20 -> none
successor 5 -> 13
successor 14 -> none
delta 0 -> 3
delta 1 -> 1
delta 2 -> 0
delta 3 -> 9
select 4 -> none
search_range 3 3 13 -> none
search_range 3 1 13 -> none
search_range 0 5 14 -> panic
finish 0 -> ok
has_rank -> 0
rank 4 -> panic
rank 20 -> 4
predecessor 19 -> 13
start 0 1 -> ok
reading 0 -> error InvalidArgument
finish 0 -> ok
parts -> 0 1 0 0 0 ; 3 : 0 ; 0 : ; 0 | | |
rank 0 -> 0
start 18446744073709551615 1 -> ok
reading 18446744073709551614 -> ok
finish 0 -> ok
parts -> 18446744073709551615 1 1 0 63 ; 4 : 2 ; 63 : 9223372036854775806 ; 1 | 1 | 0 |
sums 3 0 5 -> ok
universe -> 9
sums_walk 4 -> 3 0 5 none
sums_len -> 3
sums 18446744073709551615 -> error InvalidArgument
sums -> ok
sums_len -> 0
sums_access 0 -> none
bits 20 8216 -> ok
sarray_from_bits 1 -> ok
sarray_parts -> 20 3 3 1 2 ; 10 : 37 ; 6 : 19 ; 3 | 0 | 0 | ; 7 | 1 | 0 |
sarray_rank1 21 -> none
bits 1 0 -> ok
sarray_from_bits 1 -> ok
sarray_parts -> no record
sarray_rank1 2 -> 0
sarray_from_bits 0 -> ok
sarray_rank1 2 -> panic
uleq_step_8 128 1 -> 72340172838076673
uleq_step_8 0 128 -> 72340172838076672
leq_step_8 0 128 -> 72340172838076672
leq_step_8 128 0 -> 72340172838076672
uleq_step_9 256 1 -> 18049651735527936
"""


def expand(line):
    """`bits LEN{P ..}` is a vector of that length with ones at these places."""
    if "{" not in line:
        return line
    head, rest = line.split("{")
    length = int(head.split()[1])
    return bits_line(length, [int(p) for p in rest.rstrip("}").split()])


def pairs(text):
    """Comments and (command, answer) of a table above."""
    for line in text.strip().split("\n"):
        if line.startswith("#"):
            yield line, None
        else:
            command, answer = line.split("->")
            yield expand(command.strip()), answer.strip()


def bits_line(length, ones, words=None):
    held = [0] * (used_words(length) if words is None else words)
    for p in ones:
        held[p // 64] |= 1 << p % 64
    return " ".join(map(str, ["bits", length, *held]))


# Differences. Each has a predicate over a case, and the smallest input that shows it.


class Case:
    """A line in form: what the model and the Rust answered, and the vector before it."""

    def __init__(self, name, args, model, length, words, bad):
        self.name, self.args, self.model = name, args, model
        self.length, self.words, self.bad = length, words, bad
        self.rust = None

    def parts_at(self):
        """For a walk: the first step whose answers differ, and the steps before it with their answers."""
        if self.name != "unary" or self.bad:
            return None
        steps, model, rust = self.args[1], self.model.split(" "), self.rust.split(" ")
        if len(rust) != len(steps) or len(model) != len(steps):
            return None
        at = next(i for i in range(len(steps)) if model[i] != rust[i])
        return steps[at][0], [s[0] for s in steps[:at]], model[:at]

    def last_one(self):
        """For a predecessor from the length on: the last one, by the bits. The Rust says none there."""
        if self.name != "predecessor1" or self.bad or self.args[0] < self.length:
            return None
        number = sum(w << 64 * i for i, w in enumerate(self.words)) % 2**self.length
        return str(number.bit_length() - 1) if number else "none"


def walk_after_none(case, step_is_position):
    found = case.parts_at()
    if found is None:
        return False
    step, before, answers = found
    ended = any(s != "position" and a == "none" for s, a in zip(before, answers))
    return ended and (step == "position") == step_is_position


def walk_skip0_after_next(case):
    found = case.parts_at()
    if found is None:
        return False
    step, before, answers = found
    moves = [s for s in before if s != "position"]
    return "none" not in answers and step == "skip0" and moves[-1:] == ["next"]


def later_words(case):
    if case.name != "dump" or case.bad:
        return False
    later = case.words[used_words(case.length) :]
    return bool(later) and case.model == " ".join([case.rust, *map(str, later)])


DIFFERENCES = [
    (
        "13, no such vector in the Rust",
        ["bits 1", "num_ones"],
        lambda c: c.bad and c.rust == "no vector" and (c.model == "refused 13" or c.name == "dump"),
    ),
    (
        "13, from_bit allocates in the Rust",
        ["from_bit 0 1"],
        lambda c: c.name == "from_bit" and c.model == "refused 13" and c.rust in ("ok", "not run"),
    ),
    (
        "later words, none in the Rust",
        ["bits 0 0", "dump"],
        later_words,
    ),
    (
        "14 is InvalidArgument in the Rust",
        ["push_bits 0 65"],
        lambda c: c.name == "push_bits" and c.model == "refused 14" and c.rust == "error InvalidArgument",
    ),
    (
        "15, a push grows the vector in the Rust",
        ["push_bit 0"],
        lambda c: c.name in ("push_bit", "push_bits") and c.model == "refused 15" and c.rust == "ok",
    ),
    (
        "16 at set_bit is OutOfBounds in the Rust",
        ["set_bit 0 0"],
        lambda c: c.name == "set_bit" and c.model == "refused 16" and c.rust == "error OutOfBounds",
    ),
    (
        "16 at a walk's start is a panic in the Rust",
        ["unary 0"],
        lambda c: c.name == "unary" and c.model == "refused 16" and c.rust == "panic",
    ),
    (
        "get_bits whose end wraps panics in the Rust",
        ["get_bits 18446744073709551615 1"],
        lambda c: c.name == "get_bits"
        and not c.bad
        and c.args[1] <= 64
        and sum(c.args) >= TOP
        and (c.model, c.rust) == ("none", "panic"),
    ),
    (
        "from the length on the Rust has no predecessor",
        ["bits 1 1", "predecessor1 1"],
        lambda c: c.last_one() == c.model and c.rust == "none",
    ),
    (
        "skip0 after next counts the taken bit in the Rust",
        ["bits 1 1", "unary 0 next skip0 0"],
        walk_skip0_after_next,
    ),
    (
        "a walk goes on after a none in the Rust",
        ["bits 1 1", "unary 0 skip1 1 next"],
        lambda c: walk_after_none(c, False),
    ),
    (
        "position after a none runs on in the Rust",
        ["bits 1 0", "unary 0 next position"],
        lambda c: walk_after_none(c, True),
    ),
]


# Comparing.


def replay(lines):
    """The model's answers to the lines, and a case for each line in form."""
    console, answers, cases = Console(), [], []
    for line in lines:
        before = console.length, list(console.words), console.is_bad()
        answer = console.line(line)
        answers.append(answer)
        if answer not in (None, "bad command") and line.split(b" ")[0].decode() not in ON_BUFFER:
            cases.append((line, Case(*console.parse(line), answer, *before)))
    return answers, cases


def compare(oracle, lines):
    """The model's answers, and how often each difference was seen."""
    answers, cases = replay(lines)
    sent, asked = [], []
    for line, case in cases:
        asked.append(len(sent))
        sent.append(line.decode())
        if case.model.startswith("refused"):
            # The Rust may have altered its vector where the port refuses: set it to the port's.
            sent.append(" ".join(map(str, ["bits", case.length, *case.words])))
    told = ask(oracle, sent)
    seen, agreed = [0] * len(DIFFERENCES), 0
    for (line, case), at in zip(cases, asked):
        case.rust = told[at]
        if case.last_one() not in (None, case.model):
            sys.exit(f"{line[:200]!r}: {case.model} in the model, and {case.last_one()} by the bits of {case.length} : {case.words[:8]}")
        if case.model == case.rust:
            agreed += 1
            continue
        kinds = [i for i, (_, _, holds) in enumerate(DIFFERENCES) if holds(case)]
        if len(kinds) != 1:
            names = [DIFFERENCES[i][0] for i in kinds]
            sys.exit(
                f"a difference with {len(kinds)} names {names}\n  vector {case.length} : {case.words[:8]}\n"
                f"  line  {line[:200]!r}\n  model {case.model[:200]}\n  Rust  {case.rust[:200]}"
            )
        seen[kinds[0]] += 1
    return answers, seen, agreed, len(cases)


def check_examples(oracle):
    """The worked examples hold in the model, the claims about the Rust in the Rust, each difference at its smallest input."""
    console = Console()
    for command, answer in pairs(EXAMPLES):
        got = console.line(command.encode())
        if got != answer:
            sys.exit(f"example {command[:80]}: {got} instead of {answer}")
    claims = list(pairs(CLAIMS))
    for (command, answer), got in zip(claims, ask(oracle, [c for c, _ in claims])):
        if got != answer:
            sys.exit(f"claim {command}: {got} instead of {answer}")
    for i, (name, smallest, _) in enumerate(DIFFERENCES):
        _, seen, agreed, _ = compare(oracle, [line.encode() for line in smallest])
        if (sum(seen), seen[i], agreed) != (1, 1, len(smallest) - 1):
            sys.exit(f"the smallest input of '{name}' does not show it")


def check_records(oracle):
    """Worked examples of records whose answers are long, in the Rust."""
    readings = lambda times: [f"reading {t}" for t in times]
    lines = ["start 20 4", *readings((3, 4, 4, 13)), "finish 1", "parts"]
    assert image(ask(oracle, lines)[-1]) == [20, 4, 4, 1, 0, 0, 77, 67, 0, 0, 1, 0]
    lines = ["start 0 1", "finish 0", "parts"]
    assert image(ask(oracle, lines)[-1]) == [0, 1, 0, 0, 0, 0, 0]
    for n, found in ((64, "0"), (65, "32")):
        lines = [f"start 8 {n}", *readings([7] * n), "finish 0", "search 7"]
        assert ask(oracle, lines)[-1] == found
    for last, index in ((131_069, "2 | 0 | 0 |"), (131_071, "2 | -1 | 65535 | 0 65536")):
        lines = ["start 131072 65536", *readings((0, last)), "finish 0", "parts"]
        assert ask(oracle, lines)[-1].split(" ; ")[3] == index


def check_tables(oracle):
    """The rules of both tables of broadword.rs, and the lane comparisons where they are comparisons."""
    select, mapping = ask(oracle, ["SELECT_IN_BYTE", "DEBRUIJN64_MAPPING"])
    rule = []
    for r in range(8):
        for b in range(256):
            ones = [i for i in range(8) if b >> i & 1]
            rule.append(ones[r] if r < len(ones) else 8)
    assert list(map(int, select.split())) == rule
    places = list(map(int, mapping.split()))
    assert all(places[(0x07EDD5E59A4E28C2 * 2**i % TOP) >> 58] == i for i in range(64))

    rng, lines, wanted = random.Random(8), [], []
    for name, width, lanes, top in (("leq_step_8", 8, 8, 128), ("uleq_step_8", 8, 8, 128), ("uleq_step_9", 9, 7, 512)):
        for _ in range(200):
            a = [rng.choice((0, 1, top - 1, rng.randrange(top))) for _ in range(lanes)]
            b = [rng.choice((0, 1, top - 1, x, rng.randrange(top))) for x in a]
            word = [sum(x << width * i for i, x in enumerate(xs)) for xs in (a, b)]
            lines.append(f"{name} {word[0]} {word[1]}")
            wanted.append(sum(1 << width * i for i in range(lanes) if a[i] <= b[i]))
    for line, want, got in zip(lines, wanted, ask(oracle, lines)):
        if int(got) != want:
            sys.exit(f"{line}: {got} instead of {want}")


# Making lines.


class Lines:
    """A growing script. Its own model tells the generator what the vector is."""

    def __init__(self, seed):
        self.rng = random.Random(seed)
        self.lines = []
        self.console = Console()

    def __call__(self, *words):
        line = " ".join(map(str, words)) if not isinstance(words[0], bytes) else words[0]
        raw = line.encode() if isinstance(line, str) else line
        self.lines.append(raw)
        self.console.line(raw)

    def note(self, text):
        self("# " + text)

    def word(self):
        """A word of any density."""
        rng = self.rng
        kind = rng.randrange(7)
        if kind == 0:
            return rng.choice((0, 1, 2**63, MAX, 2**63 - 1, 2**32, 0xAAAAAAAAAAAAAAAA, 0x8080808080808080))
        if kind == 1:
            return 1 << rng.randrange(64)
        if kind == 2:
            return MAX ^ (1 << rng.randrange(64))
        if kind == 3:
            return rng.getrandbits(64) & rng.getrandbits(64) & rng.getrandbits(64)
        if kind == 4:
            return rng.getrandbits(64) | rng.getrandbits(64) | rng.getrandbits(64)
        return rng.getrandbits(64)

    def good(self, length, later=0):
        """Words of which the first `length` bits are free and the padding zero, then later ones."""
        words = [self.word() for _ in range(used_words(length))]
        if length % 64:
            words[-1] &= 2 ** (length % 64) - 1
        return [*words, *(self.word() | 1 for _ in range(later))]

    def place(self, length):
        """A place in, at or past a vector of this length."""
        edges = [0, 1, 62, 63, 64, 65, 127, 128, length - 65, length - 64, length - 1, length, length + 1, MAX, 2**63]
        if self.rng.randrange(3):
            return self.rng.randrange(length + 2)
        return max(0, self.rng.choice(edges)) % TOP

    def steps(self, length, count):
        rng, words = self.rng, []
        for _ in range(count):
            name = rng.choice(("next", "next", "skip1", "skip0", "position"))
            words.append(name)
            if name.startswith("skip"):
                words.append(rng.choice((0, 0, 0, 1, 1, 2, 3, 7, 31, 64, rng.randrange(length + 2), MAX)))
        return words


def add_words(add):
    add.note("words")
    words = [0, 1, 2, 3, 255, 256, 2**32 - 1, 2**32, 2**63 - 1, 2**63, 2**63 + 1, MAX - 1, MAX]
    words += [0xAAAAAAAAAAAAAAAA, 0x5555555555555555, 0x0101010101010101, 0x8080808080808080, 0x7F7F7F7F7F7F7F7F]
    words += [add.word() for _ in range(30)]
    for w in words:
        add("popcount", w)
        add("lsb", w)
        add("msb", w)
        ones = bin(w).count("1")
        for k in sorted({0, ones // 2, max(ones, 1) - 1, ones, 63, 64}):
            add("select_in_word", w, k)
    for k in (255, 256, 257, 2**32, 2**56, 2**63, MAX):
        add("select_in_word", MAX, k)
    add.note("one bit alone, and every byte of the table in one place of a word")
    for i in range(64):
        add(("lsb", "msb", "popcount")[i % 3], 1 << i)
        add("select_in_word", 1 << i, i % 2)
        add("lsb", MAX << i & MAX)
        add("msb", MAX >> i)
        add("select_in_word", MAX, i)
    for b in range(256):
        ones = bin(b).count("1")
        add("select_in_word", b << 8 * add.rng.randrange(8), add.rng.randrange(ones + 1))


def add_questions(add, length):
    """Every question at the boundaries of the vector that is held."""
    near = {0, 1, 31, 63, 64, 65, 127, 128, length - 64, length - 1, length, length + 1, 64 * used_words(length), MAX}
    near = sorted(p for p in near if 0 <= p <= length + 65 or p == MAX)
    for p in near:
        add("access", p)
        add("rank1", p)
        add("get_word64", p)
        add("predecessor1", p)
        widths = {0, 1, 63, 64, 65, length - p, length - p + 1}
        for width in sorted(w for w in widths if 0 <= w <= 65):
            if add.rng.randrange(2):
                add("get_bits", p, width)
    add("num_ones")
    ones = sum(add.console.vector())
    for name, count in (("select1", ones), ("select0", length - ones)):
        for k in sorted({0, 1, count // 2, max(1, count) - 1, count, MAX}):
            add(name, k)
            add("index_select", int(name == "select1"), k)
    add("index", 1)
    add("index", 0)


def add_vectors(add):
    add.note("questions at every boundary of short vectors; later words are not read")
    add("bits 0")
    add_questions(add, 0)
    for length, later in ((0, 1), (1, 0), (1, 1), (4, 2), (63, 0), (63, 1), (64, 0), (64, 1), (65, 0), (65, 2)):
        add("bits", length, *add.good(length, later))
        add("dump")
        add_questions(add, length)
    for length, later in ((127, 1), (128, 1), (129, 0), (200, 3)):
        add("bits", length, *add.good(length, later))
        add("dump")
        add_questions(add, length)
    for b, length in ((0, 65), (1, 65), (1, 128), (0, 128), (1, 100)):
        add("bits", 0, *add.good(192))
        add("from_bit", b, length)
        add("dump")
        add_questions(add, length)


BAD_CALLS = (
    "set_bit 0 1",
    "set_bit 99 0",
    "push_bit 1",
    "push_bits 1 0",
    "push_bits 1 1",
    "push_bits 1 65",
    "get_bits 0 0",
    "get_bits 0 65",
    "get_bits 18446744073709551615 1",
    "get_word64 0",
    "access 0",
    "rank1 0",
    "select1 0",
    "select0 0",
    "predecessor1 0",
    "num_ones",
    "unary 0",
    "unary 0 next",
    "unary 999 next",
    "index 1",
    "index 0",
    "index_select 1 0",
    "index_select 0 0",
)


def add_last_ones(add):
    add.note("predecessor1 around the length and past it: the last one, in whichever word; no padding, and no later word")
    for length in (0, 1, 2, 63, 64, 65, 127, 128, 129, 200, 256):
        used = used_words(length)
        near = sorted(p for p in {0, length - 2, length - 1, length, length + 1, 64 * used - 1, 64 * used, 64 * used + 64, MAX - 1, MAX} if p >= 0)
        kinds = {(), (0,), (length // 2,), (length - 64,), (length - 2, length - 1)}
        for ones in sorted({tuple(p for p in kind if 0 <= p < length) for kind in kinds}):
            for later in ((), (MAX, 1)):
                add(" ".join(map(str, (bits_line(length, ones), *later))))
                for p in near:
                    add("predecessor1", p)
    add("dump")
    add.note("13 wherever the position is: padding set, or too few words")
    for length, words in ((1, (2,)), (4, (16,)), (63, (2**63,)), (65, (1, 2)), (65, (1,)), (64, ())):
        add("bits", length, *words)
        for p in (0, length, length + 1, 63, 64, MAX):
            add("predecessor1", p)


def add_bad_vectors(add):
    add.note("13: the length over the words, or padding set; nothing is altered")
    vectors = [
        (1,),
        (64,),
        (65, MAX),
        (1, 2),
        (1, 3, 0),
        (63, 2**63),
        (65, 0, 2, 0),
        (127, MAX, MAX),
        (128, MAX),
        (MAX, 0),
        (MAX,),
        (TOP - 64, 1, 2),
        (TOP - 63, 1, 2),
        (2**63, 7),
        (2**32 * 64, 1),
    ]
    for i, vector in enumerate(vectors):
        add("bits", *vector)
        for call in BAD_CALLS if i < 4 else add.rng.sample(BAD_CALLS, 6):
            add(call)
        add("dump")
    add.note("from_bit looks at its own length alone")
    add("bits", 4, 16, 5)
    for length in (0, 1, 64, 65, 128):
        add("bits", 4, 16, 5)
        add("from_bit", length % 2, length)
        add("dump")
    for length in (129, 192, 2**32, 2**63, TOP - 64, TOP - 63, MAX):
        add("from_bit", 1, length)
        add("dump")
    add("bits 3")
    for length in (0, 1, MAX):
        add("from_bit", 1, length)
        add("dump")


def add_changes(add):
    add.note("setting and pushing; a word first used is overwritten whole")
    for length in (0, 1, 63, 64, 65):
        add("bits", length, *add.good(length, 1))
        for p in sorted({0, 1, length // 2, max(length, 1) - 1, length, length + 1, 64, 128, MAX}):
            add("set_bit", p, 1)
            add("set_bit", p, 0 if p % 2 else 1)
            if p < 2:
                add("dump")
        add("dump")
    for length in (0, 1, 62, 63, 64, 65):
        for width in (0, 1, 2, 63, 64, 65):
            add("bits", length, *add.good(length), *(MAX - i for i in range(2)))
            add("push_bits", add.word() | 2**63 | 1, width)
            add("dump")
    for width in (65, 66, 2**32, 2**63, MAX):
        add("push_bits", 1, width)
    add("dump")
    add.note("up to full: 14 before 15")
    for length, words in ((0, 0), (63, 1), (64, 1), (100, 2), (127, 2), (128, 2)):
        add("bits", length, *add.good(length), *([MAX] * (words - used_words(length))))
        free = 64 * words - length
        for width in sorted({0, free, free + 1, 64, 65}):
            add("push_bits", MAX, width)
            add("dump")
        add("push_bit", 1)
        add("push_bit", 0)
        add("dump")
    add("bits", 0, *[MAX] * 3)
    for i in range(24):
        add("push_bits", add.word(), add.rng.choice((0, 1, 5, 13, 17, 32)))
        add("push_bit", i % 2)
        if i % 4 == 3:
            add("dump")
    add("index 1")
    add("index 0")


def add_walks(add):
    add.note("walks: starts at and past the last used word, and steps in mixed order")
    for length, later in ((1, 0), (4, 1), (63, 1), (64, 0), (64, 1), (65, 0), (128, 1), (130, 1), (300, 2)):
        add("bits", length, *add.good(length, later))
        edges = {0, 1, length - 1, length, length + 1, 63, 64, 65, 127, 128, 64 * used_words(length) - 1}
        for start in sorted({*edges, 64 * used_words(length), MAX}):
            add("unary", start)
            add("unary", start, "position", "next", "position", "next", "position")
            add("unary", start, "skip1", 0, "position", "next", "position", "skip1", 0)
            add("unary", start, "skip0", 0, "next", "skip0", 0, "position")
    shapes = (
        "next skip0 0 next",
        "next skip0 1 position",
        "next skip1 0 skip0 0 next",
        "next next skip0 2 skip0 0 next",
        "skip0 0 skip0 0 skip0 1 next",
        "skip1 1 skip1 1 skip0 0 skip1 0",
        "skip1 5 next position skip0 0",
        "skip1 18446744073709551615 skip1 0",
        "skip0 18446744073709551615 position next",
        "skip0 3 position skip1 0 position",
        "next next next next next next position next",
    )
    for vector in ((4, 11), (4, 15), (4, 0), (5, 21), (64, MAX), (64, 0), (66, MAX, 1), (70, 2**63, 33), (128, 0, 2**63)):
        add("bits", *vector)
        for shape in shapes:
            add("unary", 0, shape)
    for _ in range(120):
        length = add.rng.choice((4, 8, 64, 65, 130, 200))
        add("bits", length, *add.good(length, add.rng.randrange(2)))
        for _ in range(2):
            start = min(add.place(length), 64 * used_words(length) - 1)
            add("unary", start, *add.steps(length, add.rng.randrange(1, 12)))


def add_index(add):
    """Blocks of 1,024 positions, every 32nd with a lane, far blocks in the overflow."""
    add.note("blocks of 1,024 positions")
    places = (0, 1, 31, 32, 33, 63, 64, 1_022, 1_023, 1_024, 1_025, 1_055, 1_056, 2_046, 2_047, 2_048)
    for count in (1_023, 1_024, 1_025, 2_047, 2_048, 2_049):
        for b in (1, 0):
            add("bits", 0, *[0] * 40)
            add("from_bit", b, count)
            add("index", b)
            for k in [k for k in places if k <= count + 1]:
                if k in (0, 31, 32, 1_023, 1_024, count - 1, count) or add.rng.randrange(3) == 0:
                    add("index_select", b, k)
            add("set_bit", 32, 1 - b)
            add("index", b)
            add("index_select", b, count - 2)
            add("index_select", b, count - 1)
            add("num_ones")

    add.note("two ones, near and far")
    for first in (0, 1, 63, 64, 100_000):
        for span in (65_535, 65_536, 65_537):
            length = first + span + 1 + add.rng.choice((0, 1, 40))
            add(bits_line(length, [first, first + span]))
            add("index 1")
            add("index_select", 1, 0)
            add("index_select", 1, 1)
            add("index_select", 1, 2)

    add.note("two zeros, near and far; padding is no zero")
    for first, span in ((0, 65_535), (0, 65_536), (37, 65_535), (37, 65_536), (64, 65_537)):
        length = first + span + 1
        add("bits", 0, *[0] * used_words(length))
        add("from_bit", 1, length)
        add("set_bit", first, 0)
        add("set_bit", length - 1, 0)
        add("index 0")
        for k in (0, 1, 2):
            add("index_select", 0, k)
        add("select0", 1)
        add("select0", 2)

    add.note("a block of 1,024 ones, near and far, and one position more")
    for last in (65_535, 65_536):
        for more in (0, 1, 40):
            ones = [*range(1_023), last, *range(last + 1, last + 1 + more)]
            add(bits_line(ones[-1] + 1, ones))
            add("index 1")
            for k in (0, 31, 32, 1_022, 1_023, 1_024, 1_023 + more, 1_024 + more):
                add("index_select", 1, k)
            add("predecessor1", last - 1)
            add("unary", 1_000, "skip1", 22, "next", "next", "next", "position")

    add.note("near and far blocks in turn; the overflow's places go on counting")
    ones, at = [], 0
    for far in (0, 1, 0, 1, 1, 0):
        block = list(range(at, at + 1_023))
        block.append(at + (65_536 if far else 1_500))
        ones += block
        at = block[-1] + 3
    ones += range(at, at + 50, 3)
    add(bits_line(ones[-1] + 2, ones))
    add("index 1")
    for k in range(0, len(ones) + 1, 149):
        add("index_select", 1, k)
    for k in (1_023, 1_024, 2_047, 2_048, 3_071, 3_072, 4_095, 4_096, len(ones) - 1, len(ones), MAX):
        add("index_select", 1, k)
        add("select1", k)
    add("rank1", 140_000)
    add("index_select", 0, 199_000)

    add.note("sparse ones: far blocks of 70 places apart")
    ones = list(range(5, 262_144, 70))
    add(bits_line(262_144, ones))
    add("index 1")
    for k in (0, 1, 1_023, 1_024, 2_048, 3_071, len(ones) - 1, len(ones)):
        add("index_select", 1, k)


def add_longest(add):
    add.note("all 4,096 words")
    add("bits", 0, *[7] * LENT)
    add("dump")
    add("from_bit", 1, 64 * LENT)
    add("dump")
    add("num_ones")
    add("index 1")
    add("index 0")
    add("push_bit", 1)
    add("push_bits", 1, 64)
    add("push_bits", 1, 0)
    for p in (64 * LENT - 1, 64 * LENT, 64 * LENT + 1):
        add("access", p)
        add("rank1", p)
        add("predecessor1", p)
        add("select1", p)
        add("index_select", 1, p)
        add("set_bit", p, 0)
    add("unary", 64 * LENT - 1, "next", "skip0", 0, "position")
    add("unary", 64 * LENT - 2, "next", "next", "position")
    add("unary", 64 * LENT)
    add("from_bit", 1, 64 * LENT + 1)
    add("from_bit", 0, 64 * LENT - 1)
    add("push_bit", 1)
    add("index 1")
    add("select1", 0)
    add.note("4,096 words in one line, then one too many")
    words = [add.rng.randrange(10**14, 10**15) for _ in range(LENT)]
    add("bits", 64 * LENT, *words)
    add("num_ones")
    add("index 1")
    for k in range(1, 100_000, 9_973):
        add("select1", k)
        add("index_select", 1, k)
        add("select0", k)
        add("index_select", 0, k)
        add("unary", k, "skip1", 700, "skip0", 900, "next", "position")
    add("bits", 64 * LENT, *[3] * (LENT + 1))
    add("bits", 64 * LENT, *[0] * LENT)
    add("num_ones")
    add("select0", 64 * LENT - 1)
    add("select0", 64 * LENT)
    add("unary", 0, "next", "position")
    add("unary", 0, "skip0", 64 * LENT - 1, "position", "next")


WRONG_WORDS = ("-1", "+1", "1.0", "1e3", "0x10", "a", "18446744073709551616", "99999999999999999999", "1,024", "1_000")


def add_out_of_form(add):
    add.note("commands out of form change nothing")
    add("bits 4 11 5")
    right = (
        "popcount 7",
        "lsb 6",
        "msb 6",
        "select_in_word 7 1",
        "bits 9 9",
        "dump",
        "from_bit 1 9",
        "set_bit 0 0",
        "push_bit 1",
        "push_bits 3 2",
        "get_bits 0 4",
        "get_word64 1",
        "access 1",
        "rank1 2",
        "select1 1",
        "select0 0",
        "predecessor1 3",
        "num_ones",
        "unary 0 next",
        "index 1",
        "index_select 1 2",
    )
    for line in right:
        words = line.split(" ")
        wrong = [" " + line, line + " ", line.upper(), line + "\t", line + "\r", line[1:]]
        if len(words) > 1:
            wrong += [line.replace(" ", "  ", 1), line.replace(" ", "\t", 1), words[0] + " "]
            for word in add.rng.sample(WRONG_WORDS, 2):
                wrong.append(" ".join([*words[:-1], word]))
                wrong.append(" ".join([words[0], word, *words[2:]]))
        if words[0] != "unary" and len(words) > 1:
            wrong.append(" ".join(words[:-1]) if words[0] != "bits" else "bits")
        if words[0] != "bits":
            wrong.append(line + " 0")
        for bad in add.rng.sample(wrong, min(len(wrong), 9)):
            add(bad)
    add("dump")
    for line in (
        " ",
        "  ",
        "\t",
        " # no comment",
        "-",
        "0",
        "none",
        "bits -1",
        "bits 1 -1",
        "bits 1 x",
        "bits 18446744073709551616",
        "bits 0 18446744073709551616",
        "from_bit 2 1",
        "from_bit 18446744073709551616 1",
        "set_bit 0 2",
        "set_bit 1 10",
        "push_bit 2",
        "index 2",
        "index 9",
        "index_select 2 0",
        "unary",
        "unary next",
        "unary 0 skip1",
        "unary 0 skip0",
        "unary 0 skip1 next",
        "unary 0 skip1 0 0",
        "unary 0 next 0",
        "unary 0 step",
        "unary 0 Next",
        "unary 0 skip2 0",
        "unary 0 next  next",
        "unary 0 next ",
        "unary 0 position skip0 18446744073709551616",
        "unary 0 next -1",
        "unary 64 next next oops",
        "popcount \N{FULLWIDTH DIGIT ONE}",
        "popcount \N{SUPERSCRIPT TWO}",
        "popcount \N{ARABIC-INDIC DIGIT ONE}",
        "popcount 1\x7f",
        "popcount 1\x0b2",
        "popcount\N{NO-BREAK SPACE}1",
        "\N{LATIN SMALL LETTER E WITH ACUTE}",
        "dump dump",
        "dump#",
    ):
        add(line)
    add("dump")
    add("")
    add("#")
    add("#popcount 1")
    add("# bits 0")
    add("dump")
    add.note("leading zeros are allowed")
    add("popcount 007")
    add("select_in_word", "0" * 40 + "67", "0000002")
    add("bits", "0004", "00000000000000000000000011", "000")
    add("dump")
    add("push_bit", "01")
    add("set_bit", "00", "00")
    add("index", "0000000000000000000000001")
    add("unary", "000", "skip1", "01", "next")
    add("from_bit", "02", 1)
    add("popcount", "0" * 60 + "18446744073709551615")
    add("popcount", "0" * 60 + "18446744073709551616")
    add("dump")
    add.note("a line of 65,536 bytes, and one of a byte more")
    for name, tail in (("popcount", "15"), ("lsb", "15")):
        for size in (LINE - 1, LINE, LINE + 1, LINE + 2):
            add(name + " " + tail.rjust(size - len(name) - 1, "0"))
    add("#".ljust(LINE, "-"))
    add("bits 8 ".ljust(LINE + 1, "1"))
    add("dump".ljust(LINE, " "))
    add("dump".ljust(LINE + 1, " "))
    add("dump")
    many = ["next", "position"] * ((LINE - 7) // 14)
    add("bits 64 6148914691236517205")
    add("unary", 0, *many)
    add("unary", 0, *many, "next", "position")


def add_random(add, count):
    """Commands and vectors of every kind, good and bad."""
    rng = add.rng
    start = len(add.lines)
    while len(add.lines) - start < count:
        length = rng.choice((rng.randrange(5), rng.randrange(60, 70), rng.randrange(120, 135), rng.randrange(400)))
        words = add.good(length, rng.choice((0, 0, 1, 2)))
        if rng.randrange(12) == 0:
            length += rng.choice((64, 128, 700))
        add("bits", length, *words)
        for _ in range(rng.randrange(4, 16)):
            add_one(add)


def add_one(add):
    rng, length = add.rng, add.console.length
    name = rng.choice(
        ("set_bit", "push_bit", "push_bits", "push_bits", "get_bits", "get_bits", "get_word64", "access", "rank1", "select1")
        + ("select0", "predecessor1", "num_ones", "unary", "unary", "index", "index_select", "index_select", "dump", "from_bit")
    )
    small = min(length, 64 * LENT)
    if name in ("get_word64", "access", "rank1", "predecessor1"):
        add(name, add.place(small))
    elif name in ("select1", "select0"):
        add(name, rng.choice((add.place(small), add.place(small) // 2)))
    elif name == "get_bits":
        add(name, add.place(small), rng.choice((0, 1, 7, 33, 63, 64, 65, rng.randrange(65))))
    elif name == "set_bit":
        add(name, add.place(small), rng.randrange(2))
    elif name == "push_bit":
        add(name, rng.randrange(2))
    elif name == "push_bits":
        add(name, add.word(), rng.choice((0, 1, 63, 64, 65, rng.randrange(65))))
    elif name == "from_bit":
        if rng.randrange(4) == 0:
            add(name, rng.randrange(2), rng.randrange(64 * len(add.console.words) + 2))
    elif name == "unary":
        add(name, add.place(small), *add.steps(small, rng.randrange(8)))
    elif name == "index":
        add(name, rng.randrange(2))
    elif name == "index_select":
        add(name, rng.randrange(2), rng.choice((add.place(small), add.place(small) // 2)))
    else:
        add(name)


def make(seed, count):
    """The whole script."""
    add = Lines(seed)
    add.note("Test vectors of the console. Made by oracle/vectors.py; do not edit.")
    add.note("No vector is set yet.")
    add("dump")
    add("num_ones")
    add("index 1")
    add.note("worked examples")
    for command, _ in pairs(EXAMPLES):
        add(command)
    add.note("the smallest input of each difference from the Rust")
    for _, smallest, _ in DIFFERENCES:
        add("bits 0")
        for line in smallest:
            add(line)
    add_words(add)
    add_vectors(add)
    add_last_ones(add)
    add_bad_vectors(add)
    add_changes(add)
    add_walks(add)
    add_index(add)
    add_longest(add)
    add_out_of_form(add)
    add.note("random vectors and commands")
    add_random(add, count)
    records.add_records(add, count // 10)
    questions.add_questions(add, count // 13)
    sums.add_sums(add, count // 20)
    from_bits.add_from_bits(add, count // 20)
    for line in documented.lines(documented.TABLE):
        add(line)
    sarrays.add_sarrays(add, count // 50)
    windows.add_windows(add, count // 25)
    limits.add_limits(add, count // 10)
    resumes.add_resumes(add, count // 40)
    add.note("the last line lacks its line feed")
    add("dump")
    return add.lines


def exhaustive():
    """Every vector of up to 4 bits, every question, and every walk of up to 3 steps with small counts."""
    moves = ["next", "position", *(f"skip{b} {k}" for b in (0, 1) for k in (0, 1, 2))]
    walks = [""]
    for _ in range(3):
        walks += [f"{w} {m}" for w in walks if w.count("next") + w.count("p") < 3 for m in moves]
    walks = sorted(set(walks))
    lines = []
    for length in range(5):
        for word in range(2**length):
            lines.append(f"bits {length} {word}" if length else "bits 0")
            lines += [f"{q} {p}" for q in ("access", "rank1", "get_word64", "predecessor1") for p in range(6)]
            lines += [f"{q} {k}" for q in ("select1", "select0", "index_select 1", "index_select 0") for k in range(6)]
            lines += [f"get_bits {p} {w}" for p in range(6) for w in range(6)]
            lines += ["num_ones", "index 1", "index 0", "dump"]
            lines += [f"unary {p}{w}" for p in range(length + 1) for w in walks]
    return [line.encode() for line in lines]


def together(a, b):
    """Two counts of differences, agreed and asked calls, and more, added."""
    return [[x + y for x, y in zip(a[0], b[0])], *(x + y for x, y in zip(a[1:], b[1:]))]


def main():
    root = HERE.parent / "crates" / "console"
    options = argparse.ArgumentParser(description=__doc__, formatter_class=argparse.RawDescriptionHelpFormatter)
    options.add_argument("--oracle", default=HERE / "target" / "release" / "oracle", type=pathlib.Path)
    options.add_argument("--seed", default=11, type=int)
    options.add_argument("--random", default=850, type=int, help="about how many random lines")
    options.add_argument("--stdin", default=root / "stdin", type=pathlib.Path)
    options.add_argument("--stdout", default=root / "stdout", type=pathlib.Path)
    options.add_argument("--check", action="store_true", help="write nothing, and fail if the files would change")
    options.add_argument("--exhaustive", action="store_true", help="compare all short inputs with the Rust too, and look at no file")
    args = options.parse_args()

    oracle = args.oracle.resolve()
    if not oracle.exists():
        sys.exit("no oracle: run oracle/build first")
    check_examples(oracle)
    records.check_examples(oracle)
    questions.check_examples()
    for table in (sums.EXAMPLES, from_bits.EXAMPLES, sarrays.EXAMPLES, windows.EXAMPLES, limits.EXAMPLES, resumes.EXAMPLES):
        records.hold(table)
    windows.check_counts()
    held, others = documented.check()
    check_records(oracle)
    check_tables(oracle)
    lines = make(args.seed, args.random)
    answers, *bits = compare(oracle, lines)
    record = records.compare(oracle, lines)
    if args.exhaustive:
        bits = together(bits, compare(oracle, exhaustive())[1:])
        for section in (records, questions, sums, from_bits, sarrays, windows, limits, resumes):
            record = together(record, records.compare(oracle, section.exhaustive()))
    written = [a for a in answers if a is not None]
    if not args.exhaustive:
        for path, text in ((args.stdin, b"\n".join(lines)), (args.stdout, "".join(a + "\n" for a in written).encode())):
            if not args.check:
                path.parent.mkdir(parents=True, exist_ok=True)
                path.write_bytes(text)
            elif not path.exists() or path.read_bytes() != text:
                sys.exit(f"{path} is not what this script writes")

    print(f"{held} assertions of the Rust's doc comments hold, {others} are of calls that are not ported")
    print(f"{len(lines)} lines, {len(written)} answers, {written.count('bad command')} of them bad commands")
    for differences, (seen, agreed, asked, *_) in ((DIFFERENCES, bits), (records.DIFFERENCES, record)):
        print(f"{asked} calls asked of the Rust, {agreed} agree, {sum(seen)} differ:")
        for (name, smallest, _), count in zip(differences, seen):
            print(f"  {count:6}  {name:52} {' / '.join(counted(smallest))}")
    *_, images, short = record
    print(f"{images} images of the Rust are within their limit, and {short} refusals with 3 are of a buffer below it")


def counted(lines):
    """The lines, with one that comes several times in a row once."""
    for line, same in groupby(lines):
        many = len(list(same))
        yield line if many == 1 else f"{line} ({many} times)"


if __name__ == "__main__":
    main()
