"""The lines of the section Record, and how their answers are compared with the Rust.

The Rust has no image: an image that the model accepts, or that a call writes, is compared word for word with what the Rust
builds of the same settings and times (`parts`), and each question over it with the Rust's. It has no reading out: a walk of as many steps is
asked for it. It has no weekly windows: the times of its walk are counted here, in another way than the model's. It has no limit: the limit is
reckoned here, in another way than the model's, of the high bits and the width of the low bits of its record of no times; and each image of
the Rust, and each refusal with 3, is held against the limit. It has a builder: a start, and
readings and a finish while nothing but calls has altered the record since, are asked as they come. A record from bits or of prefix sums is asked as
it comes, over the same bits, and so is a sparse vector from bits. Where the model takes length, choice and image for another sparse vector, the
Rust's is put together of them, and each question asked.
"""

import sys
from bisect import bisect_left

from model import BLOCK, BUFFER, HEAD, MOST, ON_BUFFER, SPARSE, SUBBLOCK, TOP, WEEK, Console, Refused, Settings
from rust import ask, high_length, image

MAX = TOP - 1

# The questions that the Rust has, over an image.
ASKED = ("select", "delta", "rank", "predecessor", "successor", "search", "search_range", "len", "universe", "has_rank", "walk", "read")

# Those of the prefix sums, which no words answer too.
ITEMS = ("sums_access", "sums_walk", "sums_len")

# A record by one call, and what alters the bits that one of them is of.
WHOLE = ("from_bits", "sums")
BITS = ("bits", "from_bit", "set_bit", "push_bit", "push_bits")

# The counts whose limit is held against the Rust; it takes a second to build the record of a large one.
SMALL = 2**17

# Worked examples of the document, with the answers that it gives.

EXAMPLES = """
# u 20, n 4, times 3 4 4 13, with rank index; the refusals 1 to 6 on the way
buffer 7 9 -> ok
start 20 4 -> refused 3
buffer 12 9 -> ok
start 20 0 -> refused 1
start 20 16777217 -> refused 2
builder -> 0 0 0 0
start 20 4 -> ok
words -> 0 0 0 0 0 0 0 0 9 9 9 9
builder -> 20 4 0 0
reading 3 -> ok
reading 4 -> ok
reading 3 -> refused 4
reading 4 -> ok
reading 20 -> refused 5
builder -> 20 4 3 4
reading 13 -> ok
reading 13 -> refused 6
reading 12 -> refused 4
reading 20 -> refused 5
open -> refused 7
words -> 0 0 0 0 0 0 77 67 9 9 9 9
finish 1 -> 12
words -> 20 4 4 1 0 0 77 67 0 0 1 0
builder -> 20 4 4 13
open -> ok
select 0 -> 3
select 1 -> 4
select 2 -> 4
select 3 -> 13
select 4 -> none
# word 1 set to 5 is the image of n 5; word 3 of 2 is none, nor is a word more or less
poke 1 5 -> ok
open -> ok
poke 1 4 -> ok
poke 3 2 -> ok
open -> refused 7
poke 3 1 -> ok
image 11 -> ok
open -> refused 7
image 0 -> ok
open -> refused 7
select 0 -> refused 7
# u 0, n 1: every reading is refused with 5
buffer 7 9 -> ok
start 0 1 -> ok
reading 0 -> refused 5
reading 18446744073709551615 -> refused 5
finish 0 -> 7
words -> 0 1 0 0 0 0 0
select 0 -> none
finish 1 -> refused 3
words -> 0 1 0 0 0 0 0
# u 2^64 - 1, n 1, time 2^64 - 2: l is 63
buffer 10 9 -> ok
start 18446744073709551615 1 -> ok
reading 18446744073709551614 -> ok
finish 0 -> 10
words -> 18446744073709551615 1 1 0 0 0 2 9223372036854775806 1 0
select 0 -> 18446744073709551614
# the shift that would wrap: a high bit at place 2 is past u, in an image and at a finish
poke 6 4 -> ok
poke 7 5 -> ok
poke 8 2 -> ok
open -> refused 7
select 0 -> refused 7
forge 18446744073709551615 1 1 5 -> ok
finish 0 -> refused 7
"""


def pairs(text=EXAMPLES):
    """Comments and (command, answer) of a table of examples."""
    for line in text.strip().split("\n"):
        if line.startswith("#"):
            yield line, None
        else:
            command, answer = line.split("->")
            yield command.strip(), answer.strip()


# Comparing.

DIFFERENCES = [
    (
        "1 is InvalidArgument in the Rust",
        ["start 0 0"],
        lambda c: c.name == "start" and c.model == "refused 1" and c.rust == "error InvalidArgument",
    ),
    (
        "2, no such limit in the Rust",
        ["start 0 16777217"],
        lambda c: c.name == "start" and c.model == "refused 2" and c.rust in ("ok", "not run"),
    ),
    (
        "3, a start or a finish allocates in the Rust",
        ["start 0 1"],
        lambda c: c.name in ("start", "finish") and c.model == "refused 3" and c.rust == "ok",
    ),
    (
        "4 and 5 are InvalidArgument in the Rust",
        ["buffer 7 0", "start 0 1", "reading 0"],
        lambda c: c.name == "reading" and c.model in ("refused 4", "refused 5") and c.rust == "error InvalidArgument",
    ),
    (
        "6 is InvalidState in the Rust",
        ["buffer 7 0", "start 1 1", "reading 0", "reading 0"],
        lambda c: c.name == "reading" and c.model == "refused 6" and c.rust == "error InvalidState",
    ),
    (
        "8, rank or a neighbour without the index panics",
        ["buffer 7 0", "start 1 1", "finish 0", "rank 0"],
        lambda c: c.name in ("rank", "predecessor", "successor") and c.model == "refused 8" and c.rust == "panic",
    ),
    (
        "9, a range that ends past the times panics",
        ["buffer 7 0", "start 0 1", "finish 0", "search_range 0 1 0"],
        lambda c: c.name == "search_range" and c.model == "refused 9" and c.rust == "panic",
    ),
    (
        "9, the Rust answers before the end of such a range",
        ["buffer 9 0", "start 1 1", "reading 0", "finish 0", "search_range 0 2 0"],
        lambda c: c.name == "search_range" and c.model == "refused 9" and (c.rust == "none" or c.rust.isdigit()),
    ),
    (
        "of equal times the Rust finds a later one",
        ["buffer 17 0", "start 8 65", *["reading 7"] * 65, "finish 0", "search 7"],
        lambda c: c.name in ("search", "search_range") and c.same_time(),
    ),
    (
        "from the universe on the Rust has no predecessor",
        ["buffer 9 0", "start 1 1", "reading 0", "finish 0", "predecessor 1"],
        lambda c: c.name == "predecessor" and c.last_time(),
    ),
    (
        "a walk over an empty record, in a debug build",
        ["buffer 7 0", "start 0 1", "finish 0", "walk 0 0"],
        lambda c: c.name in ("walk", "read", "windows") and c.empty and c.rust == "panic",
    ),
    (
        "3, prefix sums and a record from bits allocate",
        ["sums 0"],
        lambda c: c.name in WHOLE and c.model == "refused 3" and c.rust == "ok",
    ),
    (
        "12 is InvalidArgument in the Rust",
        ["sums 18446744073709551615"],
        lambda c: c.name == "sums" and c.model == "refused 12" and c.rust == "error InvalidArgument",
    ),
    (
        "10 and 11 are InvalidArgument in the Rust",
        ["bits 0", "from_bits 0"],
        lambda c: c.name == "from_bits" and c.model in ("refused 10", "refused 11") and c.rust == "error InvalidArgument",
    ),
    (
        "13 at a record from bits, no such bits in the Rust",
        ["bits 1", "from_bits 0"],
        lambda c: c.name == "from_bits" and c.model == "refused 13" and c.rust == "no vector",
    ),
    (
        "13 at a sparse vector, no such bits in the Rust",
        ["bits 1", "sarray_from_bits 0"],
        lambda c: c.name == "sarray_from_bits" and c.model == "refused 13" and c.rust == "no vector",
    ),
    (
        "3, a sparse vector allocates",
        ["bits 1 1", "sarray_from_bits 0"],
        lambda c: c.name == "sarray_from_bits" and c.model == "refused 3" and c.rust == "ok",
    ),
    (
        "8, a sparse vector without the choice panics",
        ["sarray 0 0", "sarray_rank1 0"],
        lambda c: c.name in SPARSE and c.model == "refused 8" and c.rust == "panic",
    ),
    (
        "a rank past the length of zeros is 0 in the Rust",
        ["sarray 0 1", "sarray_rank1 1"],
        lambda c: c.name == "sarray_rank1" and c.empty and (c.model, c.rust) == ("none", "0"),
    ),
]

# So many of them are of a start, a reading or a finish, then of questions, of the prefix sums, of a record from bits; the others are of the
# sparse vector.
BUILDING, ASKING, SUMS, FROM_BITS = 5, 11, 13, 15

# A release build answers there as the port does.
ONLY_IN_DEBUG = DIFFERENCES[ASKING - 1][0]


def in_windows(times, s, e, words):
    """The count of `windows`: the windows are joined and laid into each week that has a time, and between the ends of each the times are counted."""
    joined = []
    for a, b in sorted(zip(words[::2], words[1::2])):
        if joined and a <= joined[-1][1]:
            joined[-1][1] = max(b, joined[-1][1])
        else:
            joined.append([a, b])
    count = 0
    for week in {t // WEEK * WEEK for t in times}:
        for a, b in joined:
            first, last = max(s, week + a), min(e, week + b)
            count += max(0, bisect_left(times, last) - bisect_left(times, first))
    return count


def limit_by(parts, rank):
    """The limit for the settings of a record, by the Rust's high bits and width of the low bits: each index as it is over the places from 0 on, and H / 64 words more."""
    numbers, high, *_ = parts.split(" ; ")
    _, n, _, _, width = map(int, numbers.split(" "))
    limit = HEAD + len(high.split(" ")[2:]) + len(range(0, n * width, 64))
    for places in (range(n), range(high_length(parts))) if rank else (range(n),):
        limit += len(places[::BLOCK]) + len(places[::SUBBLOCK][::4]) + high_length(parts) // 64
    return limit


class Case:
    """A call that the Rust has: what the model answered, where the Rust's answer stands, and what the image is to be."""

    def __init__(self, line, name, model, at, words=None, times=None, universe=None, choice=None):
        self.line, self.name, self.model, self.at, self.words = line, name, model, at, words
        self.times, self.empty, self.universe, self.choice = times, times == [], universe, choice
        self.rust = None

    def same_time(self):
        """Both found a time, the same one, and the port the earlier of its places."""
        if not (self.model.isdigit() and self.rust.isdigit()):
            return False
        port, rust = int(self.model), int(self.rust)
        return port < rust and self.times[port] == self.times[rust]

    def last_time(self):
        """The value is not below the universe, the port's answer the last time and the Rust's none."""
        if self.empty or int(self.line.split(" ")[1]) < self.universe:
            return False
        return (self.model, self.rust) == (str(self.times[-1]), "none")

    def agrees(self):
        if self.words is not None:
            return image(self.rust) == self.words
        if self.name == "read" and self.rust != "panic":
            walked = self.rust.split(" ") if self.rust else []
            out = [t for t in walked if t != "none"]
            return self.model == " ".join([str(len(out)), *out, *["0"] * (len(walked) - len(out))])
        if self.name == "windows" and self.rust != "panic":
            *times, end = self.rust.split(" ")
            s, e, *words = (int(word.lstrip("0") or 0) for word in self.line.split(" ")[1:])
            return end == "none" and self.model == str(in_windows(list(map(int, times)), s, e, words))
        if self.name == "limit":
            return self.model == str(limit_by(self.rust, self.choice))
        if self.name in ("finish", "sarray_from_bits", *WHOLE) and self.model.isdigit():
            return self.rust == "ok"
        return self.model == self.rust

    def bounded(self):
        """Of an image that agrees: H is at most 3 n + 1, each overflow at most H / 64, and the length at most the limit."""
        u, n, _, rank, *overflows = self.words[:HEAD]
        high = high_length(self.rust)
        return high <= 3 * n + 1 and max(overflows) <= high // 64 and len(self.words) <= Settings(u, n).limit(rank)


def made(u, n, times):
    return [f"start {u} {n}", *(f"reading {t}" for t in times)]


def holding(words, times):
    """What makes the Rust hold the record of these words; of no words, the prefix sums of no items."""
    if not words:
        return ["sums"]
    u, n, _, rank = words[:4]
    return [*made(u, n, times), f"finish {rank}"]


class Builders:
    """The calls on a builder. The Rust's is set back wherever it took a start that the port refuses."""

    def __init__(self):
        self.sent, self.cases = [], []

    def ask(self, line, name, answer, before):
        if name != "start" and before is None:
            return
        self.cases.append(Case(line, name, answer, len(self.sent)))
        self.sent.append(line)
        if name == "start" and answer.startswith("refused") and before is not None:
            self.sent += made(*before)


class Images:
    """Accepted images, and questions over them, of the record that the Rust builds of the same times."""

    def __init__(self):
        self.sent, self.cases, self.held = [], [], None

    def ask(self, line, name, answer, record):
        words = record.lent[: record.length]
        times = record.accepted()[2] if words else []
        if self.held != words:
            self.hold(line, answer, words, times)
        if name in ("windows", *ASKED, *ITEMS):
            self.cases.append(Case(line, name, answer, len(self.sent), times=times, universe=words[0] if words else None))
            self.sent.append(f"walk 0 {len(times) + 1}" if name == "windows" else line.replace("read", "walk"))

    def hold(self, line, answer, words, times):
        """The Rust is to hold the record of these words, and the same ones."""
        self.held = words
        self.sent += holding(words, times)
        if words:
            self.cases.append(Case(line, "image", answer, len(self.sent), words))
            self.sent.append("parts")


class Wholes:
    """Records by one call, of the bits as they are."""

    def __init__(self):
        self.sent, self.cases, self.bits = [], [], None

    def call(self, line, name, answer, console):
        """The call, after the bits where they are others."""
        bits = " ".join(map(str, ["bits", console.length, *console.words]))
        if name != "sums" and self.bits != bits:
            self.sent.append(bits)
            self.bits = bits
        self.cases.append(Case(line, name, answer, len(self.sent)))
        self.sent.append(line)

    def ask(self, line, name, answer, console):
        self.call(line, name, answer, console)
        words = console.record.lent[: console.record.length]
        if answer.isdigit() and words:
            self.cases.append(Case(line, "image", answer, len(self.sent), words))
            self.sent.append("parts")


class Sparses(Wholes):
    """Sparse vectors: from the bits as they are, or put together of length, choice and record; and questions over them."""

    def __init__(self):
        super().__init__()
        self.held = None

    def ask(self, line, name, answer, console):
        sparse, words = console.sparse, console.record.lent[: console.record.length]
        vector = sparse.length, sparse.choice, words
        if name == "sarray_from_bits":
            self.call(line, name, answer, console)
            self.held = None
            if answer.isdigit():
                self.hold(line, vector)
            return
        if self.held != vector:
            self.sent += [*holding(words, sparse.ones()), f"sarray {sparse.length} {sparse.choice}"]
            self.hold(line, vector)
        self.cases.append(Case(line, name, answer, len(self.sent), times=sparse.ones()))
        self.sent.append(line)

    def hold(self, line, vector):
        """The Rust holds this vector: its image is to be the same, or none."""
        self.held = vector
        self.cases.append(Case(line, "image", "no record", len(self.sent), vector[2] or None))
        self.sent.append("sarray_parts")


class Limits:
    """Limits, of the record of no times."""

    def __init__(self):
        self.sent, self.cases = [], []

    def ask(self, line, name, answer, u, n, choice):
        if n <= SMALL:
            self.sent += [*made(u, n, ()), "finish 0", "parts"]
            self.cases.append(Case(line, name, answer, len(self.sent) - 1, choice=choice))


def limit_of(console, name, args):
    """The limit for the settings of a call that may draw 3; without the rank choice for a start, a reading and what goes on."""
    if name == "sums":
        return Settings(1 + sum(args[0]), len(args[0])).limit(0)
    u, n = args if name == "start" else console.record.made[:2] if name in ("reading", "resume", "finish") else (console.length, console.num_ones())
    return Settings(u, n).limit(0 if name in ("start", "reading", "resume") else args[0])


def compare(oracle, lines):
    """How often each difference was seen, how many calls agree of how many, and how many images and refusals with 3 were held against the limit."""
    console, builders, images, wholes, sparses, limits = Console(), Builders(), Images(), Wholes(), Sparses(), Limits()
    short = 0
    for raw in lines:
        line = raw.decode("latin-1")
        name, record = line.split(" ")[0], console.record
        if name in BITS:
            console.line(raw)
        if name not in ON_BUFFER:
            continue
        before = None if record.book is None else (*record.made[:2], list(record.book) if name == "start" else ())
        answer = console.line(raw)
        if answer == "bad command":
            continue
        if answer == "refused 3":
            short += 1
            limit = limit_of(console, *console.parse(raw))
            if len(record.lent) >= limit:
                sys.exit(f"{line[:200]}: {answer} in {len(record.lent)} words, and the limit is {limit}")
        if name == "limit" and answer.isdigit():
            limits.ask(line, name, answer, *console.parse(raw)[1])
        if name in ("start", "reading", "finish"):
            builders.ask(line, name, answer, before)
        if name in WHOLE:
            wholes.ask(line, name, answer, console)
        if name in SPARSE and name != "sarray" and answer != "refused 7":
            sparses.ask(line, name, answer, console)
        refused = answer == "refused 7" if name in ASKED else answer.startswith("refused")
        if name in ("finish", "open", "windows", *ASKED, *ITEMS) and not refused:
            images.ask(line, name, answer, record)
    seen, agreed, asked, held = [0] * len(DIFFERENCES), 0, 0, 0
    for stream in (builders, images, wholes, sparses, limits):
        told = ask(oracle, stream.sent)
        for case in stream.cases:
            case.rust = told[case.at]
            asked += 1
            if case.agrees():
                agreed += 1
                if case.words is not None:
                    held += 1
                    if not case.bounded():
                        sys.exit(f"{case.line[:200]}: an image of {len(case.words)} words, {case.words[:HEAD]} and so on, is over a bound")
                continue
            kinds = [i for i, (_, _, holds) in enumerate(DIFFERENCES) if holds(case)]
            if len(kinds) != 1:
                names = [DIFFERENCES[i][0] for i in kinds]
                sys.exit(f"{case.line[:200]}: a difference with {len(kinds)} names {names}\n  model {case.model[:200]}\n  Rust  {case.rust[:200]}")
            seen[kinds[0]] += 1
    return seen, agreed, asked, held, short


def hold(text):
    """The examples of a table hold in the model."""
    console = Console()
    for command, answer in pairs(text):
        got = console.line(command.encode())
        if got != answer:
            sys.exit(f"example {command}: {got} instead of {answer}")


def check_examples(oracle):
    """The worked examples hold in the model, and each difference at its smallest input."""
    hold(EXAMPLES)
    for i, (name, smallest, _) in enumerate(DIFFERENCES):
        seen, agreed, asked, *_ = compare(oracle, [line.encode() for line in smallest])
        if name == ONLY_IN_DEBUG and agreed == asked:
            continue
        if (sum(seen), seen[i], agreed) != (1, 1, asked - 1):
            sys.exit(f"the smallest input of '{name}' does not show it")


# Making lines.


def size(u, n):
    return Settings(u, n).start


def begin(add, u, n, more=0, value=None):
    """A buffer of the start's size and so many words more, all the same, and a start."""
    add("buffer", size(u, n) + more, add.word() if value is None else value)
    add("start", u, n)


def lay(add, u, n, times, words, value=0):
    """The words of a run's times, poked into a buffer of one value, and the builder forged; the words of the start."""
    settings = Settings(u, n)
    filed = [0] * settings.start
    filed[HEAD:] = settings.image(0, times)[HEAD:][: settings.start - HEAD]
    low_end = settings.low_at + (len(times) * settings.l + 63) // 64
    filed[low_end:] = [0] * (settings.start - low_end)
    add("buffer", words, value)
    for i, w in enumerate(filed):
        if w != value and i >= HEAD:
            add("poke", i, w)
    add("forge", u, n, len(times), times[-1] if times else 0)
    return filed


def times_of(rng, u, count):
    """So many times below u, in order: spread, close together, or with repeats."""
    if u == 0:
        return []
    kind = rng.randrange(5)
    if kind == 0:
        times = [rng.randrange(u) for _ in range(count)]
    elif kind == 1:
        at, times = rng.randrange(u), []
        for _ in range(count):
            times.append(at)
            at = min(u - 1, at + rng.choice((0, 0, 1, 1, 2, 3, 60)))
    elif kind == 2:
        few = [rng.randrange(u) for _ in range(4)] + [0, u - 1]
        times = [rng.choice(few) for _ in range(count)]
    elif kind == 3:
        times = [rng.choice((0, u - 1, u // 2, rng.randrange(u))) for _ in range(count)]
    else:
        times = [min(u - 1, k * max(1, u // max(1, count)) + rng.randrange(3)) for k in range(count)]
    return sorted(times)


def add_selects(add, m):
    for k in sorted({0, 1, m // 2, max(1, m) - 1, m, m + 1, 31, 32, 63, 64, MAX}):
        if k <= m + 1 or k == MAX:
            add("select", k)


def add_unlent(add):
    add.note("no buffer is lent yet")
    for line in ("words", "builder", "open", "select 0", "image 0", "image 1", "poke 0 0", "reading 0", "finish 0", "finish 1"):
        add(line)
    for line in ("start 0 0", "start 20 4", "start 0 1", f"start 0 {MOST + 1}", "builder", "words"):
        add(line)
    for line in ("forge 5 1 0 0", "builder", "reading 0", "reading 9", "finish 0", "forge 5 0 0 0", "reading 0", "finish 1"):
        add(line)
    add.note("a buffer of no words")
    for line in ("buffer 0 7", "words", "builder", "image 0", "image 1", "open", "start 0 1", "poke 0 1", "reading 0", "finish 0"):
        add(line)


UNIVERSES = (0, 1, 2, 3, 7, 8, 19, 20, 63, 64, 65, 4_095, 2**16, 2**32 - 1, 2**32, 2**63 - 1, 2**63, 2**63 + 1, MAX - 1, MAX)
COUNTS = (1, 2, 3, 4, 5, 31, 32, 33, 63, 64, 65, 127, 128, 129)


def add_starts(add):
    add.note("a start: one word too few, just enough, and later words that stay")
    for u in UNIVERSES:
        for n in add.rng.sample(COUNTS, 3):
            need = size(u, n)
            add("buffer", need - 1, 5)
            add("start", u, n)
            add("builder")
            add("buffer", need + add.rng.randrange(3), add.word())
            add("start", u, n)
            add("builder")
            if need < 14:
                add("words")
    add.note("1, 2, 3 in this order; a refused start keeps words, builder and image")
    add("buffer", 9, 6)
    add("forge", 1, 2, 3, 4)
    add("image", 8)
    for n in (0, 1, 4, 5, 2**15, MOST - 1, MOST, MOST + 1, 2**28, 2**28 + 1, 2**32, 2**63, MAX):
        for u in (0, 20, MAX):
            if (u, n) != (0, 1):
                add("start", u, n)
    add("words")
    add("builder")
    add.note("a start and a reading keep how many words are the image")
    for line in ("buffer 12 0", "image 7", "start 0 1", "open", "poke 1 1", "open", "select 0", "start 3 1", "poke 0 0", "poke 1 1"):
        add(line)
    for line in ("open", "image 8", "open", "start 20 4", "reading 3", "open", "finish 1", "start 20 4", "open", "words"):
        add(line)
    for line in ("buffer 12 0", "image 7", "start 20 4", "reading 3", "poke 1 1", "poke 6 0", "open", "forge 1 2 3 4", "open", "finish 0", "open"):
        add(line)
    add.note("so does what is refused")
    for line in ("buffer 7 0", "start 0 1", "finish 0", "finish 1", "open", "start 0 0", "open", "reading 0", "open", "start 20 4", "select 0"):
        add(line)
    add.note("a new buffer has no image and no builder")
    for line in ("buffer 7 0", "poke 1 1", "image 7", "open", "forge 0 1 0 0", "buffer 7 0", "poke 1 1", "open", "reading 0", "image 7", "open"):
        add(line)
    add.note("the whole buffer")
    full = max(n for n in range(1, 2 * BUFFER) if size(MAX, n) <= BUFFER)
    add("buffer", BUFFER, 3)
    add("words")
    for n in (full, full + 1):
        add("start", MAX, n)
        add("builder")
    for t in (0, 2**63, MAX - 1, MAX):
        add("reading", t)
    add("builder")
    add("finish 0")
    add("select 2")


def add_readings(add):
    add.note("7, 3, 4, 5, 6 in this order")
    begin(add, 20, 2, 2)
    for t in (20, 21, MAX, 5, 4, 0, 20, 19, 18, 19, 20, MAX):
        add("reading", t)
        add("builder")
    add("words")
    add.note("each reading sets one high bit and its low bits, over whatever the words hold")
    for u, n, m, last, t in (
        (20, 4, 0, 0, 13),
        (20, 4, 3, 4, 4),
        (20, 4, 3, 4, 19),
        (1000, 8, 5, 3, 999),
        (2**40, 3, 2, 7, 2**39 + 5),
        (MAX, 1, 0, 0, MAX - 1),
        (MAX, 3, 1, 9, 2**63),
        (MAX, 3, 2, 9, MAX - 1),
        (7, 7, 6, 6, 6),
        (1, 70, 64, 0, 0),
    ):
        for value in (0, MAX, add.word()):
            add("buffer", size(u, n) + 1, value)
            add("forge", u, n, m, last)
            add("reading", t)
            add("builder")
            add("words")
    add.note("a forged builder can set a bit that is set; the finish then says 7")
    for line in ("buffer 12 0", "start 20 4", "reading 5", "forge 20 4 0 0", "reading 5", "builder", "finish 0", "reading 5"):
        add(line)
    for line in ("forge 20 4 1 5", "reading 5", "builder", "finish 0", "words"):
        add(line)


FORGED = (
    (20, 0, 0, 0),
    (20, MOST + 1, 0, 0),
    (20, MAX, 0, 0),
    (20, 4, 5, 3),
    (20, 4, MAX, 3),
    (20, 4, 0, 1),
    (20, 4, 0, MAX),
    (20, 4, 1, 20),
    (20, 4, 4, 21),
    (20, 4, 4, MAX),
    (0, 4, 0, 0),
    (0, 4, 0, 1),
    (0, 4, 1, 0),
    (0, 0, 0, 0),
    (20, 4, 1, 19),
    (20, 4, 4, 19),
    (20, MOST, 0, 0),
    (20, MOST, MOST, 3),
    (MAX, MOST, 1, MAX - 1),
    (MAX, MOST, 1, MAX),
    (MAX, MOST, MOST + 1, 0),
    (MAX, 60, 0, 0),
    (0, MOST + 1, 0, 0),
)


def add_forged(add):
    add.note("forged builders: 7 by the numbers, then 3 by the start's size")
    for words in (0, 7, 8, 12):
        add("buffer", words, 0)
        for builder in FORGED if words in (7, 12) else add.rng.sample(FORGED, 8):
            add("forge", *builder)
            for call in ("reading 0", "reading 20", f"reading {MAX}", "finish 0", "finish 1"):
                if call != "finish 1" or words == 12:
                    add(call)
            if add.console.record.made != builder or words != 12:
                add("buffer", words, 0)
        add("builder")
    add.note("a finish by a builder whose numbers are not those of the words")
    for line in ("buffer 20 0", "start 20 4", "reading 3", "reading 4", "reading 13"):
        add(line)
    for builder in ((20, 4, 2, 4), (20, 4, 4, 13), (20, 4, 3, 12), (20, 4, 3, 14), (20, 4, 0, 0), (20, 5, 3, 13), (21, 4, 3, 13)):
        add("forge", *builder)
        add("finish 0")
        add("words")
        for line in ("buffer 20 0", "start 20 4", "reading 3", "reading 4", "reading 13"):
            add(line)
    for builder in ((14, 4, 3, 13), (13, 4, 3, 13), (40, 4, 3, 13), (16, 4, 3, 13), (20, 3, 3, 13), (20, 12, 3, 13)):
        add("forge", *builder)
        add("finish 1")
    add("words")


def add_bits_at_finish(add):
    add.note("7 by the bits at a finish: each bit of the high and low words")
    for u, n, times in ((20, 4, (3, 4, 13)), (100, 3, (0, 64, 99)), (5, 6, (0, 0, 2, 4)), (MAX, 1, (2**62,))):
        settings = Settings(u, n)
        words = settings.start + 6
        begin(add, u, n, 6, 0)
        for t in times:
            add("reading", t)
        held = list(add.console.record.lent)
        for i in range(HEAD, settings.start):
            for b in range(64) if i in (HEAD, settings.low_at) else (0, 1, 5, 62, 63):
                add("poke", i, held[i] ^ 1 << b)
                add("finish", b % 2)
                if add.console.record.lent != held[:i] + [held[i] ^ 1 << b] + held[i + 1 :]:
                    # Another list that ends in the same time: the image, and the words anew.
                    add("words")
                    add("buffer", words, 0)
                    for j, w in enumerate(held):
                        if w:
                            add("poke", j, w)
                    add("forge", u, n, len(times), times[-1])
            add("poke", i, held[i])
        add.note("words 0 to 5 are not looked at, nor those past the start's")
        for i in (*range(HEAD), *range(settings.start, words)):
            add("poke", i, add.word())
        add("finish 1")
        add("words")
        add("open")
    add.note("a time at u, a time below the one before it, and a last time that is not there")
    for line in ("buffer 12 0", "forge 20 4 2 13", "poke 6 10", "poke 7 7", "finish 0", "poke 6 5", "finish 0", "poke 7 1", "finish 0"):
        add(line)
    for line in ("forge 20 4 2 4", "finish 0", "poke 6 64", "poke 7 0", "forge 20 4 1 19", "finish 0", "forge 24 4 1 20", "finish 0"):
        add(line)


def add_lengths(add):
    add.note("3 by the image's length: nothing is altered; the image may be shorter than the start's words")
    lists = ((20, 4, (3, 4, 4, 13)), (20, 4, ()), (0, 1, ()), (MAX, 1, (5,)), (8, 64, [7] * 64), (9_000, 33, [250 * k for k in range(33)]))
    for u, n, times in (*lists, (2**50, 40, (1, 2**49)), (10**6, 129, (5, 6, 7, 999_999))):
        settings = Settings(u, n)
        for rank in (0, 1):
            need = len(settings.image(rank, list(times)))
            for words in sorted({settings.start - 1, settings.start, need - 1, need, need + 1, settings.start + 1}):
                add("buffer", words, MAX)
                add("start", u, n)
                for t in times if words >= settings.start else ():
                    add("reading", t)
                add("finish", rank)
                add("builder")
                if words < 40:
                    add("words")
                add("open")
                add("select 0")


def add_after_finish(add):
    add.note("after a finish: a second one is decided by the bits, a reading by the numbers")
    for u, n, times in ((20, 4, (3, 4, 4, 13)), (20, 4, (3, 4)), (2**40, 5, (1, 2, 2**39)), (MAX, 6, (0, 2**63)), (64, 64, [63] * 64)):
        for rank in (0, 1):
            begin(add, u, n, 8, 0)
            for t in times:
                add("reading", t)
            add("finish", rank)
            add("finish", 1 - rank)
            add("finish", rank)
            add("open")
            add("select", len(times) - 1)
            add("reading", u - 1)
            add("builder")
            add("open")
            add("finish", rank)
            add("words")
            add("reading", u)
            add("reading", 0)


def add_lists(add, count):
    """Whole runs: seeded lists of every kind, with refused readings between them."""
    add.note("lists of every kind, whole and short of their count")
    rng = add.rng
    for i in range(count):
        u = rng.choice((rng.choice(UNIVERSES), rng.randrange(200), rng.randrange(2**20), 2 ** rng.randrange(64), rng.randrange(TOP)))
        n = rng.choice((rng.choice(COUNTS), rng.choice((64, 128, 192)), rng.randrange(1, 12), rng.randrange(1, 40)))
        times = times_of(rng, u, rng.choice((n, n, rng.randrange(n + 1))))
        rank = rng.randrange(2)
        longest = max(len(Settings(u, n).image(rank, times)), size(u, n))
        begin(add, u, n, longest - size(u, n) + rng.randrange(3))
        for t in times:
            add("reading", t)
            if rng.randrange(12) == 0:
                add("reading", rng.choice((u, MAX, max(0, t - 1), t - 1 if t else u)))
        if rng.randrange(3) == 0:
            add("reading", rng.choice((0, u, max(1, u) - 1)))
        if rng.randrange(4) == 0:
            add("words")
        add("builder")
        add("finish", rank)
        if i % 3 == 0:
            add("words")
        add("open")
        add_selects(add, len(times)) if i % 4 == 0 else add("select", rng.randrange(len(times) + 1))


def add_blocks(add):
    add.note("around 1,024 readings")
    for u, n, m in ((2_100, 1_023, 1_023), (1_100, 1_024, 1_024), (50, 1_025, 1_025), (4_000, 1_056, 1_024)):
        times = sorted(add.rng.randrange(u) for _ in range(m))
        begin(add, u, n, 600)
        for t in times:
            add("reading", t)
        add("finish", m % 2)
        add("finish", 1 - m % 2)
        add("open")
        for k in (0, 31, 32, 511, 1_022, 1_023, 1_024, 1_025):
            add("select", k)
    add.note("more of them, by their words; u from small to 2^64 - 1")
    for u, n, m in ((300, 2_047, 2_047), (1_500, 2_048, 2_048), (40, 2_049, 2_049), (6_000, 3_000, 2_500), (2_000, 4_096, 4_095)):
        times = sorted(add.rng.randrange(u) for _ in range(m))
        rank = add.rng.randrange(2)
        lay(add, u, n, times, size(u, n) + len(Settings(u, n).image(1, times)))
        add("finish", rank)
        add("open")
        for k in (0, 1_023, 1_024, 1_025, 2_047, 2_048, m - 1, m, MAX):
            add("select", k)
    for u, n, m in ((MAX, 1_024, 70), (2**40, 1_025, 64), (2**63, 2_048, 65), (10**15, 640, 128)):
        times = times_of(add.rng, u, m)
        begin(add, u, n, 100)
        for t in times:
            add("reading", t)
        add("finish", m % 2)
        add("open")
        add_selects(add, m)


def far_lists():
    """Records with blocks near and far, over ones and over zeros: u, n, times and what fills their high words."""
    yield 131_072, 65_536, [0, 131_069], 0
    yield 131_072, 65_536, [0, 131_071], 0
    yield 131_072, 65_536, [0] * 1_023 + [129_027], 0
    yield 131_072, 65_536, [0] * 1_023 + [129_029], 0
    yield 131_072, 65_536, [0] * 1_023 + [129_029, 131_071, 131_071], 0
    yield 131_072, 65_536, [7] * 1_024 + [9] * 1_000 + [131_071] * 24 + [131_071], 0
    yield 65_000, 65_537, [1] * 900 + [64_999] * 1_000, 0
    yield 2, 65_532, [1] * 65_532, MAX
    yield 2, 65_533, [1] * 65_533, MAX
    yield 3_000, 66_000, [500] * 66_000, MAX
    yield 2_100, 66_500, [1_030] * 66_400, MAX
    yield 1, 65_600, [0] * 65_599, MAX
    yield 262_144, 131_072, [0] * 1_023 + [131_100] + [131_102] * 1_000 + [262_100] * 24 + [262_143] * 5, 0
    yield 2_100, 132_000, [10] * 66_000 + [1_500] * 66_000, MAX


def add_far(add):
    add.note("blocks near and far, over ones and over zeros")
    for i, (u, n, times, value) in enumerate(far_lists()):
        settings, m = Settings(u, n), len(times)
        short, long = (len(settings.image(rank, times)) for rank in (0, 1))
        if i < 2:
            add("buffer", max(settings.start, long), 0)
            add("start", u, n)
            for t in times:
                add("reading", t)
        else:
            lay(add, u, n, times, max(settings.start, long), value)
        add("finish", 1)
        add("open")
        add("select", m - 1)
        held = list(add.console.record.lent[:long])
        if i in (1, 8):
            add("words")
        ones_at = settings.low_at + (m * settings.l + 63) // 64
        add_damage(add, held, (4, 5, HEAD, settings.low_at - 1, ones_at, ones_at + 1, short - 1, short, long - 2, long - 1), 1)
        for k in (0, 1, 31, 32, 1_022, 1_023, 1_024, 1_025, m - 1, m, MAX):
            if k <= m or k == MAX:
                add("select", k)
    add.note("a far block without the rank index, and a buffer that is too short for it with one")
    for words in (3_079, 3_209, 3_210, 3_211, 3_212, 3_213):
        add("buffer", words, 0)
        for line in ("start 131072 65536", "reading 0", "reading 131071", "finish 1", "finish 0", "open", "select 1"):
            add(line)


def others(add, w):
    """Other values for a word."""
    values = [w ^ 1, (w + 1) % TOP, (w - 1) % TOP, 0, MAX, w ^ 1 << 63, w << 1 & MAX, w >> 1, w ^ 1 << add.rng.randrange(64), add.word()]
    return [v for v in dict.fromkeys(values) if v != w]


def add_damage(add, held, at, count):
    """Some words of an image changed one at a time."""
    for i in sorted(set(at)):
        for v in others(add, held[i])[: count or None]:
            add("poke", i, v)
            add("open")
        add("poke", i, held[i])


def add_damaged(add):
    add.note("damaged images: each bit of some")
    for u, n, rank, times in ((20, 4, 1, (3, 4, 4, 13)), (MAX, 1, 0, (MAX - 1,)), (0, 1, 1, ()), (9, 3, 0, (1, 5)), (1_000, 5, 1, (9, 80, 999))):
        begin(add, u, n, 9, 0)
        for t in times:
            add("reading", t)
        add("finish", rank)
        held = list(add.console.record.lent[: add.console.record.length])
        for i, w in enumerate(held):
            for b in range(64):
                add("poke", i, w ^ 1 << b)
                if b % 8 == i % 8:
                    add("select", b % (len(times) + 1))
                else:
                    add("open")
            add("poke", i, w)
        add.note("a word more or less")
        for length in range(len(held) + 3):
            add("image", length)
            add("open")
            add("select 0")
        add("image", len(held))
        add("open")
    add.note("each word of others, by other words; two words changed at once")
    for u, n, rank, m in ((10**6, 40, 1, 40), (2**45, 33, 0, 30), (500, 130, 1, 128), (MAX, 20, 1, 7), (3, 200, 1, 200)):
        times = times_of(add.rng, u, m)
        begin(add, u, n, 60, 0)
        for t in times:
            add("reading", t)
        add("finish", rank)
        held = list(add.console.record.lent[: add.console.record.length])
        add_damage(add, held, range(len(held)), 4 if len(held) > 20 else 8)
        for _ in range(20):
            i, j = add.rng.sample(range(len(held)), 2)
            add("poke", i, add.rng.choice(others(add, held[i])))
            add("poke", j, add.rng.choice(others(add, held[j])))
            add("open")
            add("poke", i, held[i])
            add("poke", j, held[j])
        for length in (len(held) - 1, len(held) + 1, HEAD, HEAD - 1, len(held)):
            add("image", length)
            add("select", m - 1)
    add.note("headers that would wrap")
    for word, value in ((0, MAX), (1, MAX), (1, MOST), (1, MOST + 1), (1, 2**63), (2, MAX), (2, 2**58), (3, 2**32), (4, MAX), (4, MAX - 5), (5, MAX)):
        for line in ("buffer 12 0", "start 20 4", "reading 3", "reading 4", "reading 4", "reading 13", "finish 1"):
            add(line)
        add("poke", word, value)
        add("open")
        add("poke", 5, MAX - value)
        add("open")
        add("image 12")
        add("select 0")
    add.note("any words")
    for _ in range(60):
        add("buffer", add.rng.randrange(5, 14), add.rng.choice((0, 1, 2, add.word())))
        for i in range(4):
            add("poke", i, add.rng.choice((0, 1, 2, 3, 4, 20, add.word())))
        add("image", len(add.console.record.lent))
        add("open")
        add("select 0")


WRONG_WORDS = ("-1", "+1", "1.0", "1e3", "0x10", "a", "18446744073709551616", "99999999999999999999", "1,024", "1_000")

RIGHT = (
    "buffer 3 9",
    "poke 0 1",
    "forge 1 2 3 4",
    "image 2",
    "words",
    "builder",
    "start 3 1",
    "reading 19",
    "finish 1",
    "open",
    "select 0",
)

WRONG = (
    "buffer",
    "buffer 12",
    "buffer 65537 0",
    "buffer 65537",
    "buffer 4294967296 0",
    "buffer 18446744073709551615 1",
    "buffer 18446744073709551616 1",
    "buffer 1 18446744073709551616",
    "buffer 1 -1",
    "poke 20 0",
    "poke 21 0",
    "poke 65536 0",
    "poke 18446744073709551615 0",
    "poke 4294967296 0",
    "poke 0",
    "poke 0 18446744073709551616",
    "forge 1 2 3",
    "forge 1 2",
    "forge",
    "forge 1 2 3 4 5",
    "forge 1 2 3 18446744073709551616",
    "forge 1 2 3 -4",
    "forge 1 2 x 4",
    "image 21",
    "image 65536",
    "image 65537",
    "image 18446744073709551615",
    "image 4294967296",
    "image -1",
    "image",
    "words 0",
    "words 20",
    "builder 0",
    "Words",
    "start 20",
    "start",
    "start 20 4 1",
    "start 18446744073709551616 1",
    "start 20 18446744073709551616",
    "start -1 4",
    "reading",
    "reading 18446744073709551616",
    "reading 19 19",
    "reading 19.0",
    "finish",
    "finish 2",
    "finish 10",
    "finish 1 0",
    "finish -0",
    "finish 18446744073709551615",
    "open 1",
    "open 0",
    "select",
    "select 0 0",
    "select -1",
    "select 18446744073709551616",
    "words#",
    "open ",
    " open",
    "open\t",
    "poke  0 1",
    "poke 0  1",
    "image\t1",
    "read",
    "starts 20 4",
    "star 20 4",
    "forged 1 2 3 4",
)


def add_out_of_form(add):
    add.note("commands out of form change nothing")
    begin(add, 20, 4, 12, 8)
    for line in ("reading 3", "reading 4", "image 7"):
        add(line)
    for line in RIGHT:
        words = line.split(" ")
        wrong = [" " + line, line + " ", line.upper(), line + "\t", line + "\r", line[1:], line + " 0"]
        if len(words) > 1:
            wrong += [line.replace(" ", "  ", 1), line.replace(" ", "\t", 1), words[0] + " ", words[0], " ".join(words[:-1])]
            for word in add.rng.sample(WRONG_WORDS, 3):
                wrong.append(" ".join([*words[:-1], word]))
                wrong.append(" ".join([words[0], word, *words[2:]]))
        for bad in add.rng.sample(wrong, min(len(wrong), 9)):
            add(bad)
    for line in ("words", "builder", "open", *WRONG, "words", "builder", "open", "dump"):
        add(line)
    for line in ("reading 4", "reading 13", "finish 1", "image 12", "open", "bits 4 11", "words", "builder", "dump"):
        add(line)
    add.note("leading zeros are allowed")
    for line in ("buffer 0012 007", "start 00000000000000000000000000020 04", "reading 0003", "reading 00", "forge 01 002 0003 00004"):
        add(line)
    for line in ("builder", "poke 0011 000", "image 000000000000000000000008", "finish 000001", "finish 02", "select 00", "words"):
        add(line)
    add.note("a buffer of one word after one of many")
    for line in ("buffer 65536 1", "image 65536", "poke 65535 2", "poke 65536 2", "open", "buffer 1 4", "words", "poke 1 0", "image 1"):
        add(line)
    for line in ("open", "select 0", "image 2", "buffer 3 0", "words", "builder", "open"):
        add(line)


def add_records(add, count):
    """The whole section; `count` lists are random."""
    add.note("the record")
    add_unlent(add)
    add.note("worked examples")
    for command, _ in pairs():
        add(command)
    add.note("the smallest input of each difference from the Rust")
    for _, smallest, _ in DIFFERENCES[:BUILDING]:
        add("buffer 0 0")
        for line in smallest:
            add(line)
    add_starts(add)
    add_readings(add)
    add_forged(add)
    add_bits_at_finish(add)
    add_lengths(add)
    add_after_finish(add)
    add_lists(add, count)
    add_blocks(add)
    add_far(add)
    add_damaged(add)
    add_out_of_form(add)


def small_lists():
    """Every list of up to 3 times below u up to 5, of each declared count up to 4."""
    for u in range(6):
        for n in range(1, 5):
            lists = [()]
            for _ in range(min(n, 3)):
                lists += [(*times, t) for times in lists for t in range(times[-1] if times else 0, u)]
            for times in sorted(set(lists)):
                yield u, n, times


def exhaustive():
    """Every small list, with and without the rank index."""
    lines = []
    for u, n, times in small_lists():
        lines += ["buffer 20 0", *made(u, n, times), *(f"reading {t}" for t in range(u + 1))]
        if len(times) == n:
            lines += ["finish 0", "open", "select 0", f"select {len(times)}"]
        lines += ["buffer 20 0", *made(u, n, times), f"finish {u % 2}", *(f"select {k}" for k in range(len(times) + 1))]
    return [line.encode() for line in lines]
