"""Winters of a burner through the static library, in one process: every call's answer, every word of each image and each list read back."""
import bisect
import ctypes
import math
import subprocess
from array import array

from common import MOST, TOP, WINTER, Settings, Unexpected, answer_to, counted, start_words

DAY = 86_400
WEEK = 7 * DAY
LONG = 50  # winters in the one long record
ASKED = 300  # of each question at a finish


class Builder(ctypes.Structure):
    _fields_ = [(name, ctypes.c_uint64) for name in ("universe", "num_vals", "num_pushed", "last")]

    def numbers(self):
        return self.universe, self.num_vals, self.num_pushed, self.last


class Pushed(ctypes.Structure):
    _fields_ = [("refusal", ctypes.c_uint64), ("builder", Builder)]


class Answer(ctypes.Structure):
    _fields_ = [("kind", ctypes.c_uint64), ("value", ctypes.c_uint64)]

    def plain(self):
        return {0: self.value, 1: None, 2: f"refused {self.value}"}[self.kind]


WORDS, SIZE, WORD, FLAG = ctypes.POINTER(ctypes.c_uint64), ctypes.c_size_t, ctypes.c_uint64, ctypes.c_bool
IMAGE = [WORDS, SIZE]
CALLS = {
    "limit": (Answer, [WORD, WORD, FLAG]),
    "new": (Pushed, [WORD, WORD, WORDS, SIZE]),
    "push": (Pushed, [Builder, WORD, WORDS, SIZE]),
    "resume": (Pushed, [Builder, WORDS, SIZE]),
    "build": (Answer, [Builder, FLAG, WORDS, SIZE]),
    "open": (WORD, IMAGE),
    "read_from": (Answer, [*IMAGE, SIZE, WORDS, SIZE]),
    "binsearch_range": (Answer, [*IMAGE, SIZE, SIZE, WORD]),
    "count_in_windows": (Answer, [*IMAGE, WORDS, SIZE, WORD, WORD]),
    **{name: (Answer, [*IMAGE, WORD]) for name in ("select", "delta", "rank", "predecessor", "successor", "binsearch")},
    **{name: (Answer, IMAGE) for name in ("len", "is_empty", "universe", "has_rank")},
    **{
        name: (Answer, [*IMAGE, WORDS, SIZE, WORDS, SIZE])
        for name in ("selects", "deltas", "ranks", "predecessors", "successors", "binsearches")
    },
}
MANY = {"select": "selects", "delta": "deltas", "rank": "ranks", "predecessor": "predecessors", "successor": "successors", "binsearch": "binsearches"}


class Library:
    """The static library, made a shared object."""

    def __init__(self, archive, folder):
        shared = folder / "libef.so"
        command = ["cc", "-shared", "-Wl,--whole-archive", str(archive), "-Wl,--no-whole-archive", "-o", str(shared)]
        subprocess.run(command, check=True)
        library = ctypes.CDLL(str(shared))
        for name, (gives, takes) in CALLS.items():
            call = getattr(library, f"ef_{name}")
            call.restype, call.argtypes = gives, takes
            setattr(self, name, call)


class Lent:
    """Words that are lent, and may be compared."""

    def __init__(self, words):
        self.words = array("Q", words)
        self.at = ctypes.cast((ctypes.c_uint64 * max(1, len(words))).from_buffer(self.words), WORDS) if len(words) else WORDS()

    def __len__(self):
        return len(self.words)


def any_words(random, count):
    return array("Q", random.randbytes(8 * count))


class Tally(dict):
    def add(self, what, number=1):
        self[what] = self.get(what, 0) + number

    def refused(self):
        return sum(number for what, number in self.items() if what.startswith("refused"))


class Book:
    """One record through the library, beside the plain list of its times."""

    def __init__(self, library, random, tally, u, n):
        self.library, self.random, self.tally = library, random, tally
        self.u, self.n, self.settings, self.times = u, n, Settings(u, n), []
        for rank in (0, 1):
            limit = self.settings.limit(rank)
            self.same(library.limit(u, n, rank).plain(), limit, "limit")
        self.lent = Lent(any_words(random, limit + random.choice((0, 1, 7, 100))))
        before = array("Q", self.lent.words)
        answer = library.new(u, n, self.lent.at, self.settings.start - 1)
        self.refusal(answer, 3, before, (0, 0, 0, 0))
        answer = library.new(u, n, self.lent.at, len(self.lent))
        self.same((answer.refusal, answer.builder.numbers()), (0, (u, n, 0, 0)), "new")
        before[: self.settings.start] = array("Q", [0] * self.settings.start)
        self.same(self.lent.words, before, "the words after new")
        self.builder = answer.builder

    def same(self, got, right, what):
        if got != right:
            raise Unexpected(f"{what}, universe {self.u}, {self.n} declared, {len(self.times)} times: {differing(got, right)} is right")

    def refusal(self, answer, number, before, builder=None):
        """A refused call: its number, its builder, and no word altered."""
        self.same(answer.refusal, number, "the refusal")
        if builder is not None:
            self.same(answer.builder.numbers(), builder, f"the builder after refusal {number}")
        self.same(self.lent.words, before, f"the words after refusal {number}")
        self.tally.add(f"refused {number}")

    def last(self):
        return self.times[-1] if self.times else 0

    def reading(self, t):
        """One reading, and the refusal, or 0."""
        wanted = answer_to(self.u, self.n, len(self.times), self.last(), t)
        if wanted:
            before = array("Q", self.lent.words)
            self.refusal(self.library.push(self.builder, t, self.lent.at, len(self.lent)), wanted, before, self.builder.numbers())
            return wanted
        answer = self.library.push(self.builder, t, self.lent.at, len(self.lent))
        self.times.append(t)
        self.same((answer.refusal, answer.builder.numbers()), (0, (self.u, self.n, len(self.times), t)), "push")
        self.builder = answer.builder
        self.tally.add("starts")
        return 0

    def forged(self):
        """Builders that no run leaves, and too few words: push, resume and build refuse them."""
        u, n, m, last = self.builder.numbers()
        before, rank = array("Q", self.lent.words), self.random.randrange(2)
        bad = [(0, 0, 0, 0), (u, 0, m, last), (u, MOST + 1, m, last), (u, n, n + 1, last), (u, n, max(m, 1), u), (u, n, 0, 1)]
        for numbers in bad:
            forged = Builder(*numbers)
            self.refusal(self.library.push(forged, last, self.lent.at, len(self.lent)), 7, before, numbers)
            self.refusal(self.library.resume(forged, self.lent.at, len(self.lent)), 7, before, numbers)
            self.refused_build(self.lent, forged, rank, len(self.lent), 7)
        for numbers in self.other_lists():
            self.refusal(self.library.resume(Builder(*numbers), self.lent.at, len(self.lent)), 7, before, numbers)
            self.refused_build(self.lent, Builder(*numbers), rank, len(self.lent), 7)
        few = self.settings.start - 1
        self.refusal(self.library.push(self.builder, last, self.lent.at, few), 3, before, self.builder.numbers())
        self.refusal(self.library.resume(self.builder, self.lent.at, few), 3, before, self.builder.numbers())
        self.refused_build(self.lent, self.builder, rank, few, 3)

    def other_lists(self):
        """Builders with numbers in range that these words do not hold."""
        u, n, m, last = self.builder.numbers()
        if m == 0:
            return [(u, n, 1, 0)]
        lists = [(u, n, m - 1, last if m > 1 else 0)] if m > 1 and self.times[-2] != last or m == 1 else []
        if m < n:
            lists.append((u, n, m + 1, last))
        return lists + [(u, n, m, t) for t in (last + 1, last - 1) if 0 <= t < u]

    def refused_build(self, lent, builder, rank, length, number):
        before = array("Q", lent.words)
        self.same(self.library.build(builder, rank, lent.at, length).plain(), f"refused {number}", "build")
        self.same(lent.words, before, f"the words after build refused {number}")
        self.tally.add(f"refused {number}")

    def move(self):
        """A power cut: builder and the words of the start go to another buffer, whose later words are any, and the record goes on there."""
        moved = Lent(self.lent.words[: self.settings.start] + any_words(self.random, len(self.lent) - self.settings.start))
        before = array("Q", moved.words)
        stored = Builder(*self.builder.numbers())
        answer = self.library.resume(stored, moved.at, len(moved))
        self.same((answer.refusal, answer.builder.numbers()), (0, self.builder.numbers()), "resume")
        self.same(moved.words, before, "the words after resume")
        self.lent, self.builder = moved, answer.builder
        self.tally.add("resumes")

    def finish(self, rank, asked=ASKED):
        """The image in a copy of the words of the start, against the model's; then the list read back, and questions."""
        image = array("Q", self.settings.image(rank, self.times))
        start = array("Q", start_words(self.u, self.n, self.times))
        self.same(self.lent.words[: len(start)], start, "the words of the start")
        copy = Lent(self.lent.words[: len(start)] + any_words(self.random, self.settings.limit(rank) - len(start) + self.random.choice((0, 0, 5))))
        right = image + copy.words[len(image) :]
        if len(image) > len(start):
            self.refused_build(copy, self.builder, rank, len(image) - 1, 3)
        self.same(self.library.build(self.builder, rank, copy.at, len(copy)).plain(), len(image), "build")
        self.same(copy.words, right, "the words after build")
        self.tally.add("finishes")
        self.tally.add("words", len(image))
        self.read_back(copy, len(image), rank, asked)

    def read_back(self, copy, length, rank, asked):
        image = (copy.at, length)
        before = array("Q", copy.words)
        self.same(self.library.open(*image), 0, "open")
        for other in (length - 1, length + 1):
            if other <= len(copy):
                self.same(self.library.open(copy.at, other), 7, f"open of {other} words")
        self.read_from(image, 0, len(self.times) + 3)
        k = self.random.randrange(len(self.times) + 2)
        self.read_from(image, k, self.random.randrange(200))
        for name in MANY:
            self.ask_many(image, name, rank, asked)
        self.ask_whole(image, rank)
        for _ in range(3):
            self.ask_range(image)
            self.ask_windows(image)
        self.same(copy.words, before, "the words after the questions")

    def read_from(self, image, k, room):
        out = Lent(any_words(self.random, room))
        listed = array("Q", self.times[k : k + room])
        right = listed + out.words[len(listed) :]
        self.same(self.library.read_from(*image, k, out.at, room).plain(), len(listed), "read_from")
        self.same(out.words, right, "the list read back")
        self.tally.add("times read back", len(listed))

    def argument(self, name):
        random, times = self.random, self.times
        if name in ("select", "delta"):
            return random.choice((random.randrange(len(times) + 1), len(times), TOP - 1)) if random.random() < 0.1 else random.randrange(max(1, len(times)))
        near = random.choice(times) + random.randrange(-2, 3) if times else random.randrange(self.u)
        return max(0, random.choice((near, near, random.randrange(self.u), self.u - 1, self.u, random.randrange(TOP))))

    def answer(self, name, v, rank):
        """Plainly, over the list."""
        times, u = self.times, self.u
        if name == "select":
            return times[v] if v < len(times) else None
        if name == "delta":
            return (times[v] - (times[v - 1] if v else 0)) if v < len(times) else None
        if name == "rank":
            if v > u:
                return None
            return len(times) if v == u else bisect.bisect_left(times, v) if rank else "refused 8"
        if name == "predecessor":
            if not rank and v < u - 1:
                return "refused 8"
            at = bisect.bisect_right(times, v)
            return times[at - 1] if at else None
        at = bisect.bisect_left(times, v)
        if name == "successor":
            if v >= u:
                return None
            return "refused 8" if not rank else times[at] if at < len(times) else None
        return at if at < len(times) and times[at] == v else None

    def ask_many(self, image, name, rank, asked):
        """The question by the many, and once by itself."""
        arguments = [self.argument(name) for _ in range(asked)]
        given, out = Lent(arguments), Lent(any_words(self.random, 2 * asked))
        self.same(getattr(self.library, MANY[name])(*image, given.at, asked, out.at, 2 * asked).plain(), asked, MANY[name])
        for i, v in enumerate(arguments):
            got = Answer(out.words[2 * i], out.words[2 * i + 1]).plain()
            self.same(got, self.answer(name, v, rank), f"{name} {v}")
        self.same(getattr(self.library, name)(*image, v).plain(), self.answer(name, v, rank), f"{name} {v} by itself")
        self.tally.add("questions", asked + 1)

    def ask_whole(self, image, rank):
        m = len(self.times)
        for name, right in (("len", m), ("is_empty", int(m == 0)), ("universe", self.u), ("has_rank", rank)):
            self.same(getattr(self.library, name)(*image).plain(), right, name)
        self.tally.add("questions", 4)

    def ask_range(self, image):
        m = len(self.times)
        a, b, v = self.random.randrange(m + 2), self.random.randrange(m + 2), self.argument("binsearch")
        if a >= b:
            right = None
        elif b > m:
            right = "refused 9"
        else:
            at = bisect.bisect_left(self.times, v, a, b)
            right = at if at < b and self.times[at] == v else None
        self.same(self.library.binsearch_range(*image, a, b, v).plain(), right, f"binsearch_range {a} {b} {v}")
        self.tally.add("questions")

    def ask_windows(self, image):
        random = self.random
        pairs = [sorted(random.sample(range(WEEK + 1), 2)) for _ in range(random.randrange(33))]
        since, to = sorted(random.randrange(self.u + 1) for _ in range(2))
        since = max(since, to - 60 * WEEK)
        given = Lent([word for pair in pairs for word in pair])
        span = self.times[bisect.bisect_left(self.times, since) : bisect.bisect_left(self.times, to)]
        right = sum(1 for t in span if any(a <= t % WEEK < b for a, b in pairs))
        self.same(self.library.count_in_windows(*image, given.at, len(given), since, to).plain(), right, f"count_in_windows {since} {to} {pairs}")
        self.tally.add("questions")


def differing(got, right):
    """Both, or of words the first that differs."""
    if isinstance(got, array) and len(got) == len(right):
        at = next(i for i, (g, r) in enumerate(zip(got, right)) if g != r)
        return f"word {at} is {got[at]} where {right[at]}"
    return f"{got} where {right}"


def starts_of(random, begin, density):
    """The seconds of a winter's starts, a year from `begin` on: many in the cold, few in summer, now and then a fault that starts it again and again."""
    t = begin
    while True:
        cold = 0.5 + 0.5 * math.cos(2 * math.pi * (t - begin) / WINTER)
        gap = random.expovariate((3 + 38 * cold) * density / DAY)
        chance = random.random()
        if chance < 0.01:
            gap = 0
        elif chance < 0.03:
            gap = random.randrange(1, 40)
        t += int(gap)
        if t >= begin + WINTER:
            return
        yield t


def readings_of(random, u, begin, density):
    """Those starts, with readings among them that are to be refused."""
    for t in starts_of(random, begin, density):
        chance = random.random()
        if chance < 0.003 and t > 0:
            yield max(0, t - random.choice((1, 3_600, 100_000)))
        elif chance < 0.005:
            yield random.choice((u, u + random.randrange(1, 100_000), TOP - 1))
        yield t


def write(book, random, begin, density):
    """A winter of readings, with power cuts and forged builders on the way. A full record is tried some times more."""
    full = 0
    for t in readings_of(random, book.u, begin, density):
        full += book.reading(t) == 6
        if full == 100:
            break
        chance = random.random()
        if chance < 0.001:
            book.move()
        elif chance < 0.0015:
            book.forged()
    book.tally.add("winters")


def one_winter(library, random, tally, most):
    """A record of one winter, now and then with a count that is reached before it ends; finished in both ways."""
    density = most * random.choice((0.02, 0.3, 1, 1, 1, 1.5))
    n = max(1, int(random.choice((7_000, 9_000, 12_000)) * density))
    book = Book(library, random, tally, WINTER, n)
    if random.random() < 0.2:
        book.finish(random.randrange(2))
    book.forged()
    write(book, random, 0, density)
    book.forged()
    for rank in (0, 1):
        book.finish(rank)
    tally.add("records of one winter")


def long_record(library, random, tally, density):
    """Fifty winters in one record, finished in a copy after each."""
    book = Book(library, random, tally, LONG * WINTER, int(LONG * 8_500 * density))
    for winter in range(LONG):
        write(book, random, winter * WINTER, density)
        book.finish(winter % 2)
    book.forged()
    book.finish(0)
    tally.add("records of fifty winters")
    return len(book.times)


def play(programs, random, clock, folder, share):
    library, tally = Library(programs.library, folder), Tally()
    density = min(1, max(0.02, clock.seconds / 200))
    longest = long_record(library, random, tally, density)
    while tally.get("records of one winter", 0) < LONG or clock.left() > 0:
        one_winter(library, random, tally, min(1, 2 * density))
    refused = ", ".join(f"{number} {tally[f'refused {number}']:,} times" for number in range(3, 8))
    return (
        f"{counted(tally['winters'], 'winters')} in {counted(tally['records of one winter'] + 1, 'records')}, one of them of {LONG} winters and {longest:,} starts; "
        f"{counted(tally['starts'], 'starts')} accepted, {counted(tally.refused(), 'calls')} refused ({refused}), {counted(tally['resumes'], 'resumes')} in another buffer, "
        f"{counted(tally['finishes'], 'finishes')} with {counted(tally['words'], 'words')} as the model's, {counted(tally['times read back'], 'times')} read back, "
        f"{counted(tally['questions'], 'questions')}"
    )
