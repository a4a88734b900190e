"""The console's sections Words, Bits and Record and its sparse vector, plainly, over lists of bits and of times.

Written from the document that says what is right, not from the Rust: nothing here is clever, and nothing is shared with the crate.
"""

from itertools import accumulate

LINE = 65_536
LENT = 4_096
BUFFER = 65_536
MOST = 16_777_216
HEAD = 6
TOP = 2**64
BLOCK = 1_024
SUBBLOCK = 32
FAR = 65_536
WEEK = 604_800
WINDOWS = 32


class Bad(Exception):
    """A command out of form."""


class Refused(Exception):
    """A refusal, by its number."""


def number(word):
    """Decimal below 2^64, leading zeros allowed, no sign."""
    if not word or any(c not in b"0123456789" for c in word):
        raise Bad
    digits = word.lstrip(b"0") or b"0"
    if len(digits) > 20 or int(digits) >= TOP:
        raise Bad
    return int(digits)


def choice(word):
    value = number(word)
    if value > 1:
        raise Bad
    return value


def few(word):
    """A count of words or answers that fits."""
    value = number(word)
    if value > LENT:
        raise Bad
    return value


def bits_of(word):
    return [word >> i & 1 for i in range(64)]


def groups(count, size):
    """How many groups of this size hold so many; the last may not be full."""
    return count // size + (count % size != 0)


def used_words(length):
    return groups(length, 64)


def places(bits, b):
    """The places that hold b, in order."""
    return [i for i, x in enumerate(bits) if x == b]


def kth(values, k):
    return values[k] if k < len(values) else None


def select_index(positions):
    """Entries, 16-bit lanes and overflow of the select index over these positions."""
    entries, lanes, overflow = [], [], []
    for at in range(0, len(positions), BLOCK):
        block = positions[at : at + BLOCK]
        sampled = block[::SUBBLOCK]
        if block[-1] - block[0] < FAR:
            entries.append(block[0])
            lanes += [p - block[0] for p in sampled]
        else:
            entries.append(-len(overflow) - 1)
            lanes += [65_535 for _ in sampled]
            overflow += block
    return entries, lanes, overflow


def index_words(count):
    """The words of entries and lanes of the select index over so many positions."""
    return groups(count, BLOCK) + groups(groups(count, SUBBLOCK), 4)


class Walk:
    """The unary walk: it counts from the first place not yet taken, and a none ends it."""

    def __init__(self, bits, start):
        self.bits = bits
        self.free = start
        self.ended = False
        self.place = start

    def position(self):
        return len(self.bits) if self.ended else self.place

    def stop(self, b, k, taken):
        found = [i for i in range(self.free, len(self.bits)) if self.bits[i] == b]
        if self.ended or len(found) <= k:
            self.ended = True
            return None
        self.place = found[k]
        self.free = self.place + taken
        return self.place

    def step(self, name, k=0):
        if name == "position":
            return self.position()
        if name == "next":
            return self.stop(1, 0, 1)
        return self.stop(1 if name == "skip1" else 0, k, 0)


def words_of(bits):
    return [sum(b * 2**i for i, b in enumerate(bits[at : at + 64])) for at in range(0, len(bits), 64)]


def lanes_of(lanes):
    """16-bit lanes, four to a word from the low end."""
    return [sum(x * 2 ** (16 * i) for i, x in enumerate(lanes[at : at + 4])) for at in range(0, len(lanes), 4)]


class Settings:
    """A record's universe u and declared count n, and the sizes that follow from them."""

    def __init__(self, u, n):
        self.u, self.n = u, n
        self.l = max(0, (u // n).bit_length() - 1)
        self.high = n + 2 + u // 2**self.l
        self.high_words = used_words(self.high)
        self.low_at = HEAD + self.high_words
        self.start = self.low_at + used_words(n * self.l)

    def limit(self, rank):
        """The limit on the image's length: the start's size, and each index held with all the positions there can be and H / 64 of them in its overflow."""
        return self.start + sum(index_words(count) + self.high // 64 for count in ((self.n, self.high) if rank else (self.n,)))

    def image(self, rank, times):
        high, low = [0] * self.high, []
        for k, t in enumerate(times):
            high[t // 2**self.l + k] = 1
            low += [t >> i & 1 for i in range(self.l)]
        indexes, overflows = [], [0, 0]
        for i, b in enumerate((1, 0) if rank else (1,)):
            entries, lanes, overflow = select_index(places(high, b))
            indexes += [e % TOP for e in entries] + lanes_of(lanes) + overflow
            overflows[i] = len(overflow)
        return [self.u, self.n, len(times), rank, *overflows, *words_of(high), *words_of(low), *indexes]

    def times(self, m, high_words, low_words):
        """The m times that the words hold, in order and below u; None where they hold anything else."""
        ones = [64 * i + p for i, w in enumerate(high_words) if w for p in places(bits_of(w), 1)]
        low = [b for w in low_words for b in bits_of(w)]
        if len(ones) != m or any(p >= self.high for p in ones) or any(low[m * self.l :]):
            return None
        times = []
        for k, p in enumerate(ones):
            below = low[k * self.l : (k + 1) * self.l]
            times.append((p - k) * 2**self.l + sum(b * 2**i for i, b in enumerate(below)))
        if any(t >= self.u for t in times) or times != sorted(times):
            return None
        return times


def declared(u, n):
    """The settings, if the count is one that may be declared: 1, then 2."""
    if n == 0:
        raise Refused(1)
    if n > MOST:
        raise Refused(2)
    return Settings(u, n)


class Record:
    """A lent buffer, a builder, and how many of the buffer's first words are the image."""

    def __init__(self):
        self.lent = []
        self.length = 0
        self.made = (0, 0, 0, 0)  # the builder: u, n, m and the last time
        self.book = None  # the times, from an accepted start on, while calls alone have altered builder and words
        self.opened = None  # what the image holds, while nothing has altered it

    def buffer(self, count, value):
        if count > BUFFER:
            raise Bad
        self.__init__()
        self.lent = [value] * count
        return "ok"

    def poke(self, i, value):
        if i >= len(self.lent):
            raise Bad
        self.lent[i] = value
        self.book = self.opened = None
        return "ok"

    def forge(self, u, n, m, last):
        self.made, self.book = (u, n, m, last), None
        return "ok"

    def image(self, length):
        if length > len(self.lent):
            raise Bad
        self.length, self.opened = length, None
        return "ok"

    def words(self):
        return list(self.lent)

    def builder(self):
        return list(self.made)

    def limit(self, u, n, rank):
        return declared(u, n).limit(rank)

    def start(self, u, n):
        size = declared(u, n).start
        if size > len(self.lent):
            raise Refused(3)
        self.lent[:size] = [0] * size
        self.made, self.book, self.opened = (u, n, 0, 0), [], None
        return "ok"

    def settings(self):
        """The builder's settings; 7 by its numbers, then 3 by the start's size."""
        u, n, m, last = self.made
        if not 1 <= n <= MOST or m > n or (last >= u if m else last != 0):
            raise Refused(7)
        settings = Settings(u, n)
        if settings.start > len(self.lent):
            raise Refused(3)
        return settings

    def put(self, place, b):
        old = self.lent[place // 64]
        self.lent[place // 64] = old - (old >> place % 64 & 1) * 2 ** (place % 64) + b * 2 ** (place % 64)

    def reading(self, t):
        settings = self.settings()
        u, n, m, last = self.made
        if t < last:
            raise Refused(4)
        if t >= u:
            raise Refused(5)
        if m == n:
            raise Refused(6)
        self.put(64 * HEAD + t // 2**settings.l + m, 1)
        for i in range(settings.l):
            self.put(64 * settings.low_at + m * settings.l + i, t >> i & 1)
        self.made, self.opened = (u, n, m + 1, t), None
        if self.book is not None:
            self.book.append(t)
        return "ok"

    def held(self, settings):
        """The times that the words of the start hold, if they hold nothing else and end in the builder's last: 7."""
        _, _, m, last = self.made
        high, low = self.lent[HEAD : settings.low_at], self.lent[settings.low_at : settings.start]
        times = settings.times(m, high, low)
        if times is None or (times and times[-1] != last):
            raise Refused(7)
        return times

    def finish(self, rank):
        settings = self.settings()
        return self.write(settings.image(rank, self.held(settings)))

    def resume(self):
        settings = self.settings()
        if any(self.lent[:HEAD]):
            raise Refused(7)
        self.held(settings)
        return "ok"

    def write(self, image):
        """The image stands at the front, and the later words stay; 3 where there are too few."""
        if len(image) > len(self.lent):
            raise Refused(3)
        self.lent[: len(image)] = image
        self.length, self.book, self.opened = len(image), None, None
        return len(image)

    def no_words(self):
        """No words are the image, and none is written."""
        self.length, self.opened = 0, None
        return 0

    def sums(self, items):
        """The record of the prefix sums; no items have no words."""
        if not items:
            return self.no_words()
        if len(items) > MOST:
            raise Refused(2)
        if sum(items) >= TOP - 1:
            raise Refused(12)
        return self.write(Settings(1 + sum(items), len(items)).image(0, list(accumulate(items))))

    def sums_access(self, p):
        return self.delta(p) if self.length else None

    def sums_len(self):
        return self.len() if self.length else 0

    def sums_walk(self, count):
        if self.length:
            self.accepted()
        return [self.sums_access(p) for p in range(count)]

    def accepted(self):
        """The settings, the rank choice and the times of the image; 7 where it is none."""
        words = self.lent[: self.length]
        if self.opened is None or self.opened[0] != words:
            self.opened = words, self.decoded(words)
        if self.opened[1] is None:
            raise Refused(7)
        return self.opened[1]

    def decoded(self, words):
        if len(words) < HEAD:
            return None
        u, n, m, rank = words[:4]
        if not 1 <= n <= MOST or m > n or rank > 1:
            return None
        settings = Settings(u, n)
        low_end = settings.low_at + used_words(m * settings.l)
        if len(words) < low_end:
            return None
        times = settings.times(m, words[HEAD : settings.low_at], words[settings.low_at : low_end])
        if times is None or settings.image(rank, times) != words:
            return None
        return settings, rank, times

    def open(self):
        self.accepted()
        return "ok"

    def select(self, k):
        _, _, times = self.accepted()
        return kth(times, k)

    def delta(self, k):
        _, _, times = self.accepted()
        return kth([t - before for before, t in zip([0, *times], times)], k)

    def rank(self, t):
        settings, index, times = self.accepted()
        if t > settings.u:
            return None
        if t == settings.u:
            return len(times)
        if not index:
            raise Refused(8)
        return sum(1 for x in times if x < t)

    def predecessor(self, v):
        settings, index, times = self.accepted()
        if not index and v < settings.u - 1:
            raise Refused(8)
        return max((x for x in times if x <= v), default=None)

    def successor(self, v):
        settings, index, times = self.accepted()
        if v >= settings.u:
            return None
        if not index:
            raise Refused(8)
        return min((x for x in times if x >= v), default=None)

    def search(self, v):
        _, _, times = self.accepted()
        return self.search_range(0, len(times), v)

    def search_range(self, a, b, v):
        _, _, times = self.accepted()
        if a >= b:
            return None
        if b > len(times):
            raise Refused(9)
        return next((k for k in range(a, b) if times[k] == v), None)

    def len(self):
        _, _, times = self.accepted()
        return len(times)

    def universe(self):
        settings, _, _ = self.accepted()
        return settings.u

    def has_rank(self):
        _, index, _ = self.accepted()
        return index

    def walk(self, k, count):
        _, _, times = self.accepted()
        return [kth(times, k + j) for j in range(count)]

    def read(self, k, count):
        _, _, times = self.accepted()
        out = times[k : k + count]
        return [len(out), *out, *[0] * (count - len(out))]

    def windows(self, s, e, words):
        """How many times from s up to e, e left out, have their second of the week in some window: 7, then 17."""
        _, _, times = self.accepted()
        pairs = list(zip(words[::2], words[1::2]))
        if len(words) > 2 * WINDOWS or len(words) % 2 or any(a >= b or b > WEEK for a, b in pairs):
            raise Refused(17)
        return sum(1 for t in times if s <= t < e and any(a <= t % WEEK < b for a, b in pairs))


class Sparse:
    """A sparse vector: a length and a rank choice, over the record's image. No words are a vector of zeros."""

    def __init__(self, record):
        self.record = record
        self.length = 0
        self.choice = 0

    def sarray(self, length, choice):
        self.length, self.choice = length, choice
        return "ok"

    def ones(self):
        """The set places; 7 where the image is not that of a vector of this length and choice."""
        if self.record.length == 0:
            return []
        settings, rank, times = self.record.accepted()
        if settings.u != self.length or rank != self.choice:
            raise Refused(7)
        if len(times) != settings.n or len(set(times)) != len(times):
            raise Refused(7)
        return times

    def ranked(self):
        """The set places, for what needs the rank choice: 7, then 8."""
        ones = self.ones()
        if not self.choice:
            raise Refused(8)
        return ones

    def sarray_access(self, p):
        ones = self.ones()
        return int(p in ones) if p < self.length else None

    def sarray_rank1(self, p):
        ones = self.ranked()
        return sum(1 for x in ones if x < p) if p <= self.length else None

    def sarray_select1(self, k):
        return kth(self.ones(), k)

    def sarray_predecessor1(self, p):
        ones = self.ranked()
        return max((x for x in ones if x <= p), default=None) if p < self.length else None

    def sarray_successor1(self, p):
        ones = self.ranked()
        return min((x for x in ones if x >= p), default=None) if p < self.length else None


class Console:
    """Lent words and a length, a record, a sparse vector, and the answer to a line."""

    def __init__(self):
        self.length = 0
        self.words = []
        self.known = None  # the bits, while nothing has altered them
        self.record = Record()
        self.sparse = Sparse(self.record)

    def line(self, raw):
        """The answer to a line without its line feed; None where nothing is written."""
        if len(raw) > LINE:
            return "bad command"
        if raw == b"" or raw.startswith(b"#"):
            return None
        try:
            name, args = self.parse(raw)
        except Bad:
            return "bad command"
        try:
            return shown(getattr(self.holder(name), name)(*args))
        except Refused as number_of:
            return f"refused {number_of}"
        except Bad:
            return "bad command"

    def holder(self, name):
        """What the command is of; those that take the console's bits are the console's."""
        if name in ("from_bits", "sarray_from_bits"):
            return self
        return self.record if name in RECORD else self.sparse if name in SPARSE else self

    def parse(self, raw):
        """The command's name and its arguments, or Bad."""
        words = raw.split(b" ")
        if b"" in words:
            raise Bad
        name = words[0].decode("latin-1")
        if name in LISTED:
            before = LISTED[name]
            numbers = [number(w) for w in words[1:]]
            if not before <= len(numbers) <= before + LENT:
                raise Bad
            return name, (*numbers[:before], numbers[before:])
        if name == "sums":
            return name, ([number(w) for w in words[1:]],)
        if name == "unary":
            if len(words) < 2:
                raise Bad
            return name, (number(words[1]), self.parse_steps(words[2:]))
        forms = ON_BUFFER.get(name, FORMS.get(name))
        if forms is None or len(words) - 1 != len(forms):
            raise Bad
        return name, [form(w) for form, w in zip(forms, words[1:])]

    def parse_steps(self, words):
        steps, at = [], 0
        while at < len(words):
            name = words[at].decode("latin-1")
            if name in ("next", "position"):
                steps.append((name,))
                at += 1
            elif name in ("skip1", "skip0"):
                if at + 1 == len(words):
                    raise Bad
                steps.append((name, number(words[at + 1])))
                at += 2
            else:
                raise Bad
        return steps

    # Words.

    def popcount(self, w):
        return sum(bits_of(w))

    def lsb(self, w):
        return kth(places(bits_of(w), 1), 0)

    def msb(self, w):
        ones = places(bits_of(w), 1)
        return ones[-1] if ones else None

    def select_in_word(self, w, k):
        return kth(places(bits_of(w), 1), k)

    # The vector.

    def is_bad(self):
        """Refusal 13: the length is over the words, or padding is set."""
        used = used_words(self.length)
        if used > len(self.words):
            return True
        return self.length % 64 != 0 and self.words[used - 1] >> self.length % 64 != 0

    def vector(self):
        """The bits below the length; 13 first."""
        if self.is_bad():
            raise Refused(13)
        if self.known is None:
            used = self.words[: used_words(self.length)]
            self.known = [b for w in used for b in bits_of(w)][: self.length]
        return self.known

    def write(self, at, bits):
        """Sets the bits from place `at` on; a word first used by this is overwritten whole."""
        self.known = None
        for i, b in enumerate(bits, at):
            old = self.words[i // 64] if i % 64 or i < self.length else 0
            self.words[i // 64] = old - (old >> i % 64 & 1) * 2 ** (i % 64) + b * 2 ** (i % 64)

    def bits(self, length, words):
        self.length, self.words, self.known = length, list(words), None
        return "ok"

    def dump(self):
        return [self.length, ":", *self.words]

    def from_bit(self, b, length):
        if used_words(length) > len(self.words):
            raise Refused(13)
        for i in range(used_words(length)):
            ones = min(64, length - 64 * i)
            self.words[i] = b * (2**ones - 1)
        self.length, self.known = length, None
        return "ok"

    def set_bit(self, p, b):
        self.vector()
        if p >= self.length:
            raise Refused(16)
        self.write(p, [b])
        return "ok"

    def push_bit(self, b):
        return self.push_bits(b, 1)

    def push_bits(self, v, width):
        self.vector()
        if width > 64:
            raise Refused(14)
        if self.length + width > 64 * len(self.words) or self.length + width >= TOP:
            raise Refused(15)
        self.write(self.length, bits_of(v)[:width])
        self.length += width
        return "ok"

    def get_bits(self, p, width):
        bits = self.vector()
        if width > 64 or p + width > self.length:
            return None
        return sum(b * 2**i for i, b in enumerate(bits[p : p + width]))

    def get_word64(self, p):
        bits = self.vector()
        if p >= self.length:
            return None
        return sum(b * 2**i for i, b in enumerate(bits[p : p + 64]))

    def access(self, p):
        return kth(self.vector(), p)

    def rank1(self, p):
        bits = self.vector()
        return sum(bits[:p]) if p <= self.length else None

    def select1(self, k):
        return kth(places(self.vector(), 1), k)

    def select0(self, k):
        return kth(places(self.vector(), 0), k)

    def predecessor1(self, p):
        ones = places(self.vector()[: p + 1], 1)
        return ones[-1] if ones else None

    def num_ones(self):
        return sum(self.vector())

    def unary(self, start, steps):
        bits = self.vector()
        if start // 64 >= used_words(self.length):
            raise Refused(16)
        walk = Walk(bits, start)
        return [walk.step(*step) for step in steps]

    def index(self, b):
        positions = places(self.vector(), b)
        entries, lanes, overflow = select_index(positions)
        return [len(positions), "|", *entries, "|", *lanes, "|", *overflow]

    def index_select(self, b, k):
        return kth(places(self.vector(), b), k)

    def from_bits(self, rank):
        """The record of the places of the ones, into the buffer."""
        times = places(self.vector(), 1)
        if self.length == 0:
            raise Refused(10)
        if not times:
            raise Refused(11)
        if len(times) > MOST:
            raise Refused(2)
        return self.record.write(Settings(self.length, len(times)).image(rank, times))

    def sarray_from_bits(self, rank):
        """The sparse vector of the bits, into the buffer: 13, zeros, 2, 3."""
        words = self.from_bits(rank) if any(self.vector()) else self.record.no_words()
        self.sparse.sarray(self.length, rank)
        return words


# Commands that list words, and how many numbers stand before these.
LISTED = {"bits": 1, "windows": 2}

FORMS = {
    "popcount": (number,),
    "lsb": (number,),
    "msb": (number,),
    "select_in_word": (number, number),
    "dump": (),
    "from_bit": (choice, number),
    "set_bit": (number, choice),
    "push_bit": (choice,),
    "push_bits": (number, number),
    "get_bits": (number, number),
    "get_word64": (number,),
    "access": (number,),
    "rank1": (number,),
    "select1": (number,),
    "select0": (number,),
    "predecessor1": (number,),
    "num_ones": (),
    "index": (choice,),
    "index_select": (choice, number),
}

RECORD = {
    "buffer": (number, number),
    "poke": (number, number),
    "forge": (number, number, number, number),
    "image": (number,),
    "words": (),
    "builder": (),
    "limit": (number, number, choice),
    "start": (number, number),
    "reading": (number,),
    "finish": (choice,),
    "resume": (),
    "open": (),
    "select": (number,),
    "delta": (number,),
    "rank": (number,),
    "predecessor": (number,),
    "successor": (number,),
    "search": (number,),
    "search_range": (number, number, number),
    "len": (),
    "universe": (),
    "has_rank": (),
    "walk": (number, few),
    "read": (number, few),
    "windows": None,
    "from_bits": (choice,),
    "sums": None,
    "sums_access": (number,),
    "sums_walk": (few,),
    "sums_len": (),
}

SPARSE = {
    "sarray": (number, choice),
    "sarray_from_bits": (choice,),
    "sarray_access": (number,),
    "sarray_rank1": (number,),
    "sarray_select1": (number,),
    "sarray_predecessor1": (number,),
    "sarray_successor1": (number,),
}

# All that is over the buffer, and the limit, which is of settings alone.
ON_BUFFER = {**RECORD, **SPARSE}


def shown(answer):
    if isinstance(answer, list):
        return " ".join(shown(a) for a in answer)
    return "none" if answer is None else str(answer)
