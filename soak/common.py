"""What the parts share: where things are, words and bytes, a record's file, a child that runs to its end, and how a part ends."""
import pathlib
import subprocess
import sys
import time

ROOT = pathlib.Path(__file__).resolve().parent.parent
sys.dont_write_bytecode = True
sys.path.insert(0, str(ROOT / "oracle"))

from model import HEAD, MOST, TOP, Settings  # noqa: E402

WINTER = 365 * 86_400
FACTOR = 1_099_511_628_211  # of the sum in a record's file
FRONT = 5  # words of a record's file before those of the start
PATIENCE = 60  # seconds, after which a child that should have ended hangs


class Unexpected(Exception):
    """Something that is not as it should be, said so that it can be done again."""


def expect(right, why):
    if not right:
        raise Unexpected(why() if callable(why) else why)


class Clock:
    """The seconds that a part may take."""

    def __init__(self, seconds):
        self.began = time.monotonic()
        self.seconds = seconds

    def used(self):
        return time.monotonic() - self.began

    def left(self):
        return self.seconds - self.used()


def counted(number, what):
    return f"{number:,} {what}"


# Words and bytes, little end first.


def words_in(raw):
    return [int.from_bytes(raw[at : at + 8], "little") for at in range(0, len(raw), 8)]


def bytes_of(words):
    return b"".join(word.to_bytes(8, "little") for word in words)


def contents(path):
    """The file's bytes; None where there is none."""
    try:
        return path.read_bytes()
    except FileNotFoundError:
        return None


def beside(path, suffix):
    return path.with_name(path.name + suffix)


# A record that is still written, in a file: universe, num_vals, num_pushed, last, the sum, and the words of the start.


def sum_of(words):
    """The sum over a builder's numbers and the words of its start."""
    c = 1
    for word in words:
        c = (c * FACTOR + word) % TOP
    return c


def start_words(u, n, times):
    """The words of the start that these times leave."""
    settings = Settings(u, n)
    held = settings.image(0, times)[HEAD : settings.low_at + -(-len(times) * settings.l // 64)]
    return [0] * HEAD + held + [0] * (settings.start - HEAD - len(held))


def record_file(u, n, times):
    """The bytes of the file."""
    builder = [u, n, len(times), times[-1] if times else 0]
    start = start_words(u, n, times)
    return bytes_of([*builder, sum_of(builder + start), *start])


def field(words, at, width):
    """So many bits from the place `at` on."""
    if width == 0:
        return 0
    i, shift = divmod(at, 64)
    two = words[i] | (words[i + 1] << 64 if i + 1 < len(words) else 0)
    return two >> shift & (1 << width) - 1


def decoded(raw):
    """Settings and times of a record's file, by the high and low words alone; a sentence where it holds no record."""
    if len(raw) % 8 or len(raw) < 8 * FRONT:
        return f"{len(raw)} bytes"
    u, n, m, last, check, *start = words_in(raw)
    if not 1 <= n <= MOST or m > n:
        return f"{m} of {n} times"
    settings = Settings(u, n)
    if len(start) != settings.start:
        return f"{len(start)} words, where a start has {settings.start}"
    if sum_of([u, n, m, last, *start]) != check:
        return "another sum"
    high, low = start[HEAD : settings.low_at], start[settings.low_at :]
    number = int.from_bytes(bytes_of(high), "little")
    times = []
    for k, place in enumerate(ones_of(number)):
        times.append((place - k << settings.l) + field(low, k * settings.l, settings.l))
    if len(times) != m or any(start[:HEAD]) or times != sorted(times) or (times[-1] if times else 0) != last:
        return "words that hold no such list"
    if any(t >= u for t in times):
        return "a time past the universe"
    return u, n, times


def ones_of(number):
    """The places of the ones, in order."""
    text = bin(number)[:1:-1]
    at = text.find("1")
    while at >= 0:
        yield at
        at = text.find("1", at + 1)


def answer_to(u, n, m, last, t):
    """What a push answers: the refusal, or 0."""
    if t < last:
        return 4
    if t >= u:
        return 5
    return 6 if m == n else 0


# Programs.


def run(command, given=b"", may_die=False, **options):
    """Status, standard output and standard error of a program that gets these bytes. It may not hang, nor end by a signal unless that is meant."""
    command = [str(word) for word in command]
    try:
        done = subprocess.run(command, input=given, capture_output=True, timeout=PATIENCE, check=False, **options)
    except subprocess.TimeoutExpired:
        raise Unexpected(f"{command} did not end within {PATIENCE} seconds") from None
    expect(may_die or done.returncode >= 0, lambda: f"{command} ended by signal {-done.returncode}")
    return done.returncode, done.stdout, done.stderr


def is_sentence(said):
    """One line of plain text, as standard error has it."""
    return said.startswith(b"burner: ") and said.endswith(b"\n") and said.count(b"\n") == 1 and len(said) > 10
