"""Lines of random bytes, with good ones among them, into `burner log` and the console: an answer to each, and the right one."""
import subprocess
import threading

from common import PATIENCE, TOP, Unexpected, answer_to, counted, decoded, expect
from model import Console

FULL = 1_000_000
CHUNK = 20_000  # lines that are made at a time
UNIVERSE, EVERY = 2**63, 10**18
LONGEST = 64  # bytes of a line to `burner log`
LONG = 70_000  # bytes of a line that is over the console's limit too


def noise(random, length):
    """Bytes of any value but the line feed."""
    raw = random.randbytes(length)
    return raw.replace(b"\n", b"\x0b") if b"\n" in raw else raw


def random_line(random):
    chance = random.random()
    if chance < 0.0005:
        return noise(random, LONG)
    if chance < 0.001:
        return bytes(random.choices(b"0123456789", k=LONG))
    if chance < 0.05:
        return bytes(random.choices(b"0123456789 -+#\0\r", k=random.randrange(30)))
    return noise(random, random.randrange(201))


class Log:
    """What `burner log` should answer."""

    def __init__(self, random, declared):
        self.random, self.declared, self.m, self.last = random, declared, 0, 0

    def line(self):
        random = self.random
        chance = random.random()
        if chance < 0.6:
            return random_line(random)
        if chance < 0.65:
            return b"0" * random.randrange(LONGEST + 3) + b"%d" % random.choice((0, self.last, self.last + 1))
        if chance < 0.7:
            return b"%d" % random.choice((UNIVERSE, TOP - 1, TOP, random.randrange(2**60, 2**80)))
        return b"%d" % (self.last + random.randrange(-5, 200) if self.last > 5 else random.randrange(20))

    def answer(self, line):
        if not line or len(line) > LONGEST or any(c not in b"0123456789" for c in line) or int(line) >= TOP:
            return b"bad line"
        t = int(line)
        refusal = answer_to(UNIVERSE, self.declared, self.m, self.last, t)
        if refusal:
            return b"refused %d" % refusal
        self.m, self.last = self.m + 1, t
        return b"ok"


class Commands:
    """What the console should answer: the model's answers."""

    def __init__(self, random):
        self.random, self.model = random, Console()

    def line(self):
        random = self.random
        chance = random.random()
        if chance < 0.6:
            return random_line(random)
        a, b, c, d = (random.choice((0, 1, random.randrange(70), random.randrange(1_000), random.randrange(TOP))) for _ in range(4))
        good = random.choice(
            (
                f"popcount {a}", f"lsb {a}", f"msb {a}", f"select_in_word {a} {b % 70}",
                f"buffer {a % 60} {b}", f"poke {a % 60} {b}", f"forge {a} {b % 300} {c % 300} {d}", f"image {a % 60}", "words", "builder",
                f"start {a} {b % 100}", f"reading {a}", f"reading {a % 1000}", f"finish {a % 3}", "open", f"select {a}", f"delta {a}", f"rank {a}", f"predecessor {a}",
                f"successor {a}", f"search {a}", f"search_range {a % 9} {b % 9} {c}", "len", "universe", "has_rank", f"walk {a} {b % 20}", f"read {a} {b % 20}",
                f"limit {a} {b} {c % 3}", f"windows {a} {b} {c} {d}", f"sums {a} {b} {c}", f"bits {a % 130} {b} {c}", "dump", f"push_bit {a % 2}", f"get_bits {a} {b % 66}",
                f"# {a}",
            )
        ).encode()
        if chance < 0.7 and good:
            at = random.randrange(len(good))
            return good[:at] + noise(random, 1) + good[at + 1 :]
        return good

    def answer(self, line):
        said = self.model.line(line)
        return None if said is None else said.encode()


class Talk:
    """A program that is fed by one thread, while its answers are held against the right ones."""

    def __init__(self, command, made, count, folder):
        self.made, self.count, self.name = made, count, command[0]
        self.asked = folder / "asked"  # the lines of the chunk that is under way, for a failure
        pipe = subprocess.PIPE
        self.said = (folder / "stderr").open("wb")
        self.process = subprocess.Popen([str(word) for word in command], stdin=pipe, stdout=pipe, stderr=self.said)
        self.answers = self.bytes = 0

    def send(self, raw, is_last):
        try:
            self.process.stdin.write(raw)
            self.process.stdin.flush()
            if is_last:
                self.process.stdin.close()
        except BrokenPipeError:
            pass

    def chunk(self, size, done):
        lines = [(line := self.made.line(), self.made.answer(line)) for _ in range(size)]
        raw = b"".join(line + b"\n" for line, _ in lines)
        is_last = done + size == self.count
        if is_last and lines[-1][0]:
            raw = raw[:-1]  # the last may lack its line feed
        self.bytes += len(raw)
        self.asked.write_bytes(raw)
        sender = threading.Thread(target=self.send, args=(raw, is_last))
        sender.start()
        for i, (line, right) in enumerate(lines):
            if right is None:
                continue
            got = self.process.stdout.readline()
            if got != right + b"\n":
                self.process.kill()
                raise Unexpected(f"{self.name}: line {done + i}, {line[:100]!r} of {len(line)} bytes: {got[:100]!r} where {right[:100]!r} is right")
            self.answers += 1
        sender.join()

    def all(self):
        watch = threading.Timer(PATIENCE + self.count / 2_000, self.process.kill)
        watch.start()
        for done in range(0, self.count, CHUNK):
            self.chunk(min(CHUNK, self.count - done), done)
        rest = self.process.stdout.read()
        status = self.process.wait()
        watch.cancel()
        self.said.close()
        expect(rest == b"", lambda: f"{self.name}: {rest[:100]!r} after the last answer")
        expect(status == 0, lambda: f"{self.name}: status {status}")


def play(programs, random, clock, folder, share):
    count = max(CHUNK, int(FULL * share))
    path = folder / "record"
    declared = count // 4
    log = Talk([programs.burner, "log", path, UNIVERSE, declared, EVERY], Log(random, declared), count, folder)
    log.all()
    held = decoded(path.read_bytes())
    expect(not isinstance(held, str) and (len(held[2]), held[2][-1]) == (log.made.m, log.made.last), "the file after the last line holds another list")
    console = Talk([programs.console], Commands(random), count, folder)
    console.all()
    return (
        f"{counted(count, 'lines')} ({log.bytes / 1e6:,.0f} MB) into burner log: {counted(log.answers, 'answers')}, each the right one, {counted(log.made.m, 'accepted')} and saved at the end; "
        f"{counted(count, 'lines')} ({console.bytes / 1e6:,.0f} MB) into the console: {counted(console.answers, 'answers')}, each the model's, and none to {counted(count - console.answers, 'empty lines and notes')}"
    )
