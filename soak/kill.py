"""`burner log` ended by signal 9 at random moments, and once at each of its calls on files; what stands on disk is read by a decoder of its own."""
import os
import re
import select
import subprocess
import time

import cuts
from common import TOP, Settings, Unexpected, answer_to, beside, bytes_of, contents, counted, decoded, expect, run

COUNTS = (300, 3_000, 60_000)  # declared, one after the other
SPAN = 6_000  # seconds of the universe for each
EVERYS = (1, 16)
LATEST = 90  # kills after which a record is finished, full or not
BAD = (b"", b"-5", b"+5", b" 5", b"5 ", b"5\r", b"seven", b"\0", b"0" * 65, b"9" * 20, b"\xff" * 300)
FULL = 500  # kills for each EVERY
ORDER = re.compile(r"open FILE\.new (?:write )+fsync close rename FILE\.1 rename FILE fsync")
HOLDS = re.compile(rb"burner: .* holds (?:(\d+) starts?, the last at (\d+)|no start yet)\n")


class Case:
    """A `burner log`: its file, its settings and its EVERY."""

    def __init__(self, burner, path, n, every):
        self.burner, self.path, self.u, self.n, self.every = burner, path, SPAN * n, n, every

    def command(self):
        return [self.burner, "log", self.path, self.u, self.n, self.every]


class Feed:
    """Lines as they are sent, each with the answer that is right, from a list of times on."""

    def __init__(self, random, case, times):
        self.random, self.case, self.times = random, case, list(times)
        self.answers = []  # the right one to each line

    def line(self):
        random, last = self.random, self.times[-1] if self.times else 0
        chance = random.random()
        if chance < 0.05:
            self.answers.append(b"bad line")
            return random.choice(BAD) + b"\n"
        if chance < 0.09:
            return self.number(max(0, last - random.choice((1, 60, 5_000)))) + b"\n"
        if chance < 0.12:
            return self.number(random.choice((self.case.u, self.case.u + 1, TOP - 1))) + b"\n"
        return self.number(last + random.choice((0, 1, random.randrange(2 * SPAN)))) + b"\n"

    def number(self, t):
        refusal = answer_to(self.case.u, self.case.n, len(self.times), self.times[-1] if self.times else 0, t)
        if refusal:
            self.answers.append(b"refused %d" % refusal)
        else:
            self.answers.append(b"ok")
            self.times.append(t)
        return b"0" * self.random.choice((0, 0, 0, 3, 30)) + b"%d" % t


class Child:
    """A `burner log` that is fed, and killed at its moment unless it ends before."""

    def __init__(self, feed, environment=None):
        self.feed, self.said, self.told, self.sent, self.rest = feed, b"", b"", b"", b""
        self.fed = False  # whether its input has ended
        pipe = subprocess.PIPE
        command = [str(word) for word in feed.case.command()]
        self.process = subprocess.Popen(command, stdin=pipe, stdout=pipe, stderr=pipe, bufsize=0, env=environment)
        for stream in (self.process.stdin, self.process.stdout, self.process.stderr):
            os.set_blocking(stream.fileno(), False)

    def take(self):
        """What it has written since."""
        self.said += self.process.stdout.read() or b""
        self.told += self.process.stderr.read() or b""

    def give(self, lines):
        """Sends what is left over, or lines anew."""
        if not self.rest:
            self.rest = b"".join(self.feed.line() for _ in range(lines))
            self.sent += self.rest
        try:
            self.rest = self.rest[self.process.stdin.write(self.rest) or 0 :]
        except BrokenPipeError:
            return

    def live(self, seconds, slowly):
        """Feeds it so long: slowly, a line at a time and the next after its answer, or as much as it takes."""
        until = time.monotonic() + seconds
        while (left := until - time.monotonic()) > 0 and self.process.poll() is None:
            answered = self.said.count(b"\n") == len(self.feed.answers)
            ready = [self.process.stdin] if self.rest or answered or not slowly and len(self.feed.answers) < 5_000 else []
            readable, writable, _ = select.select([self.process.stdout, self.process.stderr], ready, [], left)
            if writable:
                self.give(1 if slowly else self.feed.random.randrange(1, 200))
            if readable:
                self.take()
                if not self.said and not self.told and self.process.poll() is None:
                    time.sleep(0.0002)

    def kill(self):
        self.process.kill()
        status = self.process.wait()
        self.close()
        return status

    def close(self):
        for stream in (self.process.stdout, self.process.stderr):
            os.set_blocking(stream.fileno(), True)
        self.take()
        for stream in (self.process.stdin, self.process.stdout, self.process.stderr):
            stream.close()


class Disk:
    """What a power cut leaves: FILE, or FILE.1 alone, or nothing."""

    def __init__(self, case):
        self.only_old = False
        raw = contents(case.path)
        if raw is None:
            raw = contents(beside(case.path, ".1"))
            self.only_old = raw is not None
        self.none = raw is None
        held = (case.u, case.n, []) if self.none else decoded(raw)
        expect(not isinstance(held, str), lambda: f"what the cut left is no record: {held}")
        expect(held[:2] == (case.u, case.n), lambda: f"other settings: {held[:2]}")
        self.times = held[2]
        new = beside(case.path, ".new")
        self.new = new.stat().st_mtime_ns if new.exists() else None


class Tally:
    def __init__(self):
        self.kills = self.resumed = self.only_old = self.left_new = 0
        self.answers = self.oks = self.unsaid = self.lost = 0  # unsaid: on disk, and the `ok` was cut off; lost: `ok` after the last save
        self.records = self.starts = 0


def judge_answers(child):
    """The answers are the first of the right ones; the last may be cut off. How many are `ok`."""
    *whole, part = child.said.split(b"\n")
    right = child.feed.answers
    for i, (got, wanted) in enumerate(zip(whole, right)):
        expect(got == wanted, lambda: f"answer {i} is {got!r} where {wanted!r} is right")
    expect(len(whole) <= len(right), lambda: f"{len(whole)} answers to {len(right)} lines")
    if part:
        expect(len(whole) < len(right) and right[len(whole)].startswith(part), lambda: f"an answer begins with {part!r}")
    return whole.count(b"ok"), len(whole)


def judge_told(child, before, tally):
    """It says what it resumes: just what stood on disk. The kill may have come before, or in the middle of the sentence."""
    if not child.told.endswith(b"\n"):
        return
    expect(not before.none, lambda: f"nothing was there, and it said {child.told!r}")
    found = HOLDS.fullmatch(child.told)
    expect(found, lambda: f"on resuming it said {child.told!r}")
    number, last = (int(found[1]), int(found[2])) if found[1] else (0, None)
    expect(number == len(before.times), lambda: f"it resumes with {number} starts, and {len(before.times)} were there")
    expect(number == 0 or last == before.times[-1], lambda: f"it resumes with {last} as the last, and {before.times[-1]} was")
    tally.resumed += 1


def judge_disk(child, before, after, oks, tally):
    """All that was answered at or before the last save is there, and nothing that was not sent."""
    accepted, every = child.feed.times, child.feed.case.every
    expect(after.times == accepted[: len(after.times)], "times on disk that are not those sent, in order")
    new = len(after.times) - len(before.times)
    expect(new >= oks - oks % every, lambda: f"{oks} answered ok since {len(before.times)} were there, and {len(after.times)} are on disk: EVERY is {every}")
    expect(new % every == 0 or child.fed and len(after.times) == len(accepted), lambda: f"{new} saved, where EVERY is {every}")
    tally.oks += oks
    tally.lost += max(0, oks - new)
    tally.unsaid += max(0, new - oks)


def judge(child, before, tally):
    """All of it; where something is not right, what was sent and answered is kept beside the file."""
    try:
        return judged(child, before, tally)
    except Unexpected:
        for suffix, raw in ((".sent", child.sent), (".said", child.said), (".told", child.told)):
            beside(child.feed.case.path, suffix).write_bytes(raw)
        raise


def judged(child, before, tally):
    oks, answers = judge_answers(child)
    tally.answers += answers
    judge_told(child, before, tally)
    after = Disk(child.feed.case)
    judge_disk(child, before, after, oks, tally)
    tally.only_old += after.only_old and not before.only_old
    tally.left_new += after.new is not None and after.new != before.new
    return after


def moment(random):
    """How long a child lives, in seconds: mostly a few milliseconds."""
    return random.random() * random.choice((0.003, 0.01, 0.02, 0.04, 0.08, 0.15))


def close_record(case, times, tally):
    """The end of a record: finished in both ways, checked and listed, it is the whole list."""
    path = case.path
    status, said, told = run(case.command())
    expect(status == 0 and said == b"", lambda: f"log without a line: status {status}, {said!r}, {told!r}")
    for rank in (0, 1) if times else ():
        image = beside(path, f".image{rank}")
        right = bytes_of(Settings(case.u, case.n).image(rank, times))
        status, said, told = run([case.burner, "finish", path, image, rank])
        expect(status == 0 and said == b"ok %d words\n" % (len(right) // 8), lambda: f"finish: status {status}, {said!r}, {told!r}")
        expect(contents(image) == right, "the image is not the model's")
        status, said, told = run([case.burner, "check", image])
        expect(status == 0, lambda: f"check: status {status}, {told!r}")
        status, said, told = run([case.burner, "list", image])
        expect(status == 0 and said == b"".join(b"%d\n" % t for t in times), lambda: f"list: status {status}, {said[:100]!r}")
        image.unlink()
    tally.records += 1
    tally.starts += len(times)
    for suffix in ("", ".1", ".new"):
        beside(path, suffix).unlink(missing_ok=True)


def kill_once(case, random, before, tally):
    child = Child(Feed(random, case, before.times))
    child.live(moment(random), random.random() < 0.5)
    status = child.kill()
    expect(status == -9, lambda: f"it ended by itself with {status}: {child.told!r}")
    tally.kills += 1
    return judge(child, before, tally)


def rounds(burner, random, every, kills, folder):
    """Kill after kill over one file; a record that is full or old is finished, and the next begun."""
    tally = Tally()
    while tally.kills < kills:
        case = Case(burner, folder / f"every{every}", COUNTS[tally.records % len(COUNTS)], every)
        before, last = Disk(case), min(kills, tally.kills + LATEST)
        while tally.kills < last and len(before.times) + every <= case.n:
            before = kill_once(case, random, before, tally)
        close_record(case, before.times, tally)
    return tally


def cut_once(case, random, environment, tally):
    """One child that is cut at a call, and whether it was: it may have no such call."""
    before = Disk(case)
    child = Child(Feed(random, case, before.times), environment)
    os.set_blocking(child.process.stdin.fileno(), True)
    child.give(2 * case.every + 3)
    child.process.stdin.close()
    child.fed = True
    status = child.process.wait()
    child.close()
    expect(status in (0, -9), lambda: f"status {status} with {cuts.shown(environment)}: {child.told!r}")
    after = judge(child, before, tally)
    tally.kills += status != 0
    if status == 0:
        expect(child.said.count(b"\n") == len(child.feed.answers), "a line without an answer")
        expect(after.times == child.feed.times, "the input has ended, and not all is saved")
    return status != 0


def every_cut(burner, random, every, folder):
    """Signal 9 at each call on files, and in the middle of each write."""
    tally, library = Tally(), cuts.library(folder)
    case = Case(burner, folder / f"cut{every}", COUNTS[-1], every)
    calls = 0
    while cut_once(case, random, cuts.environment(library, calls, "kill"), tally):
        calls += 1
    for at in range(calls):
        cut_once(case, random, cuts.environment(library, at, "half"), tally)
    close_record(case, Disk(case).times, tally)
    return tally


def order_of_calls(burner, folder):
    """One save: written, synced, renamed twice, and then the folder synced. A kill shows nothing of the syncs, since the system keeps what was written."""
    case, told = Case(burner, folder / "order", COUNTS[0], 1), folder / "told"
    run(case.command(), b"1\n")
    status, _, _ = run(case.command(), b"2\n", env=cuts.told_environment(cuts.library(folder), told))
    calls = told.read_text().replace(str(case.path), "FILE").split("\n")
    save = " ".join(call if call.startswith(("open", "rename")) else call.split(" ")[0] for call in calls)
    expect(status == 0 and ORDER.search(save), lambda: f"a save in another order: {save}")


def figures(every, tally, cut):
    return (
        f"EVERY {every}: {counted(tally.kills, 'kills')}, {counted(tally.answers, 'answers')}, {counted(tally.oks, 'of them ok')}, none lost that was to be saved; "
        f"{counted(tally.resumed, 'resumes')} said rightly, FILE.1 alone {counted(tally.only_old, 'times')}, FILE.new left {counted(tally.left_new, 'times')}, "
        f"{counted(tally.unsaid, 'starts')} saved whose answer was cut off, {counted(tally.lost, 'answered')} and not yet saved; "
        f"{counted(tally.records, 'records')} with {counted(tally.starts, 'starts')} finished, checked and listed; "
        f"at each call on files: {counted(cut.kills, 'kills')}, {cut.only_old} with FILE.1 alone, {cut.left_new} with FILE.new left"
    )


def play(programs, random, clock, folder, share):
    order_of_calls(programs.burner, folder)
    said = []
    for every in EVERYS:
        tally = rounds(programs.burner, random, every, max(1, int(FULL * share)), folder)
        said.append(figures(every, tally, every_cut(programs.burner, random, every, folder)))
    return ". ".join(said)
