"""Full disks, barred files, directories in their places, calls that fail, files cut at every length and with every bit changed: a sentence, a status, and the old file as it was."""
import errno
import os
import resource
import shutil
import subprocess

import cuts
from common import MOST, Settings, Unexpected, bytes_of, contents, counted, decoded, expect, is_sentence, record_file, run, words_in
from model import Record

UNIVERSE, COUNT, HELD = 5_000, 24, 20
LARGE = 20_000  # declared where the file is to have some pages
PAGE = 4_096
NOBODY = 65_534
ERRORS = (errno.EIO, errno.ENOSPC, errno.EROFS)


class Faults:
    def __init__(self, burner, random, folder, share):
        self.random, self.folder, self.share, self.counts, self.skipped = random, folder, share, {}, []
        self.bin = folder / "burner"  # a copy, which another user may run
        shutil.copy(burner, self.bin)
        folder.chmod(0o711)
        folder.parent.chmod(0o711)
        self.place = None
        self.times = sorted(random.randrange(UNIVERSE) for _ in range(HELD))
        self.good = record_file(UNIVERSE, COUNT, self.times)
        self.older = record_file(UNIVERSE, COUNT, self.times[:-2])
        self.images = [bytes_of(Settings(UNIVERSE, COUNT).image(rank, self.times)) for rank in (0, 1)]

    def count(self, what, number=1):
        self.counts[what] = self.counts.get(what, 0) + number

    def fresh(self, **files):
        """An empty folder with these files, `_` in a name for a dot; a folder where the bytes are None."""
        self.place = self.folder / "place"
        if self.place.exists():
            self.place.chmod(0o755)
            shutil.rmtree(self.place)
        self.place.mkdir()
        for name, raw in files.items():
            path = self.place / name.replace("_", ".")
            path.mkdir() if raw is None else path.write_bytes(raw)
        return self.place / "FILE", self.place / "IMAGE"

    def seen(self):
        """Every name in the folder, with the bytes of the file."""
        return {path.name: None if path.is_dir() else path.read_bytes() for path in sorted(self.place.iterdir())}

    def burner(self, *command, given=b"", **options):
        status, said, told = run([self.bin, *command], given, **options)
        return status, said, told

    def log(self, file, *more, given=b"", **options):
        return self.burner("log", file, UNIVERSE, COUNT, *more, given=given, **options)

    def refused(self, what, answer, statuses, before):
        """A sentence, one of these statuses, no `ok`, and every file as it was."""
        status, said, told = answer
        after = self.seen()
        expect(status in statuses, lambda: f"{what}: status {status}, {said!r}, {told!r}")
        expect(said == b"", lambda: f"{what}: {said!r} on standard output")
        expect(is_sentence(last_line(told)), lambda: f"{what}: {told!r} on standard error")
        expect(after == before, lambda: f"{what}: {difference(before, after)}")

    def accepted(self, what, answer, said=b""):
        status, got, told = answer
        expect(status == 0 and got == said, lambda: f"{what}: status {status}, {got!r}, {told!r}")


    # A record's file, cut or changed.

    def damaged(self, raw):
        """Every change, or as large a share of them as there is time for."""
        return (change for change in self.changes(raw) if self.random.random() < self.share)

    def changes(self, raw):
        """Every cut, every bit, every byte as 0, 255 and some other one, and bytes too many, each with a word that says so."""
        for length in range(len(raw)):
            yield f"cut to {length} bytes", raw[:length]
        for more in (b"\0", b"\0" * 8, raw):
            yield f"{len(more)} bytes too many", raw + more
        for at in range(len(raw)):
            others = {raw[at] ^ 1 << bit for bit in range(8)} | {0, 255, self.random.randrange(256)}
            for other in sorted(others - {raw[at]}):
                yield f"byte {at} as {other}", raw[:at] + bytes([other]) + raw[at + 1 :]

    def record_damaged(self):
        """Refused, and not touched, whether by `log` or by `finish`."""
        file, image = self.fresh()
        for what, raw in self.damaged(self.good):
            file.write_bytes(raw)
            before = {"FILE": raw}
            self.refused(f"log, FILE {what}", self.log(file), (1,), before)
            self.refused(f"finish, FILE {what}", self.burner("finish", file, image, 1), (1,), before)
            self.count("damaged records refused")

    def record_with_old(self):
        """FILE.1 is gone on with, and the damaged FILE set aside, not lost."""
        for what, raw in self.damaged(self.good):
            file, _ = self.fresh(FILE=raw, FILE_1=self.older)
            self.accepted(f"log, FILE {what}, with FILE.1", self.log(file, given=b"4999\n"), b"ok\n")
            right = {"FILE": record_file(UNIVERSE, COUNT, [*self.times[:-2], 4_999]), "FILE.refused": raw}
            after = self.seen()
            kept = after.pop("FILE.1", self.older)
            expect(after == right and kept == self.older, lambda: f"FILE {what}, with FILE.1: {difference(right, after)}")
            self.count("damaged records set aside")
        file, _ = self.fresh(FILE=self.good[:-1], FILE_1=self.older, FILE_refused=b"x")
        self.refused("log, with a FILE.refused", self.log(file, given=b"4999\n"), (1,), {"FILE": self.good[:-1], "FILE.1": self.older, "FILE.refused": b"x"})
        file, _ = self.fresh(FILE=self.good[:-1], FILE_1=self.good[:-2])
        self.refused("log, FILE and FILE.1 cut", self.log(file, given=b"4999\n"), (1,), {"FILE": self.good[:-1], "FILE.1": self.good[:-2]})

    def plug(self):
        """What a pulled plug may leave of a save: FILE.new with any part of its bytes, the rest missing or 0, and none, one or both of the renames."""
        later = record_file(UNIVERSE, COUNT, [*self.times, 4_999])
        right = {"FILE": later, "FILE.1": self.good}
        for length in range(len(later) + 1):
            if self.random.random() > self.share:
                continue
            for new in (later[:length], later[:length] + b"\0" * (len(later) - length)):
                for files in ({"FILE": self.good, "FILE_1": self.older}, {"FILE": self.good}, {"FILE_1": self.good}):
                    file, _ = self.fresh(FILE_new=new, **files)
                    self.accepted(f"log, {names(files)}, {length} bytes of FILE.new", self.log(file, given=b"4999\n"), b"ok\n")
                    expect(self.seen() == right, lambda: f"{names(files)}, {length} bytes of FILE.new: {difference(right, self.seen())}")
                    self.count("pulled plugs")
        file, _ = self.fresh(FILE=self.good, FILE_1=self.older[:-8])
        self.accepted("log, FILE.1 cut", self.log(file, given=b"4999\n"), b"ok\n")
        expect(self.seen() == right, lambda: f"FILE.1 cut: {difference(right, self.seen())}")
        self.count("pulled plugs")

    def set_aside_cut(self):
        """Signal 9 at each call on files while a damaged FILE is set aside: neither it nor FILE.1 is lost."""
        made, bad = cuts.library(self.folder), self.good[:-1]
        for at in range(1_000):
            file, _ = self.fresh(FILE=bad, FILE_1=self.older)
            given = cuts.environment(made, at, "kill")
            status, _, told = self.log(file, given=b"4999\n", env=given, may_die=True)
            expect(status in (0, -9), lambda: f"{cuts.shown(given)}: status {status}, {told!r}")
            self.judge_set_aside(file, bad, cuts.shown(given))
            if status == 0:
                return
            self.count("cuts while a record is set aside")

    def judge_set_aside(self, file, bad, what):
        """After a cut, and after the next start, which goes on."""
        before = self.seen()
        expect(bad in before.values() and self.older in before.values(), lambda: f"{what}: a file is lost, there are {sorted(before)}")
        status, _, told = self.log(file, given=b"4999\n")
        expect(status == 0, lambda: f"{what}, the next start: status {status}, {told!r}")
        held = decoded(contents(file))
        expect(held[2][: HELD - 2] == self.times[:-2] and held[2][HELD - 2] == 4_999, f"{what}: FILE holds another list after the next start")
        expect(bad in self.seen().values(), f"{what}: the damaged file is lost after the next start")

    def other_settings(self):
        file, _ = self.fresh(FILE=self.good)
        for u, n in ((UNIVERSE + 1, COUNT), (UNIVERSE, COUNT + 1), (UNIVERSE - 1, COUNT), (0, COUNT), (UNIVERSE, 0), (UNIVERSE, MOST + 1), (2**64 - 1, MOST)):
            self.refused(f"log with {u} {n}", self.burner("log", file, u, n, given=b"1\n"), (1,), {"FILE": self.good})
            self.count("other settings refused")

    # An image, cut or changed.

    def image_damaged(self):
        """Refused, or the image of another list by the model."""
        for whole in self.images:
            _, image = self.fresh()
            for what, raw in self.damaged(whole):
                image.write_bytes(raw)
                self.image_once(what, raw, image)

    def image_once(self, what, raw, image):
        held = Record().decoded(words_in(raw)) if len(raw) % 8 == 0 else None
        checked, listed = self.burner("check", image), self.burner("list", image)
        if held is None:
            for answer in (checked, listed):
                self.refused(f"IMAGE {what}", answer, (1, 2) if len(raw) % 8 else (1,), {"IMAGE": raw})
            self.count("damaged images refused")
            return
        self.accepted(f"check, IMAGE {what}", checked, b"ok\n")
        self.accepted(f"list, IMAGE {what}", listed, b"".join(b"%d\n" % t for t in held[2]))
        self.count("changed images that are another list's")

    # Names that are taken or barred.

    def places(self):
        """A directory in each file's place, and a folder that is not there."""
        line = b"4999\n"
        for files, given in (
            ({"FILE": None}, b""),
            ({"FILE": None, "FILE_1": self.good}, b""),
            ({"FILE_1": None}, b""),
            ({"FILE": self.good, "FILE_1": None}, line),
            ({"FILE": self.good, "FILE_new": None}, line),
            ({"FILE_new": None}, line),
        ):
            file, _ = self.fresh(**files)
            before = self.seen()
            self.refused(f"log, {names(files)}", self.log(file, given=given), (1, 2), before)
            self.count("places taken")
        for files in ({"IMAGE": None}, {"IMAGE_new": None}, {"IMAGE": b"old", "IMAGE_new": None}, {"IMAGE": b"old", "IMAGE_1": None}):
            file, image = self.fresh(FILE=self.good, **files)
            before = self.seen()
            self.refused(f"finish, {names(files)}", self.burner("finish", file, image, 0), (2,), before)
            self.count("places taken")
        file, image = self.fresh(FILE=self.good)
        before = self.seen()
        for command, given in (
            (("log", file.parent / "none/FILE", UNIVERSE, COUNT), line),
            (("log", file / "FILE", UNIVERSE, COUNT), line),
            (("finish", file, file.parent / "none/IMAGE", 0), b""),
            (("finish", file.parent / "none", image, 0), b""),
            (("check", file.parent / "none"), b""),
            (("check", file.parent), b""),
            (("list", file.parent), b""),
            (("check", "/dev/zero"), b""),
            (("log", "/dev/zero", UNIVERSE, COUNT), line),
            (("log", "x" * 5_000, UNIVERSE, COUNT), line),
            (("log", file.parent / ("x" * 254), UNIVERSE, COUNT), line),
        ):
            self.refused(f"{command[0]} {str(command[1])[:80]}", self.burner(*command, given=given), (1, 2), before)
            self.count("places taken")

    def barred(self):
        """As a user who may not write: a folder, a file, the new file, an image."""
        who = {"user": NOBODY, "group": NOBODY, "extra_groups": []} if os.geteuid() == 0 else {}
        cases = (
            ("a folder that may not be written", 0o555, {}, b"4999\n"),
            ("a FILE that may not be written", 0o777, {"FILE": 0o444}, b"4999\n"),
            ("a FILE that may not be read", 0o777, {"FILE": 0o200}, b""),
            ("a FILE that may not be touched", 0o777, {"FILE": 0}, b"4999\n"),
            ("a FILE.new that may not be written", 0o777, {"FILE.new": 0o444}, b"4999\n"),
            ("an IMAGE that may not be written", 0o777, {"IMAGE": 0o444}, None),
            ("an IMAGE in a folder that may not be written", 0o555, {}, None),
        )
        for what, folder_mode, modes, given in cases:
            before = {"FILE": self.good, "IMAGE": b"old", **({"FILE.new": b"new"} if "FILE.new" in modes else {})}
            file, image = self.fresh(**{name.replace(".", "_"): raw for name, raw in before.items()})
            for path in self.place.iterdir():
                path.chmod(modes.get(path.name, 0o666))
                if who and path.name != "FILE.new":
                    os.chown(path, NOBODY, NOBODY)
            self.place.chmod(folder_mode)
            answer = self.burner("finish", file, image, 0, **who) if given is None else self.log(file, given=given, **who)
            self.place.chmod(0o777)
            for path in self.place.iterdir():
                path.chmod(0o666)
            self.refused(what, answer, (2,), before)
            self.count("barred")

    # Writes that fail.

    def short_writes(self):
        """A file may have so many bytes and no more, for every number below what is needed: as on a disk that is full."""
        def most(size):
            return {"preexec_fn": lambda: resource.setrlimit(resource.RLIMIT_FSIZE, (size, size)), "restore_signals": False}

        file, image = self.fresh(FILE=self.good, IMAGE=b"old")
        before = self.seen()
        for size in range(len(self.good)):
            self.refused(f"log, files of {size} bytes at most", self.log(file, given=b"4999\n", **most(size)), (2,), before)
            self.count("writes cut short")
        for size in range(len(self.images[1])):
            self.refused(f"finish, files of {size} bytes at most", self.burner("finish", file, image, 1, **most(size)), (2,), before)
            self.count("writes cut short")
        self.accepted("log, files of just enough bytes", self.log(file, given=b"4999\n", **most(len(self.good))), b"ok\n")

    def full_disk(self):
        """A small disk in memory with each number of free pages, and one without a free inode."""
        if os.geteuid() != 0:
            self.skipped.append("no full disk, which needs root")
            return
        disk = self.folder / "disk"
        disk.mkdir()
        options = f"size={64 * PAGE},nr_inodes=8"
        if subprocess.run(["mount", "-t", "tmpfs", "-o", options, "tmpfs", str(disk)], capture_output=True, check=False).returncode != 0:
            self.skipped.append("no full disk, since no disk could be mounted")
            return
        try:
            self.place = disk
            self.on_disk(disk)
        finally:
            subprocess.run(["umount", str(disk)], check=True)

    def on_disk(self, disk):
        file, image, filler = disk / "FILE", disk / "IMAGE", disk / "filler"
        times = list(range(0, 4 * LARGE, 4))
        raw = record_file(UNIVERSE * LARGE, LARGE, times[:-1])
        pages = -(-len(raw) // PAGE)
        file.write_bytes(raw)
        image.write_bytes(b"old")
        for free in range(pages):
            fill(filler, disk, free)
            before = self.seen()
            self.refused(f"log, {free} pages free", self.burner("log", file, UNIVERSE * LARGE, LARGE, given=b"80000\n"), (2,), before)
            self.refused(f"finish, {free} pages free", self.burner("finish", file, image, 1), (2,), before)
            self.count("full disks", 2)
        filler.unlink()
        more = [disk / f"x{i}" for i in range(8)]
        for path in more:
            try:
                path.touch()
            except OSError:
                break
        before = self.seen()
        self.refused("log, no inode free", self.burner("log", file, UNIVERSE * LARGE, LARGE, given=b"80000\n"), (2,), before)
        self.refused("finish, no inode free", self.burner("finish", file, image, 1), (2,), before)
        self.count("full disks", 2)
        for path in more:
            path.unlink(missing_ok=True)
        self.accepted("log, room again", self.burner("log", file, UNIVERSE * LARGE, LARGE, given=b"80000\n"), b"ok\n")

    def failing_calls(self):
        """Each call on files fails by itself: what was answered is there, and FILE is the old one, or the new one where its folder could not be synced."""
        made = cuts.library(self.folder)
        for error in ERRORS:
            for at in range(1_000):
                file, _ = self.fresh(FILE=self.good, FILE_1=self.older)
                given = cuts.environment(made, at, error)
                told = self.folder / "told"
                told.unlink(missing_ok=True)
                answer = self.log(file, given=b"4999\n4999\n", env={**given, "CUT_TOLD": str(told)})
                if told.read_bytes().count(b"\n") <= at:
                    break
                self.judge_failed(answer, file, f"log, {cuts.shown(given)}")

    def judge_failed(self, answer, file, what):
        status, said, told = answer
        oks = said.count(b"ok\n")
        held = decoded(contents(file) or b"")
        expect(said == b"ok\n" * oks and status in (0, 2), lambda: f"{what}: status {status}, {said!r}, {told!r}")
        expect(not isinstance(held, str), lambda: f"{what}: FILE holds no record: {held}")
        new = len(held[2]) - HELD
        expect(held[2] == self.times + [4_999] * new, f"{what}: FILE holds another list")
        if status == 0:
            expect(oks == new == 2, lambda: f"{what}: status 0, {oks} ok, {new} saved")
            self.count("failed calls that did not matter")
            return
        expect(is_sentence(last_line(told)), lambda: f"{what}: {told!r}")
        expect(oks <= new <= oks + 1, lambda: f"{what}: {oks} ok, {new} saved")
        self.count("failed calls with FILE as it was" if new == oks else "failed syncs of the folder")

    def all(self):
        for part in (
            self.record_damaged, self.record_with_old, self.plug, self.set_aside_cut, self.other_settings, self.image_damaged, self.places, self.barred, self.short_writes, self.full_disk, self.failing_calls,
        ):
            part()


def last_line(told):
    return told[told.rfind(b"\n", 0, -1) + 1 :]


def names(files):
    return ", ".join(f"{name.replace('_', '.')}{' a directory' if raw is None else ''}" for name, raw in files.items())


def difference(before, after):
    changed = [name for name in before if name in after and before[name] != after[name]]
    return f"gone {sorted(before.keys() - after.keys())}, new {sorted(after.keys() - before.keys())}, changed {changed}"


def fill(filler, disk, free):
    """Leaves so many pages free."""
    filler.unlink(missing_ok=True)
    there = os.statvfs(disk)
    filler.write_bytes(b"\0" * (there.f_bsize * (there.f_bavail - free)))
    left = os.statvfs(disk).f_bavail
    if left != free:
        raise Unexpected(f"{left} pages free, where {free} were to be")


def play(programs, random, clock, folder, share):
    faults = Faults(programs.burner, random, folder, share)
    faults.all()
    return ", ".join([counted(number, what) for what, number in faults.counts.items()] + faults.skipped)
