"""Runs of the program: one run as its row, and many of them at a time."""
import hashlib
import os
import pathlib
import signal
import subprocess
import threading

from points import Fault
from rows import COUNT, KEY, key_of, parsed

TCC = os.environ.get("TCC", str(pathlib.Path(os.path.realpath(__file__)).parents[2] / "tcc"))
QUIET = os.environ | {"TCC_HINTS": "0"}


class Refused(Exception):
    """A run without a row: the status of the program, and the line by which it said why."""

    def __init__(self, status, said):
        super().__init__(said)
        self.status, self.said = status, said


def sum_of(name):
    """The first 16 digits of a file's SHA-256."""
    try:
        return hashlib.sha256(pathlib.Path(name).read_bytes()).hexdigest()[:16]
    except OSError as fault:
        raise Fault(f"{name}: {fault.strerror}") from None


def told(words):
    try:
        return subprocess.run([TCC, *words], capture_output=True, text=True, errors="replace", stdin=subprocess.DEVNULL, env=QUIET,
                              check=False)
    except OSError as fault:
        raise Fault(f"{TCC}: {fault.strerror}") from None


def program_sum():
    """The sum of the program: the launcher says where it is, and a program that can't say so is it."""
    where = told(["--where"])
    return sum_of(where.stdout.rstrip("\n") if where.returncode == 0 else TCC)


class Sweep:
    """What all runs of a sweep have in common: the program, the images, and whether those are raw."""

    def __init__(self, images, raw):
        self.images, self.raw = images, raw
        self.program, self.sums = program_sum(), [sum_of(it) for it in images]

    def key(self, options):
        return key_of(self.program, self.sums, self.raw, options)

    def row(self, options):
        """The row of a run."""
        words = ["count", "--csv", *(["--raw"] if self.raw else []), *(f"--{name}={value}" for name, value in options.items())]
        ended = told([*words, "--", *self.images])
        if ended.returncode not in (0, 1):
            raise Refused(ended.returncode, (ended.stderr.strip().split("\n")[-1] or f"no word, and status {ended.returncode}"))
        lines = ended.stdout.split("\n")
        if len(lines) != 3 or lines[0] != ",".join(COUNT) or lines[2]:
            raise Refused(2, "the program's text isn't that of `count --csv`")
        return self.checked(lines[1], options)

    def checked(self, counts, options):
        line = ",".join(["1", self.program, "+".join(self.sums), "1" if self.raw else "0", counts])
        try:
            row = parsed(line)
        except Fault as fault:
            raise Refused(2, f"the program's row is wrong: {fault}") from None
        if tuple(row[name] for name in KEY) != self.key(options):
            raise Refused(2, "the program's row is that of another run")
        return line


class Crew:
    """Threads that each take the next run when one is done. `done` is called with a run and its row or what refused it, one at a time."""

    def __init__(self, sweep, runs, done):
        self.sweep, self.runs, self.done = sweep, iter(runs), done
        self.lock, self.fault = threading.Lock(), None

    def next(self):
        with self.lock:
            return None if self.fault else next(self.runs, None)

    def work(self):
        while (options := self.next()) is not None:
            try:
                ended = self.sweep.row(options)
            except Refused as refused:
                if refused.status == -signal.SIGINT:
                    return
                ended = refused
            except Exception as fault:  # whatever it is, `go` raises it
                self.fault = self.fault or fault
                return
            with self.lock:
                if self.fault:
                    return
                try:
                    self.done(options, ended)
                except Exception as fault:
                    self.fault = fault

    def go(self, many):
        """Runs them all, `many` at a time."""
        threads = [threading.Thread(target=self.work, daemon=True) for _ in range(many)]
        for it in threads:
            it.start()
        try:
            for it in threads:
                it.join()
        except KeyboardInterrupt:
            self.fault = Fault("interrupted")
            raise
        if self.fault:
            raise self.fault
