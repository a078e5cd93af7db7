"""Shows how far `count --every` is. It stands between the program and standard output, passes on each byte as it comes, and rewrites a
line on standard error, which is a terminal, by the last row of totals. Called by share/launch:

    progress.py <ROWS

The status is 6 where standard output can't be written. Signals are for the program: what that has written comes through, and after a
Ctrl-C the line stays as it is, since the prompt may stand behind it.
"""
import os
import signal
import sys
import time

SECONDS = 0.2  # the shortest time between two lines


class Line:
    """The line on the terminal."""

    def __init__(self):
        self.length, self.next, self.kept = 0, 0.0, False

    def keep(self, *_):
        self.kept = True

    def write(self, text):
        try:
            if not self.kept and in_front():
                os.write(2, text.encode())
        except OSError:
            self.keep()  # the terminal is gone

    def show(self, text):
        if text and time.monotonic() >= self.next:
            self.write("\r" + text.ljust(self.length))
            self.length, self.next = max(self.length, len(text)), time.monotonic() + SECONDS

    def clear(self):
        if self.length:
            self.write("\r" + " " * self.length + "\r")


def in_front():
    """Whether this is what the terminal is used for now: a job in the background doesn't write over the prompt."""
    try:
        return os.tcgetpgrp(2) == os.getpgrp()
    except OSError:
        return True  # it is the terminal of no job


def told(row):
    """How far the run is by a row of totals; nothing of the names and of a run without a number of steps."""
    steps, events = (row.split(b",") + [b""] * 11)[8:11:2]
    if not (steps.isdigit() and events.isdigit()):
        return ""
    return f"count: {int(events)} of {int(steps)} events ({100 * int(events) // max(1, int(steps))} %)"


def pass_on(data):
    while data:
        data = data[os.write(1, data):]


def main():
    line, rest = Line(), b""
    for each in (signal.SIGINT, signal.SIGQUIT):
        signal.signal(each, line.keep)
    ended = 0
    while data := os.read(0, 65536):
        try:
            pass_on(data)
        except OSError:
            ended = 6
            break
        *rows, rest = (rest + data).split(b"\n")
        if rows:
            line.show(told(rows[-1]))
    line.clear()
    return ended


sys.exit(main())
