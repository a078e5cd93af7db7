"""Runs a program in a folder of its own, and says how it ended."""

import os
import shutil
import subprocess
import tempfile
from typing import NamedTuple

SECONDS = 300  # no command takes so long: the program is taken to hang


class Answer(NamedTuple):
    status: int
    output: bytes
    error: bytes  # the first line
    files: dict  # all files of the folder afterwards, by name


def room():
    """A folder in memory, where the host has one."""
    return tempfile.mkdtemp(prefix="audit.", dir="/dev/shm" if os.path.isdir("/dev/shm") else None)


def answer(program, words, files):
    """The program's answer to these words, in a folder with these files."""
    folder = room()
    try:
        for name, text in files.items():
            with open(os.path.join(folder, name), "wb") as file:
                file.write(text)
        ran = subprocess.run(
            [program, *words], cwd=folder, stdin=subprocess.DEVNULL, capture_output=True, check=False, timeout=SECONDS
        )
        left = {}
        for name in os.listdir(os.fsencode(folder)):
            with open(os.path.join(os.fsencode(folder), name), "rb") as file:
                left[name] = file.read()
        return Answer(ran.returncode, ran.stdout, ran.stderr.split(b"\n")[0], left)
    finally:
        shutil.rmtree(folder)


def difference(one, other):
    """What two answers differ in, or None."""
    if one.status != other.status:
        return f"statuses {one.status} and {other.status} ({one.error!r}, {other.error!r})"
    if one.error != other.error:
        return f"on standard error {one.error!r} and {other.error!r}"
    if one.output != other.output:
        return "output: " + line_that_differs(one.output, other.output)
    for name in sorted(set(one.files) | set(other.files)):
        if one.files.get(name) != other.files.get(name):
            return f"file {name!r}: " + line_that_differs(one.files.get(name, b""), other.files.get(name, b""))
    return None


def line_that_differs(one, other):
    """The first line that two texts differ in."""
    ones, others = one.split(b"\n"), other.split(b"\n")
    for at in range(max(len(ones), len(others))):
        first, second = ones[at:at + 1], others[at:at + 1]
        if first != second:
            return f"line {at + 1} is {first} and {second}"
    return "none"
