"""A room is a scratch folder with files, in which a program is called. The tests disk, memory, hostile and examples stand on it.

A test calls the program in a Room, and compares status, outputs and files with what they have to be. Each comparison is counted by
Checks, which prints one that is wrong as a line 'TEST: TITLE', with what is wrong below it. The last line of a test is
'N passed, M failed'; its status is 0 where M is 0.
"""

import difflib
import os
import resource
import shutil
import subprocess
import sys
import tempfile
from typing import NamedTuple

TESTS = os.path.dirname(os.path.realpath(__file__))
TOP = os.path.dirname(TESTS)
LOG = "meson.rewrite-log"
# So long a call may take, in seconds, and so many characters of a line are printed.
SECONDS, LONGEST = 60, 1000


class Wrong(Exception):
    """The program did what it must not do."""


class Answer(NamedTuple):
    """What a call ended with, and what it wrote."""

    status: int
    out: bytes
    err: bytes


def find_program(test, given):
    """The path of the program that is to be tried; the test ends where there is none."""
    program = os.path.realpath(given)
    if not given or not os.path.isfile(program) or not os.access(program, os.X_OK):
        sys.exit(f"{test}: no program: {given}")
    return program


def bytes_of(text):
    return text if isinstance(text, bytes) else text.encode(errors="surrogateescape")


def read(path):
    with open(path, "rb") as file:
        return file.read()


def write(path, text):
    """Writes a file, and makes the folders above it."""
    os.makedirs(os.path.dirname(path) or ".", exist_ok=True)
    with open(path, "wb") as file:
        file.write(bytes_of(text))


class Room:
    """A folder below the one for temporary files, or a given one, and the program that is called in it."""

    def __init__(self, program, folder=None):
        self.program = program
        self.folder = folder or tempfile.mkdtemp(prefix="room-")

    def __enter__(self):
        return self

    def __exit__(self, *_):
        self.remove()

    def path(self, name):
        return os.path.join(self.folder, name)

    def write(self, files):
        """Writes files, each by its name from the folder."""
        for name, text in files.items():
            write(self.path(name), text)

    def fill(self, files):
        """Leaves these files in the folder, and no other."""
        self.remove()
        os.mkdir(self.folder)
        self.write(files)

    def files(self):
        """The bytes of each file below the folder, by its name."""
        paths = [os.path.join(at, name) for at, _, names in os.walk(self.folder) for name in names]
        return {os.path.relpath(path, self.folder): read(path) for path in paths}

    def remove(self):
        shutil.rmtree(self.folder, ignore_errors=True)

    def call(self, words, input=b"", limits=(), seconds=SECONDS, prepare=None, program=None, **how):
        """What the program answers to these words. The bytes of the input come from a pipe.

        `limits` are pairs of a resource and the most of it that a process may take, and `prepare` is done in the process before
        the program is. All further arguments are those of subprocess.run, which may give other inputs and outputs."""

        def begin():
            for kind, most in limits:
                resource.setrlimit(kind, (most, most))
            if prepare:
                prepare()

        how = {"cwd": self.folder, "stdout": subprocess.PIPE, "stderr": subprocess.PIPE, "timeout": seconds, **how}
        if "stdin" not in how:
            how["input"] = bytes_of(input)
        if limits or prepare:
            how["preexec_fn"] = begin
        try:
            ran = subprocess.run([*(program or [self.program]), *words], check=False, **how)
        except subprocess.TimeoutExpired as late:
            raise Wrong(f"it does not end: {shown(words)}") from late
        return Answer(ran.returncode, ran.stdout or b"", ran.stderr or b"")


def shown(words):
    """Words in one short line."""
    return " ".join(it if isinstance(it, str) else repr(it) for it in words)[:200]


def text_of(value):
    """What is compared by lines: a text, or a list with a line for each of its elements."""
    if isinstance(value, bytes):
        return value.decode(errors="backslashreplace")
    return "\n".join(map(str, value)) if isinstance(value, list) else str(value)


def differences(wanted, got):
    """The lines of a text that differ from those that are wanted; none where the two are equal."""
    if wanted == got:
        return []
    both = [text_of(it) for it in (wanted, got)]
    rows = [it.splitlines() for it in both]
    if both[0].endswith("\n") != both[1].endswith("\n"):
        rows = [row if it.endswith("\n") else [*row, "(no line end)"] for row, it in zip(rows, both)]
    return list(difflib.unified_diff(*rows, n=1, lineterm=""))[2:] or [f"-{wanted!r}", f"+{got!r}"]


class Checks:
    """Counts what was right, and prints what was not."""

    def __init__(self, test):
        self.test, self.passed, self.failed = test, 0, 0

    def count(self, title, faults=()):
        """Counts one check, which is right where it has no faults. Returns whether it is."""
        found = []
        try:
            found.extend(faults)
        except (Wrong, OSError, ValueError) as why:
            found.append(f"{type(why).__name__}: {why}")
        if not found:
            self.passed += 1
            return True
        self.failed += 1
        self.say(title, *found)
        return False

    def compare(self, title, wanted, got):
        """Counts one check, which is right where both are equal."""
        return self.count(title, differences(wanted, got))

    def leave_out(self, title, why):
        """Says that what the title names is not tried here. It is not counted."""
        self.say(f"{title}: left out, since {why}")

    def say(self, title, *lines):
        print("\n    ".join([f"{self.test}: {title}", *(str(line)[:LONGEST] for line in lines)]), flush=True)

    def end(self):
        """Prints the last line. Returns the status of the test."""
        print(f"{self.passed} passed, {self.failed} failed", flush=True)
        return 1 if self.failed else 0
