"""The steps of which a case of disk consists: what a folder has, calls with their answers, and what it has then.

A folder is a dict from names to what stands there: a text for a file, or one of the kinds below. The first step of a case is the
folder that is made for it. A later dict is all that the folder has to have then, and a Put is what a user changes by hand.
"""

import os
import stat
import threading
import time
from dataclasses import dataclass

from room import bytes_of, differences, read, shown, write

# The user and group that may not do everything, where root calls.
NOBODY = 65534
IS_ROOT = os.geteuid() == 0
# Each file that a case makes is of this time.
MADE = 978307200


@dataclass(frozen=True)
class File:
    """A file with this text, and with this mode and owner where they are given."""

    text: str | bytes
    mode: int | None = None
    owner: int | None = None


@dataclass(frozen=True)
class Folder:
    """A folder. Its own mode and owner are given by the name '.' in its dict, or where its name stands."""

    mode: int | None = None
    owner: int | None = None


@dataclass(frozen=True)
class Link:
    """A symbolic link."""

    to: str


@dataclass(frozen=True)
class SecondName:
    """A second name of a file that stands before it in the dict."""

    of: str


class Kind:
    """Something of which nothing more is said than its name."""

    def __init__(self, name):
        self.name = name

    def __repr__(self):
        return self.name


FOLDER, PIPE = Folder(), Kind("a pipe")
# What may stand in a dict that is compared: anything, and the very file that was made, which nobody wrote.
ANY, KEPT = Kind("anything"), Kind("what was made, as it was made")
# An input that is closed.
CLOSED = Kind("closed")


@dataclass(frozen=True)
class Opened:
    """The input of a call: this file or folder, opened for reading."""

    name: str


@dataclass(frozen=True)
class Slowly:
    """The input of a call: these bytes from a pipe, with a pause in the middle."""

    text: str


@dataclass(frozen=True)
class Lines:
    """An output of which so many lines begin with a text."""

    begin: str
    count: int


@dataclass(frozen=True)
class Call:
    """A call of the program, and its answer. The words are a list, or a text with a blank between each two."""

    words: str | list
    status: int = 0
    out: object = ""
    err: object = ""
    is_nobody: bool = False
    umask: int = 0o022
    input: object = b""


def does(words, out, **how):
    """A call that is done."""
    return Call(words, 0, out, **how)


def refuses(words, status, error, **how):
    """A call that is refused by these lines, of which the first is the error."""
    return Call(words, status, err=f"error: {error}\n", **how)


class Put(dict):
    """What a user makes or writes between two calls; None removes."""


class LeftOut(Exception):
    """A case cannot be tried here; the text says why."""


class Trial:
    """A case that is tried: its room, what was made in it, and what was found wrong."""

    def __init__(self, room):
        self.room, self.made, self.faults = room, {}, []

    def play(self, folder, *steps):
        """Makes the folder, and does the steps."""
        self.make(folder)
        for step in steps:
            if isinstance(step, Call):
                self.call(step)
            elif isinstance(step, Put):
                self.make(step)
            else:
                self.expect(step)

    def make(self, folder):
        """Makes what the dict has, folders with their mode last."""
        for name, it in folder.items():
            if name != ".":
                make(self.room.path(name), it)
        for name, it in folder.items():
            if isinstance(it, (File, Folder)):
                set_rights(self.room.path(name), it)
        self.made = {name: self.look(name) for name in self.names()}

    def names(self):
        found = [os.path.join(at, it) for at, folders, files in os.walk(self.room.folder) for it in (*folders, *files)]
        return sorted(os.path.relpath(it, self.room.folder) for it in found)

    def look(self, name):
        """What has to be the same for a file that nobody wrote."""
        it = os.lstat(self.room.path(name))
        return it.st_ino, it.st_mode, it.st_uid, stat.S_ISREG(it.st_mode) and (it.st_mtime, text_at(self.room.path(name)))

    def expect(self, folder):
        """What the folder has is this, and nothing else."""
        wanted = sorted(it for it in folder if it != ".")
        self.judge("the folder has", " ".join(wanted), " ".join(self.names()))
        for name in wanted:
            if os.path.lexists(self.room.path(name)):
                self.faults += faults_of(self.room.path(name), name, folder[name], self.made.get(name) == self.look(name))

    def call(self, step):
        """Makes the call, and compares its answer."""
        words = step.words.split(" ") if isinstance(step.words, str) else step.words
        words = [it.replace("{here}", self.room.folder) for it in words]
        how = {"user": NOBODY, "group": NOBODY, "extra_groups": []} if step.is_nobody and IS_ROOT else {}
        got = self.give(words, step.input, umask=step.umask, **how)
        self.judge_answer(shown(words), (step.status, step.out, step.err), got)

    def give(self, words, given, **how):
        """Calls the program with this input."""
        if given is CLOSED:
            return self.ask(words, prepare=lambda: os.close(0), **how)
        if not isinstance(given, (Opened, Slowly)):
            return self.ask(words, input=given, **how)
        at = os.open(self.room.path(given.name), os.O_RDONLY) if isinstance(given, Opened) else pipe_slowly(given.text)
        try:
            return self.ask(words, stdin=at, **how)
        finally:
            os.close(at)

    def ask(self, words, **how):
        """What the program answers."""
        return self.room.call(words, seconds=20, **how)

    def judge_answer(self, what, wanted, got):
        status, *outputs = wanted
        if got.status != status:
            self.faults.append(f"{what}: status {got.status} and not {status}")
        for name, text, given in zip(("output", "error output"), outputs, got[1:]):
            if text is ANY:
                self.judge(f"{what}: something is on its {name}", True, given != b"")
            elif isinstance(text, Lines):
                count = sum(line.startswith(bytes_of(text.begin)) for line in given.splitlines())
                self.judge(f"{what}: the lines of its {name} that begin with {text.begin}", text.count, count)
            else:
                self.judge(f"{what}: {name}", bytes_of(text), given)

    def judge(self, what, wanted, got):
        found = differences(wanted, got)
        self.faults += [f"{what}:", *(f"  {line}" for line in found)] if found else []


def make(path, it):
    """Makes what the dict of a folder says of this path."""
    if isinstance(it, Folder):
        os.makedirs(path, exist_ok=True)
    elif isinstance(it, Link):
        os.makedirs(os.path.dirname(path), exist_ok=True)
        os.symlink(it.to, path)
    elif isinstance(it, SecondName):
        os.link(os.path.join(os.path.dirname(path), it.of), path)
    elif it is PIPE:
        os.mkfifo(path)
    elif it is None:
        os.remove(path)
    else:
        write(path, it.text if isinstance(it, File) else it)
        os.utime(path, (MADE, MADE))


def set_rights(path, it):
    if it.owner is not None:
        os.chown(path, it.owner, it.owner)
    if it.mode is not None:
        os.chmod(path, it.mode)


def text_at(path):
    """The bytes of a file; None where it may not be read."""
    return read(path) if os.access(path, os.R_OK) else None


def faults_of(path, name, wanted, is_kept):
    """How what stands at a path differs from what is wanted there."""
    mode = os.lstat(path).st_mode
    text = text_at(path) if stat.S_ISREG(mode) else None
    if text is not None and isinstance(wanted, (str, bytes, File)):
        return faults_of_file(os.stat(path), name, wanted if isinstance(wanted, File) else File(wanted), text)
    is_as_wanted = {
        Folder: stat.S_ISDIR(mode),
        Link: stat.S_ISLNK(mode) and Link(os.readlink(path)) == wanted,
        Kind: wanted is ANY or (wanted is PIPE and stat.S_ISFIFO(mode)) or (wanted is KEPT and is_kept),
    }
    return [] if is_as_wanted.get(type(wanted)) else [f"{name} is not {wanted!r}; {stat.filemode(mode)}, {text!r}"]


def faults_of_file(about, name, wanted, text):
    found = differences(bytes_of(wanted.text), text)
    faults = [f"{name} differs:", *(f"  {line}" for line in found)] if found else []
    for what, right, got in (("mode", wanted.mode, stat.S_IMODE(about.st_mode)), ("owner", wanted.owner, about.st_uid)):
        if right is not None and right != got:
            faults.append(f"{name}: {what} {got:o} and not {right:o}" if what == "mode" else f"{name}: {what} {got} and not {right}")
    return faults


def pipe_slowly(text):
    """The end of a pipe that gives these bytes with a pause in the middle."""
    reader, writer = os.pipe()

    def give():
        with os.fdopen(writer, "wb", buffering=0) as pipe:
            pipe.write(bytes_of(text[:9]))
            time.sleep(0.2)
            pipe.write(bytes_of(text[9:]))

    threading.Thread(target=give).start()
    return reader
