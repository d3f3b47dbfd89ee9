"""The home of a user who has the program: a room with a fresh copy of what is there after the first build, and a shell in it."""

import os
import shutil
import sys

from room import TOP, Answer, Room, Wrong, bytes_of

# What a user has of the repository, besides the built program.
HAS = ("meson_rewrite", "install", "crates.txt", "man", "tools", "examples")
GIT = {
    **{"GIT_AUTHOR_NAME": "harbor", "GIT_COMMITTER_NAME": "harbor", "GIT_CONFIG_NOSYSTEM": "1", "GIT_CONFIG_GLOBAL": "/dev/null"},
    **{"GIT_AUTHOR_EMAIL": "harbor@localhost", "GIT_COMMITTER_EMAIL": "harbor@localhost"},
}
# Runs a command with a terminal for its input and both outputs.
TERMINAL = "import os, pty, sys; sys.exit(os.waitstatus_to_exitcode(pty.spawn(sys.argv[1:])))"


class Home(Room):
    """A home in which commands see nothing of the user's own; `top` is the copy, or one of the folder `tree`, an unpacked package."""

    def __init__(self, program, tree=None):
        super().__init__(program)
        self.top, self.tmp, self.tree = self.path("top"), self.path("tmp"), tree
        self.harbor = os.path.join(self.top, "examples", "harbor")
        os.mkdir(self.path("bin"))
        shutil.copy(program, self.path("bin/meson_rewrite"))
        self.environment = {**os.environ, **GIT, "HOME": self.folder, "TMPDIR": self.folder, "LC_ALL": "C", "TZ": "UTC"}
        self.environment["PATH"] = f"{self.path('bin')}:{os.environ['PATH']}"
        self.renew()

    def renew(self):
        """Makes the copy anew. No source in it is newer than the program."""
        for it in (self.top, self.tmp):
            shutil.rmtree(it, ignore_errors=True)
        os.mkdir(self.tmp)
        if self.tree:
            shutil.copytree(self.tree, self.top, symlinks=True)
            return
        os.makedirs(os.path.join(self.top, "crates/meson_rewrite_main/out"))
        for it in HAS:
            copy = shutil.copytree if os.path.isdir(os.path.join(TOP, it)) else shutil.copy2
            copy(os.path.join(TOP, it), os.path.join(self.top, it))
        shutil.copy(self.program, os.path.join(self.top, "crates/meson_rewrite_main/out/meson_rewrite_main"))

    def shell(self, command, *words, folder=None):
        """What bash answers to a command, with the words as its arguments: the status, and both outputs in one."""
        got = self.ask(["bash", "-c", f"set -u; exec 2>&1\n{command}", "bash", *words], folder)
        return got.status, plain(got.out)

    def ask(self, words, folder=None):
        """What another program answers, in the harbor or in this folder."""
        try:
            return self.call(words[1:], program=words[:1], cwd=folder or self.harbor, env=self.environment, seconds=600)
        except Wrong as why:
            return Answer(124, bytes_of(f"{why}\n"), b"")

    def says(self, *words):
        """What the program writes on both outputs, called with these words in the harbor."""
        return self.shell('meson_rewrite "$@"', *words)[1]

    def says_on_terminal(self, *words):
        """The same where both outputs are a terminal."""
        return plain(self.ask([sys.executable, "-c", TERMINAL, "meson_rewrite", *words]).out.replace(b"\r", b""))


def plain(text):
    """A text without the line ends at its end."""
    return bytes_of(text).decode(errors="backslashreplace").rstrip("\n")
