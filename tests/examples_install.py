"""What makes a build, and what install puts where. Read by examples."""

import glob
import os
import shutil
import sys

from examples_home import plain
from room import TOP, read, write

PLACES = [
    "bin/meson_rewrite",
    "share/man/man1/meson_rewrite.1",
    "share/bash-completion/completions/meson_rewrite",
    "share/zsh/site-functions/_meson_rewrite",
    "share/fish/vendor_completions.d/meson_rewrite.fish",
]
SOURCES = {
    **{"crates.txt": "one:\n", "crates/one/out/rlib/one.rlib": ""},
    **{"crates/one/src/lib.rt": "mod more;\n", "crates/one/src/more.rt": ""},
}
NOW_BUILT = """
now = time.time() - 9
os.utime(rattle.made_of("one"), (now, now))
rattle.write_note("one", crates.digest("one"), now)
"""


def try_all(checks, home):
    try_builds(checks, home)
    home.renew()
    try_install(checks, home)


# ---- what makes a build: sources that are others than before, and no other file


def try_builds(checks, home):
    made = home.path("made")
    shutil.copytree(os.path.join(TOP, "tools"), os.path.join(made, "tools"))
    for name, text in SOURCES.items():
        write(os.path.join(made, name), text)

    def ask(code):
        begin = "import os, sys, time; sys.path.insert(0, 'tools'); import rattle; crates = rattle.Crates()\n"
        got = home.ask([sys.executable, "-B", "-c", begin + code], made)
        return plain(got.out + got.err)

    def expect(title, wanted, command):
        home.shell(f"cd crates/one/src && {command}", folder=made)
        checks.compare(title, wanted, ask('print(*crates.stale(["one"]))'))

    ask(NOW_BUILT)
    expect("an editor opens a source and saves it as it was", "", ": >.lib.rt.swp; touch lib.rt ../../../crates.txt")
    expect("a source is renamed", "one", "mv more.rt other.rt")
    expect("and gets its name again", "", "mv other.rt more.rt")
    expect("a source is changed", "one", "echo >>more.rt")


# ---- install


def install(home, prefix, **more):
    """The status of ./install with this prefix, and then what it wrote on its outputs."""
    return home.call([prefix], program=["./install"], cwd=home.top, env={**home.environment, **more})


def installed(home):
    """All files under the folder of prefixes."""
    paths = glob.glob("prefixes/**", root_dir=home.top, recursive=True)
    return " ".join(sorted(it for it in paths if os.path.isfile(os.path.join(home.top, it))))


def try_install(checks, home):
    os.mkdir(os.path.join(home.top, "prefixes"))
    everything = " ".join(sorted(f"prefixes/a b/{it}" for it in PLACES))

    def expect(title, status, prefix, files, **more):
        got = install(home, prefix, **more)
        checks.compare(f"install {title}", f"{status}: {files}", f"{got.status}: {installed(home)}")
        return got

    def left(prefix):
        return sorted(os.listdir(prefix)) if os.path.isdir(prefix) else []

    got = expect("into a prefix that is not there", 0, "prefixes/a b", everything)
    paths = [os.path.join(home.top, "prefixes/a b", it) for it in PLACES]
    checks.compare("install says what it put where", "\n".join(f"prefixes/a b/{it}" for it in PLACES), plain(got.out))
    checks.compare("the modes of what is installed", "755 644 644 644 644", " ".join(f"{os.stat(it).st_mode & 0o7777:o}" for it in paths))
    checks.compare("the program that is installed", home.says("--help"), plain(home.ask([paths[0], "--help"], "/").out))
    expect("over what is there", 0, "prefixes/a b", everything)
    write(os.path.join(home.top, "prefixes/file"), "")
    everything += " prefixes/file"
    got = expect("into a file", 1, "prefixes/file", everything)
    refusal = "install: prefixes/file/bin cannot be made; give a PREFIX that you may write, as in: ./install ~/.local"
    checks.compare("what install says of it", refusal, plain(got.err))
    os.makedirs(os.path.join(home.top, "prefixes/c/share/man/man1/meson_rewrite.1"))
    expect("where a folder has the name", 1, "prefixes/c", everything)
    checks.compare("folders that install leaves", ["share"], left(os.path.join(home.top, "prefixes/c")))
    page = os.path.join(home.top, "man/meson_rewrite.1")
    os.remove(page)
    expect("without a manual page", 1, "prefixes/d", everything)
    checks.compare("folders that install leaves without a manual page", False, os.path.lexists(os.path.join(home.top, "prefixes/d")))
    expect("into nothing", 1, "", everything)
    # Where the folder of a clone is on the PATH, its `install` is not that of the system.
    write(page, read(os.path.join(TOP, "man/meson_rewrite.1")))
    first = {"PATH": f"{home.top}:{home.environment['PATH']}"}
    expect("with its own folder first on the PATH", 0, "prefixes/a b", everything, **first)
