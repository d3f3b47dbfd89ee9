"""The crates that crates.txt lists, and the prover's words for one of them."""

import hashlib
import os
import shutil
import subprocess

TOP = os.path.dirname(os.path.dirname(os.path.realpath(__file__)))
RT = shutil.which("rt") or "/opt/rattle/bin/rt"
KIT = os.path.dirname(os.path.dirname(os.path.realpath(RT)))
RATTLE = os.path.join(KIT, "bin", "rattle")
# The processor seconds that each crate took when last measured, and where a build notes what it measures.
SECONDS = os.path.join(TOP, "tools", "seconds")
PARTS = ("src", "specs", "proofs")
SOURCES = (".rt", ".antt")


def folder_of(crate):
    return os.path.join(TOP, "crates", crate)


def library_of(crate):
    """Where the crate's built library lies: in the place where rt has it."""
    return os.path.join(folder_of(crate), "out", "rlib", f"{crate}.rlib")


def is_program(crate):
    return os.path.isfile(os.path.join(folder_of(crate), "src", "main.rt"))


def made_of(crate):
    """What the build of a crate ends with: its library or its program."""
    return os.path.join(folder_of(crate), "out", crate) if is_program(crate) else library_of(crate)


def age_of(path):
    return os.stat(path).st_mtime if os.path.exists(path) else 0


def sources_of(crate):
    """The paths of the crate's sources."""
    places = [os.path.join(folder_of(crate), part) for part in PARTS]
    found = [os.path.join(at, name) for place in places for at, _, names in os.walk(place) for name in names if name.endswith(SOURCES)]
    return sorted(it for it in found if not os.path.basename(it).startswith("."))


def link(made, program):
    """Links a program from its object file, with the C code that the toolchain has for it. Returns the linker's end."""
    words = ["--target", "x86_64-unknown-linux-gnu", "--toolchain", f"{KIT}/toolchain", "-o", program, made]
    libraries = [f"{KIT}/c/libos_c.a", f"{KIT}/c/liblibc_c.a"]
    return subprocess.run([f"{KIT}/bin/rattle-link", *words, *libraries], capture_output=True, text=True, errors="replace", check=False)


def newest_source(crate):
    """When a source of the crate was last saved, or a file was made, renamed or removed beside one."""
    sources = sources_of(crate)
    return max(map(age_of, [os.path.join(TOP, "crates.txt"), *sources, *map(os.path.dirname, sources)]), default=0)


def note_of(crate):
    return os.path.join(folder_of(crate), "out", "sources")


def write_note(crate, digest, at):
    """Notes of which sources the crate was made, by their digest, with the time of what was made."""
    with open(note_of(crate), "w", encoding="ascii") as note:
        note.write(digest)
    os.utime(note_of(crate), (at, at))


def measured_seconds(crate):
    """The processor seconds that the crate's last build from nothing took on this machine, or None."""
    note = os.path.join(folder_of(crate), "out", "seconds")
    if not os.path.isfile(note):
        return None
    with open(note, encoding="ascii") as file:
        return float(file.read())


def note_seconds(crate, seconds):
    with open(os.path.join(folder_of(crate), "out", "seconds"), "w", encoding="ascii") as note:
        note.write(f"{seconds:.1f}")


def expected_seconds():
    """The processor seconds that each crate's build from nothing is expected to take, by tools/seconds."""
    if not os.path.isfile(SECONDS):
        return {}
    with open(SECONDS, encoding="ascii") as table:
        rows = [line.split() for line in table]
    return {crate: float(seconds) for crate, seconds in rows}


class Crates:
    """The repository's crates, each with the libraries that it uses."""

    def __init__(self):
        with open(os.path.join(TOP, "crates.txt"), encoding="utf-8") as table:
            rows = [line.split("#")[0].partition(":") for line in table]
        self.uses = {name.strip(): libraries.split() for name, colon, libraries in rows if colon}

    def own(self, crate):
        """The libraries of the repository that the crate names."""
        return [it for it in self.uses[crate] if it in self.uses]

    def below(self, crate):
        """The repository's libraries that the crate is made of, lowest first."""
        found = []
        for used in self.own(crate):
            found += [it for it in [*self.below(used), used] if it not in found]
        return found

    def digest(self, crate):
        """A digest of what the crate is made of: its sources with their names, and the names of its libraries."""
        digest = hashlib.sha256(" ".join(self.uses[crate]).encode())
        for path in sources_of(crate):
            with open(path, "rb") as file:
                source = file.read()
            digest.update(f"\n{os.path.relpath(path, folder_of(crate))} {len(source)}\n".encode() + source)
        return digest.hexdigest()

    def whole_digest(self, crate):
        """A digest of all that the crate is made of, the libraries below it included."""
        digests = [f"{it} {self.digest(it)}\n" for it in sorted([*self.below(crate), crate])]
        return hashlib.sha256("".join(digests).encode()).hexdigest()

    def is_made(self, crate):
        """Whether the crate was made of its sources as they are. Where rt made it, which notes no digest, the times tell."""
        made = age_of(made_of(crate))
        if age_of(note_of(crate)) != made:
            return newest_source(crate) <= made
        if not made:
            return False
        with open(note_of(crate), encoding="ascii") as note:
            return note.read() == self.digest(crate)

    def stale(self, crates):
        """Those of the crates, lowest first, that are not made of their sources, or of older libraries or by an older toolchain."""
        stale = []
        for crate in crates:
            libraries = self.own(crate)
            newest = max([age_of(RT), *(age_of(library_of(it)) for it in libraries)])
            if age_of(made_of(crate)) < newest or any(it in stale for it in libraries) or not self.is_made(crate):
                stale.append(crate)
        return stale

    def words(self, crate):
        """What the prover is told of the crate and its libraries, to be called in the crate's folder."""
        of_kit = ["std", *(it for it in self.uses[crate] if it not in self.uses)]
        words = ["--crate-name", crate, "src/main.rt" if is_program(crate) else "src/lib.rt"]
        for it in of_kit:
            words += ["--extern", f"{it}={KIT}/rlibs/{it}.rlib"]
        for it in self.own(crate):
            words += ["--extern", f"{it}={library_of(it)}"]
        for place in [f"{KIT}/rlibs", *(os.path.dirname(library_of(it)) for it in self.below(crate))]:
            words += ["-L", f"dependency={place}"]
        words += ["--antt-project", f"{KIT}/rattle/logic/antt-project.json", "--logic-built", f"{KIT}/logic_built"]
        return [*words, "--links", f"{crate}="]
