"""Compares help with its examples, the manual page and the documents, and checks what is printed on a terminal. Used by examples."""

import os
import re
import shutil

from room import TOP, read

SUBCOMMANDS = "target kwargs arg code default-options command undo redo history list".split()
# A project with its like in the folder harbor, in both of which something can be undone and done again; a script, and its digests.
BEGIN = """
cp -r ../harbor "$HOME/harbor" && mv "$HOME/harbor" . || exit 1
cp ../generated.json changes.json
for folder in . harbor; do
    for version in 1.3.1 1.3.2 1.3.3; do meson_rewrite --sourcedir $folder kwargs set project / version $version; done
    meson_rewrite --sourcedir $folder undo
done
meson_rewrite list --sums >sums
"""


def document(name):
    return read(os.path.join(TOP, name)).decode()


def try_all(checks, home):
    helps = [home.says(*words, "--help") for words in ([], *([it] for it in SUBCOMMANDS))]
    page = re.sub(r"\\f[BIPR]|\\&", "", document("man/meson_rewrite.1").replace(r"\-", "-"))
    try_help(checks, home, helps)
    compare_help_and_page(checks, helps[0], "\n".join(helps), page)
    compare_keys(checks, "\n".join(helps), page)
    compare_codes(checks, page)
    warn_of_page(checks, home)
    version = re.search(r"^## ([0-9.]*)$", document("CHANGELOG.md"), re.MULTILINE)[1]
    checks.compare("the version of CHANGELOG", home.says("--version"), f"meson_rewrite {version}")
    try_terminal(checks, home)


def try_help(checks, home, helps):
    """Help has examples and short lines, is what is stored, and its examples are done and change something."""
    for name, text in zip(["", *SUBCOMMANDS], helps):
        checks.compare(f"help of {name} has examples", True, "\n  meson_rewrite " in text)
    lines = "\n".join(helps).splitlines()
    checks.compare("lines of help of over 80 columns", [], [line for line in lines if len(line.encode()) > 80])
    checks.compare("the stored run of the program is its help", document("crates/meson_rewrite_main/stdout").rstrip("\n"), helps[0])
    for line in "\n".join(helps).replace("\n    ", " ").splitlines():
        if line.startswith("  meson_rewrite "):
            command = line[2:]
            home.renew()
            home.shell(BEGIN)
            status, said = home.shell(f"exec </dev/null\n{command}")
            checks.count(f"help: {command}", [f"status {status}: {said}"] if status else [])
            checks.compare(f"help changes nothing: {command}", [], re.findall(r"^files: 0, .*$", said, re.MULTILINE))


# ---- the manual page says what help says


def between(text, first, last):
    """The lines from one that has the first form up to the next one that has the last, and so on."""
    found, is_in = [], False
    for line in text.splitlines():
        if is_in or re.search(first, line):
            found.append(line)
            is_in = not (is_in and re.search(last, line))
    return found


def matches(form, lines):
    """What the groups of a form match in those lines that have it."""
    found = [re.search(form, line) for line in lines]
    return [group for it in found if it for group in it.groups() if group]


def words_in(lines):
    return sorted(set(re.findall(r"[a-z_]+", " ".join(lines))))


def options_in(text):
    return sorted(set(re.findall("--[a-z]+", text)))


def operations_of_help(helps):
    return sorted(set(matches(r"^  ([a-z_]+)(?:, ([a-z_]+))?  ", between(helps, "^Operations:", "^$"))))


def operations_of_page(page):
    lines = between(page, r"^\.SS target", r"^\.SS command")
    below = [line for before, line in zip(["", *lines], lines) if before.startswith(".TP") or line.startswith(".TP")]
    return sorted(set(matches(r'^\.BR? ([a-z_]+)(?: ", " ([a-z_]+))?$', below)) - {"project", "dependency", "target"})


def compare_help_and_page(checks, first, helps, page):
    checks.compare("the options of help and the manual page", options_in(helps), options_in(page))
    checks.compare("the operations of help and the manual page", operations_of_help(helps), operations_of_page(page))
    checks.compare("the subcommands of help and the manual page", SUBCOMMANDS, matches(r"^\.SS ([a-z-]*)", page.splitlines()))
    checks.compare("the subcommands of help", SUBCOMMANDS, matches("^  ([a-z-]*) ", between(first, "^Commands:", "^$")))
    examples = [it for it in between(page, r"^\.EX", r"^\.EE") if it.startswith("meson_rewrite")]
    checks.compare("the examples of help and the manual page", matches("^  (meson_rewrite .*)", first.splitlines()), examples)


def compare_keys(checks, helps, page):
    """The keys that commands change, and the kinds of new targets."""
    rows = matches(r"^\| (?!Call)[^|]* \|(.*)", between(document("docs/COMMANDS.md"), "^### Keys", "^- "))
    keys = sorted(set(re.findall("`([a-z_]*)`", " ".join(rows))))
    of_page = [re.sub(r"\([^)]*\)", "", it) for it in between(page, "^These keys", r"^\.SS") if it[:1] not in (".", "T")]
    kinds = [it.replace("A KIND is one of", "", 1) for it in between(helps, "^A KIND is one of", r"\.$")]
    kinds_of_page = matches(r"^\.BR? ([a-z_]+)", between(page, "^Function that makes", "^Without"))
    checks.compare("the keys of help and COMMANDS", keys, words_in(matches(r"^  (.*) \(", between(helps, "^Keys of", "^$"))))
    checks.compare("the keys of the manual page and COMMANDS", keys, words_in(of_page))
    checks.compare("the kinds of help and the manual page", words_in(kinds), words_in(kinds_of_page))


def warn_of_page(checks, home):
    if shutil.which("groff"):
        said = home.shell('groff -ww -man -Tutf8 "$1" >/dev/null', os.path.join(TOP, "man/meson_rewrite.1"))[1]
        checks.compare("warnings of the manual page", "", said)
    else:
        checks.leave_out("warnings of the manual page", "there is no groff")


def codes_in(text):
    """The codes in a text, each with its first word."""
    found = re.findall(r"\b((?:[CJU][0-9]+|[PLSMW][0-9]) [a-z][a-z0-9 -]*[a-z0-9])", text, re.ASCII)
    return sorted({re.sub(r" (at|in|I|N)? ?$", "", re.sub(r"^(([^ ]+ ){2}).*", r"\1", it)) for it in found})


def compare_codes(checks, page):
    """Each code of docs/FORMATS.md has its row in docs/ERRORS.md, and is in the manual page, with the same words."""
    codes = codes_in(document("docs/FORMATS.md"))
    rows = matches("^[|] `([^`]*)`", document("docs/ERRORS.md").splitlines())
    checks.compare("the codes of FORMATS and ERRORS", codes, codes_in("\n".join(rows)))
    checks.compare("the codes of FORMATS and the manual page", codes, codes_in(page))


# ---- a terminal as standard error is as `--explain`


def try_terminal(checks, home):
    home.renew()
    refused, odd = ["target", "tidee", "add", "moon.c"], ["list", "\udcff"]
    explained = home.says("--explain", *refused)
    lines = explained.splitlines()
    checks.compare("a refusal is explained", "error: command 0: C2 not found", lines[0])
    checks.compare("by a place", 1, len(matches("^(note): src/meson.build:[0-9]*:[0-9]*: static_library 'tide'", lines)))
    checks.compare("but not without the word", "error: command 0: C2 not found", home.says(*refused))
    checks.compare("on a terminal without the word", explained, home.says_on_terminal(*refused))
    checks.compare("on a terminal with the word", explained, home.says_on_terminal("--explain", *refused))
    on_terminal = home.says_on_terminal("--dryrun")
    checks.compare("wrong words on a terminal", home.says("--explain", "--dryrun"), on_terminal)
    said = "error: U1 usage\nnote: unexpected argument '--dryrun' found"
    checks.compare("wrong words are explained there", said, "\n".join(on_terminal.splitlines()[:2]))
    checks.compare("a word that is not UTF-8", "error: U1 usage", home.says(*odd))
    checks.compare("a word that is not UTF-8, on a terminal", "error: U1 usage\nnote: a word is not UTF-8", home.says_on_terminal(*odd))
