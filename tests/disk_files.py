"""Cases of disk on files, folders, links and words, by their titles. disk_steps.py says what the steps are."""

import os

from disk_steps import ANY, FOLDER, KEPT, PIPE, Call, File, Folder, Lines, Link, SecondName, does, refuses
from room import LOG, TOP, read

BUILD, SUB, BESIDE = "meson.build", "sub/meson.build", "meson.build.rewrite-new"
OLD = "project('first', 'c', version: '1')\n"
NEW = "project('first', 'c', version: '2')\n"
ENTERS_SUB = "subdir('sub')\n"
TARGET, TARGET_MORE = "executable('e', 'a.c')\n", "executable('e', 'a.c', 'b.c')\n"
SET_TWO = "kwargs set project / version 2"
NONE_DONE, ONE_DONE, BOTH_DONE = "files: 0, splices: 0\n", "files: 1, splices: 1\n", "files: 2, splices: 2\n"
CANNOT_READ, CANNOT_WRITE = f"W1 cannot read {BUILD}", f"W2 cannot write {BUILD}"
USAGE = "U1 usage"
SETS_TWO = does(SET_TWO, ONE_DONE)

# Objects of scripts.
SET_VERSION = '{"type":"kwargs","operation":"set","function":"project","id":"/","kwargs":{"version":"%d"}}'
ADD_SOURCE = '{"type":"target","operation":"src_add","target":"e","sources":["b.c"]}'
ADD_ONE = '{"type":"target","operation":"target_add","target":"one","sources":["a.c"],"subdir":"real"}'
ADD_TWO = '{"type":"target","operation":"target_add","target":"two","sources":["b.c"],"subdir":"also"}'


def script(*entries):
    return f"[{','.join(entries)}]"


FIRST = read(os.path.join(TOP, "examples", "first", BUILD)).decode()
ODD_NAMES = {"a b é": FOLDER, f"a b é/{LOG}": ANY, "é ü.json": KEPT}
LONG = "".join(f"x = [{i}, 'a long line of some forty bytes']\n" for i in range(1, 20001))

FILES = {
    "a project of the examples": [
        {BUILD: File(FIRST, 0o640)},
        does("kwargs set project / version 1.0.0", ONE_DONE),
        {BUILD: File(FIRST.replace("'0.9.3'", "'1.0.0'", 1), 0o640), LOG: ANY},
    ],
    "a file that is as asked for is not touched": [{BUILD: NEW}, does(SET_TWO, NONE_DONE), {BUILD: KEPT, LOG: ANY}],
    "files of folders": [
        {BUILD: OLD + ENTERS_SUB, SUB: "x = 1\n"},
        SETS_TWO,
        {BUILD: NEW + ENTERS_SUB, "sub": FOLDER, SUB: KEPT, LOG: ANY},
    ],
    "a long file": [{BUILD: OLD + LONG}, SETS_TWO, {BUILD: NEW + LONG, LOG: ANY}],
    "a refused command": [{BUILD: "x = 1\n"}, refuses(SET_TWO, 1, "command 0: C1 no project"), {BUILD: KEPT}],
    "a file with a fault": [{BUILD: "x = !\n"}, refuses(SET_TWO, 1, f"{BUILD}: L1 stray byte at 4"), {BUILD: KEPT}],
    "no file": [{}, refuses(SET_TWO, 3, f"W3 no file {BUILD}"), {}],
    "other words": [
        {BUILD: OLD},
        refuses("kwargs bake project / version 2", 2, USAGE),
        refuses("kwargs set project / version \udcff", 2, USAGE),
        {BUILD: KEPT},
    ],
    **{
        f"the folder as {form}": [
            {f"inner/{BUILD}": OLD},
            does(f"--sourcedir {form} {SET_TWO}", ONE_DONE),
            {"inner": FOLDER, f"inner/{BUILD}": NEW, f"inner/{LOG}": ANY},
        ]
        for form in ("inner", "inner/", "./inner", "{here}/inner", "inner/../inner")
    },
    "a folder that is not there": [{}, refuses(f"--sourcedir none {SET_TWO}", 3, f"W3 no file {BUILD}"), {}],
    "a folder without a name": [{BUILD: OLD}, refuses(["--sourcedir", "", *SET_TWO.split()], 2, USAGE), {BUILD: KEPT}],
    "a read-only folder": [
        {".": Folder(0o555), BUILD: File(OLD, 0o666)},
        refuses(SET_TWO, 3, CANNOT_WRITE, is_nobody=True),
        {BUILD: KEPT},
    ],
    "a file that may not be read": [
        {BUILD: File(OLD, 0o000)},
        refuses(SET_TWO, 3, CANNOT_READ, is_nobody=True),
        {BUILD: KEPT},
    ],
    "help needs no project": [{}, Call("--help", 0, ANY), {}],
    "words with blanks, line ends and letters that are none of ASCII": [
        {f"a b é/{BUILD}": TARGET, "é ü.json": "[]"},
        does(["--sourcedir", "a b é", "target", "e", "add", "x y.c", "é.c", "l\nm.c"], "files: 1, splices: 3\n"),
        {**ODD_NAMES, f"a b é/{BUILD}": "executable('e', 'a.c', 'x y.c', 'é.c', 'l\\nm.c')\n"},
        does(["--sourcedir=a b é", "undo"], "files: 1, splices: 3\n"),
        {**ODD_NAMES, f"a b é/{BUILD}": TARGET},
        does(["--sourcedir", "a b é", "command", "é ü.json"], NONE_DONE),
    ],
    "words that are no text": [
        {BUILD: TARGET},
        *(refuses(it, 2, USAGE) for it in ("target e add \udcff.c", "command \udcff", "--sourcedir \udcff undo", "undo \udcc3")),
        {BUILD: KEPT},
    ],
}


X, LOGGED = "x = 1\n", {LOG: ANY}
ENTERS_BOTH = f"{OLD}subdir('real')\nsubdir('also')\n"


def edit_by(name, has):
    """Steps that edit a file by one of its names. The edit is undone and redone by that name."""
    added = has(f"{X}executable('{name}', 'a.c')\n", LOGGED)
    return [
        *(does(f"target {name} add_target a.c --subdir {name}", ONE_DONE), added),
        refuses(f"target {name} add b.c", 1, "command 0: C3 ambiguous"),
        *(does("undo", ONE_DONE), has(X, LOGGED)),
        *(does("redo", ONE_DONE), added),
        *(does("undo", ONE_DONE), has(X, LOGGED)),
    ]


def name_twice(also):
    """Steps on two names of one file, both entered. They count as two files, of which a run may replace one."""

    def has(real, more=None):
        return {BUILD: ENTERS_BOTH, "real": FOLDER, f"real/{BUILD}": real, **also, **(more or {})}

    return [
        has(X),
        # An edit of both is refused, before there is a log and later; what was replaced gets its old bytes again.
        *(refuses(["command", script(ADD_ONE, ADD_TWO)], 3, f"W2 cannot write also/{BUILD}"), has(X)),
        *(refuses(["command", script(SET_VERSION % 2, ADD_TWO, ADD_ONE)], 3, f"W2 cannot write also/{BUILD}"), has(X)),
        # A dry run replaces nothing, and reports both.
        *(does(["--dry-run", "command", script(ADD_ONE, ADD_TWO)], Lines("+executable", 2)), has(X)),
        *edit_by("real", has),
        *edit_by("also", has),
        # With another file before it, an edit of one is done.
        does(["command", script(SET_VERSION % 2, ADD_TWO)], BOTH_DONE),
        {**has(f"{X}executable('two', 'b.c')\n", LOGGED), BUILD: ENTERS_BOTH.replace("'1'", "'2'")},
        *(does("undo", BOTH_DONE), has(X, LOGGED)),
    ]


LEFT_OVER = [BESIDE, *(f"{BESIDE}-{i}" for i in range(2, 10))]

LINKS = {
    "a link is followed, and stays one": [
        {f"real/{BUILD}": File(OLD, 0o604), BUILD: Link(f"real/{BUILD}")},
        SETS_TWO,
        {BUILD: Link(f"real/{BUILD}"), LOG: ANY, "real": FOLDER, f"real/{BUILD}": File(NEW, 0o604)},
    ],
    "a link to nothing": [{BUILD: Link("nothing")}, refuses(SET_TWO, 3, f"W3 no file {BUILD}"), {BUILD: Link("nothing")}],
    "a second name of the file keeps the old text": [
        {BUILD: OLD, "other": SecondName(BUILD)},
        SETS_TWO,
        {BUILD: NEW, "other": OLD, LOG: ANY},
    ],
    "two names of one file, by a link to the folder": name_twice({"also": Link("real")}),
    "two names of one file, by a link to the file": name_twice({"also": FOLDER, f"also/{BUILD}": Link(f"../real/{BUILD}")}),
    "two names of one file that are no links: each gets its edit, and it is taken back": [
        {BUILD: ENTERS_BOTH, f"real/{BUILD}": X, "also": FOLDER, f"also/{BUILD}": SecondName(f"../real/{BUILD}")},
        does(["command", script(ADD_ONE, ADD_TWO)], BOTH_DONE),
        {
            **{BUILD: KEPT, LOG: ANY, "real": FOLDER, "also": FOLDER},
            **{f"real/{BUILD}": f"{X}executable('one', 'a.c')\n", f"also/{BUILD}": f"{X}executable('two', 'b.c')\n"},
        },
        does("undo", BOTH_DONE),
        {BUILD: KEPT, LOG: ANY, "real": FOLDER, "also": FOLDER, f"real/{BUILD}": X, f"also/{BUILD}": X},
    ],
    "a link to the file stands where the new one is written": [
        {BUILD: OLD, BESIDE: Link(BUILD)},
        SETS_TWO,
        {BUILD: NEW, BESIDE: Link(BUILD), LOG: ANY},
    ],
    "a link -s to another file stands where the new one is written": [
        {BUILD: OLD, "victim": File("mine\n", 0o600), BESIDE: Link("victim")},
        SETS_TWO,
        {BUILD: NEW, "victim": KEPT, BESIDE: Link("victim"), LOG: ANY},
    ],
    "a link of the same file to another file stands where the new one is written": [
        {BUILD: OLD, "victim": File("mine\n", 0o600), BESIDE: SecondName("victim")},
        SETS_TWO,
        {BUILD: NEW, "victim": KEPT, BESIDE: KEPT, LOG: ANY},
    ],
    "files left over block nobody": [
        {BUILD: OLD, BESIDE: File("mine\n", 0o444), **{it: Link("nothing") for it in LEFT_OVER[1:-1]}},
        SETS_TWO,
        {BUILD: NEW, BESIDE: KEPT, **{it: Link("nothing") for it in LEFT_OVER[1:-1]}, LOG: ANY},
    ],
    "nine files left over": [
        {BUILD: OLD, **{it: "mine\n" for it in LEFT_OVER}},
        refuses(SET_TWO, 3, CANNOT_WRITE),
        {BUILD: KEPT, **{it: KEPT for it in LEFT_OVER}},
    ],
    "a pipe": [{BUILD: PIPE}, refuses(SET_TWO, 3, CANNOT_READ), {BUILD: PIPE}],
    "a pipe in a folder that is entered": [
        {BUILD: OLD + ENTERS_SUB, "sub": FOLDER, SUB: PIPE},
        refuses(SET_TWO, 3, f"W1 cannot read {SUB}"),
        {BUILD: KEPT, "sub": FOLDER, SUB: PIPE},
    ],
    "a pipe where the new file is written": [{BUILD: OLD, BESIDE: PIPE}, SETS_TWO, {BUILD: NEW, BESIDE: PIPE, LOG: ANY}],
    "a folder of that name": [{BUILD: FOLDER}, refuses(SET_TWO, 3, CANNOT_READ), {BUILD: FOLDER}],
    "a device": [{BUILD: Link("/dev/zero")}, refuses(SET_TWO, 3, CANNOT_READ), {BUILD: Link("/dev/zero")}],
    "a file where a folder is entered": [
        {BUILD: OLD + ENTERS_SUB, "sub": "a file\n"},
        SETS_TWO,
        {BUILD: NEW + ENTERS_SUB, "sub": KEPT, LOG: ANY},
    ],
}
