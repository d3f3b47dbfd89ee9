"""Cases of disk on the undo log, scripts and what stands in the way of a rename, by their titles. disk_steps.py says what the steps are."""

from disk_files import (
    ADD_SOURCE, BOTH_DONE, BUILD, CANNOT_WRITE, ENTERS_SUB, NEW, NONE_DONE, OLD, ONE_DONE, SET_TWO, SET_VERSION, SETS_TWO, SUB, TARGET,
    TARGET_MORE, script,
)
from disk_steps import ANY, CLOSED, FOLDER, KEPT, NOBODY, PIPE, Call, File, Folder, Link, Opened, Put, SecondName, Slowly, does, refuses
from room import LOG

SPLICE = """{"at":31,"file":"meson.build","now":"'2'","was":"'1'"}"""
CHANGE = f'{{"splices":[{SPLICE}],"title":""}}'
LOG_OF_TWO = f'{{"future":[],"past":[{CHANGE}],"version":2}}\n'
LOG_UNDONE = f'{{"future":[{CHANGE}],"past":[],"version":2}}\n'
LOG_OF_NONE = '{"future":[],"past":[],"version":2}\n'
LISTING = '[{"at":0,"file":"meson.build","function":"project","hidden":false,"kwargs":{"version":"1"},"type":"kwargs"}]\n'
CANNOT_READ_LOG, CANNOT_WRITE_LOG = f"W1 cannot read {LOG}", f"W2 cannot write {LOG}"
CANNOT_READ_INPUT, NOT_JSON = "W1 cannot read -", "J1 not json"
SCRIPT_TWO = script(SET_VERSION % 2)
MEBIBYTES_64 = 64 * 1024 * 1024

RUNS = {
    "the log of a first run is a new file": [
        {BUILD: OLD},
        does(SET_TWO, ONE_DONE, umask=0o027),
        {BUILD: NEW, LOG: File(LOG_OF_TWO, 0o640)},
    ],
    "undo brings back the bytes and keeps the mode, and redo too": [
        {BUILD: File(OLD, 0o604)},
        SETS_TWO,
        *(does("undo", ONE_DONE), {BUILD: File(OLD, 0o604), LOG: LOG_UNDONE}),
        refuses("undo", 1, "P4 nothing to undo"),
        *(does("redo", ONE_DONE), {BUILD: File(NEW, 0o604), LOG: LOG_OF_TWO}),
        refuses("redo", 1, "P5 nothing to redo"),
        {BUILD: File(NEW, 0o604), LOG: LOG_OF_TWO},
    ],
    "a log that is there is replaced, and keeps its mode": [
        {BUILD: OLD, LOG: File(LOG_OF_NONE, 0o600), "before": SecondName(LOG)},
        SETS_TWO,
        {BUILD: NEW, LOG: File(LOG_OF_TWO, 0o600), "before": LOG_OF_NONE},
    ],
    "a refused command writes no log": [{BUILD: OLD}, refuses("target e add b.c", 1, "command 0: C2 not found"), {BUILD: KEPT}],
    "a listing writes nothing": [
        {".": Folder(0o555), BUILD: OLD},
        Call("kwargs info project /", err=LISTING, is_nobody=True),
        {BUILD: KEPT},
    ],
    "a log that may not be read": [
        {".": Folder(0o777), BUILD: OLD, LOG: File(LOG_OF_NONE, 0o000)},
        refuses(SET_TWO, 3, CANNOT_READ_LOG, is_nobody=True),
        {BUILD: KEPT, LOG: KEPT},
    ],
    **{
        f"the log is none: {how}": [
            {BUILD: OLD, LOG: it},
            *(refuses(words, 3, CANNOT_READ_LOG) for words in (SET_TWO, "undo", "kwargs info project /")),
            {BUILD: KEPT, LOG: it},
        ]
        for how, it in (("mkfifo", PIPE), ("mkdir", FOLDER))
    },
    "a link to the log is followed, and stays one": [
        {BUILD: OLD, "logs/real": LOG_OF_NONE, LOG: Link("logs/real")},
        *(SETS_TWO, {BUILD: NEW, "logs": FOLDER, "logs/real": LOG_OF_TWO, LOG: Link("logs/real")}),
        *(does("undo", ONE_DONE), {BUILD: OLD, "logs": FOLDER, "logs/real": LOG_UNDONE, LOG: Link("logs/real")}),
    ],
    "a link to nothing stands where the log comes: the file gets its old bytes again": [
        {BUILD: OLD, LOG: Link("nothing")},
        refuses(SET_TWO, 3, CANNOT_WRITE_LOG),
        {BUILD: OLD, LOG: Link("nothing")},
    ],
    "a bad log stays, and so does the file": [{BUILD: OLD, LOG: "{}\n"}, refuses(SET_TWO, 1, "J9 bad log"), {BUILD: KEPT, LOG: KEPT}],
    "a read-only folder, and nothing but the log to write": [
        {".": Folder(0o555), BUILD: NEW},
        refuses(SET_TWO, 3, CANNOT_WRITE_LOG, is_nobody=True),
        {BUILD: KEPT},
    ],
    "a folder may be found by a link, and the log stands beside the name": [
        {f"real/{BUILD}": OLD, "project": Link("real")},
        does(f"--sourcedir project {SET_TWO}", ONE_DONE),
        {"project": Link("real"), "real": FOLDER, f"real/{BUILD}": NEW, f"real/{LOG}": LOG_OF_TWO},
    ],
}

MANY = {"s.json": script(*(SET_VERSION % i for i in range(2, 4098))) + "\n"}
TOO_MANY = {"s.json": script(*(SET_VERSION % i for i in range(2, 4099))) + "\n"}
MANY_DONE = "files: 1, splices: 4096\n"
IN_TWO = {"scripts": FOLDER, "scripts/s.json": KEPT, "project": FOLDER, "project/sub": FOLDER}

SCRIPTS = {
    "several files by a script in another folder": [
        {
            "scripts/s.json": f"[{ADD_SOURCE},\n {SET_VERSION % 2}]",
            f"project/{BUILD}": OLD + ENTERS_SUB,
            f"project/{SUB}": File(TARGET, 0o600),
        },
        does("--sourcedir project command scripts/s.json", BOTH_DONE),
        {**IN_TWO, f"project/{BUILD}": NEW + ENTERS_SUB, f"project/{SUB}": TARGET_MORE, f"project/{LOG}": ANY},
        does("--sourcedir project undo", BOTH_DONE),
        {**IN_TWO, f"project/{BUILD}": OLD + ENTERS_SUB, f"project/{SUB}": File(TARGET, 0o600), f"project/{LOG}": ANY},
    ],
    "a script that is refused in the middle": [
        {BUILD: TARGET, "s.json": script(ADD_SOURCE, '{"type":"target","operation":"target_rm","target":"z"}')},
        refuses("command s.json", 1, "command 1: C2 not found"),
        {BUILD: KEPT, "s.json": KEPT},
    ],
    "as many commands as may be, each with its splice, and one more": [
        {BUILD: OLD, **MANY},
        *(does("command s.json", MANY_DONE), {BUILD: OLD.replace("1", "4097"), LOG: ANY, "s.json": KEPT}),
        *(does("undo", MANY_DONE), {BUILD: OLD, LOG: ANY, "s.json": KEPT}),
        *(does("redo", MANY_DONE), {BUILD: OLD.replace("1", "4097"), LOG: ANY, "s.json": KEPT}),
        Put(TOO_MANY),
        *(refuses("command s.json", 1, "J3 too many"), {BUILD: OLD.replace("1", "4097"), LOG: ANY, "s.json": KEPT}),
    ],
    "a script on standard input: a file, a pipe, and one that waits in the middle": [
        {BUILD: OLD, "s.json": SCRIPT_TWO},
        *(does("command -", ONE_DONE, input=Opened("s.json")), {BUILD: NEW, LOG: ANY, "s.json": KEPT}),
        does("undo", ONE_DONE),
        *(does("command -", ONE_DONE, input=SCRIPT_TWO), {BUILD: NEW, LOG: ANY, "s.json": KEPT}),
        does("undo", ONE_DONE),
        *(does("command -", ONE_DONE, input=Slowly(SCRIPT_TWO)), {BUILD: NEW, LOG: LOG_OF_TWO, "s.json": KEPT}),
    ],
    "a script on standard input, for another folder, under a title": [
        {f"inner/{BUILD}": OLD},
        does("--sourcedir inner --title two command -", ONE_DONE, input=SCRIPT_TWO),
        {"inner": FOLDER, f"inner/{BUILD}": NEW, f"inner/{LOG}": ANY},
        does("--sourcedir inner undo", f"{ONE_DONE}title: two\n"),
        {"inner": FOLDER, f"inner/{BUILD}": OLD, f"inner/{LOG}": ANY},
    ],
    "a file that is named as standard input": [
        {BUILD: OLD, "-": "[]"},
        refuses("command -", 1, NOT_JSON),
        does("command ./-", NONE_DONE),
        {BUILD: KEPT, LOG: ANY, "-": KEPT},
    ],
    "what is no script on standard input": [
        {BUILD: OLD},
        refuses("command -", 1, NOT_JSON, input=b"[\xff]"),
        refuses("command -", 1, "J2 not an array", input="{}"),
        refuses("command -", 3, CANNOT_READ_INPUT, input=CLOSED),
        refuses("command -", 3, CANNOT_READ_INPUT, input=Opened(".")),
        refuses("command -", 1, NOT_JSON, input=bytes(MEBIBYTES_64)),
        refuses("command -", 3, CANNOT_READ_INPUT, input=bytes(MEBIBYTES_64 + 1)),
        refuses("command -", 3, CANNOT_READ_INPUT, input=Opened("/dev/zero")),
        {BUILD: KEPT},
    ],
    "what is no script file": [
        {BUILD: TARGET},
        refuses("command s.json", 3, "W3 no file s.json"),
        refuses("command s.json/x", 3, "W3 no file s.json/x"),
        *(Put({"s.json": b"[\xff]"}), refuses("command s.json", 1, NOT_JSON)),
        *(Put({"s.json": ""}), refuses("command s.json", 1, NOT_JSON)),
        refuses("command s.json/x", 3, "W3 no file s.json/x"),
        refuses(["command", ""], 3, "W3 no file "),
        refuses("command .", 3, "W1 cannot read ."),
        *(Put({"s.json": None}), Put({"s.json": PIPE}), refuses("command s.json", 3, "W1 cannot read s.json")),
        {BUILD: KEPT, "s.json": PIPE},
    ],
    "a script behind a link, and one that may not be read": [
        {BUILD: TARGET, "real": "[]", "s.json": Link("real")},
        does("command s.json", NONE_DONE),
        Put({"real": File("[]", 0o000)}),
        refuses("command s.json", 3, "W1 cannot read s.json", is_nobody=True),
        {BUILD: KEPT, LOG: ANY, "real": KEPT, "s.json": Link("real")},
    ],
}

CHANGE_BOTH = ["command", script(SET_VERSION % 2, ADD_SOURCE)]
TWO_FILES = {BUILD: OLD + ENTERS_SUB, SUB: TARGET}
CANNOT_WRITE_SUB = f"W2 cannot write {SUB}"

# What only root can make: files of others. In a folder with the sticky bit only their owners may replace them.
OWNERS = {
    "the owner stays": [{BUILD: File(OLD, owner=NOBODY)}, SETS_TWO, {BUILD: File(NEW, owner=NOBODY), LOG: ANY}],
    "another user's file in a folder with the sticky bit is surely old": [
        {".": Folder(0o1777), BUILD: OLD},
        refuses(SET_TWO, 3, CANNOT_WRITE, is_nobody=True),
        {BUILD: OLD},
    ],
    "another user's file in such a folder, after a file that was replaced: that one gets its old bytes again": [
        {".": Folder(owner=NOBODY), BUILD: File(OLD + ENTERS_SUB, owner=NOBODY), "sub": Folder(0o1777), SUB: TARGET},
        refuses(CHANGE_BOTH, 3, CANNOT_WRITE_SUB, is_nobody=True),
        {BUILD: OLD + ENTERS_SUB, "sub": FOLDER, SUB: TARGET},
    ],
    "another user's log in such a folder: the build file gets its old bytes again": [
        {".": Folder(0o1777), BUILD: File(OLD, owner=NOBODY), LOG: LOG_OF_NONE},
        refuses(SET_TWO, 3, CANNOT_WRITE_LOG, is_nobody=True),
        {BUILD: OLD, LOG: LOG_OF_NONE},
    ],
}
