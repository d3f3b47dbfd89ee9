"""What hostile feeds to the program: a project, words, scripts, and how their bytes are damaged."""

import json

TITLES = ["", "add a.c", "ä «é» \u2028", "x" * 200, "\\\"'", "x" * 201, "é" * 101, "a\tb", "a\nb", "\x7f", "-x"]

ROOT = b"""project('p', 'c', version: '0.9', # by hand
  default_options: ['warning_level=3', 'b_ndebug=if-release'], license: ['MIT', 'Apache-2.0'])
src = ['a.c', 'b.c'] # of the program
src += files('c.c',
  'd.c', # the last
)
zlib = dependency('zlib', version: ['>=1.2', '<2'], required: false)
if get_option('extra').enabled() and host_machine.system() not in ['windows']
  src += 'extra.c'
endif
executable('e', src, dependencies: zlib, install: true, extra_files: ['x.h'])
subdir('sub')
"""
BELOW = b"""lib_src = ['l.c', '''m.c''', 'it\\'s.c']
lib = static_library('l', lib_src, c_args: ['-DX=' + '1'] \\
  + [])
foreach name, flags : {'one': ['-a'], 'two': []}
  test(name, executable('t_' + name, 'check.c', link_with: lib), args: flags)
endforeach
"""
TOKENS = [b"'", b"'''", b"f'", b"\\", b"\\\n", b"#", b"(", b")", b"[", b"]", b"{", b"}", b",", b":", b"\n", b"\r", b"\r\n",
          b"\t", b"\0", b"\xff", b"\xef\xbb\xbf", b"\xc3\xa9", b"0x", b"09", b"if", b"endif", b"foreach", b"not", b"in", b"+=",
          b"==", b"?", b".", b"subdir('sub')", b"subdir('./sub/')", b"subdir('..')", b"kwargs: d", b"[" * 65, b"(" * 64, b"src", b"'a.c'",
          b"18446744073709551615", b"-1", b"null", b"\"at\":", b"\"version\":1", b"\"version\":2",
          b"\"version\":3", b"\"title\":\"t\"", b"\"splices\":", b"\\u0000", b"\\ud800"]
WORDS = ["e", "l", "t_one", "nobody", "", "a.c", "b.c", "x.h", "new.c", "it's.c", "sub/n.c", "ä.c", "a b", "..", "/", "//", "zlib",
         "version", "license", "install", "default_options", "c_args", "2.0", "true", "warning_level", "b_ndebug", "--", "-x",
         "executable", "--type", "--subdir", "sub", "project", "dependency", "target"]


def words_of(text):
    """The words of several calls, between which stand commas."""
    return [it.split() for it in text.split(",")]


SUBCOMMANDS = words_of("""
    target e add, target e rm, target e rename, target l add, target l rm, target e add_extra_files,
    target e rm_extra_files, target new add_target, target e rm_target, target e info, kwargs set project /,
    kwargs set target e, kwargs add project /, kwargs remove target l, kwargs delete dependency zlib,
    kwargs info project /, default-options set, default-options delete, def unset, undo, redo, undo --to 1, undo --to 2,
    history --forget 1, history --forget all, arg set target e, arg set target l, arg set dependency zlib,
    arg set variable src 0, arg add target e, arg add variable src ., arg set at meson.build:1, arg remove target e,
    arg remove variable src ., arg replace variable src ., arg delete target l, arg delete project /, arg info target e,
    arg info project /
""")
INSERTIONS = words_of("""
    code after target e, code before target l, code after target t_one, code before variable src,
    code after dependency zlib, code before project /, code after at meson.build:7, code before at sub/meson.build:4,
    code append meson.build, code append sub/meson.build, code append none
""")
REMOVALS = words_of("target e, target l, target t_one, variable src, dependency zlib, project /, at meson.build:7, at sub/meson.build:4")
CODES = ["test('e', e)", "x = 1\ny = [\n  x,\n]", "if true\n  message('''a\n\nb''')\nendif # c", "# c\nsubdir('sub')\n\n",
         "foreach i : src\nendforeach", "e = 1", "src += 'z.c'", "a = 'é' \\\n  + '\\t'", "if x", "", "# no statement",
         "m = " + "[" * 60 + "]" * 60, "a = b\rc = d", "\ta = 1\r\n\tb = 2"]
LOOKS = words_of("list, list --json, list --sums, list --of dependency, list --of variable, history")
PAIRS = [["version", "1.0"], ["license", "GPL"], ["install", "false"], ["c_args", "-O2"], ["warning_level", "1"],
         ["werror", "true"], ["b_ndebug", "x"], ["required", "true"], ["install", ":false"],
         ["license.0", ":'x' + zlib"], ["version", ":[1"]]


def follows(words):
    """The forms of `--follow` that may stand before these words."""
    if words[0] == "target" and words[2:3] in (["add"], ["rm"], ["rename"]):
        return ["--follow", "--follow=own", "--follow=shared"]
    is_listed = words[0] == "target" and words[2:3] == ["info"]
    return ["--follow", "--follow=own"] if is_listed or words[0] in ("list", "history", "undo", "redo", "command") else []


def damage(rng, text):
    """The bytes with one thing wrong."""
    at = rng.randrange(len(text) + 1)
    to = min(len(text), at + rng.choice([1, 2, 8, 40]))
    kind = rng.randrange(6)
    if kind == 0:
        return text[:at]
    if kind == 1:
        return text[:at] + text[to:]
    if kind == 2:
        return text[:to] + text[at:]
    if kind == 3:
        return text[:at] + bytes([rng.randrange(256)]) + text[at + 1:]
    return text[:at] + rng.choice(TOKENS) + text[at:]


def insertion(rng):
    """An object of a script that inserts statements."""
    _, operation, *place = rng.choice(INSERTIONS)
    names = ["file"] if operation == "append" else ["function", "id"]
    entry = {"type": "code", "operation": operation, **dict(zip(names, place)), "code": rng.choice(CODES)}
    return entry if rng.random() < 0.6 else {**entry, rng.choice(["blank", "in"]): rng.choice([0, 1, 3, 101, "sub", ""])}


def removal(rng):
    """An object of a script that removes a statement."""
    function, name = rng.choice(REMOVALS)
    entry = {"type": "code", "operation": "remove", "function": function, "id": name}
    return entry if rng.random() < 0.4 else {**entry, rng.choice(["unused", "unused", "in"]): rng.choice([True, True, False, 1, "sub"])}


def command(rng):
    """An object of a script, often one that is understood."""
    value = rng.choice(["1", True, ["a", "b"], [], "ä", None, 7, {}])
    entry = rng.choice([
        {"type": "target", "target": rng.choice(WORDS), "sources": rng.sample(WORDS, 2),
         "operation": rng.choice(["src_add", "src_rm", "rename", "target_add", "target_rm", "extra_files_add", "extra_files_rm", "info"])},
        {"type": "kwargs", "function": rng.choice(["project", "target", "dependency"]), "id": rng.choice(["/", "e", "l", "zlib"]),
         "operation": rng.choice(["set", "add", "remove", "delete", "info"]), "kwargs": {rng.choice(PAIRS)[0]: value}},
        {"type": "default_options", "operation": rng.choice(["set", "delete"]), "options": {rng.choice(PAIRS)[0]: value}},
        {"type": "arg", "operation": rng.choice(["set", "add", "remove", "replace", "delete", "info"]),
         "function": rng.choice(["project", "target", "variable", "at", "dependency"]),
         "id": rng.choice(["/", "e", "l", "zlib", "src", "meson.build:1", "meson.build:7"]),
         "key": rng.choice([".", "0", "version", "c_args", "a.b"]),
         "values": rng.choice([["x"], [True], [{"code": "x"}], ["x", "y"], [{"code": rng.choice(["[", "1 # c", "[" * 64 + "]" * 64])}]])},
        insertion(rng),
        removal(rng),
    ])
    if entry.get("operation") in ("src_add", "src_rm", "rename") and rng.random() < 0.5:
        entry["follow"] = rng.choice([True, True, "shared", False])
    if rng.random() < 0.1:
        entry[rng.choice([*entry, "follow"])] = value
    return entry


def script(rng):
    """The text of a script, sometimes damaged."""
    entries = [command(rng) for _ in range(rng.choice([0, 1, 1, 2, 5]))]
    text = json.dumps(entries, ensure_ascii=rng.random() < 0.5).encode()
    return damage(rng, text) if rng.random() < 0.3 else text


def call(rng):
    """The words of a call that needs no script."""
    if rng.random() < 0.2:
        blank = rng.choice([[], [], ["--blank", rng.choice(["0", "1", "7", "101", "x"])]])
        return [*rng.choice(INSERTIONS), rng.choice(CODES), *blank]
    if rng.random() < 0.1:
        return ["code", "remove", *rng.choice([[], ["--unused"]]), *rng.choice(REMOVALS)]
    words = list(rng.choice(SUBCOMMANDS))
    if words[0] in ("undo", "redo", "history"):
        return words
    for _ in range(rng.randrange(3)):
        is_pair = words[0] != "target" and rng.random() < 0.8
        words += rng.choice(PAIRS) if is_pair else [rng.choice(WORDS)]
    return words
