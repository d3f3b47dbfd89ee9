"""Checks completions in shells: each line, and the words that may come next. Used by examples."""

import os
import re
import shlex
import shutil

from examples_home import plain
from room import TESTS, TOP, write

# What bash, fish and zsh all complete, where they are there.
EACH = r"""
''>target|kwargs|arg|code|default-options|command|undo|redo|history|list
d>default-options
-->--dry-run|--exit-code|--explain|--follow|--help|--in|--json|--no-log|--sourcedir|--texts|--title|--verbose|--version
-s s>src
-s src t>target
--sourcedir ''>a folder/|src/
--sourcedir src --title 'b c' ''>target|kwargs|arg|code|default-options|command|undo|redo|history|list
target ''>
target tide ''>add|rm|rename|add_extra_files|rm_extra_files|add_target|rm_target|info
target tide add ''>a folder/|moon c.c|src/|sun.c
tgt tide ''>add|rm|rename|add_extra_files|rm_extra_files|add_target|rm_target|info
tgt tide add ''>a folder/|moon c.c|src/|sun.c
target tide rm_target ''>
target tide info ''>
target moon add_target moon.c -->--help|--sorted|--subdir|--type
target moon add_target moon.c --type ''>executable|static_library|shared_library|shared_module|both_libraries|library|jar
target moon add_target moon.c --subdir s>src
target moon add_target moon.c -s s>src
kwargs ''>set|add|remove|delete|info
kwargs set ''>dependency|project|target
kwargs set project ''>/
kwargs set project / ''>version|meson_version|subproject_dir|license|default_options
kwargs set project / version ''>
kwargs set project / version 1 l>license
kwargs set target tide i>implib|install|install_dir|install_rpath
kwargs info target tide ''>
--in s>src
--in src ar>arg
--follow t>target
--follow=shared target tide ''>add|rm|rename|add_extra_files|rm_extra_files|add_target|rm_target|info
arg ''>add|delete|info|remove|replace|set
arg -->--after|--help|--sorted
arg set ''>at|dependency|project|target|variable
arg set project ''>/
arg set target tide ''>
arg set target tide c_args -->
code ''>after|append|before|remove
code -->--blank|--help|--unused
code after ''>at|dependency|project|target|variable
code after project ''>/
code remove ''>at|dependency|project|target|variable
default-options ''>delete|set|unset
def ''>delete|set|unset
command s>src/|sun.c
cmd s>src/|sun.c
cmd -->--help|--strict
command -->--help|--strict
command --strict s>src/|sun.c
undo ''>
undo -->--check|--help|--to
undo --to ''>
undo --to 2 -->--check|--help|--to
undo --check ''>a folder/|moon c.c|src/|sun.c
undo --check sun.c --to 2 -->--check|--help|--to
history ''>
history -->--forget|--help
history --forget a>all
history --forget all ''>
list ''>
list -->--help|--json|--of|--sums
list --of v>variable
list --of test -->--help|--json|--of|--sums
"""
# In bash alone `=` and `:` are words of their own, and a folder without a slash is quoted here and not by the shell.
BASH = r"""
--sourcedir =>a folder/|src/
--sourcedir = s>src/
--sourcedir = src t>target
--sourcedir = src undo --to = 2 --c>--check
target moon add_target moon.c --type = exe>executable
target moon add_target moon.c --subdir = s>src
target moon add_target moon.c --subdir a>a\ folder
--title v = 1 kw>kwargs
--title fix : typo kw>kwargs
--follow =>own|shared
--follow = s>shared
--follow = own tar>target
target a : b inf>info
undo --check a : b>
"""
# zsh gives names as they were begun: below the home, in quotes, with backslashes.
ZSH = r"""
--sourcedir '~/words/s'>~/words/src/
--sourcedir "'">'a folder/|'src/
--sourcedir '"a'>"a folder/
--sourcedir 'a\ '>a\ folder/
--sourcedir=s>--sourcedir=src/
--sourcedir=a>--sourcedir=a\ folder/
--follow=s>--follow=shared
target tide add "'m">'moon c.c'
target tide add '"moon c'>"moon c.c"
target tide add 'moon\ '>moon\ c.c
target moon add_target moon.c --type=exe>--type=executable
target moon add_target moon.c --subdir "'a">'a folder
target moon add_target moon.c --subdir 'a\ '>a\ folder
undo --check '~/words/su'>~/words/sun.c
undo --check=su>--check=sun.c
"""

# Where names of files are asked for, bash puts a slash behind folders.
BY_BASH = r"""
. "$0"; COMP_WORDS=(meson_rewrite "$@"); COMP_CWORD=$#; COMPREPLY=(); COMP_LINE=$(sed "s/ *\([=:]\) */\1/g" <<<"${COMP_WORDS[*]}")
compopt() { [ "$1 $2" != "-o filenames" ] || slash=/; }
_meson_rewrite 2>/dev/null
for word in "${COMPREPLY[@]}"; do if [ -d "$word" ]; then word+=${slash-}; fi; echo "$word"; done
"""
BY_FISH = """
source $argv[1]; complete -C (string join " " -- meson_rewrite (string escape -- $argv[2..-2]) $argv[-1]) | cut -f 1
"""
# The last word as it is typed; each match as it is put in.
BY_ZSH = r"""
before='meson_rewrite '
[ $# = 1 ] || before+=$(printf '%q ' "${@:1:$#-1}")
timeout 20 zsh -f "$0" "$HOME/site" "$before${*: -1}" "$HOME/matches" </dev/null | cut -c $((${#before} + 1))-
"""
SHELLS = {
    "bash": lambda home: ["bash", "-c", BY_BASH, home.path("words.bash")],
    "fish": lambda home: ["fish", "-c", BY_FISH, home.path("words.fish")],
    "zsh": lambda home: ["bash", "-c", BY_ZSH, os.path.join(TESTS, "complete.zsh")],
}


def complete(home, shell, words):
    """What the shell completes to, in a folder with a few files. fish also says where a value may come after `=`."""
    out = plain(home.ask([*SHELLS[shell](home), *words], home.path("words")).out)
    return sorted(it for it in out.splitlines() if shell != "fish" or not it.endswith("="))


def unquoted(shell, names):
    """The names without the backslashes, which zsh alone puts into them."""
    return sorted(re.sub(r"\\(.)", r"\1", it) for it in names) if shell == "zsh" else names


def rows_of(table):
    """The rows of a table, each with its words and what they are completed to."""
    for row in table.strip("\n").splitlines():
        words, _, wanted = row.partition(">")
        yield words, wanted.split("|") if wanted else []


def make_files(home):
    for folder in ("words/src", "words/a folder", "site"):
        os.makedirs(home.path(folder))
    home.write({"words/moon c.c": "", "words/sun.c": ""})
    for shell in SHELLS:
        write(home.path(f"words.{shell}"), home.ask([os.path.join(TOP, "tools/completions"), "meson_rewrite", shell]).out)
    shutil.copy(home.path("words.zsh"), home.path("site/_meson_rewrite"))


def try_all(checks, home):
    make_files(home)
    for words, wanted in rows_of(EACH):
        for shell in filter(shutil.which, SHELLS):
            got = unquoted(shell, complete(home, shell, shlex.split(words)))
            checks.compare(f"{shell} completes {words}", sorted(wanted), got)
    for words, wanted in rows_of(BASH):
        checks.compare(f"bash completes {words}", wanted, complete(home, "bash", words.split()))
    if shutil.which("zsh"):
        checks.compare("zsh reads its completions", "", home.shell('zsh -n "$HOME/words.zsh"')[1])
        for words, wanted in rows_of(ZSH):
            checks.compare(f"zsh completes {words} as typed", wanted, complete(home, "zsh", shlex.split(words)))
