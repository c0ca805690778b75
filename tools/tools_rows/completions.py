"""Rows of tools/package/completions.py: what bash, zsh and fish complete by what it prints."""
from __future__ import annotations

import os
import re
import shutil
from typing import Any

from .commands import TOP, refused, run, write

TOOL = os.path.join(TOP, 'tools', 'package', 'completions.py')

# The help of a program, as the two in Rust print it.
HELP = """Does something.

Usage: receiver [OPTIONS] [SCRIPT]...

Arguments:
  [SCRIPT]...  Script files

Options:
      --rate <HZ>        Samples a second; it's a number, `$HZ` [default: 2046000]
      --format <format>  How they are packed [default: real1] [possible values: real1, real2, iq1]
  -V, --version          Print version

      This line has --no-option.
"""

# Words of a command line, of which the last one is completed, and what it becomes, for the program
# and for the companion. The row has a file a.script and a folder as.
RECEIVER = (
    (['--fo'], ['--format']),
    (['--r'], ['--rate']),
    (['-'], ['--format', '--rate', '--version', '-V']),
    (['--format', 'r'], ['real1', 'real2']),
    (['--rate', ''], []),
    (['--version', 'a'], ['a.script', 'as']),
)
COMPANION = (
    (['sk'], ['sky']),
    (['sky', '--part', ''], ['i', 'q']),
    (['sky', '--rate', ''], []),
    (['plots', 'pr'], ['prompt']),
    (['sky', 'sky', '--form'], ['--format']),
    (['csv', '--folder', 'a'], ['as']),
    (['cn0', 'a'], ['a.script', 'as']),
)

# Prints what the last of some words becomes, as bash completes it by a function.
BASH = r"""
. "$1"
shift
COMP_WORDS=("$@") COMP_CWORD=$(($# - 1)) word="${!#}"
compopt() {
    case "$2" in
    default) compgen -f -- "$word" ;;
    dirnames) compgen -d -- "$word" ;;
    esac
}
"_${1//-/_}" "$1" "$word" "${COMP_WORDS[COMP_CWORD - 1]}"
printf '%s\n' "${COMPREPLY[@]}"
"""

# Prints what fish completes a line to, with a tab before what it says of it.
FISH = 'source $argv[1]; complete -C "$argv[2..]"'

# Prints what zsh, in a terminal of its own, completes a line to: each match stands in angles. The
# line is typed when its editor has the terminal: before that, the kernel takes the keys itself.
ZSH = r"""
zmodload zsh/zpty
zpty shell zsh -f
zpty -w shell "PROMPT=; fpath=(${(q)1} \$fpath); autoload -Uz compinit; compinit -u -D
compadd() {
    [[ \${@[1,(i)(-|--)]} != *-(O|A|D)\ * ]] || { builtin compadd \"\$@\"; return }
    local -a found
    builtin compadd -A found \"\$@\"
    print -rn -- '<'\${^found}'>'
    builtin compadd \"\$@\"
}
zle-line-init() { print -rn -- REA''DY }; zle -N zle-line-init"
zpty -r shell out '*READY*'
zpty -w -n shell "${*:2}"$'\t'$'\x15'"print DO''NE"$'\n'
zpty -r shell out '*DONE*'
print -r -- $out
"""


def by_bash(path: str, words: list[str], folder: str) -> list[str]:
    """What bash makes of words."""
    return run(['bash', '-c', BASH, 'bash', path, *words], folder).said.splitlines()


def by_fish(path: str, words: list[str], folder: str) -> list[str]:
    """What fish makes of words."""
    more = {'HOME': folder, 'XDG_CONFIG_HOME': folder, 'XDG_DATA_HOME': folder}
    said = run(['fish', '--no-config', '-c', FISH, path, *words], folder, more).said
    return [it.split('\t')[0] for it in said.splitlines()]


def by_zsh(path: str, words: list[str], folder: str) -> list[str]:
    """What zsh makes of words."""
    said = run(['zsh', '-f', '-c', ZSH, 'zsh', os.path.dirname(path), *words], folder,
               {'HOME': folder, 'TERM': 'dumb'}).said
    return re.findall('<([^>\n]+)>', said)


SHELLS = {'bash': by_bash, 'fish': by_fish, 'zsh': by_zsh}


def matches(rows: Any, folder: str) -> None:
    """What each shell makes of words, for a program that prints its help and for the companion. A
    shell that isn't here isn't tried."""
    here = os.path.join(folder, 'here')
    write(os.path.join(here, 'a.script'), '')
    os.makedirs(os.path.join(here, 'as'))
    program = write(os.path.join(folder, 'program'), f'#!/bin/sh\ncat << "E"\n{HELP}E\n', 0o755)
    for shell, complete in SHELLS.items():
        if not shutil.which(shell):
            continue
        more = ((['--format', '=', 'i'], ['iq1']),) if shell == 'bash' else ()
        for name, made_of, cases in (('seldomplough-receiver', program, RECEIVER + more),
                                     ('seldomplough', os.path.join(TOP, 'python'), COMPANION)):
            outcome = run([TOOL, shell, name, made_of], folder)
            rows.say(f'completions.py {shell} {name}',
                     [str(outcome)] * bool(outcome.status or outcome.errors))
            path = write(os.path.join(folder, shell, f'_{name}'), outcome.said)
            for words, wanted in cases:
                given = complete(path, [name, *words], here)
                found = sorted({it.rstrip('/') for it in given if it})
                rows.say(f'{shell} completes {name} {" ".join(words)!r}',
                         [f'{found}, not {wanted}'] * (found != wanted))


def refusals(rows: Any, folder: str) -> None:
    """Words that it doesn't take, and programs that tell nothing."""
    for words in [], ['bash', 'name'], ['ksh', 'name', 'true']:
        outcome = run([TOOL, *words], folder)
        rows.say(f'completions.py {words}', [str(outcome)] * (
            outcome.status != 2 or bool(outcome.said) or 'usage: ' not in outcome.errors))
    silent = write(os.path.join(folder, 'silent'), '#!/bin/sh\n', 0o755)
    failing = write(os.path.join(folder, 'failing'), '#!/bin/sh\nexit 1\n', 0o755)
    for program in silent, failing, 'nowhere', folder:
        rows.say(f'completions.py of {os.path.basename(program)}',
                 refused(run([TOOL, 'bash', 'name', program], folder),
                         'completions: [^\n]+', 1))


ROWS = (matches, refusals)
