#!/usr/bin/env python3
"""Prints what a shell reads to complete the words after a program's name, made from the program's
help.
usage: completions.py SHELL NAME PROGRAM..
SHELL is bash, zsh or fish, and NAME what one types. PROGRAM is the receiver or the packer, which
print their help, with what starts it before it, or the folder that has the companion's modules."""
from __future__ import annotations

import argparse
import importlib
import os
import re
import subprocess
import sys
from typing import List, NamedTuple, Optional, Tuple

sys.dont_write_bytecode = True

# What values are called that name a file, and a folder.
FILES = ('FILE', 'LINES', 'METADATA', 'RECORDING', 'RINEX', 'SCRIPT', 'TABLE')
FOLDERS = ('FOLDER',)

# An option in the help of a program, a word without one, and the values that it has.
OPTION = re.compile(r' +(?:(-\w), )?(--[\w-]+)(?: <([^>]+)>)? {2,}(.*)')
OPERAND = re.compile(r' +\[(\w+)\]\.\.\. +(.*)')
VALUES = re.compile(r' \[possible values: ([^]]*)\]')


class Word(NamedTuple):
    """An option by its names, or a word that has none."""

    names: Tuple[str, ...]
    # What its value is called; an option without a value has no such name.
    takes: str
    values: Tuple[str, ...]
    help: str
    # How many there may be of a word without a name: None for one, else ?, * or +.
    count: Optional[str] = None


class Command(NamedTuple):
    """A command of a program, or the program itself by an empty name."""

    name: str
    help: str
    words: List[Word]

    def options(self) -> List[Word]:
        """Its options."""
        return [it for it in self.words if it.names]

    def operands(self) -> List[Word]:
        """Its words that have no names."""
        return [it for it in self.words if not it.names]


def of_help(text: str) -> List[Command]:
    """The words of a program whose help is that of the programs in Rust."""
    words = []
    for line in text.splitlines():
        option, operand = OPTION.fullmatch(line), OPERAND.fullmatch(line)
        if option:
            short, long, takes, said = option.groups()
            names = tuple(it for it in (short, long) if it)
            words.append(Word(names, takes or '', values_in(said), VALUES.sub('', said)))
        elif operand:
            words.append(Word((), operand[1], (), operand[2], '*'))
    return [Command('', '', words)]


def values_in(said: str) -> Tuple[str, ...]:
    """The values that the help of an option names."""
    found = VALUES.search(said)
    return tuple(found[1].split(', ')) if found else ()


def of_parser(parser: argparse.ArgumentParser) -> List[Command]:
    """The words of a program by its parser: first its own, and then those of each command."""
    own = Command('', '', [])
    found = [own]
    for action in parser._actions:
        if isinstance(action, argparse._SubParsersAction):
            for it in action._choices_actions:
                words = [of_action(word) for word in action.choices[it.dest]._actions]
                found.append(Command(it.dest, it.help or '', words))
        else:
            own.words.append(of_action(action))
    return found


def of_action(action: argparse.Action) -> Word:
    """A word of a parser."""
    names = tuple(action.option_strings)
    takes = '' if action.nargs == 0 else str(action.metavar or action.dest.upper())
    count = action.nargs if isinstance(action.nargs, str) else None
    text = (action.help or '').replace('%%', '%')
    return Word(names, takes, tuple(map(str, action.choices or ())), text, count)


def quoted(text: str) -> str:
    """A word of a shell that is this text."""
    return "'" + text.replace("'", "'\\''") + "'"


def listed(words: List[str]) -> str:
    """Lines of a script."""
    return ''.join(f'{it}\n' for it in words)


BASH = """# Completes the words after {name} in bash.
_{function}() {{
    local word="$2" before="$3" command='' it words=''
    # An = stands for itself among the words.
    [[ "$before" != = ]] || before="${{COMP_WORDS[COMP_CWORD - 2]}}"
    [[ "$word" != = ]] || word=''
    for it in "${{COMP_WORDS[@]:1:COMP_CWORD-1}}"; do
        case "$it" in
        {commands})
            command="$it"
            break ;;
        esac
    done
    case "$command $before" in
{values}    *)
        case "$command $word" in
{words}        esac ;;
    esac
    mapfile -t COMPREPLY < <(compgen -W "$words" -- "$word")
}}
complete -F _{function} {name}
"""


def bash_way(takes: str, values: Tuple[str, ...]) -> str:
    """How bash completes a value, or a word without a name."""
    if values:
        return f'words={quoted(" ".join(values))}'
    if takes in FILES:
        return 'compopt -o default'
    return 'compopt -o dirnames' if takes in FOLDERS else ':'


def for_bash(name: str, commands: List[Command]) -> str:
    """What bash reads."""
    values, words = [], []
    named = tuple(it.name for it in commands if it.name)
    for it in commands:
        for option in it.options():
            if option.takes:
                before = ' | '.join(quoted(f'{it.name} {name}') for name in option.names)
                way = bash_way(option.takes, option.values)
                values.append(f'    {before}) {way} ;;')
        options = ' '.join(name for option in it.options() for name in option.names)
        words.append(f'        {quoted(it.name + " -")}*) words={quoted(options)} ;;')
        own = [Word((), '', named, '')] if named and not it.name else it.operands()
        ways = dict.fromkeys(bash_way(word.takes, word.values) for word in own)
        words.append(f'        {quoted(it.name + " ")}*) {"; ".join(ways) or ":"} ;;')
    return BASH.format(name=name, function=name.replace('-', '_'),
                       commands=' | '.join(named) or "''",
                       values=listed(values), words=listed(words))


def zsh_way(word: Word) -> str:
    """How zsh completes a value, or a word without a name."""
    called = word.takes.replace(':', '\\:').lower()
    if word.values:
        return f':{called}:({" ".join(word.values)})'
    if word.takes in FILES:
        return f':{called}:_files'
    return f':{called}:_files -/' if word.takes in FOLDERS else f':{called}: '


def zsh_words(command: Command) -> List[str]:
    """The words of a command, as `_arguments` takes them."""
    found = []
    for it in command.words:
        text = re.sub(r'([][\\:])', r'\\\1', it.help)
        for name in it.names:
            others = f'({" ".join(it.names)})' if len(it.names) > 1 else ''
            equals = ('=' if name.startswith('--') else '') if it.takes else ''
            way = zsh_way(it) if it.takes else ''
            found.append(quoted(f'{others}{name}{equals}[{text}]{way}'))
        if not it.names:
            first = {'*': '*', '+': '*', '?': ':'}.get(it.count or '', '')
            found.append(quoted(first + zsh_way(it)))
    return found


def zsh_call(words: List[str], options: str, indent: str) -> str:
    """A call of `_arguments`."""
    between = f' \\\n{indent}    '
    return f'{indent}_arguments {options}{between}{between.join(words)}\n'


def for_zsh(name: str, commands: List[Command]) -> str:
    """What zsh reads."""
    head = f'#compdef {name}\n# Completes the words after {name} in zsh.\n'
    own, *others = commands
    if not others:
        return head + zsh_call(zsh_words(own), '-s -S', '')
    named = ' '.join(re.sub(r'([:() ])', r'\\\1', it.name) + '\\:' + zsh_text(it.help)
                     for it in others)
    words = [*zsh_words(own), quoted(f'1:command:(({named}))'), quoted('*::word:->word')]
    text = head + 'local curcontext="$curcontext" context state line\ntypeset -A opt_args\n'
    text += zsh_call(words, '-C', '') + '[[ $state == word ]] || return\ncase $words[1] in\n'
    for it in others:
        text += f'{it.name})\n{zsh_call(zsh_words(it), "-s", "    ")}    ;;\n'
    return text + 'esac\n'


def zsh_text(text: str) -> str:
    """The help of a command in a list of values."""
    return '"' + re.sub(r'([\\":`$])', r'\\\1', text) + '"'


def for_fish(name: str, commands: List[Command]) -> str:
    """What fish reads."""
    begin = f'complete -c {name}'
    lines = [f'# Completes the words after {name} in fish.', f'{begin} -f']
    for it in commands:
        when = ' -n __fish_use_subcommand' if len(commands) > 1 else ''
        if it.name:
            lines.append(f'{begin}{when} -a {it.name} -d {fish_text(it.help)}')
            when = f' -n {fish_text(f"__fish_seen_subcommand_from {it.name}")}'
        for word in it.options():
            names = ''.join(f' -{"l" if one.startswith("--") else "s"} {one.lstrip("-")}'
                            for one in word.names)
            takes = ' -r' if word.takes else ''
            lines.append(f'{begin}{when}{names}{takes}{fish_way(word)} -d {fish_text(word.help)}')
        lines += dict.fromkeys(begin + when + fish_way(word) for word in it.operands())
    return listed(lines)


def fish_way(word: Word) -> str:
    """How fish completes a value, or a word without a name."""
    if word.values:
        return f' -f -a {fish_text(" ".join(word.values))}'
    if word.takes in FILES:
        return ' -F'
    return " -f -a '(__fish_complete_directories)'" if word.takes in FOLDERS else ' -f'


def fish_text(text: str) -> str:
    """A word of fish that is this text."""
    return "'" + text.replace('\\', '\\\\').replace("'", "\\'") + "'"


SHELLS = {'bash': for_bash, 'zsh': for_zsh, 'fish': for_fish}


def commands_of(program: List[str]) -> List[Command]:
    """The commands of a program, or of the companion where it is a folder of modules."""
    if os.path.isdir(program[0]):
        sys.path.insert(0, program[0])
        return of_parser(importlib.import_module('seldomplough.cli').parser())
    said = subprocess.run([*program, '--help'], check=True, stdout=subprocess.PIPE)
    found = of_help(said.stdout.decode())
    if not found[0].words:
        raise ValueError('its help names no option')
    return found


def main() -> int:
    if len(sys.argv) < 4 or sys.argv[1] not in SHELLS:
        print(__doc__, file=sys.stderr)
        return 2
    shell, name, *program = sys.argv[1:]
    try:
        print(SHELLS[shell](name, commands_of(program)), end='')
    except (OSError, ValueError, ImportError, subprocess.SubprocessError) as why:
        print(f'completions: {program[-1]}: {why}', file=sys.stderr)
        return 1
    return 0


if __name__ == '__main__':
    sys.exit(main())
