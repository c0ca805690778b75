"""Rows of words of the command line, of scripts, and of the number of open files."""
import os
import re

from .cases import Case, example
from .runs import PARSER, Wanted, run

SCRIPT = Wanted(2, b'receiver: script\n')
# The longest script that is read.
MOST = 16 << 20
# The system's longest word is 128 KiB with the zero byte at its end, so one of 1 MB can't be given.
LONGEST_WORD = 131071
# What the system's loader says where it can't open a library.
LOADER = re.compile(rb'.*error while loading shared libraries.*\n')
# A word that isn't UTF-8.
BROKEN = b'a\xff\xfeb'


def words(programs, rows):
    """Many words, long ones, and some that aren't UTF-8."""
    receiver = programs.receiver
    many = 60000
    rows.see(f'{many} words that name no script', run('exec "$@"', [receiver, *['-'] * many]),
             SCRIPT)
    rows.see(f'{many} words that name a script',
             run('exec "$@"', [receiver, *['/dev/null'] * many]),
             Wanted(1, b'receiver: clients\n'))
    for name, word in (('of 128 KiB', b'1' * LONGEST_WORD), ('that isn\'t UTF-8', BROKEN)):
        rows.see(f'a script with a name {name}', run('exec "$@"', [receiver, word]), SCRIPT)
        for option in '--rate', '--offset', '--format', '--shares':
            # Shares are digits, of which the parser knows nothing.
            wanted = Wanted(2, b'receiver: shares\n' if option == '--shares' else PARSER)
            rows.see(f'{option} with a word {name}', run('exec "$@"', [receiver, option, word]),
                     wanted)
    rows.see('an option that isn\'t UTF-8', run('exec "$@"', [receiver, b'--' + BROKEN]),
             Wanted(2, PARSER))
    broken = b'pack: a word of the command line isn\'t UTF-8\n'
    rows.see('pack: a word that isn\'t UTF-8', run('exec "$@"', [programs.pack, BROKEN]),
             Wanted(2, broken))
    rows.see(f'pack: {many} words', run('exec "$@"', [programs.pack, *['-'] * many]),
             Wanted(2, PARSER))


def names(programs, rows):
    """Scripts that aren't files that can be read."""
    paths = {'a folder': '/', 'a missing file': 'no/such', 'a file without end': '/dev/zero',
             'a name of no letters': ''}
    for name, path in paths.items():
        rows.see(f'{name} as a script', run('exec "$@"', [programs.receiver, path]), SCRIPT)
    case = example(programs)
    path = os.path.join(programs.folder, 'piped')
    os.mkfifo(path)
    _, script, *options = case.command
    line = f'cat {script} > {path} & exec "$@"'
    rows.see('a FIFO as a script', run(line, [programs.receiver, path, *options], case.given),
             Wanted(0, b'', case.lines))


def sizes(programs, rows):
    """Scripts of the greatest size, and long lines."""
    ended = b'1 0 end\n'
    for name, text, wanted in (
            ('a script of 16 MiB without words', b'\n' * MOST, Wanted(0, b'', ended)),
            ('a script of 16 MiB and a byte', b'\n' * (MOST + 1), SCRIPT),
            ('a script of one line of 16 MiB', b'0' * MOST, Wanted(0, b'', b'1 0 err 1\n' + ended)),
            ('a script with a word of 1 MB', b'0 state 0' + b'0' * 1000000 + b'\n0 state 0',
             Wanted(0, b'', b'1 0 err 1\n1 0 state 0 idle\n' + ended)),
            ('a script of a million refusals', b'x\n' * 1000000,
             Wanted(0, b'', b'1 0 err 3\n' * 1000000 + ended))):
        path = programs.file('sized', text)
        rows.see(name, run('exec "$@"', [programs.receiver, path]), wanted)


def open_files(programs, rows):
    """Four open files at most: one beside the standard streams, by which scripts come in turn."""
    case = example(programs)
    line = 'ulimit -n 4; exec "$@"'
    rows.see('4 open files', run(line, case.command, case.given), Wanted(0, b'', case.lines))
    eight = Case([programs.receiver, *['/dev/null'] * 8], b'',
                 b''.join(b'%d 0 end\n' % client for client in range(1, 9)))
    rows.see('4 open files, 8 scripts', run(line, eight.command), Wanted(0, b'', eight.lines))
    # The last one that may be open is taken by another file.
    rows.see('4 open files, one taken', run(f'exec 3< /dev/null; {line}', case.command),
             Wanted(127, LOADER), SCRIPT)


ROWS = words, names, sizes, open_files
