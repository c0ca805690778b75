#!/usr/bin/env python3
"""Prints the manual page of the companion, made from the help of its commands.
usage: manual.py PYTHON      the folder that has its modules"""
import argparse
import os
import sys
import time

sys.dont_write_bytecode = True

# In no language but that of manual pages.
MONTHS = ('January', 'February', 'March', 'April', 'May', 'June', 'July', 'August', 'September',
          'October', 'November', 'December')

HEAD = '''.Dd {day}
.Dt SELDOMPLOUGH 1
.Os "Seldomplough {version}"
.Sh NAME
.Nm seldomplough
.Nd the companion of seldomplough-receiver and seldomplough-pack
.Sh SYNOPSIS
.Nm
.Ar command
.Op Ar word ...
.Sh DESCRIPTION
From recordings to answers, and from printed lines to numbers.
Where a command calls the programs
.Nm receiver
and
.Nm pack ,
it takes
.Xr seldomplough-receiver 1
and
.Xr seldomplough-pack 1 .
What follows is what
.Nm
.Ar command
.Fl -help
prints.
'''
FOOT = '''.Sh EXIT STATUS
0 where all went well, 2 where a word of the command line isn't understood, and 1 for all else.
.Sh SEE ALSO
.Xr seldomplough-pack 1 ,
.Xr seldomplough-receiver 1
'''


def day():
    """The day of SOURCE_DATE_EPOCH, or else today, as a manual page has it."""
    it = time.gmtime(int(os.environ.get('SOURCE_DATE_EPOCH', time.time())))
    return f'{MONTHS[it.tm_mon - 1]} {it.tm_mday}, {it.tm_year}'


def literal(text):
    """Lines of a page that stand as they are. No line of them is a command of the page."""
    lines = (line.replace('\\', '\\e').replace('-', '\\-') for line in text.splitlines())
    shown = (f'\\&{line}' if line[:1] in ('.', "'") else line for line in lines)
    return '.Bd -literal\n' + '\n'.join(shown) + '\n.Ed\n'


def main():
    if len(sys.argv) != 2:
        sys.exit(__doc__)
    os.environ['COLUMNS'] = '80'
    sys.path.insert(0, sys.argv[1])
    from seldomplough import __version__
    from seldomplough.cli import parser
    whole = parser()
    [commands] = [it for it in whole._actions if isinstance(it, argparse._SubParsersAction)]
    print(HEAD.format(version=__version__, day=day()), end='')
    print('.Sh COMMANDS')
    for name, command in commands.choices.items():
        print(f'.Ss {name}\n{literal(command.format_help())}', end='')
    print(FOOT, end='')
    return 0


if __name__ == '__main__':
    sys.exit(main())
