"""Rows of options and scripts: what is read, in which order faults come, and what is printed."""
import os
import re

from .runs import PARSER, Outcome, Wanted, run

# Samples of two bits: +3, -3, +1 and -1.
TWO_BIT_SAMPLES = b'\x72'
# Holds satellite 1 in its last chip, and asks for one dump.
LAST_CHIP = b'0 hold 0 1 0 2044\n0 counts 0 1\n'
# A library by which the first read of a file gives one byte, and the next one fails.
BREAKS_OFF = r'''
#include <errno.h>
#include <sys/syscall.h>
#include <unistd.h>
ssize_t read(int file, void *to, size_t size) {
    static int count;
    if (file <= 2) return syscall(SYS_read, file, to, size);
    if (!count++) return syscall(SYS_read, file, to, size ? 1 : 0);
    errno = EIO;
    return -1;
}
'''
# What is said of an offset below zero, after the option parser's own text.
SIGNED = re.compile(rb'error: [^\0]+\n'
                    rb'receiver: --offset takes no sign: --offset 5000 --minus is -5000 Hz\n')
# What the help has to say, among all else.
OF_THE_HELP = (b'receiver [OPTIONS] [SCRIPT]...', b'count S IE QE IP QP IL QL',
               b'T track S PRN DOPPLER HALF', b'T acquire S PRN CENTRE BINS MS THRESHOLD',
               b'--shares <DIGITS>', b'half the rate; see --minus',
               b'covers the rest of\nthe code only, which is (2046 - HALF)/2 chips.',
               b'0  the samples came to their end')


class Table:
    """Rows of words of the receiver, run in the folder of the rows' files."""

    def __init__(self, programs, rows):
        self.programs, self.rows = programs, rows
        self.samples = programs.file('one_byte', b'\0')

    def script(self, name, text):
        """Writes a script into the folder, and gives its name."""
        self.programs.file(name, text)
        return name

    def run(self, words, given=b'', **streams):
        """The outcome of the receiver with these words."""
        line = f'cd {self.programs.folder}; exec "$@"'
        return run(line, [self.programs.receiver, *words], given, **streams)

    def prints(self, words, given, lines):
        """The receiver runs over these samples and prints these lines, and nothing else."""
        name = b' '.join(map(os.fsencode, words))
        self.rows.see(f'receiver {name!r} over {given!r}', self.run(words, given),
                      Wanted(0, b'', lines))

    def ends(self, words, wanted):
        """The receiver ends so, and has read no sample."""
        name = b' '.join(map(os.fsencode, words))
        with open(self.samples, 'rb', buffering=0) as samples:
            outcome = self.run(words, stdin=samples)
            if samples.tell():
                outcome = Outcome(outcome.status, outcome.lines, b'it has read samples')
        self.rows.see(f'receiver {name!r}', outcome, wanted)

    def refuses(self, words, text, status=2):
        """The receiver ends with this line on standard error alone, and has read no sample."""
        self.ends(words, Wanted(status, b'receiver: %s\n' % text))


def recordings(programs, rows):
    """Options of a recording. Without a file there is one empty script."""
    table = Table(programs, rows)
    table.prints([], b'', b'1 0 end\n')
    table.prints([], b'\0', b'1 8 end\n')
    table.prints(['--format', 'real2'], b'\0', b'1 4 end\n')
    table.prints(['--offset', '1023000', '--minus'], b'', b'1 0 end\n')
    # The carrier turns a quarter a sample, forwards or backwards: its cosines are 2, -1, -2, 1 or
    # 2, 1, -2, -1, its sines 1, 2, -1, -2 or 1, -2, -1, 2. The chip before the last and the last
    # are +1, the first is -1, and the early code comes to it with the third sample.
    quarter = ['--rate', '4092000', '--offset', '1023000', '--format', 'real2',
               table.script('last_chip', LAST_CHIP)]
    table.prints(quarter, TWO_BIT_SAMPLES,
                 b'1 0 ok\n1 0 ok\n1 4 count 0 12 4 6 2 6 2\n1 4 end\n')
    table.prints([*quarter, '--minus'], TWO_BIT_SAMPLES,
                 b'1 0 ok\n1 0 ok\n1 4 count 0 4 -12 2 -6 2 -6\n1 4 end\n')


def refusals(programs, rows):
    """Options that are refused: the rate before the offset, this before shares and scripts."""
    table = Table(programs, rows)
    for rate in '2045999', '20000001':
        table.refuses(['--rate', rate], b'rate')
    table.refuses(['--rate', '0', '--offset', '4294967295'], b'rate')
    table.refuses(['--offset', '1023001'], b'offset')
    table.refuses(['--offset', '1023001', '--minus'], b'offset')
    table.refuses(['--offset', '1023001', 'there_is_none'], b'offset')
    table.refuses(['--offset', '1023001', '--shares', '9'], b'offset')
    for words in (['--speed', '1'], ['--rate', 'fast'], ['--rate', '4294967296'],
                  ['--format', 'real3'], ['--offset', '--minus'], ['--rate', '-5000']):
        table.ends(words, Wanted(2, PARSER))
    for words in ['--offset', '-5000'], ['--offset=-5000'], ['--minus', '--offset', '-0', 'script']:
        table.ends(words, Wanted(2, SIGNED))


def the_help(programs, rows):
    """The help says what the manual page has, on standard output."""
    table = Table(programs, rows)
    shown = table.run(['--help'])
    lacks = [f'it lacks {text!r}' for text in OF_THE_HELP if text not in shown.lines]
    rows.say('receiver --help', lacks + list(Wanted(0, b'', shown.lines).faults(shown)))


def scripts(programs, rows):
    """Files of scripts, in their order, each a client's; or that can't be read."""
    table = Table(programs, rows)
    for words in (['there_is_none'], ['.'], ['/proc/self/mem'], ['--minus', 'no_script'],
                  ['there_is_none'] * 9):
        table.refuses(words, b'script')
    slots = [table.script(f'slot_{slot}', b'0 state %d\n' % slot) for slot in range(4)]
    table.prints(slots[3:], b'', b'1 0 state 3 idle\n1 0 end\n')
    ends = b'1 0 end\n2 0 end\n'
    for one, other in (0, 1), (1, 0), (3, 3):
        table.prints([slots[one], slots[other]], b'',
                     b'1 0 state %d idle\n2 0 state %d idle\n' % (one, other) + ends)
    table.prints([slots[2], slots[3], table.script('fly', b'0 fly\n')], b'',
                 b'1 0 state 2 idle\n2 0 state 3 idle\n3 0 err 5\n' + ends + b'3 0 end\n')
    table.refuses([slots[3]] * 9, b'clients', 1)


def file_that_breaks_off(programs, rows):
    """A script of which a byte is read, and no more."""
    library = programs.library('breaks_off', BREAKS_OFF)
    if library is None:
        print('hostile: no cc makes a library here, so no script breaks off')
        return
    script = programs.file('breaks_off', b'0 state 0\n')
    for name, line, wanted in (
            ('whole', 'exec "$@"', Wanted(0, b'', b'1 0 state 0 idle\n1 0 end\n')),
            ('that breaks off', f'export LD_PRELOAD={library}; exec "$@"',
             Wanted(2, b'receiver: script\n'))):
        rows.see(f'a script {name}', run(line, [programs.receiver, script]), wanted)


def shares(programs, rows):
    """A digit from 1 to 8 for each script, and one where there is none."""
    table = Table(programs, rows)
    last, second = table.script('last_slot', b'0 state 7\n'), table.script('slot_1', b'0 state 1\n')
    table.prints(['--shares', '81', last, second], b'',
                 b'1 0 state 7 idle\n2 0 err 8\n1 0 end\n2 0 end\n')
    table.prints(['--shares', '1'], b'', b'1 0 end\n')
    for digits in '0', '9', '44', '4x', '+4', ' 4', 'x':
        table.refuses(['--shares', digits], b'shares')
    for digits, *names in (('4', 'one', 'two'), ('49', 'one', 'two'), ('4' * 9, 'none')):
        table.refuses(['--shares', digits, *names], b'shares')
    table.refuses(['--shares', '48', 'one', 'two'], b'script')


def names(programs, rows):
    """Names of scripts beyond ASCII. One that isn't UTF-8 isn't taken for the file whose name has
    U+FFFD in the place of what is wrong."""
    table = Table(programs, rows)
    for name in '\ufffd', '\u00e9\ufffd':
        table.prints([table.script(name, b'')], b'', b'1 0 end\n')
    table.refuses([b'\xff'], b'script')


ROWS = recordings, refusals, the_help, scripts, file_that_breaks_off, shares, names
