"""Rows of too little stack, too little address space, and memory that is refused."""
import os
import re
import signal
from collections import Counter

from .cases import Case, one_line, packed, searches
from .runs import Wanted, run

# The KiB of stack that are enough for every run, and how many more bytes of environment the system
# still passes beside it.
STACK = 512
MOST_ENVIRONMENT = 120 << 10
# The KiB of address space that a sweep begins with, those of a page, and where the last run without
# long scripts is whole.
LEAST_SPACE, PAGE, MOST_SPACE = 2048, 4, 20480
# How many KiB after the first whole run a sweep goes on.
BEHIND = 384
# The bytes of the scripts that memory is swept with, one of them or eight.
SCRIPTS = 1, 64 << 10, 1 << 20, 16 << 20
# How far apart the limits are from so many KiB of scripts on: up to the first whole run, and near
# it. The longer the scripts, the longer each run reads them.
STEPS = (128 << 10, 1792, 64), (16 << 10, 448, PAGE), (1 << 10, 32, PAGE), (0, PAGE, PAGE)

# What Rust's own std says before it aborts: it was refused little, as docs/PLAIN.md has it.
ABORTED = re.compile(rb'(?:(?!memory allocation of \d{6})[^\0])*')

# How many bytes Rust's own std asked for when it aborts.
ASKED = re.compile(rb'memory allocation of (\d+) bytes failed')
# The bytes of short and of longer scripts, and the most of the first ones that std has room for.
SHORT, LONGER, FIRST = (29, 31), (100, 1000), 32

# A library that refuses one request for memory, and then makes a file that says so.
REFUSER = r'''
#include <errno.h>
#include <fcntl.h>
#include <stdlib.h>
#include <unistd.h>
void *__libc_malloc(size_t), *__libc_calloc(size_t, size_t), *__libc_realloc(void *, size_t);
void *__libc_memalign(size_t, size_t);
static long count, last;
static int refused(void) {
    if (!last) last = getenv("REFUSE") ? atol(getenv("REFUSE")) : -1;
    if (++count != last) return 0;
    close(open(getenv("REFUSED"), O_CREAT | O_WRONLY, 0600));
    errno = ENOMEM;
    return 1;
}
void *malloc(size_t n) { return refused() ? 0 : __libc_malloc(n); }
void *calloc(size_t n, size_t m) { return refused() ? 0 : __libc_calloc(n, m); }
void *realloc(void *p, size_t n) { return refused() ? 0 : __libc_realloc(p, n); }
int posix_memalign(void **p, size_t a, size_t n) {
    *p = refused() ? 0 : __libc_memalign(a, n);
    return *p ? 0 : ENOMEM;
}
'''


def cases_of(programs):
    """What is run with too little of everything."""
    many = searches(programs, 8, 8)
    yield '64 slots that search', many
    yield 'a slot that searches', searches(programs, 1, 1)
    yield 'pack', packed(programs, 1000)
    for name, program in ('--help', programs.receiver), ('pack --help', programs.pack):
        command = [program, '--help']
        yield name, Case(command, b'', run('exec "$@"', command).lines)


def called(case, programs):
    """What a program calls itself."""
    return 'pack' if case.command[0] == programs.pack else 'receiver'


def stack(programs, rows):
    """The stack that is enough, with little in the environment and with much."""
    for name, case in cases_of(programs):
        for filler in 0, MOST_ENVIRONMENT:
            line = (f'export FILLER=$(head -c {filler} /dev/zero | tr "\\0" x); '
                    f'ulimit -s {STACK}; exec "$@"')
            rows.see(f'{STACK} KiB of stack, {filler} bytes of environment, {name}',
                     run(line, case.command, case.given), Wanted(0, b'', case.lines))


def answers(programs, case):
    """What may come of a run with too little memory: one line on standard error and no other, or
    all lines. Rust's own std aborts the plain build instead, and writes no line either."""
    text = f'{called(case, programs)}: no memory\n'.encode()
    allowed = [Wanted(1, text), Wanted(0, b'', case.lines)]
    return allowed + [Wanted(-signal.SIGABRT, ABORTED)] * programs.is_plain


def differs(outcome, wanted):
    """Whether an outcome is none of those that are wanted."""
    return all(any(one.faults(outcome)) for one in wanted)


def told(outcome):
    """An outcome in words."""
    return (f'status {outcome.status}, {len(outcome.lines)} bytes of lines, '
            f'{outcome.errors[:60]!r}')


def of_the_system(outcome):
    """Whether the system had no room for the program itself: its loader ends with 127."""
    return outcome.status in (127, -signal.SIGKILL) and not outcome.lines


class Sweep:
    """Runs of a case with limits of the address space."""

    def __init__(self, case, wanted):
        self.case, self.wanted, self.wrong = case, wanted, {}

    def run(self, space):
        """Whether a run with so many KiB is whole. One that isn't wanted is noted."""
        # Of thousands of runs the shell took a good part. As `sh` most systems have a small one.
        outcome = run(f'ulimit -v {space}; exec "$@"', self.case.command, self.case.given,
                      shell='sh')
        if not of_the_system(outcome) and differs(outcome, self.wanted):
            self.wrong.setdefault(told(outcome), []).append(space)
        return outcome.status == 0

    def faults(self, least, most, step=PAGE, near=PAGE):
        """What was wrong from too little space up to enough, in KiB: by so many at a time up to
        the first whole run, and by fewer near it, from a step and STACK KiB before it on, or from
        it on where these were tried already."""
        first = next((it for it in range(least, most, step) if self.run(it)), None)
        if first is None:
            return [*self.noted(), 'no run was whole']
        whole, space = 0, first if near == step else max(least, first - step - STACK)
        while whole <= BEHIND // near and space < most + STACK:
            whole += self.run(space)
            space += near
        return self.noted()

    def noted(self):
        """The outcomes that aren't wanted, with the least and the greatest limit of each."""
        return [f'{min(spaces)} to {max(spaces)} KiB: {text}'
                for text, spaces in self.wrong.items()]


def address_space(programs, rows):
    """Limits of the address space, page by page, from too little up to enough."""
    for name, case in cases_of(programs):
        rows.say(f'address space, {name}',
                 Sweep(case, answers(programs, case)).faults(LEAST_SPACE, MOST_SPACE))


def long_scripts(programs, rows):
    """Limits of the address space with scripts of all sizes."""
    for size in SCRIPTS:
        for count in 1, 8:
            case = one_line(programs, size, count)
            held = size * count >> 10
            steps = next(steps for least, *steps in STEPS if held >= least)
            rows.say(f'address space, {count} scripts of {size} bytes',
                     Sweep(case, answers(programs, case))
                     .faults(LEAST_SPACE + held, MOST_SPACE + 4 * held, *steps))


def refused_in_turn(case, library, mark):
    """The outcomes with one request for memory refused, the first, the second and so on."""
    number = 0
    while True:
        number += 1
        line = (f'ulimit -c 0; export REFUSE={number} REFUSED={mark} LD_PRELOAD={library}; '
                'exec "$@"')
        outcome = run(line, case.command, case.given)
        if not os.path.exists(mark):
            return
        os.remove(mark)
        yield number, outcome


def refusals(programs, rows):
    """Each request for memory refused in turn."""
    library = programs.library('refuser', REFUSER)
    if library is None:
        print('hostile: no cc makes a library here, so no memory is refused in turn')
        return
    for name, case in cases_of(programs):
        wanted, wrong, number = answers(programs, case), [], 0
        for number, outcome in refused_in_turn(case, library, f'{library}.mark'):
            if differs(outcome, wanted):
                wrong.append(f'request {number}: {told(outcome)}')
        rows.say(f'memory refused in turn, {name}, {number} requests',
                 wrong if number else ['none was refused'])


def aborts(case, library):
    """How often a program was aborted for want of so many bytes."""
    outcomes = refused_in_turn(case, library, f'{library}.mark')
    return Counter(int(it) for _, outcome in outcomes
                               for it in ASKED.findall(outcome.errors))


def first_bytes(programs, rows):
    """Of what is asked for by a script's length, Rust's own std is aborted for want of the room for
    its first bytes alone. The proved program never is."""
    library = programs.library('refuser', REFUSER)
    if library is None:
        return

    def of(size):
        script = programs.file('first.script', b'0 state 0\n'.ljust(size, b'\n'))
        return aborts(Case([programs.receiver, script], b'', b''), library)

    usual = of(LONGER[0])
    wanted = {size: programs.either({}, usual - Counter({FIRST: 1}) + Counter({size: 1})) for size in SHORT}
    wanted[LONGER[1]] = programs.either({}, usual)
    rows.say('aborts by the length of a script',
             [f'{size} bytes: {dict(found)}, not {dict(it)}' for size, it in wanted.items()
              if (found := of(size)) != it])


ROWS = stack, address_space, long_scripts, refusals, first_bytes
