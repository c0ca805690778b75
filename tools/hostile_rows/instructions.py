"""Rows of how many instructions the plain program takes, as valgrind counts them."""
import re
import shutil

from .runs import finished, started

# The commands that begin to follow a satellite, each with what it and a `stop` may take more than
# two stops that are refused. By themselves they take 2,418 and 2,163 in the build for any x86-64,
# 1,553 and 1,293 in that for v3: they set some hundred words in place. A slot has 8,900 bytes and
# more, since a message is read in it. valgrind counts each of them where the C library copies so
# many: with one copy of a slot, a hold and its `stop` took 8,200 more in both builds.
BEGIN = {b'track 0 3 100 200': 4000, b'hold 0 3 100 200': 3000}

# A command that is refused.
REFUSED = b'stop 0'

# How many commands stop the slot in a short run, and in a long one: as many begin something. What a
# run takes besides is the same in both.
SHORT, LONG = 500, 2500


def counted(programs, begin, count):
    """How many instructions a run takes in which a command and `stop` come by turns, one at each
    sample. It ends with status 0 and a line for each command, or nothing is counted."""
    script = programs.file('turns', b''.join(
        b'%d %s\n%d stop 0\n' % (2 * k, begin, 2 * k + 1) for k in range(count)))
    outcome = finished(started('exec "$@"', [
        'valgrind', '--tool=callgrind', '--callgrind-out-file=/dev/null', programs.receiver, script,
    ]), bytes(count // 4))
    answers = [line.split()[2] for line in outcome.lines.splitlines()]
    found = re.search(rb'Collected : (\d+)', outcome.errors)
    answer = b'err' if begin == REFUSED else b'ok'
    if outcome.status or answers != [answer] * 2 * count + [b'end'] or not found:
        return None
    return int(found[1])


def accepted_starts(programs, rows):
    """An accepted start copies no slot. The proved program clears a slot with each, and isn't
    counted."""
    if not programs.is_plain:
        return
    if not shutil.which('valgrind'):
        print('hostile: there is no valgrind, so no instructions are counted', flush=True)
        return
    runs = {(begin, count): counted(programs, begin, count)
            for begin in (REFUSED, *BEGIN) for count in (SHORT, LONG)}
    if None in runs.values():
        rows.say('instructions of an accepted start', ['nothing is counted'])
        return
    each = {begin: (runs[begin, LONG] - runs[begin, SHORT]) / (LONG - SHORT)
            for begin in (REFUSED, *BEGIN)}
    for begin, most in BEGIN.items():
        taken = each[begin] - each[REFUSED]
        rows.say(f'instructions of an accepted start, {begin.decode()}',
                 [f'{taken:.0f}, more than {most}'] * (taken > most))


ROWS = (accepted_starts,)
