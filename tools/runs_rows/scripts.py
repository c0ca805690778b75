"""Scripts whose lines are refused, and small recordings that can be added up by hand."""
from .made_signal import code_file

# Lines that are refused at time 0, whatever is before them, and the numbers of their refusals.
REFUSED_AT_0 = (
    ('0 state 0\r', 2),
    ('00000000000000 state 0', 3),
    ('-0 state 0', 3),
    ('x', 3),
    ('1099511627777 state 0', 3),
    ('0 State 0', 5),
    ('0', 5),
    ('0 Track 0 1 0 0', 5),
    ('0 Acquire 0 1 0 0 1 20', 5),
    ('0 state 0 0', 6),
    ('0 track 0 1 0', 6),
    ('0 track 0 1 0 0 0', 6),
    ('0 hold 0 1 0 0 0', 6),
    ('0 state 00000000000000', 7),
    ('0 state --0', 7),
    ('0 hold 0 1 -16001 x', 8),
    ('0 hold 0 33 0 0', 8),
    ('0 hold 0 0 0 0', 8),
    ('0 hold 0 1 0 2046', 8),
    ('0 track 0 1 16001 x', 8),
    ('0 track 0 1 -16001 x', 8),
    ('0 track 0 33 0 0', 8),
    ('0 track 0 0 0 0', 8),
    ('0 track 0 1 0 2046', 8),
    ('0 counts 0 1000001', 8),
)

# Lines that are refused at time 6, and the numbers of their refusals.
REFUSED_AT_6 = (
    ('6 fly 0', 5),
    ('6 stop', 6),
    ('6 stop z', 7),
    ('6 hold 0 z 0 0', 7),
    ('6 track 0 z 0 0', 7),
    ('6 track 0 1 - 0', 7),
    ('6 track 0 1 16000 2046x', 7),
    ('6 hold 4 z 0 0', 8),
    ('6 track 4 z 0 0', 8),
)

# Searches that are refused at time 6, and the numbers of their refusals.
REFUSED_SEARCHES = (
    ('6 acquire', 6),
    ('6 acquire 0', 6),
    ('6 acquire 0 1 0 0 1', 6),
    ('6 acquire 0 1 0 0 1 20 0', 6),
    ('6 acquire 0 1 0 0 1 20 0 0', 6),
    ('6 acquire 4 z', 6),
    ('6 acquire z 1 0 0 1 20', 7),
    ('6 acquire 0 z 0 0 1 20', 7),
    ('6 acquire 0 1 z 0 1 20', 7),
    ('6 acquire 0 1 0 z 1 20', 7),
    ('6 acquire 0 1 0 0 z 20', 7),
    ('6 acquire 0 1 0 0 1 z', 7),
    ('6 acquire 4 1 0 0 1 20', 8),
    ('6 acquire -1 1 0 0 1 20', 8),
    ('6 acquire 0 0 0 0 1 20', 8),
    ('6 acquire 0 33 0 0 1 20', 8),
    ('6 acquire 0 1 -6001 0 1 20', 8),
    ('6 acquire 0 1 6001 0 1 20', 8),
    ('6 acquire 0 1 9999999999999 0 1 20', 8),
    ('6 acquire 0 1 0 -1 1 20', 8),
    ('6 acquire 0 1 0 41 1 20', 8),
    ('6 acquire 0 1 0 4294967296 1 20', 8),
    ('6 acquire 0 1 0 0 0 20', 8),
    ('6 acquire 0 1 0 0 11 20', 8),
    ('6 acquire 0 1 0 0 1 0', 8),
    ('6 acquire 0 1 0 0 1 1001', 8),
    ('6 acquire 4 z 0 0 1 20', 8),
    ('6 acquire z 0 0 0 1 20', 7),
    ('6 acquire 0 0 z 0 1 20', 8),
    ('6 acquire 0 z 6001 0 1 20', 7),
    ('6 acquire 0 1 6001 z 1 20', 8),
    ('6 acquire 0 1 z 41 1 20', 7),
    ('6 acquire 0 1 0 41 z 20', 8),
    ('6 acquire 0 1 0 z 0 20', 7),
    ('6 acquire 0 1 0 0 0 z', 8),
    ('6 acquire 0 1 0 0 z 0', 7),
)


def every_refusal(runs):
    """By one byte there are eight samples, so the line at 9 is never answered. A slot 4 is out of
    range before `z` is looked at."""
    script = ('5 hold 0 1 0 0\n'
              '4 stop 0\n'
              'x\n'
              '6 fly 0\n'
              '6 stop\n'
              '6 stop z\n'
              '6 hold 4 z 0 0\n'
              '6 hold 0 z 0 0\n'
              '6 hold 0 1 0 0\n'
              '6 stop 1\n'
              '9 stop 0\n')
    runs.see('every refusal', [script], bytes(1),
             '1 5 ok\n'
             '1 5 err 4\n'
             '1 5 err 3\n'
             '1 6 err 5\n'
             '1 6 err 6\n'
             '1 6 err 7\n'
             '1 6 err 8\n'
             '1 6 err 7\n'
             '1 6 err 9\n'
             '1 6 err 10\n'
             '1 8 end\n')


def long_and_unprintable_lines(runs):
    """A line of 81 bytes, and bytes that are no text."""
    scripts = ['x' * 81, '0 state 0\r\n0 state\x7f0\n0 state 0']
    runs.see('long and unprintable lines', scripts, b'',
             '1 0 err 1\n'
             '2 0 err 2\n'
             '2 0 err 2\n'
             '2 0 state 0 idle\n'
             '1 0 end\n'
             '2 0 end\n')


def hostile_script(runs):
    """Line by line: 81 bytes are too many; 80 spaces and an empty line have no words and are
    skipped; 14 digits, and a sign, make no time; `-0` and `00` are the slot 0; 14 digits and two
    signs make no number; a verb has lower case; there has to be one; `state` takes one word; the
    shift is out of range before `x` is looked at; so is the number of counts; the slot is idle;
    2^40 + 1 is no time; spaces at the ends and between words are allowed. The last two lines stand
    at 2^40, which no run without samples comes to."""
    script = (' ' * 81 + '\n' + ' ' * 80 + '\n\n'
              '00000000000000 state 0\n'
              '-0 state 0\n'
              '0 state -0\n'
              '0 state 00\n'
              '0 state 00000000000000\n'
              '0 state --0\n'
              '0 State 0\n'
              '0\n'
              '0 state 0 0\n'
              '0 hold 0 1 -16001 x\n'
              '0 counts 0 1000001\n'
              '0 counts 0 1\n'
              '1099511627777 state 0\n 0   state  3 \n'
              '1099511627776 state 0\n'
              '0 stop 0\n')
    runs.see('a hostile script', [script], b'',
             '1 0 err 1\n'
             '1 0 err 3\n'
             '1 0 err 3\n'
             '1 0 state 0 idle\n'
             '1 0 state 0 idle\n'
             '1 0 err 7\n'
             '1 0 err 7\n'
             '1 0 err 5\n'
             '1 0 err 5\n'
             '1 0 err 6\n'
             '1 0 err 8\n'
             '1 0 err 8\n'
             '1 0 err 10\n'
             '1 0 err 3\n'
             '1 0 state 3 idle\n'
             '1 0 end\n')


def first_cases(runs):
    """A line is refused by the first case that it meets, and a search by the first of its words
    that is no number or is out of range. A line with no time stands at that of the line before."""
    refused = [(0, *row) for row in REFUSED_AT_0]
    refused += [(6, *row) for row in REFUSED_AT_6 + REFUSED_SEARCHES]
    runs.see('the first case of each line', [''.join(f'{line}\n' for _, line, _ in refused)],
             bytes(1), ''.join(f'1 {time} err {case}\n' for time, _, case in refused) + '1 8 end\n')


def times_go_on(runs):
    """A line refused by 4 or 3 stands at the time of the line before, and leaves it as it was. One
    refused by 5 to 8 moves the time on to its own."""
    for script, lines in (
            ('5 hold 0 1 0 0\n4 stop 0\n5 stop 0', ('5 ok', '5 err 4', '5 ok')),
            ('5 track 0 1 0 0\n4 track 0 1 0 0\n5 track 1 1 0 0', ('5 ok', '5 err 4', '5 ok')),
            ('7 state 1\nx\n7 state 2\n', ('7 state 1 idle', '7 err 3', '7 state 2 idle')),
            ('1 state 1\n\n6 counts 0\n6 state 2',
             ('1 state 1 idle', '6 err 6', '6 state 2 idle')),
            ('6 fly 0\n5 stop 0', ('6 err 5', '6 err 4'))):
        runs.see(f'times of {script!r}', [script], bytes(1),
                 ''.join(f'1 {line}\n' for line in (*lines, '8 end')))


def lines_without_words(runs):
    """A line of spaces, or of none, has no answer, unless it is longer than 80 bytes."""
    for script, lines in ((' ' * 81, '1 0 err 1\n'), (' ' * 80, ''), ('', ''), ('\n\n \n', '')):
        runs.see(f'{len(script)} bytes without words', [script], b'', f'{lines}1 0 end\n')


def refused_restart(runs):
    """The refused track changes nothing: the dump is that of the hold before it."""
    script = '0 hold 0 1 0 0\n0 counts 0 1\n1000 track 0 1 0 0\n'
    runs.see('a track of a slot that holds', [script], code_file(),
             '1 0 ok\n'
             '1 0 ok\n'
             '1 1000 err 9\n'
             '1 2046 count 0 2044 -1022 4092 -2046 2044 -1022\n'
             '1 2048 end\n')
    script = ('0 track 0 1 0 0\n'
              '0 state 0\n'
              '0 stop 0\n'
              '0 stop 0\n'
              '0 hold 4 1 0 0\n'
              '0 hold 0 33 0 0\n'
              '0 hold 0 0 0 0\n')
    runs.see('a track, and holds out of range', [script], b'',
             '1 0 ok\n'
             '1 0 state 0 track 1 0 0 0 open\n'
             '1 0 ok\n'
             '1 0 err 10\n'
             '1 0 err 8\n'
             '1 0 err 8\n'
             '1 0 err 8\n'
             '1 0 end\n')


def idle_and_busy_slots(runs):
    """A slot that follows nothing has nothing to count or to stop. One that holds, tracks or
    searches refuses all that would begin. -1,000 Hz are -65,536,000 in 1/65536 Hz, and a search of
    one bin has 2,046 cells. The samples bring nothing of what was stopped before them: of each
    hold and track the first dump would come with the next sample."""
    idle = ('counts 0 3', 'err 10'), ('stop 0', 'err 10'), ('state 0', 'state 0 idle')
    asked = list(idle)
    for begin, satellite, shown in (('hold 0 1 0 2045', 1, 'hold 1 0'),
                                    ('track 0 3 -1000 2045', 3, 'track 3 0 -65536000 0 open'),
                                    ('acquire 0 4 0 0 1 10', 4, 'acquire 4 0 2046')):
        asked += [(begin, 'ok'),
                  (f'hold 0 {satellite} 0 2045', 'err 9'),
                  (f'track 0 {satellite} 0 2045', 'err 9'),
                  (f'acquire 0 {satellite} 0 0 1 10', 'err 9'),
                  ('counts 0 3', 'ok'),
                  ('state 0', f'state 0 {shown}'),
                  ('stop 0', 'ok'), *idle]
    script, lines = (''.join(f'{begin}{time} {row[place]}\n' for time in (0, 5) for row in asked)
                     for place, begin in ((0, ''), (1, '1 ')))
    runs.see('idle and busy slots', [script], bytes(1), f'{lines}1 8 end\n')


def early_wraps(runs):
    """The slot begins half a chip before the end of the code, so its first segment is one sample.
    Chips 1,022 and 0 of satellite 1 are 0 and 1. The sample and the prompt and late chip are chip
    1,022; the early chip is that of the next period, and of the other sign."""
    runs.see('the early chip wraps', ['2045 hold 0 1 0 2045\n2045 counts 0 1'], code_file(),
             '1 2045 ok\n'
             '1 2045 ok\n'
             '1 2046 count 0 -2 1 2 -1 2 -1\n'
             '1 2048 end\n')


def dumps_come_with_their_samples(runs):
    """Three holds in samples of value 1: with how many samples the first dump comes, and its sums.
    The second comes 2,046 samples later.

    Satellite 1 at 0 Hz begins half a chip before the end of its code, or two chips before it. Its
    chips 1,020 to 1,022 are 0 and chip 0 is 1, so all products are 2 and -1, but of the other sign
    for the last early chip, which is of the next period. Satellite 7 at -1,000 Hz is a little
    slower than half a chip a sample, so it takes a sample more. Of it too chip 1,022 is 0 and
    chip 0 is 1. The carrier's pairs are 2, 1 and then 2, -1: it has turned a little less than a
    whole cycle back.

    A slot that is asked for its state takes the samples so far, and else lets them wait. A client
    beside it cuts its runs. The dump is the same."""
    for satellite, start, due, sums in ((1, '0 2045', 1, '-2 1 2 -1 2 -1'),
                                        (7, '-1000 2045', 2, '-4 0 4 0 4 0'),
                                        (1, '0 2042', 4, '4 -2 8 -4 8 -4')):
        name = f'a dump of {satellite} at {start}'
        script = f'0 hold 0 {satellite} {start}\n0 counts 0 1\n'
        held = f'state 0 hold {satellite}'
        count = f'1 {due} count 0 {sums}\n'
        after = (due, 1), (due + 2045, 1), (due + 2046, 2)
        for first in range(due + 1):
            before = range(first, due)
            states = ''.join(f'{time} state 0\n' for time in (*before, *dict(after)))
            runs.see(f'{name}, asked from {first} on', [script + states], bytes(257),
                     '1 0 ok\n1 0 ok\n' + ''.join(f'1 {time} {held} 0\n' for time in before) +
                     count + ''.join(f'1 {time} {held} {dumps}\n' for time, dumps in after) +
                     '1 2056 end\n', pieces=(1, 257))
        runs.see_cut(name, [script], bytes(2), f'1 0 ok\n1 0 ok\n{count}1 16 end\n', steps=(1, 3))


def four_samples(runs):
    """At four samples a chip, with the carrier a quarter of a cycle a sample, and the slot at the
    last chip's begin.

    The samples of 72 are 3, -3, 1, -1, a quarter of a cycle apart, where the carrier's pairs are
    (2, 1), (-1, 2), (-2, -1), (1, -2). At four samples a chip they are chip 1,022, which is 0 as
    chip 1,021 is. The early chip of the last two is chip 0, which is 1: so the in-phase products
    are 6, 3, -2, -1 with the prompt and the late chip, and 6, 3, 2, 1 with the early one; the
    quadrature products are -3, 6, 1, -2 and -3, 6, -1, 2.

    Complex samples meet the same carrier and the same chips. A sample (x, y) with the pair (c, s)
    gives x c + y s in phase, and y c - x s in quadrature. The byte 1b as `iq1` is (1, 1), (1, -1),
    (-1, 1), (-1, -1): the products are (3, 1), (-3, -1), (1, -3), (1, -3). The bytes 4b 2d as
    `iq2` are (3, 1), (-1, -3), (1, -1), (-3, 3): the products are (7, -1), (-5, 5), (-1, 3),
    (-9, -3)."""
    for packing, samples, sums in (('real2', '72', '12 4 6 2 6 2'),
                                   ('iq1', '1b', '-2 6 2 -6 2 -6'),
                                   ('iq2', '4b2d', '12 4 -8 4 -8 4')):
        runs.see(f'four samples of {packing}', ['0 hold 0 1 0 2044\n0 counts 0 1\n'],
                 bytes.fromhex(samples),
                 '1 0 ok\n'
                 '1 0 ok\n'
                 f'1 4 count 0 {sums}\n'
                 '1 4 end\n',
                 '--rate', '4092000', '--offset', '1023000', '--format', packing)


ROWS = (every_refusal, long_and_unprintable_lines, hostile_script, first_cases, times_go_on,
        lines_without_words, refused_restart, idle_and_busy_slots, early_wraps,
        dumps_come_with_their_samples, four_samples)
