"""Satellites that are searched for, and tracked where they are found."""
from .made_signal import code_file

# As many bytes of samples as a dwell of one period needs, with the four samples for each of its
# cells.
DUE_BYTES = 1279
LONG_FILE = code_file(12288)


def code_is_found(runs):
    """The code stands at the third half chip where the search begins: there all products of samples
    and chips are 1, so that the sums are 2,046 times 2 and -1, and the power is 5 times the square
    of 2,046. It is due after a period and four samples for each of the 2,046 cells."""
    script = '2 acquire 0 1 0 0 1 10\n'
    for size, lines in ((DUE_BYTES, '1 2 ok\n1 10232 acq 0 1 found 0 2 20930580\n1 10232 end\n'),
                        (DUE_BYTES - 1, '1 2 ok\n1 10224 end\n')):
        runs.see(f'a search over {size} bytes', [script], LONG_FILE[:size], lines,
                 pieces=(1, 3, 128, 2000))
    runs.see_cut('a search', [script], LONG_FILE[:DUE_BYTES],
                 '1 2 ok\n1 10232 acq 0 1 found 0 2 20930580\n1 10232 end\n', steps=(1, 3))


def equal_cells(runs):
    """With samples that are all 1 each cell's sums are 2 and -1 times two samples for each chip, of
    which all chips of satellite 1 add up to -1. So all powers are 20, and the first cell is named.
    It reaches ten tenths of the mean, and not eleven."""
    for threshold, word in ((10, 'found'), (11, 'none')):
        runs.see(f'equal cells at {threshold} tenths', [f'0 acquire 0 1 0 0 1 {threshold}\n'],
                 bytes(DUE_BYTES), f'1 0 ok\n1 10230 acq 0 1 {word} 0 0 20\n1 10232 end\n')


def waiting_state(runs):
    """One cell is done with every fourth sample after the dwell."""
    script = '0 acquire 0 1 0 0 1 10\n2046 state 0\n2049 state 0\n2050 state 0\n'
    runs.see('the state of a search', [script], LONG_FILE[:257],
             '1 0 ok\n'
             '1 2046 state 0 acquire 1 0 2046\n'
             '1 2049 state 0 acquire 1 0 2046\n'
             '1 2050 state 0 acquire 1 1 2046\n'
             '1 2056 end\n', pieces=(1, 257))


def commands_at_the_due_time(runs):
    """At the due time the answer of the search comes first. Where the signal is found the slot
    tracks it by then; where it isn't, the slot is idle. The cell of satellite 2 comes from a
    program in another language, which adds up each cell by itself."""
    found = '2 acquire 0 1 0 0 1 10\n10232 state 0\n10232 stop 0\n10232 state 0\n'
    missed = '2 acquire 3 2 0 0 1 1000\n10232 state 3\n10232 stop 3\n'
    runs.see('commands at the due time', [found, missed], LONG_FILE,
             '1 2 ok\n'
             '2 2 ok\n'
             '1 10232 acq 0 1 found 0 2 20930580\n'
             '2 10232 acq 3 2 none 0 12 84500\n'
             '1 10232 state 0 track 1 0 0 0 open\n'
             '1 10232 ok\n'
             '1 10232 state 0 idle\n'
             '2 10232 state 3 idle\n'
             '2 10232 err 10\n'
             '1 12288 end\n'
             '2 12288 end\n')


def commands_while_it_searches(runs):
    """While it searches, a slot takes `counts` and `stop`, and no other start."""
    script = ('0 acquire 0 1 0 0 1 10\n'
              '5 acquire 0 2 0 0 1 10\n'
              '6 hold 0 1 0 0\n'
              '7 track 0 1 0 0\n'
              '8 counts 0 3\n'
              '3000 stop 0\n'
              '3000 state 0\n'
              '3000 stop 0\n')
    runs.see('commands while a slot searches', [script], LONG_FILE,
             '1 0 ok\n'
             '1 5 err 9\n'
             '1 6 err 9\n'
             '1 7 err 9\n'
             '1 8 ok\n'
             '1 3000 ok\n'
             '1 3000 state 0 idle\n'
             '1 3000 err 10\n'
             '1 12288 end\n')


def state_at_the_due_time(runs):
    """The last cell but one is done a sample before the answer. A found satellite is tracked from
    then on, and where none is found the slot is idle."""
    runs.see('the state before and at the due time',
             ['2 acquire 0 1 0 0 1 10\n10231 state 0\n10232 state 0\n'], LONG_FILE,
             '1 2 ok\n'
             '1 10231 state 0 acquire 1 2045 2046\n'
             '1 10232 acq 0 1 found 0 2 20930580\n'
             '1 10232 state 0 track 1 0 0 0 open\n'
             '1 12288 end\n', pieces=(128,))
    for threshold, word, state in (10, 'found', 'track 1 0 0 0 open'), (11, 'none', 'idle'):
        runs.see(f'the state after equal cells at {threshold} tenths',
                 [f'0 acquire 0 1 0 0 1 {threshold}\n10230 state 0\n'], bytes(DUE_BYTES),
                 '1 0 ok\n'
                 f'1 10230 acq 0 1 {word} 0 0 20\n'
                 f'1 10230 state 0 {state}\n'
                 '1 10232 end\n', pieces=(128,))


def cells_come_with_samples(runs):
    """The dwell ends at 2,046, and one cell is done with every four samples after it."""
    cells = ((0, 0), (1, 0), (2045, 0), (2046, 0), (2049, 0), (2050, 1), (2053, 1), (2054, 2),
             (6137, 1022), (6138, 1023), (10225, 2044), (10226, 2045), (10229, 2045))
    states = ''.join(f'{time} state 0\n' for time, _ in cells)
    lines = ''.join(f'1 {time} state 0 acquire 1 {done} 2046\n' for time, done in cells)
    runs.see('cells come with samples', [f'0 acquire 0 1 0 0 1 10\n{states}10229 stop 0\n'],
             LONG_FILE[:DUE_BYTES], f'1 0 ok\n{lines}1 10229 ok\n1 10232 end\n', pieces=(125,))


def code_goes_on(runs):
    """The code begins with the search, so it is found at half chip 0, where all products are 1. It
    is tracked from the answer on, and begins again there: its first dump comes 2,046 samples
    later. The neighbouring chips' products add up to -1. The answer is the same where a command
    stands right before it."""
    found = '10230 acq 0 1 found 0 0 20930580'
    for asked, answers in (('', [found]),
                           ('10229 state 0\n', ['10229 state 0 acquire 1 2045 2046', found]),
                           ('10240 state 0\n', [found, '10240 state 0 track 1 0 0 0 open'])):
        lines = (*answers, '11264 state 0 track 1 0 0 0 open', '12275 state 0 track 1 0 0 0 open',
                 '12276 count 0 2044 -1022 4092 -2046 2044 -1022', '12288 end')
        runs.see('the code goes on after a search',
                 [f'0 acquire 0 1 0 0 1 10\n0 counts 0 1\n{asked}11264 state 0\n12275 state 0\n'],
                 LONG_FILE, '1 0 ok\n1 0 ok\n' + ''.join(f'1 {line}\n' for line in lines),
                 pieces=(1, 2000))


def a_slot_searches_again(runs):
    """Nothing is left of a search that was stopped half way through its cells, or of one that came
    to its end: 4,092 samples after its dwell the first has 1,023 cells. Each begins at half chip 2
    of the code, and is due after 10,230 samples."""
    again = '{0} stop 0\n{0} acquire 0 1 0 0 1 10\n'
    script = '2 acquire 0 2 0 0 1 10\n6140 state 0\n' + again.format(6140) + again.format(16370)
    runs.see('a slot searches again', [script], code_file(26608),
             '1 2 ok\n'
             '1 6140 state 0 acquire 2 1023 2046\n'
             '1 6140 ok\n'
             '1 6140 ok\n'
             '1 16370 acq 0 1 found 0 2 20930580\n'
             '1 16370 ok\n'
             '1 16370 ok\n'
             '1 26600 acq 0 1 found 0 2 20930580\n'
             '1 26608 end\n', pieces=(128, 2000))


def counts_outlast_the_search(runs):
    """A slot that searches is busy. Its counts are kept, and printed from the first tracked dump
    on: at the due time the code is at half chip 2, so 2,044 samples of it are left. Of the
    neighbouring chips' products, which add up to -1, those of chips 0 and 1 are missing early,
    which is 1, and those of chips 1,022 and 0 late, which is -1."""
    script = ('2 acquire 0 1 0 0 1 10\n'
              '3000 hold 0 2 0 2045\n'
              '3000 track 0 2 0 2045\n'
              '3000 acquire 0 2 0 0 1 10\n'
              '3000 counts 0 1\n')
    runs.see('counts outlast the search', [script], LONG_FILE,
             '1 2 ok\n'
             '1 3000 err 9\n'
             '1 3000 err 9\n'
             '1 3000 err 9\n'
             '1 3000 ok\n'
             '1 10232 acq 0 1 found 0 2 20930580\n'
             '1 12276 count 0 2040 -1020 4088 -2044 2044 -1022\n'
             '1 12288 end\n', pieces=(128,))


def stop_at_the_due_time(runs):
    """A search that is stopped emits nothing. At the due time its answer comes first: then a found
    signal is tracked, and is stopped, and where nothing was found the slot is idle."""
    for threshold, time, answers in ((10, 0, ['0 ok']),
                                     (10, 10229, ['10229 ok']),
                                     (10, 10230, ['10230 acq 0 1 found 0 0 20', '10230 ok']),
                                     (11, 10229, ['10229 ok']),
                                     (11, 10230, ['10230 acq 0 1 none 0 0 20', '10230 err 10'])):
        lines = ''.join(f'1 {line}\n' for line in ('0 ok', *answers, '10232 end'))
        runs.see(f'a stop at {time} of a search at {threshold} tenths',
                 [f'0 acquire 0 1 0 0 1 {threshold}\n{time} stop 0\n'], bytes(DUE_BYTES), lines,
                 pieces=(128,))


ROWS = (code_is_found, equal_cells, waiting_state, commands_at_the_due_time,
        commands_while_it_searches, state_at_the_due_time, cells_come_with_samples, code_goes_on,
        a_slot_searches_again, counts_outlast_the_search, stop_at_the_due_time)
