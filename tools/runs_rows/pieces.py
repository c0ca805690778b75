"""One satellite that is held or searched for, whatever pieces its samples are taken in: reads of
some bytes, and commands between them, each of which has the slot take the samples before it."""
from .made_signal import code_file
from .recording import OPTIONS, STEPS, recorded

# The first two dumps of satellite 5 in the recording: the number of samples by then, and the sums
# that two references apart from this project give. Its segments end with samples 1,345 and 3,391.
DUMPS = ((1346, '-354 -50 -704 -12 -432 -42'), (3392, '-623 -73 -1079 11 -483 143'))

HOLD = '0 hold 0 5 1250 700\n0 counts 0 2\n'


def held(times, end):
    """The lines of a client that holds it and asks for its state at some times. The count of a dump
    comes first where it comes at the time of a command."""
    lines = [(0, 0, '1 0 ok'), (0, 0, '1 0 ok')]
    lines += [(time, 0, f'1 {time} count 0 {sums}') for time, sums in DUMPS]
    lines += [(time, 1, f'1 {time} state 0 hold 5 {sum(dump <= time for dump, _ in DUMPS)}')
              for time in times]
    return ''.join(f'{line}\n' for *_, line in sorted(lines)) + f'1 {end} end\n'


def dumps_of_a_hold(runs):
    """A dump comes with the last sample of its segment, which is its own, and not before or once
    more: where all samples wait for it, where they are taken in pieces, and where they are taken up
    to each sample about it."""
    about = (512, 1000, 1000, 1024, 1345, 1345, 1346, 1346, 1347, 1858, 2000, 2048, 3000, 3072,
             3391, 3392, 3392, 3393)
    rows = [('waiting', ()), ('about its dumps', about)]
    rows += [(f'by {piece} samples', range(piece, 4000, piece)) for piece in STEPS]
    for name, times in rows:
        script = HOLD + ''.join(f'{time} state 0\n' for time in times)
        runs.see(f'a hold, {name}', [script], recorded(500), held(times, 4000), *OPTIONS,
                 pieces=(1, 64, 500))


def cells_of_a_search(runs):
    """The dwell is samples 2 to 2,047, and each fourth sample after it brings one of 2,046 cells:
    the answer is due at 2,048 + 8,184. The code stands at the third half chip where the search
    begins. There all products are 1, so that the sums are 2,046 times 2 and -1. At the due time it
    is tracked without a shift, from half chip 2 of the code on, of which 2,044 samples are left.
    The sums of its first dump are 2 and -1 times 1,020 early and 1,022 late, as they are where
    counts outlast the search: the correction is 16 times 4,096 (1,020^2 - 1,022^2) over 1,020^2 +
    1,022^2, which is -8.02 and rounded down."""
    samples, due = code_file(12288), 10232
    for piece in (1, 3, 7, 64, 1024):
        times = range(2 + piece, due, piece)
        script = '2 acquire 0 1 0 0 1 10\n' + ''.join(f'{time} state 0\n' for time in times)
        cells = ''.join(f'1 {time} state 0 acquire 1 {max(time - 2048, 0) // 4} 2046\n'
                        for time in times)
        runs.see(f'the cells of a search, by {piece} samples',
                 [f'{script}{due} state 0\n12275 state 0\n12276 state 0\n'], samples,
                 f'1 2 ok\n{cells}'
                 f'1 {due} acq 0 1 found 0 2 20930580\n'
                 f'1 {due} state 0 track 1 0 0 0 open\n'
                 '1 12275 state 0 track 1 0 0 0 open\n'
                 '1 12276 state 0 track 1 1 0 -144 open\n'
                 '1 12288 end\n')


ROWS = (dumps_of_a_hold, cells_of_a_search)
