"""A satellite that is tracked, beside the plain tracker."""
from .made_signal import Signal
from .signals import PIECE, TRACK, options_of, see
from .tracker import Reference


def counts(runs):
    """The loops' steps are those of the segment that begins with the dump, and not of a later one:
    else the second dump would differ already."""
    signal = Signal()
    samples = signal.samples(800000)
    lines = Reference(signal, samples, 300).follow([(0, 'ok'), (0, 'ok'), (800000, 'end')])
    see(runs, 'tracked counts', signal, samples, TRACK + '0 counts 0 300\n', lines)


def steps(runs):
    """The state at each dump has the shift and the correction of the segment that begins with it.
    From dump 200 on they come by another law, and dump 219 is the first that brings a lock."""
    signal = Signal()
    samples, times = signal.samples(600000), []
    reference = Reference(signal, samples)
    while reference.dump(600000):
        times.append(reference.time)
    runs.tell('the dumps of a tracked slot', 230 <= len(times), len(times))
    commands = [(0, 'ok'), (0, 'ok'), *((time, None) for time in times), (600000, 'end')]
    script = f'{TRACK}0 counts 0 300\n' + ''.join(f'{time} state 0\n' for time in times)
    see(runs, 'the steps of a tracked slot', signal, samples, script,
        Reference(signal, samples, 300).follow(commands))


def known_dump(runs):
    """The sums and the steps of the last of 800 dumps come from a program in another language,
    apart from this project."""
    signal = Signal()
    came = b''.join(runs.written([f'{TRACK}0 counts 0 800\n2000000 state 0\n'],
                                 signal.samples(2000000), options_of(signal), PIECE))
    is_right = came.endswith(b'\n1 1999877 count 0 -4784 128 -8734 4 -4616 -152\n'
                             b'1 2000000 state 0 track 7 800 65535776 2320 bits\n'
                             b'1 2000000 end\n') and came.count(b' count ') == 800
    runs.tell('the last of 800 dumps', is_right, came[-200:])


def segment_of_one_sample(runs):
    """The first segment begins half a chip before the end of the code and has one sample. The
    carrier's pair there is 2 and 1, and the value is 3 times the chip's sign: so the prompt and the
    late sum are 6 and -3. The early chip is the first of the code, which is 1 as the last one is
    0."""
    signal = Signal(rate=2046000, offset=511500, satellite=5, half_chip=2045)
    samples = signal.samples(20000)
    lines = Reference(signal, samples, 4).follow([(0, 'ok'), (0, 'ok'), (1, None), (20000, 'end')])
    first = ('1 0 ok\n'
             '1 0 ok\n'
             '1 1 count 0 -6 3 6 -3 6 -3\n'
             '1 1 state 0 ')
    runs.tell('the plain tracker\'s segment of one sample', lines.startswith(first), lines)
    see(runs, 'a first segment of one sample', signal, samples,
        '0 track 0 5 1000 2045\n0 counts 0 4\n1 state 0\n', lines)


def states(runs):
    """A state at the time of a dump shows it, and one sample before doesn't."""
    signal = Signal()
    samples = signal.samples(1000000)
    times = [0, 2377, 2378, 4878, 300000, 497378, 499878, 547377, 547378, 1000000]
    steps = [(0, 'ok'), *((time, None) for time in times), (1000000, 'end')]
    script = TRACK + ''.join(f'{time} state 0\n' for time in times)
    see(runs, 'states of a tracked slot', signal, samples, script,
        Reference(signal, samples).follow(steps))


# When the news of a signal come that noise hides, and how many dumps it has by then: these come
# from a program in another language, apart from this project.
HIDDEN = ((547378, 'lock'), (1297377, 'unlock'), (1447377, 'lock'), (2697377, 'unlock'),
          (4697375, 'lost'))
HIDDEN_DUMPS = 1879


def lost(runs):
    """Noise hides the signal for 260 milliseconds, and later for good."""
    signal = Signal()
    samples = signal.samples(4700000, [(750000, 1400000), (2150000, 4700000)])
    reference = Reference(signal, samples)
    lines = reference.follow([(0, 'ok'), (4700000, 'state 0 idle'), (4700000, 'err 10'),
                              (4700000, 'ok'), (4700000, 'end')])
    ends = tuple(f' {news} 0' for _, news in HIDDEN)
    told = [line for line in lines.split('\n') if line.endswith(ends)]
    is_right = (told == [f'1 {time} {news} 0' for time, news in HIDDEN]
                and reference.loops.dumps == HIDDEN_DUMPS)
    runs.tell('the plain tracker over a hidden signal', is_right, (told, reference.loops.dumps))
    see(runs, 'a hidden signal is lost', signal, samples,
        f'{TRACK}4700000 state 0\n4700000 stop 0\n4700000 {TRACK[2:]}', lines)


def refused_track(runs):
    """The refused lines stand between two dumps and at the very time of the third one. Five dumps
    are counted all the same."""
    signal = Signal()
    samples = signal.samples(20000)
    lines = Reference(signal, samples, 5).follow([
        (0, 'ok'), (0, 'ok'), (5000, 'err 9'), (5000, 'err 9'), (7378, 'err 9'), (7378, None),
        (20000, 'end')])
    script = (TRACK +
              '0 counts 0 5\n'
              '5000 track 0 7 1000 100\n'
              '5000 hold 0 5 0 0\n'
              '7378 track 0 1 -2000 7\n'
              '7378 state 0\n')
    see(runs, 'a refused track changes nothing', signal, samples, script, lines)


ROWS = counts, steps, known_dump, segment_of_one_sample, states, lost, refused_track
