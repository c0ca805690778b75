"""Runs over made signals."""
from .made_signal import Signal

# As many bytes a read as a made signal gives.
PIECE = 1000
TRACK = '0 track 0 7 1000 100\n'


def options_of(signal):
    """The options of a signal's recording."""
    return ['--rate', str(signal.rate), '--offset', str(signal.offset), '--format', 'real2']


def see(runs, name, signal, samples, script, lines, pieces=(PIECE,)):
    """Sees what a client gets over the samples of a signal."""
    runs.see(name, [script], samples, lines, *options_of(signal), pieces=pieces)


def first_count(runs):
    """The first dump. Its sums come from a program in another language, apart from this project."""
    signal = Signal()
    see(runs, 'first count of a made signal', signal, signal.samples(2380),
        '0 hold 0 7 1000 100\n0 counts 0 1\n',
        '1 0 ok\n'
        '1 0 ok\n'
        '1 2378 count 0 4362 112 8328 6 4466 -96\n'
        '1 2380 end\n', (1, 7, 16384))


def found(runs):
    """A search, and then a lock. The power and the time of the lock are those that the
    specification's two references give."""
    signal = Signal()
    came = b''.join(runs.written(['0 acquire 0 7 1000 0 1 20\n'], signal.samples(2000000),
                                 options_of(signal), PIECE))
    first = b'1 0 ok\n1 10684 acq 0 7 found 0 100 76562516\n1 607378 lock 0\n'
    is_right = came.startswith(first) and came.endswith(b'\n1 2000000 end\n')
    runs.tell('a made signal is found and locks', is_right, came)


def locks(runs):
    """The lock comes at the time that the specification's two references give."""
    signal = Signal()
    see(runs, 'a made signal locks', signal, signal.samples(2000000), TRACK,
        '1 0 ok\n'
        '1 547378 lock 0\n'
        '1 1302377 bits 0\n'
        '1 2000000 end\n')


ROWS = first_count, found, locks
