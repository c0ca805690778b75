"""A satellite that is tracked from the first sample on, by the plain formulas, and the lines of a
client that tracks it in slot 0. It shares nothing with the receiver."""
from operator import mul

from seldomplough.codes import chips

from .made_signal import COSINES, CYCLE, HALF_CHIP, VALUES, carrier_step, code_step

SINES = (1, 2, 2, 1, -1, -2, -2, -1)
# The most that a shift may be in size, in 1/65536 Hz.
MOST_SHIFT = 1 << 30


def unpacked(samples):
    """The values of bytes of four samples each."""
    four = [[VALUES[byte >> at & 3] for at in (6, 4, 2, 0)] for byte in range(256)]
    return [value for byte in samples for value in four[byte]]


def sign(number):
    """-1 below zero, and 1 otherwise."""
    return -1 if number < 0 else 1


def part(number, size):
    """4096 times a number, over a size or 1, rounded toward minus infinity."""
    return number * 4096 // max(size, 1)


def within(shift):
    """The nearest shift that may be."""
    return min(max(shift, -MOST_SHIFT), MOST_SHIFT)


class Loops:
    """The loops: the slow part of the shift, the shift in 1/65536 Hz, and the correction of the
    code in 1/65536 chip a second."""

    def __init__(self, shift):
        self.dumps = 0
        self.prompt = (0, 0)
        self.slow = self.shift = shift
        self.correction = 0

    def take(self, ie, qe, ip, qp, il, ql):
        """Takes the six sums of a dump. Dumps 1 to 199 pull the frequency in, later ones hold the
        phase."""
        self.dumps += 1
        if self.dumps < 200:
            cross = self.prompt[0] * qp - ip * self.prompt[1]
            dot = self.prompt[0] * ip + self.prompt[1] * qp
            turn = part(cross * sign(dot), abs(cross) + abs(dot))
            self.slow = self.shift = within(self.slow + turn * 160)
        else:
            turn = part(qp * sign(ip), abs(ip) + abs(qp))
            self.slow = within(self.slow + turn * 6)
            self.shift = within(self.slow + turn * 170)
        early, late = ie * ie + qe * qe, il * il + ql * ql
        self.correction = part(early - late, early + late) * 16
        self.prompt = ip, qp


class Lock:
    """The lock, by windows of 20 dumps. Window j is dumps 200 + 20j to 219 + 20j, counted from 1.
    It is good where the sizes of the sums in phase add up to at least twice those in quadrature."""

    def __init__(self):
        self.dumps = []
        self.good = None
        self.is_locked = False

    def take(self, ip, qp):
        """Takes the prompt sums of a dump, and gives what it reports: the loops are locked where
        the last good window is at most nine before this one, and the satellite is lost where none
        of the last 50 is good."""
        self.dumps.append((abs(ip), abs(qp)))
        if len(self.dumps) < 219 or len(self.dumps) % 20 != 19:
            return None
        window = (len(self.dumps) - 219) // 20
        in_phase, quadrature = map(sum, zip(*self.dumps[-20:]))
        if quadrature * 2 <= in_phase:
            self.good = window
        bad = window + 1 if self.good is None else window - self.good
        was_locked, self.is_locked = self.is_locked, self.good is not None and bad <= 9
        if bad == 50:
            return 'lost'
        return {(False, True): 'lock', (True, False): 'unlock'}.get((was_locked, self.is_locked))


class Reference:
    """The tracker over the samples of a signal, and the lines so far. The first dumps have a line,
    as many as are asked for."""

    def __init__(self, signal, samples, counts=0):
        self.signal = signal
        self.values = unpacked(samples)
        self.signs = [1 - 2 * chip for chip in chips(signal.satellite)] * 3
        self.time = 0
        self.code = signal.half_chip * HALF_CHIP
        self.carrier = 0
        self.loops = Loops(signal.shift())
        self.lock = Lock()
        self.counts = counts
        self.news = []
        self.lines = []

    def sums(self, values, step, carrier_by):
        """The six sums of a segment with these values: early, prompt and late, each in phase and in
        quadrature."""
        count = len(values)
        phases = range(self.carrier, self.carrier + count * carrier_by, carrier_by)
        tops = [phase >> 29 & 7 for phase in phases]
        in_phase = [value * COSINES[top] for value, top in zip(values, tops)]
        quadrature = [-value * SINES[top] for value, top in zip(values, tops)]
        for moved in HALF_CHIP, 0, -HALF_CHIP:
            # A cycle more, so that no phase is below zero.
            code = self.code + moved + CYCLE
            signs = [self.signs[at >> 32] for at in range(code, code + count * step, step)]
            yield sum(map(mul, in_phase, signs))
            yield sum(map(mul, quadrature, signs))

    def dump(self, end):
        """Takes the next segment and adds what its dump tells, unless the satellite is lost or the
        segment ends after a time. Gives whether it did."""
        step = code_step(self.signal.rate, self.loops.shift, self.loops.correction)
        count = -(-(CYCLE - self.code) // step)
        if 'lost' in self.news or self.time + count > end:
            return False
        carrier_by = carrier_step(self.signal.rate, self.signal.offset, self.loops.shift)
        sums = list(self.sums(self.values[self.time:self.time + count], step, carrier_by))
        self.time += count
        self.code += count * step - CYCLE
        self.carrier += count * carrier_by
        self.loops.take(*sums)
        if self.loops.dumps <= self.counts:
            self.lines.append(f'1 {self.time} count 0 {" ".join(map(str, sums))}')
        news = self.lock.take(sums[2], sums[3])
        if news:
            self.news.append(news)
            self.lines.append(f'1 {self.time} {news} 0')
        return True

    def follow(self, steps):
        """Goes on to each time, and adds this text there, or the line of the slot's state where
        there is none. Gives the lines so far."""
        for time, text in steps:
            while self.dump(time):
                pass
            self.lines.append(f'1 {time} {text or self.state()}')
        return '\n'.join(self.lines) + '\n'

    def state(self):
        """The state of the slot, where it isn't lost."""
        lock = 'lock' if self.lock.is_locked else 'open'
        loops = self.loops
        return (f'state 0 track {self.signal.satellite} {loops.dumps} {loops.shift} '
                f'{loops.correction} {lock}')
