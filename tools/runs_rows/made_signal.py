"""The signal of one satellite in two-bit real samples, by its formula. The crate `made_signals` has
it once more, for tests that are proved: this check needs the built program and no compiler.

Its sign is that of a cosine times that of the chip, turned where the data bit is 1, and its size is
3 where that of the cosine is 2. Millions of samples are made at once: long numbers hold a phase in
each of their lanes of some bytes, and one addition moves all of them on."""
import functools
import itertools
from dataclasses import dataclass

from seldomplough.codes import chips

# A code's cycle of 1,023 chips, and half a chip, in 2^-32 chip.
CYCLE = 1023 << 32
HALF_CHIP = 1 << 31
# The carrier's table, of eighths of a cycle.
COSINES = (2, 1, -1, -2, -2, -1, 1, 2)
# The values by their two bits, which are the sign, and whether the size is 3.
VALUES = (1, 3, -1, -3)
# The two bits of a sample, by the top byte of the carrier's phase.
CARRIER = bytes({1: 0, 2: 1, -1: 2, -2: 3}[COSINES[top >> 5]] for top in range(256))


def registers():
    """The values of a shift register of 16 bits. Its last bits are noise, and its low bytes take on
    every value."""
    register = 0xace1
    while True:
        register = register >> 1 ^ (register & 1) * 0xb400
        yield register


def one_bit(bits):
    """Bytes of eight bits each, the earliest in the top bit."""
    return int(''.join(map(str, bits)), 2).to_bytes(len(bits) // 8, 'big')


def code_file(samples=2048):
    """One-bit samples, a multiple of eight: sample n is the chip of satellite 1 with number
    (n mod 2,046) / 2."""
    of_first = chips(1)
    return one_bit([of_first[number % 2046 // 2] for number in range(samples)])


def carrier_step(rate, offset, shift):
    """The carrier's step with each sample in 2^-32 cycle, at a Doppler shift in 1/65536 Hz."""
    return (offset * 65536 + shift) * 65536 // rate % 2 ** 32


def code_step(rate, shift, correction=0):
    """The code's step in 2^-32 chip, at that shift and a correction in 1/65536 chip a second. A
    chip is 1,540 cycles of the carrier (IS-GPS-200, section 3.3.1)."""
    return (1023000 * 65536 + shift // 1540 + correction) * 65536 // rate


@functools.lru_cache(maxsize=None)
def sign_bits(satellite, turned):
    """The sign bits of a code's two cycles, turned or not. A signal asks with each data bit."""
    return bytes(2 * (chip ^ turned) for chip in chips(satellite)) * 2


def combined(one, other):
    """The exclusive or of two lists of bytes."""
    bits = int.from_bytes(one, 'little') ^ int.from_bytes(other, 'little')
    return bits.to_bytes(len(one), 'little')


def packed(values):
    """Bytes of four samples each, the earliest in the top bits, of a byte for each sample."""
    first, second, third, fourth = (int.from_bytes(values[at::4], 'little') for at in range(4))
    byte = first << 6 | second << 4 | third << 2 | fourth
    return byte.to_bytes(len(values) // 4, 'little')


class Lanes:
    """Phases that move on by a step, of a cycle of some bytes. A lane has one more."""

    def __init__(self, step, cycle, count):
        self.step = step
        self.size = cycle + 1
        self.length = count * self.size
        moved = (number * step % 256 ** cycle for number in range(count))
        self.moved = int.from_bytes(b''.join(it.to_bytes(self.size, 'little') for it in moved),
                                    'little')
        self.ones = int.from_bytes((b'\1' + bytes(cycle)) * count, 'little')

    def tops(self, start, count):
        """The top byte of each of so many phases, of which the first is given."""
        phases = self.moved + self.ones * (start % 256 ** (self.size - 1))
        return phases.to_bytes(self.length, 'little')[self.size - 2::self.size][:count]


def noise():
    """Values that look like chance, the same ones each time: the top bits of a shift register of 32
    bits that is folded onto itself three times."""
    register = 0x2545f491
    while True:
        register ^= register << 13 & 0xffffffff
        register ^= register >> 17
        register ^= register << 5 & 0xffffffff
        yield register >> 30


@dataclass
class Signal:
    """The signal of a satellite. At sample 0 the code is at a half chip, and the carrier's phase is
    0. The data bits are some that alternate, then those of a list, and then zeros."""
    bits: tuple = ()
    rate: int = 2500000
    offset: int = 610000
    satellite: int = 7
    doppler: int = 1000
    half_chip: int = 100
    alternations: int = 40

    def bit(self, number):
        """A data bit, of 20 cycles of the code."""
        if number < self.alternations:
            return number % 2
        place = number - self.alternations
        return self.bits[place] if place < len(self.bits) else 0

    def shift(self):
        """The Doppler shift in 1/65536 Hz."""
        return self.doppler * 65536

    def signs(self, lanes, phase, count, turned):
        """The sign bits of so many samples, from a phase of the code on."""
        twice = sign_bits(self.satellite, turned)
        tops, at, signs = lanes.tops(phase, count), 0, []
        # A top byte is a chip's number modulo 256.
        for block in range(phase >> 40, (phase + count * lanes.step >> 40) + 1):
            end = -(-((block + 1 << 40) - phase) // lanes.step)
            begin = block * 256 % 1023
            signs.append(tops[at:end].translate(twice[begin:begin + 256]))
            at = end
        return b''.join(signs)

    def bits_of_samples(self, samples):
        """The two bits of each sample, in pieces of a data bit each."""
        step = code_step(self.rate, self.shift())
        longest = 20 * CYCLE // step + 2
        carrier = Lanes(carrier_step(self.rate, self.offset, self.shift()), 4, longest)
        code = Lanes(step, 5, longest)
        first, number = 0, 0
        while first < samples:
            phase = self.half_chip * HALF_CHIP + first * step
            count = min(-(-((number + 1) * 20 * CYCLE - phase) // step), samples - first)
            tops = carrier.tops(first * carrier.step, count)
            yield combined(tops.translate(CARRIER),
                           self.signs(code, phase, count, self.bit(number)))
            first += count
            number += 1

    def samples(self, samples, noisy=()):
        """So many samples, packed. In some stretches there is noise in place of the signal, which
        goes on after them as if it had been there."""
        values, chance = bytearray(b''.join(self.bits_of_samples(samples))), noise()
        for begin, end in noisy:
            values[begin:end] = bytes(itertools.islice(chance, end - begin))
        return packed(values)
