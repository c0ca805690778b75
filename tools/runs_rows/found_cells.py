"""Searches whose cells are known from outside: over strong samples, and over a signal in noise."""
from operator import mul

from seldomplough.codes import chips
from .made_signal import COSINES, CYCLE, VALUES, registers

SINES = COSINES[6:] + COSINES[:6]
# Each bin, and the steps of the carrier and of the code at its shift, for 2,046,000 samples a
# second and an intermediate frequency of 511,500 Hz: worked out by a program apart from this
# project.
BINS = ((-1, 1073741824, 2147483648), (0, 1074266624, 2147483988), (1, 1074791425, 2147484329))
# The noisy signal begins with this sample, and the search with the other.
FIRST, START = 64, 100
PERIOD = 2046


def strong_samples(runs):
    """The code of satellite 1, in samples of two bits and of size 3. With the replica of half chip
    0 each product is 6 in phase and -3 in quadrature. At 4.092 MHz their sums are 24,552 and
    -12,276, which fit in 16 bits; at 8.184 MHz their halves do: 49,104 and -24,552; at 16.368 MHz
    these don't either: 98,208 and -49,104. A search is due after a period, and four samples for
    each of its 2,046 cells."""
    for bytes_a_chip, power in (1, 753500880), (2, 3014003520), (4, 12056014080):
        of_chips = [b'\xff' if chip else b'\x55' for chip in chips(1)]
        period = b''.join(byte * bytes_a_chip for byte in of_chips)
        due = 4 * (len(period) + PERIOD)
        runs.see(f'{bytes_a_chip} bytes a chip, of size 3', ['0 acquire 0 1 0 0 1 1000\n'],
                 (period * 3)[:due // 4],
                 f'1 0 ok\n1 {due} acq 0 1 found 0 0 {power}\n1 {due} end\n',
                 '--rate', str(4092000 * bytes_a_chip), '--format', 'real2')


def noisy_codes():
    """The codes of 4,160 samples: the signs of satellite 7's signal at 500 Hz, from half chip 777
    on at the search's begin, a quarter of them turned by noise, with sizes of noise."""
    bits, of_seven = (register & 1 for register in registers()), chips(7)
    _, carrier_step, code_step = BINS[2]
    for number in range(FIRST - START, FIRST - START + 4160):
        chip = of_seven[((777 << 31) + number * code_step) % CYCLE >> 32]
        is_below = COSINES[number * carrier_step % 2 ** 32 >> 29] < 0
        first, second, size = next(bits), next(bits), next(bits)
        yield 2 * (is_below ^ chip ^ first & second) + size


def powers(values):
    """Of each cell of a dwell of two periods its power, bin and half chip, by plain sums. By the
    code's shift no chip comes half a chip earlier within them, so a replica is the code itself."""
    signs = [1 - 2 * chip for chip in chips(7) for _ in range(2)] * 2
    for number, carrier_step, _ in BINS:
        eighths = [it * carrier_step % 2 ** 32 >> 29 for it in range(2 * PERIOD)]
        products = [[value * table[eighth] for value, eighth in zip(values, eighths)]
                    for table in (COSINES, SINES)]
        parts = [it[at:at + PERIOD] for it in products for at in (0, PERIOD)]
        for half in range(PERIOD):
            replica = signs[half:half + PERIOD]
            yield sum(sum(map(mul, part, replica)) ** 2 for part in parts), number, half


def signal_in_noise(runs):
    """The program that worked out the steps made this signal and its powers, and gives 20,935,272
    at bin 1, half chip 777, and a total of 714,649,408: the power is some 180 times the mean."""
    codes = list(noisy_codes())
    all_powers = list(powers([VALUES[code] for code in codes][START - FIRST:]))
    total = sum(power for power, _, _ in all_powers)
    found = max(all_powers), total
    runs.tell('plain sums over a signal in noise', found == ((20935272, 1, 777), 714649408), found)
    packed = bytes(sum(code << 6 - 2 * at for at, code in enumerate(codes[first:first + 4]))
                   for first in range(0, len(codes), 4))
    due = START + 2 * PERIOD + 4 * len(all_powers)
    samples = (bytes(FIRST // 4) + packed).ljust(due // 4, b'\0')
    runs.see('a signal in noise', [f'{START} acquire 0 7 250 1 2 1000\n'], samples,
             f'1 {START} ok\n1 {due} acq 0 7 found 1 777 20935272\n1 {due} end\n',
             '--offset', '511500', '--format', 'real2', pieces=(250, 16384))


ROWS = strong_samples, signal_in_noise
