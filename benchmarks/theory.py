"""What theory says of a search and of packings."""
import math


def gamma_tail(shape, x):
    """The chance that a gamma variable of a whole shape and scale 1 is above x."""
    term, total = math.exp(-x), 0.0
    for k in range(shape):
        total += term
        term *= x / (k + 1)
    return total


def false_alarm(periods, threshold, cells):
    """The chance that a search of noise is `found`, if all cells were independent.

    The power of a cell over N periods is gamma distributed of shape N. So it is above H/10 times
    its mean with the chance q = gamma_tail(N, N H / 10), and one of M cells with 1 - (1 - q)^M."""
    chance = gamma_tail(periods, periods * threshold / 10)
    return -math.expm1(cells * math.log1p(-chance))


def cell_above(periods, threshold, signal):
    """The chance that the cell of a signal reaches the threshold.

    `signal` is the ratio of signal to noise in a period. The cell's power is noncentral chi-square
    with 2 N degrees and noncentrality 2 N `signal`, a Poisson mixture of gamma variables."""
    level, mean = periods * threshold / 10, periods * signal
    weight, above, rest = math.exp(-mean), gamma_tail(periods, level), 1.0
    term = math.exp(periods * math.log(level) - level - math.lgamma(periods + 1))
    total, j = 0.0, 0
    while rest > 1e-12 and j < 5000:
        total += weight * above
        rest -= weight
        above += term
        j += 1
        term *= level / (periods + j)
        weight *= mean / j
    return total


def sinc(x):
    """sin(pi x) / (pi x)."""
    return math.sin(math.pi * x) / (math.pi * x) if x else 1.0


def detection(periods, threshold, density, loss):
    """The mean of `cell_above` over shifts up to 125 Hz beside the bin, at a C/N0 in dB-Hz less a
    loss in dB. A period is 1 ms; F Hz take sinc(F / 1000)^2 of its signal."""
    steps = 20
    ratio = 10 ** ((density - loss) / 10) / 1000
    shifts = [(k + 0.5) / steps * 0.125 for k in range(steps)]
    return sum(cell_above(periods, threshold, ratio * sinc(f) ** 2) for f in shifts) / steps


def packing_loss(bits):
    """The loss in dB of one or two bits a part with the threshold at one standard deviation s.

    For a weak signal in normal noise x of deviation 1 that becomes q(x) the loss is
    E[q^2] / E[x q]^2: pi / 2 for the sign alone."""
    if bits == 1:
        return 10 * math.log10(math.pi / 2)
    outer = math.erfc(1 / math.sqrt(2))
    slope = math.sqrt(2 / math.pi) * (1 + 2 * math.exp(-0.5))
    return 10 * math.log10((1 + 8 * outer) / slope ** 2)


def replica_loss():
    """The loss in dB of a carrier of eight phases, (2, 1), (1, 2) .. as cosine and sine: the mean
    of its product with a wave over an eighth of a turn."""
    angle = math.pi / 8 - math.atan(0.5)
    return -20 * math.log10(sinc(1 / 8) * math.cos(angle))
