"""Measures what is tracked: errors, C/N0 by packing, and the time to each line."""
import os
import random
import statistics
import subprocess

from made_runs import TOP, RATE, in_turn, lines_of, name, table
from theory import packing_loss, replica_loss

# A rate at which the end of a code period falls everywhere between two samples.
ODD_RATE = 2046613
PACKINGS = ('real1', 'real2', 'iq1', 'iq2')
# C/N0 in dB-Hz, the seeds of recordings, their seconds, and those after which lines count.
ERROR_DENSITIES = (47, 42)
ERROR_SEEDS = range(1, 7)
SECONDS, SETTLED = 10, 3
CHIP_RATE, CARRIER = 1023000, 1575420000

# The same of the times.
TIME_DENSITIES = (38, 42, 46)
TIME_SEEDS = (1, 2, 3)
TIME_SECONDS = 40


def drawn_satellites(seed, count, density):
    """Satellites with shifts, half chips and places in the message that are drawn by chance."""
    drawn = random.Random(f'satellites {seed} {density}')
    return [(satellite, drawn.uniform(-4500, 4500), drawn.uniform(0, 2045.9), density,
             drawn.randrange(30000)) for satellite in drawn.sample(range(1, 33), count)]


def code_errors(times, satellite):
    """Means over 100 dumps of the replica's code phase less the signal's, in chips.

    A dump comes with the first sample at which the replica has begun a new period. On average it
    began half a sample earlier."""
    _, doppler, half, _, _ = satellite
    step = CHIP_RATE * (1 + doppler / CARRIER) / ODD_RATE
    phases = [(half / 2 + time * step + 511.5) % 1023 - 511.5 for time in times]
    errors = [step / 2 - phase for phase in phases]
    return [statistics.fmean(errors[k:k + 100]) for k in range(0, len(errors) - 99, 100)]


def densities_of(lines):
    """What `seldomplough cn0` prints of these lines, in dB-Hz."""
    ran = subprocess.run([os.path.join(TOP, 'seldomplough'), 'cn0', '--rate', str(ODD_RATE)],
                         check=True, input=''.join(' '.join(words) + '\n' for words in lines),
                         stdout=subprocess.PIPE, encoding='ascii')
    rows = [text.split() for text in ran.stdout.splitlines()[1:]]
    return [float(row[4]) for row in rows if row[4] != '-']


def track(density, packing, seed):
    """Errors in Hz and in chips, and C/N0 in dB-Hz, of a satellite that is tracked."""
    [satellite] = drawn_satellites(seed, 1, density)
    number, doppler, half, _, _ = satellite
    script = [f'0 track 0 {number} {doppler:.0f} {int(half)}',
              f'{SETTLED * ODD_RATE} counts 0 1000000']
    script += [f'{k * ODD_RATE // 10} state 0' for k in range(10 * SETTLED, 10 * SECONDS)]
    lines = lines_of([script], [name(*satellite)], SECONDS * ODD_RATE // 8 * 8, seed, packing,
                     ODD_RATE)
    states = [words for words in lines if words[2] == 'state']
    assert all(words[4] == 'track' for words in states), 'a satellite was lost'
    dopplers = [int(words[7]) / 65536 - doppler for words in states]
    counts = [words for words in lines if words[2] == 'count']
    codes = code_errors([int(words[1]) for words in counts], satellite)
    return dopplers, codes, densities_of(counts)


def spread(values, digits):
    """Mean and standard deviation."""
    return [f'{statistics.fmean(values):+.{digits}f}', f'{statistics.pstdev(values):.{digits}f}']


def measure_tracking():
    """The tables of errors and of C/N0."""
    plans = [(density, packing) for density in ERROR_DENSITIES for packing in PACKINGS]
    tasks = [(*plan, seed) for plan in plans for seed in ERROR_SEEDS]
    results = in_turn(track, tasks)
    errors, densities = [], []
    for k, (density, packing) in enumerate(plans):
        these = results[k * len(ERROR_SEEDS):(k + 1) * len(ERROR_SEEDS)]
        dopplers, codes, shown = ([it for run in these for it in run[part]] for part in range(3))
        errors.append([density, packing, len(dopplers), *spread(dopplers, 2), len(codes),
                       *spread(codes, 3)])
        mean, theory = statistics.fmean(shown), packing_loss(int(packing[-1]))
        densities.append([density, packing, len(shown), f'{mean:.2f}', f'{density - mean:.2f}',
                          f'{theory:.2f}', f'{theory + replica_loss():.2f}'])
    heads = ['made', 'packing', '`state` lines', 'shift: mean', 'deviation', 'code means',
             'code: mean', 'deviation']
    losses = ['made', 'packing', 'seconds', 'C/N0 by `cn0`', 'loss', 'theory: packing',
              'packing and replica']
    return table(heads, errors), table(losses, densities)


def first_lines(density, seed):
    """For each of eight satellites the seconds to the first of each line."""
    satellites = drawn_satellites(seed, 8, density)
    scripts = [[f'0 acquire {slot} {it[0]} 0 20 10 45' for slot, it in enumerate(four)]
               for four in (satellites[:4], satellites[4:])]
    lines = lines_of(scripts, [name(*it) for it in satellites], TIME_SECONDS * RATE, seed)
    firsts = [{} for _ in satellites]
    for words in lines:
        if words[2] in ('acq', 'lock', 'bits', 'sub', 'eph', 'lost'):
            kind = 'found' if words[2] == 'acq' and words[5] == 'found' else words[2]
            slot = 4 * (int(words[0]) - 1) + int(words[3])
            firsts[slot].setdefault(kind, int(words[1]) / RATE)
    return firsts


def measure_times():
    """The table of times."""
    tasks = [(density, seed) for density in TIME_DENSITIES for seed in TIME_SEEDS]
    results = in_turn(first_lines, tasks)
    rows = []
    for density in TIME_DENSITIES:
        firsts = [it for task, each in zip(tasks, results) if task[0] == density for it in each]
        for kind in ('found', 'lock', 'bits', 'sub', 'eph'):
            times = [it[kind] for it in firsts if kind in it]
            shown = [f'{f(times):.2f}' if times else '-' for f in (min, statistics.median, max)]
            rows.append([density, f'`{kind}`', f'{len(times)} of {len(firsts)}', *shown])
    heads = ['C/N0, dB-Hz', 'line', 'satellites', 'least, s', 'median, s', 'greatest, s']
    return table(heads, rows)
