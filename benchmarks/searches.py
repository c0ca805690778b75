"""Measures `acquire`: false alarms on noise, and how often a signal is found."""
import random

from made_runs import in_turn, lines_of, name, table
from theory import detection, false_alarm, packing_loss, replica_loss

# Periods and thresholds on noise; bins, and the recordings with 32 searches each.
NOISE_PLANS = {1: (110, 130, 150), 2: (70, 80, 95), 4: (45, 50, 60, 75), 10: (30, 35, 40, 45)}
NOISE_BINS = {4: 6, 20: 2}

# Periods and thresholds of a signal, in 4 bins to each side; C/N0 in dB-Hz; trials of each.
SIGNAL_PLANS = ((1, 150), (2, 95), (4, 75), (4, 60), (10, 45))
SIGNAL_BINS = 4
DENSITIES = (32, 34, 36, 38, 40, 42, 44, 46)
TRIALS = 100


def cells_of(bins):
    """The cells of a search."""
    return 2046 * (2 * bins + 1)


def samples_of(bins, periods):
    """The samples until a search is due, and up to a whole byte."""
    return (2046 * periods + 4 * cells_of(bins)) // 4 * 4 + 8


def found_on_noise(bins, periods, threshold, seed):
    """How many of 32 searches, one for each satellite, are `found` in a recording of noise."""
    scripts = [[f'0 acquire {s} {4 * k + s + 1} 0 {bins} {periods} {threshold}' for s in range(4)]
               for k in range(8)]
    lines = lines_of(scripts, [], samples_of(bins, periods), seed)
    answers = [words[5] for words in lines if words[2] == 'acq']
    assert len(answers) == 32, 'a search gave no answer'
    return answers.count('found')


def measure_noise():
    """The table of false alarms."""
    plans = [(bins, periods, threshold) for bins in NOISE_BINS
             for periods, thresholds in NOISE_PLANS.items() for threshold in thresholds]
    tasks = [(*plan, 1000 + seed) for plan in plans for seed in range(NOISE_BINS[plan[0]])]
    counts = dict.fromkeys(plans, 0)
    for task, count in zip(tasks, in_turn(found_on_noise, tasks)):
        counts[task[:3]] += count
    rows = []
    for bins, periods, threshold in plans:
        chance = false_alarm(periods, threshold, cells_of(bins))
        trials = 32 * NOISE_BINS[bins]
        count = counts[bins, periods, threshold]
        rows.append((bins, periods, threshold, trials, count, f'{count / trials:.3f}',
                     f'{chance:.2g}'))
    return table(['B', 'N', 'H', 'searches', 'found', 'share', 'theory, at most'], rows)


def is_right(words, doppler, half):
    """Whether an `acq` line names the signal's cell or one beside it, and says `found`."""
    beside = (int(words[7]) - int(half) + 1023) % 2046 - 1023
    return words[5] == 'found' and abs(250 * int(words[6]) - doppler) <= 375 and abs(beside) <= 1


def try_signal(density, trial):
    """For each plan whether a signal is found at its place, and whether anything else is."""
    drawn = random.Random(f'{density} {trial}')
    satellite, doppler = drawn.randint(1, 32), drawn.uniform(-1125, 1125)
    half, periods = drawn.uniform(0, 2045.9), drawn.randrange(30000)
    script = [f'0 acquire {slot} {satellite} 0 {SIGNAL_BINS} {n} {h}'
              for slot, (n, h) in enumerate(SIGNAL_PLANS)]
    lines = lines_of([script], [name(satellite, doppler, half, density, periods)],
                     samples_of(SIGNAL_BINS, 10), 100 * density + trial, shares='8')
    answers = {int(words[3]): words for words in lines if words[2] == 'acq'}
    slots = range(len(SIGNAL_PLANS))
    right = [is_right(answers[slot], doppler, half) for slot in slots]
    return right, [answers[slot][5] == 'found' and not right[slot] for slot in slots]


def measure_signals():
    """The table of shares found, and the rows of the picture."""
    tasks = [(density, trial) for density in DENSITIES for trial in range(TRIALS)]
    results = in_turn(try_signal, tasks)
    loss = packing_loss(1) + replica_loss()
    rows, points, elsewhere = [], [], 0
    for k, density in enumerate(DENSITIES):
        these = results[k * TRIALS:(k + 1) * TRIALS]
        elsewhere += sum(sum(wrong) for _, wrong in these)
        shares = [sum(right[plan] for right, _ in these) / TRIALS
                  for plan in range(len(SIGNAL_PLANS))]
        theory = [detection(n, h, density, loss) for n, h in SIGNAL_PLANS]
        rows.append([density] + [f'{share:.2f} ({chance:.2f})'
                                 for share, chance in zip(shares, theory)])
        points.append([density, *shares])
    heads = ['C/N0, dB-Hz'] + [f'N {n}, H {h}' for n, h in SIGNAL_PLANS]
    lines = table(heads, rows)
    lines += ['', f'In {len(tasks) * len(SIGNAL_PLANS)} searches another cell than the signal\'s, '
              f'or one beside it, was `found` {elsewhere} times.']
    return lines, points, loss


def curves(loss):
    """Theory in steps of 0.25 dB for the picture."""
    densities = [30 + k / 4 for k in range(73)]
    return [[density, *(detection(n, h, density, loss) for n, h in SIGNAL_PLANS)]
            for density in densities]
