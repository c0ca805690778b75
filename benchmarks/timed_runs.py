"""Processor time of programs that run in turn, and the scripts that they run over."""
import os
import subprocess
import sys

from made_runs import TOP

# How often each program runs; the least time counts.
RUNS = int(os.environ.get('RUNS', '5'))
BUNDLED = os.path.join(TOP, 'examples', 'three_satellites.real1')
# The cells of the widest search: 2,046 half chips in 81 bins.
CELLS = 2046 * 81


def receivers(words, crate='receiver_cli', program='receiver'):
    """The programs by their names. Each word is NAME=PATH; without any it is the one built here."""
    if any('=' not in word for word in words):
        sys.exit(sys.modules['__main__'].__doc__)
    if words:
        return {name: os.path.abspath(path) for name, path in (it.split('=', 1) for it in words)}
    ran = subprocess.run([os.path.join(TOP, 'tools', 'build'), crate, program], check=True,
                         stdout=subprocess.PIPE, encoding='utf-8')
    return {program: ran.stdout.strip()}


def spent(command, samples=os.devnull, lines=os.devnull, folder=None):
    """The processor seconds of a command, user and system, of all its threads."""
    with open(samples, 'rb') as given, open(lines, 'wb') as printed:
        process = subprocess.Popen([str(it) for it in command], stdin=given, stdout=printed,
                                   cwd=folder)
        _, status, used = os.wait4(process.pid, 0)
    process.returncode = status
    if status:
        sys.exit(f'{command[0]} ended with wait status {status}')
    return used.ru_utime + used.ru_stime


def least(measures):
    """The least that each of these measures gives by its name, where all are made in turn."""
    found = {name: [] for name in measures}
    for _ in range(RUNS):
        for name, measure in measures.items():
            found[name].append(measure())
    return {name: min(values) for name, values in found.items()}


def recording(path, samples, per_byte, source=BUNDLED):
    """Writes the bundled recording over and over. What its samples are doesn't change the work."""
    with open(source, 'rb') as file:
        once = file.read()
    size = samples // per_byte
    with open(path, 'wb') as file:
        file.write((once * (size // len(once) + 1))[:size])
    return path


def written(folder, name, scripts):
    """The paths of scripts that are written into a folder, each a list of lines."""
    paths = [os.path.join(folder, f'{name}-{k}.script') for k in range(len(scripts))]
    for path, lines in zip(paths, scripts):
        with open(path, 'w', encoding='ascii') as file:
            file.writelines(line + '\n' for line in lines)
    return paths


def holding(slots, share, more=()):
    """Scripts in which each slot holds a satellite with a shift and a half chip of its own. `more`
    are commands that each slot gets after this, with `{}` for its number."""
    scripts = [[] for _ in range(-(-slots // share))]
    for k in range(slots):
        here = scripts[k // share]
        here.append(f'0 hold {k % share} {k % 32 + 1} {1000 * (k % 32) - 16000} {97 * k % 2046}')
        here += [line.format(k % share) for line in more]
    return scripts


def searching(slots, share, periods=1):
    """Scripts in which each slot does the widest search."""
    scripts = [[] for _ in range(-(-slots // share))]
    for k in range(slots):
        scripts[k // share].append(f'0 acquire {k % share} {k % 32 + 1} 0 40 {periods} 1000')
    return scripts


def run_of(program, scripts, share, rate=2046000, packing='real1'):
    """The command of a run over the paths of scripts."""
    return [program, '--rate', rate, '--offset', rate // 4, '--format', packing,
            '--shares', str(share) * len(scripts), *scripts]
