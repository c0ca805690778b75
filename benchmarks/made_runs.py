"""Runs of the receiver over made recordings."""
import os
import shlex
import shutil
import subprocess
import tempfile
from concurrent.futures import ThreadPoolExecutor
from functools import lru_cache

HERE = os.path.dirname(os.path.realpath(__file__))
TOP = os.path.dirname(HERE)
RATE = 2046000
# How many runs at once.
JOBS = 2


def build():
    """Builds the maker, and the programs as plain Rust, where they aren't built."""
    maker()
    program('packer_cli', 'pack')
    program('receiver_cli', 'receiver')


def maker():
    """The path of the maker of signals."""
    return program('maker', 'maker')


@lru_cache(maxsize=None)
def program(crate, called):
    """The path of a program of this repository. It is built where it has to be."""
    ran = subprocess.run([os.path.join(TOP, 'tools', 'build'), crate, called], check=True,
                         env={**os.environ, 'RECEIVER_PLAIN': '1'}, stdout=subprocess.PIPE,
                         encoding='utf-8')
    return ran.stdout.strip()


def name(satellite, doppler, half, density, periods):
    """A satellite as the maker takes it."""
    return f'{satellite}:{doppler:.3f}:{half:.3f}:{density}:{periods}'


def lines_of(scripts, satellites, samples, seed, packing='iq1', rate=RATE, shares=None):
    """The lines that come of a made recording, split into words."""
    offset = rate // 4 if packing.startswith('real') else 0
    kind = 'iq-i8' if packing.startswith('iq') else 'i8'
    with tempfile.TemporaryDirectory() as folder:
        paths = [os.path.join(folder, f'{k}.script') for k in range(len(scripts))]
        for path, script in zip(paths, scripts):
            with open(path, 'w', encoding='ascii') as file:
                file.write('\n'.join(script) + '\n')
        threshold = ['--threshold', 20] if packing.endswith('2') else []
        more = ['--shares', shares] if shares else []
        commands = [
            [maker(), '--samples', samples, '--seed', seed, '--kind', kind, '--rate', rate,
             '--offset', offset, *satellites],
            [program('packer_cli', 'pack'), '--from', kind, '--to', packing, *threshold],
            [program('receiver_cli', 'receiver'), '--rate', rate, '--offset', offset,
             '--format', packing, *more, *paths],
        ]
        line = ' | '.join(shlex.join(map(str, command)) for command in commands)
        ran = subprocess.run(['bash', '-o', 'pipefail', '-c', line], check=True,
                             stdout=subprocess.PIPE, encoding='ascii')
    return [text.split() for text in ran.stdout.splitlines()]


def in_turn(work, tasks):
    """What the work gives for each task, in the order of the tasks, some at once."""
    with ThreadPoolExecutor(JOBS) as pool:
        return list(pool.map(lambda task: work(*task), tasks))


def draw(script, folder, picture, names=''):
    """Draws by a script of gnuplot, which runs in the folder of what it draws. No path is a part of
    its program."""
    for name_of_file in (script, 'style.gp'):
        shutil.copy(os.path.join(HERE, name_of_file), folder)
    drawn = os.path.join(folder, 'picture.svg')
    with open(drawn, 'wb') as file:
        subprocess.run(['gnuplot', '-d', '-e', f'names="{names}"', script], check=True, cwd=folder,
                       stdout=file)
    shutil.copyfile(drawn, picture)


def table(heads, rows):
    """The lines of a table of Markdown."""
    lines = ['| ' + ' | '.join(heads) + ' |', '|' + '---|' * len(heads)]
    return lines + ['| ' + ' | '.join(map(str, row)) + ' |' for row in rows]
