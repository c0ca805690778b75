"""Recordings and scripts whose lines are known beforehand, and the programs that are tried."""
import os
import subprocess
from dataclasses import dataclass

TOP = os.path.dirname(os.path.dirname(os.path.dirname(os.path.realpath(__file__))))

# The bytes of the longest line of a script that isn't refused for its length.
LONGEST_LINE = 80

# What Rust's own std reads from the environment. The proved programs have none of it.
MARK_OF_STD = b'RUST_BACKTRACE'


@dataclass
class Programs:
    """Both programs, and a folder for the files of the rows."""
    receiver: str
    pack: str
    folder: str
    is_plain: bool

    def file(self, name, data):
        """Writes a file, and gives its path."""
        path = os.path.join(self.folder, name)
        with open(path, 'wb') as out:
            out.write(data)
        return path

    def library(self, name, source):
        """Makes a library of a text of C, and gives its path; nothing where no compiler does."""
        path = os.path.join(self.folder, f'{name}.so')
        text = self.file(f'{name}.c', source.encode())
        try:
            subprocess.run(['cc', '-shared', '-fPIC', '-O1', '-o', path, text], check=True,
                           stderr=subprocess.DEVNULL)
        except (OSError, subprocess.CalledProcessError):
            return None
        return path

    def either(self, proved, plain):
        """What holds of the build that is tried."""
        return plain if self.is_plain else proved


def is_plain(program):
    """Whether a program is one of Rust's own std."""
    with open(program, 'rb') as text:
        return MARK_OF_STD in text.read()


@dataclass
class Case:
    """A command, what it reads, and all that it has to write."""
    command: list
    given: bytes
    lines: bytes


def example(programs):
    """A stored example: a satellite that is held, and five dumps."""
    folder = os.path.join(TOP, 'examples')
    with open(os.path.join(folder, 'three_satellites.real1'), 'rb') as recording:
        given = recording.read()
    with open(os.path.join(folder, 'hold_counts.expected'), 'rb') as expected:
        lines = expected.read()
    script = os.path.join(folder, 'hold_counts.script')
    return Case([programs.receiver, script, '--offset', '511500'], given, lines)


def states(programs, count, step=80):
    """A script that asks for the state of an idle slot every so many samples."""
    times = range(0, count * step, step)
    name = f'states-{count}-{step}'
    script = programs.file(name, b''.join(b'%d state 0\n' % time for time in times))
    lines = b''.join(b'1 %d state 0 idle\n' % time for time in times)
    samples = count * step
    return Case([programs.receiver, script], bytes(samples // 8), lines + b'1 %d end\n' % samples)


def searches(programs, clients, share):
    """Clients all of whose slots search, over too few samples for an answer."""
    scripts = []
    for client in range(clients):
        # A plan of the most cells, whose search is due after 664,950 samples.
        text = b''.join(b'0 acquire %d %d 0 40 1 1000\n' % (slot, client * share % 32 + 1)
                        for slot in range(share))
        scripts.append(programs.file(f'search-{client}-of-{clients}', text))
    size = 2048
    lines = b''.join(b'%d 0 ok\n' % (client + 1) for client in range(clients)
                     for _ in range(share))
    lines += b''.join(b'%d %d end\n' % (client + 1, 8 * size) for client in range(clients))
    shares = f'{share}' * clients
    return Case([programs.receiver, '--shares', shares, *scripts], bytes(size), lines)


def one_line(programs, size, count):
    """Scripts of so many bytes that are a line of blanks: one that is too long is refused."""
    script = programs.file(f'line-{size}', b' ' * size)
    clients = range(1, count + 1)
    answers = b''.join(b'%d 0 err 1\n' % it for it in clients if size > LONGEST_LINE)
    return Case([programs.receiver, *[script] * count], b'',
                answers + b''.join(b'%d 0 end\n' % it for it in clients))


def packed(programs, count=100000):
    """Unsigned bytes packed into signs: 1 below 127.5, the earliest in the top bit."""
    given = bytes(k * 37 % 256 for k in range(count * 8))
    signs = ''.join('1' if value < 127.5 else '0' for value in given)
    return Case([programs.pack, '--from', 'u8', '--to', 'real1'], given,
                int(signs, 2).to_bytes(count, 'big'))
