"""Runs of the built program, whose devices keep apart what it reads and what it writes at once."""
import os
import socket
import subprocess
import threading

from hanging import HANGS

# The program reads at most so many bytes at once, and writes fewer than so many.
MOST_READ = 16384
MOST_WRITTEN = 65536


def cut(data, size):
    """Bytes in pieces of a size."""
    return [data[at:at + size] for at in range(0, len(data), size)]


def feed(device, pieces):
    """Gives pieces to a run, one a read, and then their end."""
    with device:
        try:
            for piece in pieces:
                device.send(piece)
        except ConnectionError:
            # The run has ended. What it wrote tells whether that was right.
            pass


def difference(came, text):
    """How lines differ from the right ones."""
    came, wanted = came.split(b'\n'), text.split(b'\n')
    at = next((k for k, pair in enumerate(zip(came, wanted)) if pair[0] != pair[1]),
              min(len(came), len(wanted)))
    return f'line {at + 1} is {came[at:at + 1]}, not {wanted[at:at + 1]}'


class Runs:
    """Runs of a program, how many there were, and how many were wrong."""

    def __init__(self, program, folder):
        self.program = program
        self.folder = folder
        self.count = 0
        self.wrong = 0

    def tell(self, name, is_right, came):
        """Counts what is asked of a run, and prints what came where that isn't right."""
        self.count += 1
        if not is_right:
            self.wrong += 1
            print(f'runs: {name}: {came}')

    def command(self, scripts, options):
        """The command of a run over scripts."""
        paths = []
        for number, script in enumerate(scripts):
            paths.append(os.path.join(self.folder, f'script-{number}'))
            with open(paths[-1], 'wb') as file:
                file.write(script.encode('latin-1'))
        return [self.program, *options, *paths]

    def written(self, scripts, samples, options=(), piece=MOST_READ):
        """What a run that ends well writes, write by write, where a read gives so many bytes. A
        packet of a socket is what one read gives, or what one write takes."""
        reads, gives = socket.socketpair(socket.AF_UNIX, socket.SOCK_SEQPACKET)
        takes, writes = socket.socketpair(socket.AF_UNIX, socket.SOCK_SEQPACKET)
        with reads, writes:
            process = subprocess.Popen(self.command(scripts, options), stdin=reads, stdout=writes)
        threading.Thread(target=feed, args=(gives, cut(samples, piece)), daemon=True).start()
        takes.settimeout(HANGS)
        packets = []
        try:
            with takes:
                packets.extend(iter(lambda: takes.recv(MOST_WRITTEN), b''))
        except socket.timeout:
            process.kill()
        if process.wait():
            packets.append(b'status %d\n' % process.returncode)
        return packets

    def see(self, name, scripts, samples, lines, *options, pieces=(MOST_READ,)):
        """Sees that runs that get so many bytes a read write these lines."""
        text = lines.encode()
        for piece in pieces:
            came = b''.join(self.written(scripts, samples, options, piece))
            is_right = came == text
            self.tell(f'{name}, {piece} bytes a read', is_right,
                      is_right or difference(came, text))

    def see_cut(self, name, scripts, samples, lines, *options, steps):
        """Sees that runs write these lines wherever their samples are cut, of one bit each. One
        more client asks for a state after each so many samples, and its lines are left out."""
        stranger = b'%d ' % (len(scripts) + 1)
        text = lines.encode()
        for step in steps:
            times = range(step, 8 * len(samples), step)
            cuts = ''.join(f'{time} state 0\n' for time in times)
            written = b''.join(self.written([*scripts, cuts], samples, options)).splitlines(True)
            came = b''.join(line for line in written if not line.startswith(stranger))
            is_right = came == text and len(written) == text.count(b'\n') + len(times) + 1
            self.tell(f'{name}, cut after each {step} samples', is_right, difference(came, text))
