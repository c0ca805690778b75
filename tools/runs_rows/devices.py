"""Devices that fail: what was written until then is a front of the lines. Whether a device is asked
again the tests of the crate `receiver` see."""
import os
import resource
import signal
import subprocess

from hanging import HANGS
from .clients import FIRST_COUNT, SUMS
from .made_signal import code_file

LINES = f'1 0 ok\n1 0 ok\n1 2046 count 0 {SUMS}\n1 2048 end\n'.encode()


def limit_files(size):
    """A write past so many bytes of a file takes those before them, and the next one fails."""
    signal.signal(signal.SIGXFSZ, signal.SIG_IGN)
    resource.setrlimit(resource.RLIMIT_FSIZE, (size, size))


def ended(command, **streams):
    """The status and the standard error of a run; nothing of one that hangs."""
    try:
        ran = subprocess.run(command, stderr=subprocess.PIPE, timeout=HANGS, **streams)
    except subprocess.TimeoutExpired:
        return None, b''
    return ran.returncode, ran.stderr


def files_with_too_little_room(runs):
    """A file has room for every number of bytes that is less than all."""
    path = os.path.join(runs.folder, 'lines')
    command = runs.command([FIRST_COUNT], ())
    for size in range(len(LINES)):
        with open(path, 'w+b') as file:
            how = ended(command, input=code_file(), stdout=file,
                        preexec_fn=lambda: limit_files(size))
            file.seek(0)
            came = *how, file.read()
        runs.tell(f'room for {size} bytes', came == (1, b'receiver: write\n', LINES[:size]), came)


def endless_samples(runs):
    """Samples without end, and no room for the first line, which comes before the first sample or
    with the first byte."""
    for time in 0, 8:
        with open('/dev/zero', 'rb') as zeros, open('/dev/full', 'wb') as full:
            came = ended(runs.command([f'{time} state 0\n'], ()), stdin=zeros, stdout=full)
        runs.tell(f'zeros without end, a line at {time}', came == (1, b'receiver: write\n'), came)


ROWS = files_with_too_little_room, endless_samples
