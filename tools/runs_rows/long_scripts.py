"""Long scripts: as many bytes as the program takes, a million commands at one time, and a command
at every sample."""
import itertools
from collections import Counter

from .made_signal import code_file, registers


def most_bytes(runs):
    """16 MiB are 1,677,721 lines of ten bytes and six bytes more, which are a line of another verb
    and too few words."""
    lines = 1677721
    script = '0 state 3\n' * lines + '0 stop'
    runs.tell('16 MiB', len(script) == 16 << 20, len(script))
    runs.see('a script of 16 MiB', [script], b'',
             '1 0 state 3 idle\n' * lines + '1 0 err 6\n1 0 end\n')


def a_million_commands_at_one_time(runs):
    """Each start is accepted and each stop too. All come before the first sample, so nothing is
    ever summed up."""
    runs.see('a million commands at one time', ['0 hold 0 1 0 0\n0 stop 0\n' * 500000], bytes(512),
             '1 0 ok\n' * 1000000 + '1 4096 end\n')


def a_command_at_every_sample(runs):
    """A hold, and a state at each time of a run over 12,288 samples. A period of the code has 2,046
    samples, so there are t / 2,046 dumps by the time t."""
    times = range(12289)
    script = '0 hold 2 1 0 0\n' + ''.join(f'{time} state 2\n' for time in times)
    lines = ''.join(f'1 {time} state 2 hold 1 {time // 2046}\n' for time in times)
    runs.see('a command at every sample', [script], code_file(12288),
             f'1 0 ok\n{lines}1 12288 end\n', pieces=(1, 100, 16384))


def full_buffer(runs):
    """Text is held back until the buffer is full. Each answer is `1 0 state 0 idle` with its end,
    17 bytes. The buffer has 16,384 bytes, so 963 of them, 16,371 bytes, go out when the next
    doesn't fit, four times. The other 148 go out before the read, and `1 0 end` after it."""
    lengths = [len(text) for text in runs.written(['0 state 0\n' * 4000], b'')]
    runs.tell('writes of a full buffer', lengths == [16371, 16371, 16371, 16371, 2516, 8], lengths)


def any_bytes(runs):
    """Ten thousand runs of 0 to 96 bytes of every value, each followed by a line feed. How often
    each refusal comes was counted by a few lines of Python, written from the rules alone. The last
    line that has a time reads `9`."""
    values = (register & 255 for register in registers())
    script = b''.join(bytes(itertools.islice(values, run % 97)) + b'\n' for run in range(10000))
    seen = len(script), len(set(script))
    runs.tell('bytes of every value', seen == (489604, 256), seen)
    came = b''.join(runs.written([script.decode('latin-1')], bytes(2))).decode().splitlines()
    times = [int(line.split()[1]) for line in came[:-1]]
    ends = sorted(times) == times and times[-1] == 9 and came[-1] == '1 16 end'
    runs.tell('any bytes end', ends, came[-2:])
    refusals = Counter(' '.join(line.split()[2:]) for line in came[:-1] if ' err ' in line)
    wanted = {'err 1': 1222, 'err 2': 10436, 'err 3': 43, 'err 4': 3, 'err 5': 2}
    runs.tell('refusals of any bytes', refusals == wanted, refusals)


ROWS = any_bytes, full_buffer, most_bytes, a_million_commands_at_one_time, a_command_at_every_sample
