"""Eight clients with all their slots over the beginning of a recording, beside eight runs with one
client each; and two slots, in runs of many lengths."""
import os

from .made_signal import Signal
from .tracker import Reference

# The folder of the examples. The recording is of three satellites in noise.
EXAMPLES = os.path.join(os.path.dirname(os.path.realpath(__file__)), '..', '..', 'examples')
OPTIONS = '--offset', '511500'
# For each client, a hold and its counts in each of its slots: 32 satellites in all.
SCRIPTS = (
    '0 hold 0 5 1250 700\n0 counts 0 5\n'
    '0 hold 1 17 -2600 1511\n0 counts 1 3\n'
    '0 hold 2 29 300 42\n0 counts 2 5\n'
    '0 hold 3 1 -12889 1893\n0 counts 3 3\n',
    '0 hold 2 4 -9778 1740\n0 counts 2 5\n'
    '388 hold 0 2 -11852 478\n388 counts 0 5\n'
    '485 hold 1 3 -10815 1109\n485 counts 1 3\n'
    '679 hold 3 6 -8741 325\n679 counts 3 3\n',
    '0 hold 1 8 -6667 1587\n0 counts 1 3\n'
    '776 hold 0 7 -7704 956\n776 counts 0 5\n'
    '970 hold 2 9 -5630 172\n970 counts 2 5\n'
    '1067 hold 3 10 -4593 803\n1067 counts 3 3\n',
    '0 hold 0 11 -3556 1434\n0 counts 0 5\n'
    '0 hold 3 14 -445 1281\n0 counts 3 3\n'
    '1261 hold 1 12 -2519 19\n1261 counts 1 3\n'
    '1358 hold 2 13 -1482 650\n1358 counts 2 5\n',
    '0 hold 2 18 2666 1128\n0 counts 2 5\n'
    '1552 hold 0 15 592 1912\n1552 counts 0 5\n'
    '1649 hold 1 16 1629 497\n1649 counts 1 3\n'
    '1843 hold 3 19 3703 1759\n1843 counts 3 3\n',
    '0 hold 1 21 5777 975\n0 counts 1 3\n'
    '134 hold 2 22 6814 1606\n134 counts 2 5\n'
    '231 hold 3 23 7851 191\n231 counts 3 3\n'
    '1940 hold 0 20 4740 344\n1940 counts 0 5\n',
    '0 hold 0 24 8888 822\n0 counts 0 5\n'
    '0 hold 3 27 11999 669\n0 counts 3 3\n'
    '425 hold 1 25 9925 1453\n425 counts 1 3\n'
    '522 hold 2 26 10962 38\n522 counts 2 5\n',
    '0 hold 2 31 15110 516\n0 counts 2 5\n'
    '716 hold 0 28 13036 1300\n716 counts 0 5\n'
    '813 hold 1 30 14073 1931\n813 counts 1 3\n'
    '1007 hold 3 32 -15854 1147\n1007 counts 3 3\n',
)
# How many dumps each client gets: five or three of each slot, as far as they come within the
# samples.
DUMPS = 15, 15, 14, 15, 15, 14, 15, 14
# The first client's lines, without its number. A program that adds up sample by sample, apart from
# this project, gives them and the numbers of dumps; the lines of slot 0 also came with the
# recording.
FIRST_LINES = (
    '0 ok\n'
    '0 ok\n'
    '0 ok\n'
    '0 ok\n'
    '0 ok\n'
    '0 ok\n'
    '0 ok\n'
    '0 ok\n'
    '154 count 3 14 4 12 12 -2 12\n'
    '536 count 1 -135 -5 -271 35 -163 3\n'
    '1346 count 0 -354 -50 -704 -12 -432 -42\n'
    '2004 count 2 -577 381 -1149 -11 -583 -293\n'
    '2200 count 3 89 -25 91 5 41 -9\n'
    '2582 count 1 -659 -67 -1127 9 -575 93\n'
    '3392 count 0 -623 -73 -1079 11 -483 143\n'
    '4050 count 2 -861 -153 -1157 -97 -415 157\n'
    '4246 count 3 58 -70 14 -10 -44 -8\n'
    '4628 count 1 -577 -25 -1139 33 -605 55\n'
    '5438 count 0 -451 -27 -1107 -7 -639 37\n'
    '6096 count 2 -352 54 -1120 66 -810 136\n'
    '7484 count 0 -687 -39 -1179 141 -579 161\n'
    '8142 count 2 -554 98 -954 -34 -324 -88\n'
    '9530 count 0 -519 15 -1027 3 -527 -77\n'
    '9600 end\n')


# After how many samples another client cuts runs.
STEPS = 1, 7, 64, 513, 1000, 1024


def recorded(size):
    """So many bytes of the recording."""
    with open(os.path.join(EXAMPLES, 'three_satellites.real1'), 'rb') as file:
        return file.read(size)


def lines_of(text, client):
    """The lines of a client, without its number."""
    lines = (line.split(b' ', 1) for line in text.splitlines(True))
    return b''.join(line for number, line in lines if number == b'%d' % client)


def clients_do_not_touch_each_other(runs):
    """Four holds and four counts of each client, its dumps, and its end. They are written before
    the two reads and at the end."""
    samples = recorded(1200)
    writes = runs.written(SCRIPTS, samples, OPTIONS)
    together = b''.join(writes)
    first = lines_of(together, 1)
    runs.tell('the first of eight clients', first == FIRST_LINES.encode(), first)
    seen = len(writes), together.count(b'\n')
    runs.tell('the writes and lines of eight clients', seen == (3, 189), seen)
    for number, (script, dumps) in enumerate(zip(SCRIPTS, DUMPS), 1):
        alone = b''.join(runs.written([script], samples, OPTIONS))
        is_same = lines_of(alone, 1) == lines_of(together, number)
        runs.tell(f'client {number} alone', is_same and alone.count(b'\n') == dumps + 9, alone)


def two_slots_hold_alike(runs):
    """Slots of two clients that hold the same satellite have its dumps together, the first client's
    first, also where most runs bring nothing, so that their samples wait. The sums are those of the
    first client above."""
    scripts = [f'0 hold {slot} 5 1250 700\n0 counts {slot} 2\n' for slot in (0, 1)]
    counts = [line.split(' count 0 ') for line in FIRST_LINES.splitlines() if ' count 0 ' in line]
    lines = ''.join(f'{client} {time} count {client - 1} {sums}\n' for time, sums in counts[:2]
                    for client in (1, 2))
    runs.see_cut('two slots that hold alike', scripts, recorded(500),
                 f'1 0 ok\n1 0 ok\n2 0 ok\n2 0 ok\n{lines}1 4000 end\n2 4000 end\n',
                 *OPTIONS, '--shares', '121', steps=STEPS)


def first_dump(first):
    """When a hold of satellite 5 that begins at a sample has its first dump, and its sums, by the
    plain tracker: a first dump is that of a hold. Each sample takes two bits there, which are its
    sign and a size of 1."""
    values = ''.join(f'{byte:08b}' for byte in recorded(500))[first:]
    two_bit = int(''.join(bit + '0' for bit in values), 2).to_bytes(len(values) // 4, 'big')
    reference = Reference(Signal(rate=2046000, offset=511500, satellite=5, doppler=1250,
                                 half_chip=700), two_bit, 1)
    reference.dump(4000)
    _, time, _, _, sums = reference.lines[0].split(' ', 4)
    return f'1 {int(time) + first} count {{}} {sums}\n'


def slots_begin_while_samples_wait(runs):
    """A slot begins with the sample after those so far, also where these wait for others. Slot 0
    holds from sample 0 on, and is asked for its state while samples wait. Slot 1 begins at sample
    500, stops at 600, and begins again at 700. Either has its first dump 1,346 samples after it
    began, and the next one 2,046 later."""
    begin = '{0} hold {1} 5 1250 700\n{0} counts {1} 9\n'
    script = (begin.format(0, 0) + begin.format(500, 1) + '600 state 0\n600 stop 1\n' +
              begin.format(700, 1) + '2045 state 0\n2045 state 1\n2046 state 1\n'
              '4000 state 0\n4000 state 1\n')
    second = next(line for line in FIRST_LINES.splitlines() if line.startswith('3392 '))
    runs.tell('the first dump by the plain tracker', first_dump(0).format(0)[2:] in FIRST_LINES,
              first_dump(0))
    runs.see_cut('slots that begin while samples wait', [script], recorded(500),
                 '1 0 ok\n1 0 ok\n'
                 '1 500 ok\n1 500 ok\n'
                 '1 600 state 0 hold 5 0\n1 600 ok\n'
                 '1 700 ok\n1 700 ok\n'
                 f'{first_dump(0).format(0)}'
                 '1 2045 state 0 hold 5 1\n1 2045 state 1 hold 5 0\n'
                 f'{first_dump(700).format(1)}'
                 '1 2046 state 1 hold 5 1\n'
                 f'1 {second}\n'
                 '1 4000 state 0 hold 5 2\n1 4000 state 1 hold 5 1\n'
                 '1 4000 end\n', *OPTIONS, steps=STEPS)


ROWS = clients_do_not_touch_each_other, two_slots_hold_alike, slots_begin_while_samples_wait
