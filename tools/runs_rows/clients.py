"""Several clients over the same samples, with equal and with unequal shares of the slots."""
from .made_signal import code_file

# Holds satellite 1 from the first sample on, and asks for one dump. Each sample of the code's file
# meets its own chip, so the prompt products are 2,046 times +1, and the carrier's pair is 2 and 1
# throughout. The early and the late chip are half a chip away: half of the samples meet their own
# chip, the others a neighbouring one. The products of all neighbouring chips of satellite 1 add up
# to -1, so 1,023 - 1 is left of these.
FIRST_COUNT = '0 hold 0 1 0 0\n0 counts 0 1\n'
SUMS = '2044 -1022 4092 -2046 2044 -1022'


def two_clients_bytewise(runs):
    """A client that counts, and one that asks for states."""
    second = '1 state 0\n3 state 0\n777 state 3\n'
    runs.see('two clients', [FIRST_COUNT, second], code_file(),
             '1 0 ok\n'
             '1 0 ok\n'
             '2 1 state 0 idle\n'
             '2 3 state 0 idle\n'
             '2 777 state 3 idle\n'
             f'1 2046 count 0 {SUMS}\n'
             '1 2048 end\n'
             '2 2048 end\n', pieces=(1, 3, 256))


def strangers_errors(runs):
    """A line `x` has no time, so all 200 stand at 0."""
    runs.see('200 refused lines of another client', [FIRST_COUNT, 'x\n' * 200], code_file(),
             '1 0 ok\n1 0 ok\n' + '2 0 err 3\n' * 200 +
             f'1 2046 count 0 {SUMS}\n1 2048 end\n2 2048 end\n')


def same_time_order(runs):
    """At one time the lines that samples cause come first, then the answers, by client; so client
    2's dump stands before client 1's state."""
    runs.see('the order at one time', ['2046 state 0\n', FIRST_COUNT], code_file(),
             '2 0 ok\n'
             '2 0 ok\n'
             f'2 2046 count 0 {SUMS}\n'
             '1 2046 state 0 idle\n'
             '1 2048 end\n'
             '2 2048 end\n')
    runs.see('the order of one client', [f'{FIRST_COUNT}2046 state 0\n'], code_file(),
             '1 0 ok\n'
             '1 0 ok\n'
             f'1 2046 count 0 {SUMS}\n'
             '1 2046 state 0 hold 1 1\n'
             '1 2048 end\n')


def slots_of_each_share(runs):
    """Each client has the slots below its share."""
    runs.see('shares of eight and one', ['0 state 7\n', '0 state 1\n'], b'',
             '1 0 state 7 idle\n2 0 err 8\n1 0 end\n2 0 end\n', '--shares', '81')


def last_slot_of_each_share(runs):
    """Each kind of command goes to a client's last slot, and is refused for the next one, and for
    one below 0. What was begun is seen by the state: at 0 Hz the loops begin with 0, and a search
    of one bin has 2,046 cells."""
    for share, command, answer, shown in (
            (1, 'state {}', 'state 0 idle', 'idle'),
            (2, 'hold {} 3 0 0', 'ok', 'hold 3 0'),
            (3, 'track {} 3 0 0', 'ok', 'track 3 0 0 0 open'),
            (5, 'acquire {} 3 0 0 1 20', 'ok', 'acquire 3 0 2046'),
            (7, 'counts {} 1', 'err 10', 'idle'),
            (8, 'stop {}', 'err 10', 'idle')):
        last = share - 1
        script = ''.join(f'0 {command.format(slot)}\n' for slot in (last, share, -1))
        runs.see(f'{command} and a share of {share}', [f'{script}0 state {last}\n'], b'',
                 f'1 0 {answer}\n1 0 err 8\n1 0 err 8\n1 0 state {last} {shown}\n1 0 end\n',
                 '--shares', str(share))


def sixty_four_searches(runs):
    """With samples that are all 1 each cell's sums are 2 and -1 times two samples for each chip, of
    which all chips of satellite 1 add up to -1. So all powers are 20, and none of them reaches a
    hundred times the mean. All searches are due after a period and four samples for each of 2,046
    cells."""
    numbers, slots = range(1, 9), range(8)
    script = ''.join(f'0 acquire {slot} 1 0 0 1 1000\n' for slot in slots)
    runs.see('64 searches', [script] * 8, bytes(1279),
             ''.join(f'{client} 0 ok\n' for client in numbers for _ in slots) +
             ''.join(f'{client} 10230 acq {slot} 1 none 0 0 20\n'
                     for client in numbers for slot in slots) +
             ''.join(f'{client} 10232 end\n' for client in numbers), '--shares', '88888888')


def search_among_strangers(runs):
    """Client 1's slot 0 searches over ten periods and 81 bins, from time 0 on. Whatever 31 other
    slots search for, its dwell ends at 20,460, and one cell is done with the fourth sample after
    it. Slot s of client k begins at 4 (k - 1) + s with one period and one bin, so it is due 10,230
    samples later, and all cells are equal, as those above. At 10,000 the dwells of the second and
    of the last slot, which ended at 2,047 and at 2,077, have a cell for each four samples since."""
    asked = [(4 * client + slot, client, slot) for client in range(8) for slot in range(4)][1:]
    scripts = [''.join(f'{time} acquire {slot} 1 0 0 1 1000\n' for time, of, slot in asked
                       if of == client) for client in range(8)]
    scripts[0] = '0 state 0\n0 acquire 0 1 0 40 10 1000\n' + scripts[0]
    scripts[0] += '10000 state 0\n10000 state 1\n20463 state 0\n20464 state 0\n'
    scripts[7] += '31 state 3\n10000 state 3\n20463 state 3\n'
    runs.see('a search among strangers', scripts, bytes(2559),
             '1 0 state 0 idle\n1 0 ok\n' +
             ''.join(f'{client + 1} {time} ok\n' for time, client, _ in asked) +
             '8 31 state 3 acquire 1 0 2046\n'
             '1 10000 state 0 acquire 1 0 165726\n'
             '1 10000 state 1 acquire 1 1988 2046\n'
             '8 10000 state 3 acquire 1 1980 2046\n' +
             ''.join(f'{client + 1} {time + 10230} acq {slot} 1 none 0 0 20\n'
                     for time, client, slot in asked) +
             '1 20463 state 0 acquire 1 0 165726\n'
             '8 20463 state 3 idle\n'
             '1 20464 state 0 acquire 1 1 165726\n' +
             ''.join(f'{client} 20472 end\n' for client in range(1, 9)), pieces=(128, 2559))


def share_of_eight_beside_others(runs):
    """A client's lines are the same whatever shares the others have, and whatever they ask."""
    own = '0 hold 7 1 0 0\n0 counts 7 1\n0 state 6\n'
    wanted = f'2 0 ok\n2 0 ok\n2 0 state 6 idle\n2 2046 count 7 {SUMS}\n2 2048 end\n'.encode()
    for share, other in (('8', ''),
                         ('1', 'x\n0 hold 0 7 0 0\n0 hold 0 7 0 0\n0 stop 1\n'),
                         ('4', '0 acquire 3 1 0 0 1 1000\n2047 state 3\n'),
                         ('8', '0 hold 7 2 0 1000\n0 counts 7 5\n1 stop 7\n2048 state 7\n')):
        came = b''.join(runs.written([other, own], code_file(), ['--shares', f'{share}8'], 3))
        lines = b''.join(line for line in came.splitlines(True) if line.startswith(b'2 '))
        runs.tell(f'a share of eight beside one of {share}', lines == wanted, lines)


def four_slots_each(runs):
    """Where no shares are given, each client has four slots."""
    scripts = [FIRST_COUNT, '0 state 3\n0 state 4\n']
    came = b''.join(runs.written(scripts, code_file()))
    first = b'1 0 ok\n1 0 ok\n2 0 state 3 idle\n2 0 err 8\n'
    is_right = came.startswith(first) and came.endswith(b'\n1 2048 end\n2 2048 end\n')
    runs.tell('four slots each', is_right, came)
    runs.see('shares of four', scripts, code_file(), came.decode(), '--shares', '44')


def first_dumps(runs):
    """Satellites 1 and 7 begin half a chip before the end of their codes, in eight samples of
    value 1. Of both chip 0 is 1 and chip 1022 is 0. Satellite 1 is at 0 Hz, where one sample ends
    the segment, and the carrier's first pair is 2, 1: the early chip, of the next period, has the
    sign -1, the others +1. Satellite 7 is a little slower than half a chip a sample, so the second
    sample ends the segment. The carrier has turned a little less than a whole cycle back there,
    where its pair is 2, -1: the signs of the quadrature cancel. It is the same whichever satellite
    has a chip table first, and for slots of shares that differ."""
    first, second = 'hold {} 1 0 2045', 'hold {} 7 -1000 2045'
    for name, holds, slots, lines, options in (
            ('two first dumps', (first, second), (0, 0),
             ['1 1 count 0 -2 1 2 -1 2 -1', '2 2 count 0 -4 0 4 0 4 0'], ()),
            ('two first dumps the other way round', (second, first), (0, 0),
             ['2 1 count 0 -2 1 2 -1 2 -1', '1 2 count 0 -4 0 4 0 4 0'], ()),
            ('first dumps of one and of eight slots', (first, second), (0, 7),
             ['1 1 count 0 -2 1 2 -1 2 -1', '2 2 count 7 -4 0 4 0 4 0'], ('--shares', '18'))):
        one, other = (f'0 {hold.format(slot)}\n0 counts {slot} 1\n'
                      for hold, slot in zip(holds, slots))
        asked = f'0 state {slots[1]}\n'
        text = ['1 0 ok', '1 0 ok', f'2 0 state {slots[1]} idle', '2 0 ok', '2 0 ok', *lines,
                '1 8 end', '2 8 end']
        runs.see(name, [one, asked + other], bytes(1), ''.join(f'{it}\n' for it in text), *options)


ROWS = (two_clients_bytewise, strangers_errors, same_time_order, slots_of_each_share,
        last_slot_of_each_share, sixty_four_searches, search_among_strangers,
        share_of_eight_beside_others, four_slots_each, first_dumps)
