"""The message of a satellite that is tracked. Its words were worked out by the parity equations
(IS-GPS-200, section 20.3.5), and the times of the lines are those that the specification's two
references give, or a program in another language, apart from this project."""
from .made_signal import Signal
from .signals import TRACK, see

# The telemetry word, after two bits 0.
TELEMETRY = 0x22c00012
# The handover words after it, of subframe 1 at the time count 1, of 2 at 2, and of 3 at 3. Their
# data are 000084, 00010a and 00018c: the last two bits let the word end in 0, 0.
HANDOVERS = 0x2104, 0x4294, 0x631c
# What such subframes tell, after their times. All their other words are zeros.
ZEROS = ' '.join(['000000'] * 8)
SUBFRAMES = (f'sub 0 1 1 8b0000 000084 {ZEROS}', f'sub 0 2 2 8b0000 00010a {ZEROS}',
             f'sub 0 3 3 8b0000 00018c {ZEROS}')
# The set of the three subframes' fields, which are all 0.
SET = (
    'eph 0 wn=0:0 l2=0:0 ura=0:0 health=0:0 iodc=0:0 l2p=0:0 tgd=0:-31 toc=0:4 '
    'af2=0:-55 af1=0:-43 af0=0:-31 iode=0:0 crs=0:-5 dn=0:-43 m0=0:-31 cuc=0:-29 e=0:-33 '
    'cus=0:-29 sqrta=0:-19 toe=0:4 fit=0:0 aodo=0:0 cic=0:-29 om0=0:-31 cis=0:-29 i0=0:-31 '
    'crc=0:-5 w=0:-31 omdot=0:-43 iode3=0:0 idot=0:-43')


def word(bits):
    """The 30 bits of a word, the highest first."""
    return [bits >> place & 1 for place in reversed(range(30))]


def header(handover):
    """The first two words of a subframe."""
    return word(TELEMETRY) + word(handover)


def subframes(handovers):
    """Two bits 0, and then subframes with these handover words and eight words of zeros each."""
    return [0, 0] + [bit for handover in handovers for bit in header(handover) + [0] * 240]


def tracks(runs, name, bits, count, *lines):
    """Sees what a run tells that tracks the satellite over so many samples of its signal. The data
    bits are 40 that alternate, and then these."""
    signal = Signal(bits)
    see(runs, name, signal, signal.samples(count), TRACK,
        told(['0 ok', '547378 lock 0', '1302377 bits 0', *lines, f'{count} end']))


def told(lines):
    """The lines of client 1."""
    return ''.join(f'1 {line}\n' for line in lines)


def one_subframe(runs):
    """6,860 periods of the code."""
    tracks(runs, 'a subframe', subframes(HANDOVERS[:1]), 17150000, f'17099867 {SUBFRAMES[0]}')


def one_set(runs):
    """18,860 periods."""
    first, second, third = SUBFRAMES
    tracks(runs, 'a set', subframes(HANDOVERS), 47150000, f'17099867 {first}',
           f'32099858 {second}', f'47099848 {third}', f'47099848 {SET}')


def inverted_tail(runs):
    """From word 6 on all bits are inverted. Word 6 has two bits 0 before it and doesn't pass. Those
    after it have two bits 1 before them, and pass with the data that were sent."""
    bits = [0, 0, *header(HANDOVERS[0]), *[0] * 90, *[1] * 150]
    tracks(runs, 'an inverted tail', bits, 17150000,
           '17099867 sub 0 1 1 8b0000 000084 000000 000000 000000 ------ '
           '000000 000000 000000 000000')


def cut(runs):
    """Noise hides the signal for 260 milliseconds, after the first 70 bits of a subframe. Nothing
    that was read before is used again. The edge is found anew. No subframe comes with the 300th bit
    from the old start on, and the next one has no gap before it. Subframe 3 makes no set with 1 and
    2 of before, and a set like the one that was reported is reported again."""
    first, second, third = HANDOVERS
    bits = [*subframes(HANDOVERS), *header(first), *[0] * 10, *[0, 1] * 16,
            *subframes((third, first, second))]
    signal = Signal(bits, rate=2046000, offset=511500, alternations=28)
    samples = signal.samples(79150000, [(40920000, 41450000)])
    first, second, third = SUBFRAMES
    see(runs, 'nothing is kept over an unlock', signal, samples,
        TRACK + '41000000 state 0\n41600000 state 0\n42200000 state 0\n', told([
            '0 ok', '447974 lock 0', '1065866 bits 0',
            f'13503492 {first}', f'25779484 {second}', f'38055476 {third}', f'38055476 {SET}',
            '41000000 state 0 track 7 20039 65807238 -27184 bits',
            '41367948 unlock 0', '41531628 lock 0',
            '41600000 state 0 track 7 20332 65525952 6144 lock',
            '42149520 bits 0',
            '42200000 state 0 track 7 20625 65536030 5168 bits',
            f'54587146 {third}', f'66863138 {first}', f'79139130 {second}', f'79139130 {SET}',
            '79150000 end']))


ROWS = one_subframe, one_set, inverted_tail, cut
