"""Rows of `pack` that were worked out by hand: words, what comes in, and how the program ends."""
import struct

NUMBER = 'it takes N or N.5, at most 1000000.5'
SAMPLES = 'it takes whole bytes of samples, at most 2^40 samples'
FLOAT = '--threshold: of floats it takes a number from 0 to 3.4e38'

# Words of options that are refused, and why.
REFUSED = (
    ('--from i8', '--to: it is missing, and so is --measure'),
    *((f'--from iq-i8 --measure {words}', f'{words.split()[0]}: --measure packs nothing')
      for words in ('--to real1', '--threshold 3', '--centre 1', '--centre-q 1', '--conjugate')),
    ('--from i8 --to real2', '--to: two bits a part need --threshold; --measure suggests one'),
    ('--from f32 --to real1 --centre 1', '--centre: floats have the centre 0'),
    ('--from i8 --to real2 --threshold -1', f'--threshold: {NUMBER}'),
    ('--from i8 --to real1 --centre 1.7', f'--centre: {NUMBER}'),
    ('--from i8 --to real1 --centre .5', f'--centre: {NUMBER}'),
    ('--from i8 --to real1 --centre 1000001', f'--centre: {NUMBER}'),
    ('--from i8 --to real1 --centre=--3', f'--centre: {NUMBER}'),
    ('--from i8 --to real1 --centre=', f'--centre: {NUMBER}'),
    ('--from i8 --to real1 --centre-q x', f'--centre-q: {NUMBER}'),
    ('--from bits1-low --to real1 --skip 1', f'--skip: {SAMPLES}'),
    ('--from i8 --to real1 --count 1099511627777', f'--count: {SAMPLES}'),
    *((f'--from i8 --to {words}', '--from: real values have no part in quadrature')
      for words in ('iq1', 'real1 --conjugate')),
    ('--from iq-bits1-low --to iq2 --threshold 2', '--from: values of one bit have no sizes'),
    ('--from iq-i8 --to iq1 --part q', '--from: one part makes real samples alone'),
    ('--from f32 --to real2 --threshold 1e39', FLOAT),
    ('--from f32 --to real2 --threshold -1', FLOAT),
    # The float nearest to these is -0.
    *((f'--from f32 --to real2 --threshold -{number}', FLOAT)
      for number in ('1e-46', '0.0000000000000000000000000000000000000000000009', '.9e-99')),
    ('--from f32 --to real2 --threshold nan', FLOAT),
    ('--from f32 --to real2 --threshold x', FLOAT),
)

# Words, values in and the bytes of their packing. Signs are 1 below the centre, sizes 1 beyond the
# threshold from it.
PACKED = (
    # (-1, 3) is at both centres, (-4, 0) 3 below both; the sign in quadrature is turned.
    ('--from iq-i16 --to iq2 --threshold 2.5 --centre -1 --centre-q 3 --conjugate',
     struct.pack('<4h', -1, 3, -4, 0), b'\x2d'),
    # Each pair has the part in quadrature first: 3, -3, -1, 1, two bits each from the lowest on.
    ('--from iq-bits2-sm-low --to real2 --threshold 2 --swap --part q', b'\x31\x02', b'\x78'),
    # Unsigned bytes have the centre 127.5. Five pairs are ten bytes.
    ('--from iq-u8 --to iq1 --skip 5 --count 4', bytes(10) + bytes((127, 128)) * 4 + bytes(4),
     b'\xaa'),
    # An end of the range, two values beside the centre, and the other end: below it far and near,
    # then not below it near and far.
    ('--from u8 --to real2 --threshold 42.5', bytes((0, 127, 128, 255)), b'\xe1'),
    ('--from i8 --to real2 --threshold 43 --centre -4.5', struct.pack('<4b', -128, -5, -4, 127),
     b'\xe1'),
    *((f'--from {kind} --to real2 --threshold 10923 --centre 500',
       struct.pack(order + '4h', -32768, 499, 500, 32767), b'\xe1')
      for kind, order in (('i16', '<'), ('i16be', '>'))),
    # 42.5 and 43.5 below the centre, and above it.
    ('--from u8 --to real2 --threshold 42.5', bytes((85, 84, 170, 171)), b'\xb1'),
    # Of (1, -2) and (-3, 4) the signs are 01 10. The second of each part is farther than 2 from 0.
    *((f'--from iq-i8 --to {words}', struct.pack('<4b', 1, -2, -3, 4) * 2, packing)
      for words, packing in (
          ('iq1', b'\x66'),
          ('iq1 --conjugate', b'\x33'),
          ('iq1 --conjugate --swap', b'\xcc'),
          ('iq1 --swap --centre 4.5 --centre-q 0', b'\xbb'),
          ('real2 --threshold 2', b'\x33'),
          ('real2 --threshold 2 --part q', b'\x99'))),
    # The float after 0.5 is far, and 0.5 is near, as -0.25 is. Then come -0 and 0, minus infinity,
    # and the greatest float below 0.
    ('--from f32 --to real2 --threshold 0.5',
     struct.pack('<3fI4I', -1, -0.25, 0.5, 0x3f000001, 0x80000000, 0, 0xff800000, 0x80000001),
     b'\xe1\x0e'),
    ('--from f32 --to real2 --threshold 0.25',
     struct.pack('<4f', 0.25, 0.2500001, -0.25, -1), b'\x1b'),
    ('--from f32 --to real2 --threshold 0', struct.pack('<4f', 0, 1e-30, -1e-30, 0), b'\x1c'),
    # Minus zero is zero.
    ('--from f32 --to real2 --threshold -0', struct.pack('<4f', 0, 1e-30, -1e-30, 0), b'\x1c'),
    # Of each pair the first is just below the centre, and the other isn't.
    *((f'--from i16 --to real1 --centre {centre}', struct.pack('<2h', *pair) * 4, b'\xaa')
      for centre, pair in (('0', (-1, 0)), ('127.5', (127, 128)), ('-3', (-4, -3)),
                           ('-0.5', (-1, 0)))),
    ('--from i16 --to real1 --centre 1000000.5', struct.pack('<8h', *[32767] * 8), b'\xff'),
)

# Words, values in, and what is said of them: mean, rms, shares, centre and threshold.
MEASURED = (
    # 19 times 0, and -1: the mean is -0.05, and the rms about 0 the root of 0.05.
    ('--from i8', bytes(19) + b'\xff', 20, '-0.05', '0.22', '95.00% 0.00% 0.00% 5.00%', '0', '0'),
    # 11 times 123, and 9 times 124: all are half a step from 123.5.
    ('--from i16', struct.pack('<20h', *[123] * 11, *[124] * 9), 20, '123.45', '0.50',
     '45.00% 0.00% 55.00% 0.00%', '123.5', '0.5'),
    ('--from i8', bytes((0, 255)) * 4, 8, '-0.50', '0.50', '50.00% 0.00% 50.00% 0.00%', '-0.5',
     '0.5'),
)

# Of twelve bytes two are skipped and nine wanted; eight of these fill a byte.
STRETCH = bytes((9, 9, 1, 128, 128, 1, 1, 1, 1, 128, 128, 1))


def by_hand():
    """The rows: words, what comes in, and the status, the bytes and the lines that must come."""
    for words, why in REFUSED:
        yield words, b'', (2, b'', [f'pack: {why}'])
    for words, data, packing in PACKED:
        yield words, data, (0, packing, [])
    for words, data, count, mean, rms, shares, centre, threshold in MEASURED:
        lines = (f'samples {count}', f'mean {mean}', f'rms {rms}', 'at-the-ends 0.00%',
                 f'shares {shares}', f'--centre {centre}', f'--threshold {threshold}', '')
        yield f'{words} --measure', data, (0, '\n'.join(lines).encode(), [])
    said = "pack: left out at the end: samples that don't fill a byte: 1"
    yield '--from i8 --to real1 --skip 2 --count 9', STRETCH, (0, b'\x61', [said])
