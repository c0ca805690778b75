"""What `pack` makes of a recording, by docs/FORMATS.md, value by value."""
import math
import struct

# The kinds, with the bits of a value.
KINDS = {'u8': 8, 'i8': 8, 'i16': 16, 'i16be': 16, 'f32': 32, 'bits2-low': 2, 'bits2-sm-low': 2,
         'bits1-low': 1, 'bits1-high': 1}
NUMBERS = {'u8': 'B', 'i8': 'b', 'i16': '<h', 'i16be': '>h', 'f32': '<f'}
# The values of two bits.
TWO_BITS = {'bits2-low': (1, 3, -3, -1), 'bits2-sm-low': (1, 3, -1, -3)}
ENDS = {'u8': (0, 255), 'i8': (-128, 127), 'i16': (-32768, 32767), 'i16be': (-32768, 32767)}


def kind_of(asked):
    """The kind of a recording's values, and whether they are pairs."""
    name = asked['from']
    return (name[3:], True) if name.startswith('iq-') else (name, False)


def sample_bits(asked):
    """The bits of a sample."""
    kind, is_paired = kind_of(asked)
    return KINDS[kind] * (2 if is_paired else 1)


def refusal(asked, is_measured):
    """Whether the options are refused."""
    kind, is_paired = kind_of(asked)
    to = asked.get('to', '')
    lacks_threshold = to.endswith('2') and 'threshold' not in asked
    only_of_pairs = not is_paired and (
        to.startswith('iq') or 'swap' in asked or 'conjugate' in asked or asked.get('part') == 'q')
    of_one_bit = to.endswith('2') and KINDS[kind] == 1
    part_of_complex = to.startswith('iq') and asked.get('part') == 'q'
    cut = any(int(asked.get(it, 0)) * sample_bits(asked) % 8 for it in ('skip', 'count'))
    needs_to = not is_measured and not to
    how = {'to', 'threshold', 'centre', 'centre-q', 'conjugate'}
    packs_nothing = is_measured and not how.isdisjoint(asked)
    return (lacks_threshold or only_of_pairs or of_one_bit or part_of_complex or cut or needs_to
            or packs_nothing)


def values(kind, data):
    """The values of bytes."""
    if kind in NUMBERS:
        size = KINDS[kind] // 8
        whole = data[:len(data) // size * size]
        return [it for it, in struct.iter_unpack(NUMBERS[kind], whole)]
    if kind in TWO_BITS:
        return [TWO_BITS[kind][byte >> at & 3] for byte in data for at in (0, 2, 4, 6)]
    places = range(8) if kind == 'bits1-low' else range(7, -1, -1)
    return [1 - 2 * (byte >> at & 1) for byte in data for at in places]


def stretch(asked, data):
    """The bytes that are wanted."""
    first = int(asked.get('skip', 0)) * sample_bits(asked) // 8
    if 'count' not in asked:
        return data[first:]
    return data[first:first + int(asked['count']) * sample_bits(asked) // 8]


def parts(asked, data):
    """The values in phase and those in quadrature, of whole samples."""
    kind, is_paired = kind_of(asked)
    all_values = values(kind, stretch(asked, data))
    if not is_paired:
        return all_values, []
    pairs = list(zip(all_values[0::2], all_values[1::2]))
    first, second = [it for it, _ in pairs], [it for _, it in pairs]
    return (second, first) if 'swap' in asked else (first, second)


def codes(some, centre, threshold, is_turned):
    """Of each value its sign, turned or not, and its size."""
    return [((it < centre) != is_turned, abs(it - centre) > threshold) for it in some]


def packed(asked, data):
    """The bytes of a packing."""
    kind, _ = kind_of(asked)
    threshold = float(asked.get('threshold', 0))
    centre = float(asked.get('centre', 127.5 if kind == 'u8' else 0))
    centre_q = float(asked.get('centre-q', centre))
    first, second = parts(asked, data)
    in_phase = codes(first, centre, threshold, False)
    quadrature = codes(second, centre_q, threshold, 'conjugate' in asked)
    width = int(asked['to'][-1])
    if asked['to'].startswith('iq'):
        samples = [(*i[:width], *q[:width]) for i, q in zip(in_phase, quadrature)]
    else:
        wanted = quadrature if asked.get('part') == 'q' else in_phase
        samples = [it[:width] for it in wanted]
    bits = ''.join('01'[bit] for sample in samples for bit in sample)
    return bytes(int(bits[at:at + 8], 2) for at in range(0, len(bits) // 8 * 8, 8))


def left_out(asked, data):
    """What is said of what is left out at the end."""
    wanted = stretch(asked, data)
    samples = len(wanted) * 8 // sample_bits(asked)
    width = int(asked['to'][-1]) * (2 if asked['to'].startswith('iq') else 1)
    rest = samples * width % 8 // width
    said = 'pack: left out at the end: '
    lines = [f"{said}samples that don't fill a byte: {rest}"] * (rest > 0)
    return lines + [f'{said}a part of a sample'] * (len(wanted) * 8 % sample_bits(asked) > 0)


def is_near(text, value, off):
    """Whether a decimal is as near to a value as that."""
    return abs(float(text) - value) <= off + 1e-6 * abs(value)


def measured(asked, data, status, lines, errors):
    """Whether lines say what the values are like, to the digits that they have."""
    kind, is_paired = kind_of(asked)
    both = parts(asked, data)
    if not both[0]:
        return status == 1 and not lines and len(errors) == 1
    said = dict(line.split(' ', 1) for line in lines)
    names = [''] + ['-q'] * is_paired
    centres = [float(said.get('--centre' + it, 0)) for it in names]
    squares = [sum((it - c) ** 2 for it in some) / len(some) for some, c in zip(both, centres)]
    root = math.sqrt(sum(squares) / len(squares))
    threshold = float(said['--threshold'])
    fits = [said['samples'] == str(len(both[0])), status == 0, not errors,
            len(lines) == 2 + len(names) * (5 if kind in ENDS else 3 if kind == 'f32' else 4)]
    if kind == 'f32':
        fits.append(is_near(said['--threshold'], root, 0))
    else:
        fits.append(threshold <= root + 1e-9 and root < threshold + 0.51)
    for name, some, centre, square in zip(names, both, centres, squares):
        mean = sum(some) / len(some)
        fits += [is_near(said['mean' + name], mean, 1e-5 if kind == 'f32' else 0.0051),
                 is_near(said['rms' + name], math.sqrt(square), 0 if kind == 'f32' else 0.0101),
                 kind == 'f32' or abs(centre - mean) <= 0.25 + 1e-9]
        fits.append(shares_fit(said['shares' + name], codes(some, centre, threshold, False)))
        if kind in ENDS:
            at_ends = 100 * sum(it in ENDS[kind] for it in some) / len(some)
            fits.append(is_near(said['at-the-ends' + name].rstrip('%'), at_ends, 0.0101))
    return all(fits)


def shares_fit(text, some):
    """Whether shares are those of 1, 3, -1 and -3."""
    wanted = ((False, False), (False, True), (True, False), (True, True))
    shares = [100 * some.count(it) / len(some) for it in wanted]
    return all(is_near(it.rstrip('%'), share, 0.0101) for it, share in zip(text.split(), shares))
