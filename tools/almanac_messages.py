"""A message that sends the almanacs of all satellites, and the lines that it has to bring."""

# An almanac (IS-GPS-200, figure 20-1 sheet 4 and table 20-VI): names, the first and last bits of
# the parts within the subframe, whether it is in two's complement, and the scale factor's exponent.
FIELDS = [
    ('data', [(61, 62)], False, 0), ('sv', [(63, 68)], False, 0), ('e', [(69, 84)], False, -21),
    ('toa', [(91, 98)], False, 12), ('di', [(99, 114)], True, -19),
    ('omdot', [(121, 136)], True, -38), ('health', [(137, 144)], False, 0),
    ('sqrta', [(151, 174)], False, -11), ('om0', [(181, 204)], True, -23),
    ('w', [(211, 234)], True, -23), ('m0', [(241, 264)], True, -23),
    ('af0', [(271, 278), (290, 292)], True, -20), ('af1', [(279, 289)], True, -38),
]
SATELLITES = range(1, 33)
PREAMBLE = 0x8b << 16

def width(parts):
    """How many bits a field has."""
    return sum(last - first + 1 for first, last in parts)


def subframe(number, subframe_id, values):
    """The line of a subframe for the maker: values by the parts that they stand in."""
    bits = [0] * 301
    for parts, value in values:
        digits = f'{value % 2 ** width(parts):0{width(parts)}b}'
        places = [at for first, last in parts for at in range(first, last + 1)]
        for place, digit in zip(places, digits):
            bits[place] = int(digit)
    words = [int(''.join(map(str, bits[at:at + 24])), 2) for at in range(1, 301, 30)]
    words[0] = PREAMBLE
    words[1] = number % 100800 << 7 | subframe_id << 2
    return ' '.join(f'{word:06x}' for word in words)


class Message:
    """Subframes as they are sent, and the lines that they have to bring, without their times."""

    def __init__(self):
        self.subframes = []
        self.lines = []

    def page(self, subframe_id, sv_id, fill=0):
        """A page of no almanac, whose line isn't looked at. Two bits that are data ID 01."""
        values = [([(61, 62)], 1), ([(63, 68)], sv_id), ([(69, 84)], fill)]
        self.subframes.append(subframe(len(self.subframes), subframe_id, values))

    def almanac(self, almanac):
        """An almanac: that of satellites 1 to 24 in subframe 5, the others in subframe 4."""
        values = [(parts, almanac[name]) for name, parts, _, _ in FIELDS]
        subframe_id = 5 if almanac['sv'] <= 24 else 4
        self.subframes.append(subframe(len(self.subframes), subframe_id, values))
        told = ' '.join(f'{name}={almanac[name]}:{exponent}' for name, _, _, exponent in FIELDS)
        self.lines.append(f'alm 0 {told}')

    def set(self, almanacs):
        """The line of a set that is new."""
        healths = ' '.join(str(almanacs[sv]['health']) for sv in SATELLITES)
        self.lines.append(f'als 0 toa={almanacs[1]["toa"]}:12 {healths}')

    def lead(self):
        """Empty pages, by which the receiver finds the bits and the subframes."""
        for _ in range(3):
            self.page(4, 0, 0x5a5a)


def drawn(sv, toa, chance):
    """An almanac of a satellite, its other fields drawn over their whole ranges."""
    almanac = {}
    for name, parts, is_signed, _ in FIELDS:
        size = 2 ** width(parts)
        almanac[name] = chance.randrange(size) - (size // 2 if is_signed else 0)
    return {**almanac, 'data': 1, 'sv': sv, 'toa': toa}


def before_the_noise(almanacs):
    """All almanacs, and then single ones that are changed."""
    message = Message()
    message.lead()
    for sv in SATELLITES:
        message.almanac(almanacs[sv])
        if sv in (8, 16, 24, 31):
            message.page(*{8: (4, 56), 16: (5, 51), 24: (4, 63), 31: (5, 0)}[sv])
    message.set(almanacs)
    # The same again brings no set. Another value brings one, and so does another health.
    message.almanac(almanacs[7])
    almanacs[7] = {**almanacs[7], 'e': almanacs[7]['e'] ^ 1}
    message.almanac(almanacs[7])
    message.set(almanacs)
    almanacs[7] = {**almanacs[7], 'health': almanacs[7]['health'] ^ 0xff}
    message.almanac(almanacs[7])
    message.set(almanacs)
    # One of another time leaves no set, and as it was before it brings the set reported last.
    message.almanac({**almanacs[30], 'toa': almanacs[30]['toa'] + 1})
    message.almanac(almanacs[30])
    almanacs[30] = {**almanacs[30], 'health': almanacs[30]['health'] ^ 1}
    message.almanac(almanacs[30])
    message.set(almanacs)
    # What is cut by the noise.
    message.page(4, 0)
    return message


def behind_the_noise(almanacs):
    """All but one, some that are there already, and the last one: a set only with that."""
    message = Message()
    message.lead()
    for sv in (*SATELLITES[1:], 5, 32, 1):
        message.almanac(almanacs[sv])
    message.set(almanacs)
    message.page(4, 0)
    return message


def both_parts(chance):
    """What is sent before the noise and behind it, with almanacs drawn by chance."""
    almanacs = {sv: drawn(sv, 77, chance) for sv in SATELLITES}
    return [before_the_noise(almanacs), behind_the_noise(almanacs)]
