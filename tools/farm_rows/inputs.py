"""The recordings and scripts of tools/farm-check: 12 made recordings, each of another kind, at two
rates, 8 scripts, and the lines that one process prints of each, without the companion."""
from __future__ import annotations

import array
import os
import subprocess
import sys
from typing import Callable, NamedTuple, Optional

from crate_order import TOP

COMPANION = os.path.join(TOP, 'seldomplough')
SATELLITES = ('6:2100:67:50', '17:-1300:1510:48')
# Where 1575.42 MHz lies in recordings of real samples, in Hz.
OFFSET = 511500
# Of two bits a part: the deviation of the noise.
THRESHOLD = '20'
SCRIPTS = 8


class Made(NamedTuple):
    """A recording: its kind, the packing that is run, how its bytes come of those that are made,
    its rate in samples a second, the threshold, and whether it is mirrored."""
    kind: str
    form: str
    turn: Optional[Callable[[bytes], bytes]] = None
    rate: int = 2046000
    threshold: str = ''
    is_mirrored: bool = False

    @property
    def is_pair(self) -> bool:
        """Whether a sample has two parts."""
        return self.form.startswith('iq')

    @property
    def is_packed(self) -> bool:
        """Whether the receiver reads the recording as it is."""
        return self.kind == self.form

    @property
    def offset(self) -> int:
        """Where 1575.42 MHz lies in it, in Hz."""
        return 0 if self.is_pair else OFFSET


def shifted(data: bytes) -> bytes:
    """Signed bytes as unsigned ones."""
    return bytes(it ^ 128 for it in data)


def wide(data: bytes, is_high: bool = False) -> bytes:
    """Signed bytes as numbers of 16 bits, the low byte first or the high one."""
    values = array.array('h', [100 * it for it in array.array('b', data)])
    if is_high == (sys.byteorder == 'little'):
        values.byteswap()
    return values.tobytes()


def floats(data: bytes) -> bytes:
    """Signed bytes as floats."""
    return array.array('f', [it / 128 for it in array.array('b', data)]).tobytes()


def mirrored(data: bytes) -> bytes:
    """Pairs with their second parts the other way round."""
    return bytes(it ^ 255 * (at % 2) for at, it in enumerate(data))


def signs(data: bytes) -> bytes:
    """The signs of signed bytes, eight a byte, the earliest in the lowest bit: 1 is minus."""
    bits = [it > 127 for it in data]
    return bytes(sum(bits[at + place] << place for place in range(8))
                 for at in range(0, len(bits) // 8 * 8, 8))


def packed(form: str) -> Callable[[bytes], bytes]:
    """Signed bytes as `pack` makes a packing of them."""
    kind = 'iq-i8' if form.startswith('iq') else 'i8'
    more = ['--threshold', THRESHOLD] if form.endswith('2') else []
    return lambda data: pack(data, kind, form, *more)


# Those that fail at first: one isn't there, and one is cut.
MISSING, CUT = 'missing', 'words'
RECORDINGS = {
    'mirrored': Made('iq-i8', 'iq1', mirrored, is_mirrored=True),
    MISSING: Made('iq-u8', 'iq1', shifted), CUT: Made('iq-i16', 'iq1', wide),
    'high': Made('iq-i16be', 'iq1', lambda it: wide(it, True)),
    'floats': Made('iq-f32', 'iq1', floats, 4092000),
    'signed': Made('i8', 'real2', rate=4092000, threshold=THRESHOLD),
    'real_floats': Made('f32', 'real1', floats), 'bits': Made('bits1-low', 'real1', signs),
    'packed': Made('iq1', 'iq1', packed('iq1')), 'two_bits': Made('iq2', 'iq2', packed('iq2')),
    'packed_real': Made('real1', 'real1', packed('real1')),
    'real_two_bits': Made('real2', 'real2', packed('real2')),
}


def pack(data: bytes, *words: str) -> bytes:
    """What `pack` makes of bytes: of a kind, to a packing, and with further words."""
    kind, form, *more = words
    return subprocess.run([os.path.join(TOP, 'pack'), '--from', kind, '--to', form, *more],
                          input=data, stdout=subprocess.PIPE, stderr=subprocess.DEVNULL,
                          check=True).stdout


def path_of(folder: str, name: str) -> str:
    """Where a recording is."""
    return os.path.join(folder, f'{name}.{RECORDINGS[name].kind}')


def samples_of(it: Made) -> int:
    """How many samples the receiver gets: those of a second that fill whole bytes."""
    in_byte = {'real1': 8, 'real2': 4, 'iq1': 4, 'iq2': 2}[it.form]
    return it.rate // in_byte * in_byte


def made(it: Made) -> bytes:
    """A second of signed bytes, by `made`."""
    words = [COMPANION, 'made', '--rate', str(it.rate), '--offset', str(it.offset)]
    words += ['--kind', 'iq-i8' if it.is_pair else 'i8', *SATELLITES]
    return subprocess.run(words, stdout=subprocess.PIPE, check=True).stdout


def write(folder: str) -> None:
    """Writes the recordings, the table and the scripts."""
    rows = ['name,path,kind,rate,offset,mirrored,threshold,samples']
    known: dict[tuple[bool, int], bytes] = {}
    for name, it in RECORDINGS.items():
        key = it.is_pair, it.rate
        if key not in known:
            known[key] = made(it)
        with open(path_of(folder, name), 'wb') as stream:
            stream.write(it.turn(known[key]) if it.turn else known[key])
        rows.append(f'{name},{name}.{it.kind},{it.kind},{it.rate},{it.offset},'
                    f'{"yes" if it.is_mirrored else "no"},{it.threshold},{samples_of(it)}')
    with open(os.path.join(folder, 'recordings.csv'), 'w', encoding='ascii') as stream:
        stream.write('\n'.join(rows) + '\n')
    os.mkdir(os.path.join(folder, 'scripts'))
    for at in range(1, SCRIPTS + 1):
        write_script(folder, at, 100)


def write_script(folder: str, at: int, counts: int) -> None:
    """Writes a script: a short search, and a satellite that is tracked, with lines of counts."""
    with open(os.path.join(folder, 'scripts', f'{at}.script'), 'w', encoding='ascii') as script:
        script.write(f'0 acquire 0 {at} 0 10 1 75\n0 track 1 6 2100 67\n0 counts 1 {counts}\n'
                     f'{100000 * at} state 1\n')


def one_process(folder: str, name: str) -> bytes:
    """The lines of a recording by one process, without the companion."""
    it = RECORDINGS[name]
    with open(path_of(folder, name), 'rb') as stream:
        data = stream.read()
    if not it.is_packed:
        more = ['--conjugate'] if it.is_mirrored else []
        more += ['--threshold', it.threshold] if it.threshold else []
        data = pack(data, it.kind, it.form, *more)
    scripts = [os.path.join(folder, 'scripts', f'{at}.script') for at in range(1, SCRIPTS + 1)]
    return subprocess.run(
        [os.path.join(TOP, 'receiver'), '--rate', str(it.rate), '--offset', str(it.offset),
         '--format', it.form, *scripts], input=data, stdout=subprocess.PIPE, check=True).stdout
