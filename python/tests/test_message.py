"""What the message says, as typed values."""

from __future__ import annotations

import io
import json
import math
import os
import random
import shutil
import subprocess
from datetime import datetime
from typing import Any, Dict, List

import made_pages
import pytest
from conftest import EXAMPLES, HANGS
from made_pages import lines_of, put, satellite, sub, subframe

from seldomplough import ubx
from seldomplough.lines import Sub
from seldomplough.message import Almanac, Almanacs, Ephemeris, Healths, Time, Value, read
from seldomplough.words import Configurations, Corrections, Flags, place_of

# Words that were drawn by chance, and what gpsd 3.22 (gpsdecode) says of them.
CONFIGURED = '8bb254 901eb0 7f54d0 b2bfad 3783d4 01040b 9fdb23 ab5da0 95e133 53dc17'
CONFIGURATIONS = [
    5, 4, 13, 0, 11, 2, 11, 15, 10, 13, 3, 7, 8, 3, 13, 4, 0, 1, 0, 4, 0, 11, 9, 15, 13, 11, 2, 3,
    10, 11, 5, 13,
]  # fmt: skip
HEALTHS_OF_LAST = [32, 37, 30, 4, 51, 20, 61, 48]
HEALTHY = '8bebb2 901f34 73fe58 4b8deb 33321e cac1b1 b3d8d1 568b66 dc3855 c5de67'
HEALTHS = [
    18, 56, 55, 43, 12, 51, 8, 30, 50, 44, 6, 49, 44, 61, 35, 17, 21, 40, 45, 38, 55, 3, 33, 21,
]  # fmt: skip
TIMED = '8bb770 900d30 785f05 7459dc 5dbfcd 9f255a 806da9 1f5057 a795ff 3b9fb1'
TIME = {
    'al0_s': 8.8476e-08, 'al1_s_per_semicircle': 3.7253e-08, 'al2_s_per_semicircle2': 6.9141e-06,
    'al3_s_per_semicircle3': 5.3048e-06, 'be0_s': -73728, 'be1_s_per_semicircle': 1.5237e+06,
    'be2_s_per_semicircle2': -4.2598e+06, 'be3_s_per_semicircle3': -3.3423e+06,
}  # fmt: skip
TIME_EXACT = {
    'a1_s_per_s': -5.63765034656e-09, 'a0_s': -1.99330684636, 'tot_s': 327680, 'wnt': 87,
    'dtls_s': -89, 'wnlsf': 149, 'dn': 255, 'dtlsf_s': 59,
}  # fmt: skip
ALMANAC_WORDS = '8b94d2 900db4 518676 c8ef52 fb083d c193ea 93c53d 3f9b5e d6803b b73b4a'
ALMANAC = {
    'sv': 17, 'health': 61, 'e': 1.6413688659668e-02, 'toa_s': 819200,
    'sqrta_sqrt_m': 6194.4892578125, 'af0_s': -5.55038452148438e-04,
    'af1_s_per_s': 1.72440195456147e-09,
}  # fmt: skip
# The angles, in semicircles (a second).
ALMANAC_ANGLES = {
    'di': -8.14437866210938e-03, 'om0': -8.45543265342712e-01, 'w': 4.96928930282593e-01,
    'm0': -3.24211716651917e-01,
}  # fmt: skip
OMEGA_DOT = -4.62750904262066e-09
# Of these, gpsd 3.22 has the same where a correction is in one word. It joins the others in another
# way than figure 20-1 has them, so that these are by hand: the 3rd, 7th and so on.
CORRECTED = '8b0000 000490 742258 83ea64 f7bcb9 bdf69e d04f3b 116f85 47d18b 517bd1'
CORRECTIONS = [
    -30, 22, 8, 15, -22, 25, 15, 30, -4, -18, 27, -9, -10, -25, -19, 1, 15, 14, -15, 5, -17, -31,
    20, 31, 17, -30, -11, 5, -5, -12,
]  # fmt: skip
# The record that RTKLIB's convbin 2.4.3 b34 wrote of the messages of the real recording.
REAL = {
    'af0_s': -0.262667890638e-03, 'af1_s_per_s': -0.111413100967e-10, 'af2_s_per_s2': 0, 'iode': 94,
    'crs_m': -82.15625, 'dn_rad_per_s': 0.444161358246e-08, 'm0_rad': 1.04152998614,
    'cuc_rad': -0.447779893875e-05, 'e': 0.313025130890e-02, 'cus_rad': 0.579655170441e-05,
    'sqrta_sqrt_m': 5153.77473450, 'toe_s': 446400, 'cic_rad': -0.931322574615e-08,
    'om0_rad': 2.86074149590, 'cis_rad': 0, 'i0_rad': 0.966707096762, 'crc_m': 269.84375,
    'w_rad': 0.818339767959, 'omdot_rad_per_s': -0.818426947910e-08,
    'idot_rad_per_s': -0.203222750758e-09, 'l2': 1, 'health': 0, 'tgd_s': 0.186264514923e-08,
    'iodc': 94,
}  # fmt: skip


def words_of(text: str) -> List[int]:
    return [int(it, 16) for it in text.split()]


def values_of(text: str) -> List[Value]:
    return list(read([text]))


def close(value: object, wanted: float, digits: float = 2e-12) -> None:
    assert value == pytest.approx(wanted, rel=digits)


def test_an_ephemeris_of_a_real_message() -> None:
    with open(os.path.join(EXAMPLES, 'real_message.expected'), encoding='ascii') as file:
        *flags, it = read(file)
    assert flags == [Flags(3, integrity_status=False, alert=False, anti_spoof=True)] * 3
    assert isinstance(it, Ephemeris) and (it.satellite, it.wn, it.ura, it.fit) == (3, 69, 0, 0)
    for name, wanted in REAL.items():
        close(getattr(it, name), wanted, 5e-12)
    for name in ('m0', 'om0', 'i0', 'w'):
        close(getattr(it, f'{name}_deg'), math.degrees(REAL[f'{name}_rad']), 5e-12)
    for name in ('dn', 'omdot', 'idot'):
        close(getattr(it, f'{name}_deg_per_s'), math.degrees(REAL[f'{name}_rad_per_s']), 5e-12)
    assert it.aodo_s == 27900
    close(it.a_m, 5153.77473450**2, 5e-12)


def test_an_almanac() -> None:
    _, it = values_of(satellite(3) + lines_of('alm', 9, words_of(ALMANAC_WORDS)))
    assert isinstance(it, Almanac) and it.satellite == 3
    for name, wanted in ALMANAC.items():
        close(getattr(it, name), wanted)
    for name, wanted in ALMANAC_ANGLES.items():
        close(getattr(it, f'{name}_rad'), wanted * math.pi)
        close(getattr(it, f'{name}_deg'), wanted * 180)
    close(it.omdot_rad_per_s, OMEGA_DOT * math.pi)
    close(it.i_rad, (0.3 + ALMANAC_ANGLES['di']) * math.pi)
    close(it.i_deg, (0.3 + ALMANAC_ANGLES['di']) * 180)


def test_time_and_ionosphere() -> None:
    _, it = values_of(lines_of('utc', 9, words_of(TIMED)))
    assert isinstance(it, Time) and it.satellite is None
    for name, wanted in TIME.items():
        close(getattr(it, name), wanted, 1e-4)
    for name, wanted in TIME_EXACT.items():
        close(getattr(it, name), wanted)


def test_healths() -> None:
    _, it = values_of(lines_of('hlt', 9, words_of(HEALTHY)))
    assert it == Healths(None, 1040384, 88, dict(enumerate(HEALTHS, 1)))


def test_configurations() -> None:
    flags, it = values_of(satellite(7) + sub(9, words_of(CONFIGURED)))
    assert isinstance(flags, Flags) and isinstance(it, Configurations) and it.satellite == 7
    joined = {at: it.anti_spoof[at] << 3 | code for at, code in it.configurations.items()}
    assert joined == dict(enumerate(CONFIGURATIONS, 1))
    assert it.healths == dict(enumerate(HEALTHS_OF_LAST, 25))


def test_what_is_no_page_of_configurations() -> None:
    whole = sub(9, words_of(CONFIGURED))
    for text in (
        whole.replace('53dc17', '------'),
        sub(9, subframe(5, 73789, words_of(CONFIGURED)[2:])),
        whole.replace('7f54d0', '7e54d0'),
    ):
        assert text != whole
        [flags] = values_of(text)
        assert isinstance(flags, Flags)


def test_flags() -> None:
    body = [0] * 8
    for flags in range(4):
        words = subframe(2, 9, body, flags)
        [it] = values_of(sub(9, words))
        assert it == Flags(None, False, bool(flags & 2), bool(flags & 1))
    words[0] |= 2
    assert values_of(sub(9, words)) == [Flags(None, True, True, True)]
    damaged = sub(9, words).replace('8b0002', '------')
    assert values_of(damaged) == [Flags(None, None, True, True)]
    assert values_of(damaged.replace(f'{words[1]:06x}', '------')) == [
        Flags(None, None, None, None)
    ]


def test_corrections() -> None:
    flags, it = values_of(satellite(3) + sub(9, words_of(CORRECTED)))
    assert isinstance(flags, Flags) and isinstance(it, Corrections)
    assert (it.satellite, it.availability) == (3, 0)
    for count, metres in zip(CORRECTIONS, it.corrections_m):
        close(metres, 0.3 * count)
    assert len(it.corrections_m) == 30
    # Here the first has the least number of six bits, and both bits before it are 1.
    none = CORRECTED.replace('742258', '74e018')
    _, it = values_of(sub(9, words_of(none)))
    assert isinstance(it, Corrections) and it.availability == 3
    assert [at for at, metres in enumerate(it.corrections_m) if metres is None] == [0]
    damaged = sub(9, words_of(CORRECTED)).replace('517bd1', '------')
    for text in (damaged, sub(9, subframe(5, 9, words_of(CORRECTED)[2:]))):
        assert len(values_of(text)) == 1


@pytest.mark.parametrize(
    'week, number, near, day',
    [
        # Days at whose end leap seconds came, and the days of their weeks, counted from Sunday.
        (1929, 7, datetime(2016, 10, 1), datetime(2016, 12, 31)),
        (1929, 7, datetime(2018, 10, 1), datetime(2016, 12, 31)),
        (1851, 3, datetime(2015, 6, 1), datetime(2015, 6, 30)),
        (1694, 7, datetime(2012, 6, 1), datetime(2012, 6, 30)),
    ],
)
def test_the_day_of_a_leap_second(week: int, number: int, near: datetime, day: datetime) -> None:
    words = words_of(TIMED)
    put(words, 'utc_fields', wnlsf=week % 256, dn=number)
    _, it = values_of(lines_of('utc', 9, words))
    assert isinstance(it, Time) and it.leap_day(near) == day
    put(words, 'utc_fields', dtls=18, dtlsf=18)
    _, it = values_of(lines_of('utc', 9, words))
    assert isinstance(it, Time) and it.leap_day(near) is None


def test_almanacs_of_one_time() -> None:
    healths = ' '.join(str(it) for it in range(32))
    [it] = values_of(f'1 5 als 0 toa=61:12 {healths}\n')
    assert it == Almanacs(None, 249856, {number: number - 1 for number in range(1, 33)})


def test_lines_that_say_nothing_of_the_message() -> None:
    assert values_of('1 0 ok\n1 5 lock 0\n1 6 count 0 1 2 3 4 5 6\n1 9 end\n') == []


def test_the_place_of_an_almanac() -> None:
    # The first frame of a week has the first pages. The time of week is that of the next subframe.
    def place(number: int, tow: int) -> Any:
        return place_of(Sub(1, 5, 0, number, tow, (None,) * 10))

    assert [place(5, 5 + 5 * it) for it in range(26)] == [*range(1, 25), None, 1]
    fourth = [place(4, 4 + 5 * it) for it in range(25)]
    wanted = [None, 25, 26, 27, 28, None, 29, 30, 31, 32] + [None] * 15
    assert fourth == wanted
    # The last frame of a week, which has 20160, isn't a last page: pages begin anew.
    assert place(5, 0) == 20159 % 25 + 1 == 10
    assert place(3, 3) is None


@pytest.mark.skipif(shutil.which('gpsdecode') is None, reason='gpsdecode is not in the PATH')
def test_configurations_are_those_of_gpsd() -> None:
    chance = random.Random(105)
    made = [subframe(4, 9 + it, made_pages.drawn(chance, 0x7F)) for it in range(200)]
    messages = b''.join(ubx.message(3, it) for it in made)
    ran = subprocess.run(
        ['gpsdecode'], input=messages, stdout=subprocess.PIPE, timeout=HANGS, check=True
    )
    theirs = [json.loads(it)['HEALTH'] for it in ran.stdout.splitlines()]
    ours: List[Dict[str, int]] = []
    for it in read(io.StringIO(''.join(sub(9, it) for it in made))):
        if isinstance(it, Configurations):
            codes = {n: it.anti_spoof[n] << 3 | code for n, code in it.configurations.items()}
            ours.append({f'SV{n}': code for n, code in codes.items()})
            ours[-1].update({f'SVH{n}': health for n, health in it.healths.items()})
    assert ours == theirs and len(ours) == 200


def test_bits_of_a_damaged_word() -> None:
    it = Sub(1, 5, 0, 4, 9, (0xFFFFF0, None, *[0] * 8))
    assert it.bits(31, 1) is None
    assert it.bits(17, 8) == 0xF0
