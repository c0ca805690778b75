"""Almanacs and health of all satellites, against the words that were sent and against gpsd."""

from __future__ import annotations

import csv
import io
import json
import random
import shutil
import subprocess
from typing import Any, Dict, List, Optional

import almanac_back
import made_pages
import pytest
from conftest import HANGS, Command, refused
from made_pages import ephemeris, lines_of, put, satellite, sub, subframe
from test_message import ALMANAC_WORDS, CONFIGURED, HEALTHS_OF_LAST, HEALTHY, words_of
from test_message import CONFIGURATIONS, HEALTHS
from test_rinex import REAL_WORDS

from seldomplough import ubx

# Words by chance. gpsdecode 3.22 gives them the numbers that SEM has here. Those of YUMA are by
# hand, with the standard's pi. Their time is more than a week, so their week is one less.
YUMA = '''\
******** Week 1022 almanac for PRN-17 ********
ID:                         17
Health:                     061
Eccentricity:               0.1641368866E-001
Time of Applicability(s):  819200.0000
Orbital Inclination(rad):   0.9168914759
Rate of Right Ascen(r/s):  -0.1453774841E-007
SQRT(A)  (m 1/2):           6194.489258
Right Ascen at Week(rad):  -0.2656352511E+001
Argument of Perigee(rad):   1.561148277
Mean Anom(rad):            -0.1018541147E+001
Af0(s):                    -0.5550384521E-003
Af1(s/s):                   0.1724401955E-008
week:                        1022

'''
SEM = '''\
 1  SELDOMPLOUGH.ALM
1022 819200

17
0
15
 1.64136886596680E-02 -8.14437866210938E-03 -4.62750904262066E-09
 6.19448925781250E+03 -8.45543265342712E-01  4.96928930282593E-01
-3.24211716651917E-01 -5.55038452148438E-04  1.72440195456147E-09
61
0
'''
# A date of the week 2047.
NEAR = ('--week-near', '2019-04-04')
WEEK = 2117
TOA = 61


def almanac(number: int, tow: int = 73750, **given: int) -> List[int]:
    """A page of an almanac, its fields by chance."""
    chance = random.Random(number)
    words = subframe(4 if number > 24 else 5, tow, made_pages.drawn(chance, 0x40 | number))
    put(words, 'almanac_fields', **{'toa': TOA, 'health': 0, **given})
    return words


def health_page(tow: int = 73755, toa: int = TOA, week: int = WEEK) -> List[int]:
    words = subframe(5, tow, words_of(HEALTHY)[2:])
    put(words, 'health_fields', toa=toa, wna=week % 256)
    return words


def dummy(number: int, fill: int = 0xAAAAAA) -> str:
    """The `sub` line of a page with SV ID 0 in the place of a satellite of subframe 5."""
    return sub(9, subframe(5, 5 * number, [0x400000 | fill & 0xFFFF, *[fill] * 7]))


def ephemeris_of(number: int) -> str:
    return satellite(number) + ephemeris(9, REAL_WORDS) + '1 9 lost 0\n'


def rows(run: Command, text: str, *words: str) -> Dict[int, Dict[str, str]]:
    outcome = run('almanac', '--csv', *words, given=text.encode())
    assert outcome.status == 0
    found = {int(it['satellite']): it for it in csv.DictReader(io.StringIO(outcome.said))}
    assert list(found) == list(range(1, 33))
    return found


def test_words_by_hand(run: Command) -> None:
    text = lines_of('alm', 9, words_of(ALMANAC_WORDS)).encode()
    said = 'seldomplough: almanacs 17, dummies none, missing 1-16,18-32\n'
    assert run('almanac', '--yuma', *NEAR, given=text) == (0, YUMA, said)
    assert run('almanac', '--sem', *NEAR, given=text) == (0, SEM, said)


def test_the_way_back_to_the_words(run: Command) -> None:
    pages = {it: almanac(it) for it in range(1, 33)}
    text = ephemeris_of(3) + ''.join(lines_of('alm', 9, it) for it in pages.values())
    said = 'seldomplough: almanacs 1-32, dummies none, missing none\n'
    near = ('--week-near', '2020-08-07')
    for form, back in ('--yuma', almanac_back.yuma), ('--sem', almanac_back.sem):
        outcome = run('almanac', form, *near, given=text.encode())
        assert (outcome.status, outcome.errors) == (0, said)
        found = list(back(outcome.said))
        for it, words in zip(found, pages.values()):
            assert it.words == almanac_back.masked(words)
            assert it.values['week'] == WEEK % 1024
        assert len(found) == 32
    assert [it.values['ura'] for it in found] == [15, 15, 0, *[15] * 29]


@pytest.mark.skipif(shutil.which('gpsdecode') is None, reason='gpsdecode is not in the PATH')
def test_almanacs_are_those_of_gpsd(run: Command) -> None:
    pages = [almanac(it) for it in range(1, 33)]
    messages = b''.join(ubx.message(3, it) for it in pages)
    ran = subprocess.run(
        ['gpsdecode'], input=messages, stdout=subprocess.PIPE, timeout=HANGS, check=True
    )
    theirs = [json.loads(it)['ALMANAC'] for it in ran.stdout.splitlines()]
    text = ''.join(lines_of('alm', 9, it) for it in pages)
    outcome = run('almanac', '--sem', '--week-near', '2020-08-07', given=text.encode())
    ours = [it.values for it in almanac_back.sem(outcome.said)]
    names = {
        'sv': 'ID', 'e': 'e', 'di': 'deltai', 'omdot': 'Omegad', 'sqrta': 'sqrtA', 'om0': 'Omega0',
        'w': 'omega', 'm0': 'M0', 'af0': 'af0', 'af1': 'af1',
    }  # fmt: skip
    for mine, other in zip(ours, theirs):
        for name, their_name in names.items():
            assert float(mine[name]) == pytest.approx(other[their_name], rel=1e-13)
    assert len(ours) == len(theirs) == 32


def test_health_of_all(run: Command) -> None:
    text = lines_of('hlt', 9, words_of(HEALTHY)) + sub(9, words_of(CONFIGURED))
    found = rows(run, text)
    assert [int(it['health']) for it in found.values()] == [*HEALTHS, *HEALTHS_OF_LAST]
    codes = [int(it['anti_spoof']) << 3 | int(it['configuration']) for it in found.values()]
    assert codes == CONFIGURATIONS
    assert {it['page'] for it in found.values()} == {''}


@pytest.mark.parametrize(
    'bits, health', [(0, 0), (0b10000000, 0b100000), (0b00111111, 0b111111), (0b00011100, 0b011100)]
)
def test_health_by_the_almanac_alone(run: Command, bits: int, health: int) -> None:
    text = lines_of('alm', 9, almanac(8, health=bits))
    found = rows(run, text)[8]
    assert (found['health'], found['almanac_health']) == (str(health), str(bits))
    assert rows(run, text + lines_of('hlt', 9, words_of(HEALTHY)))[8]['health'] == str(HEALTHS[7])


def test_the_table(run: Command) -> None:
    text = lines_of('alm', 9, words_of(ALMANAC_WORDS)) + dummy(14)
    outcome = run('almanac', given=text.encode())
    head, *lines = outcome.said.splitlines()
    assert head.split() == (
        'satellite page toa_s week health almanac_health anti_spoof configuration'.split()
    )
    assert len(lines) == 32
    assert lines[13].split() == ['14', 'dummy', *'------']
    assert lines[16].split() == ['17', 'almanac', '819200', '-', '61', '61', '-', '-']
    assert outcome.errors == 'seldomplough: almanacs 17, dummies 14, missing 1-13,15-16,18-32\n'
    found = rows(run, text)[17]
    for name, wanted in (
        ('e', 1.6413688659668e-02), ('sqrta_sqrt_m', 6194.4892578125),
        ('i_deg', (0.3 - 8.14437866210938e-03) * 180), ('om0_deg', -8.45543265342712e-01 * 180),
        ('omdot_deg_per_s', -4.62750904262066e-09 * 180), ('w_deg', 4.96928930282593e-01 * 180),
        ('m0_deg', -3.24211716651917e-01 * 180), ('af0_s', -5.55038452148438e-04),
        ('af1_s_per_s', 1.72440195456147e-09),
    ):  # fmt: skip
        assert float(found[name]) == pytest.approx(wanted, rel=2e-14)


def test_the_table_as_json(run: Command) -> None:
    outcome = run('almanac', '--json', given=lines_of('alm', 9, words_of(ALMANAC_WORDS)).encode())
    found: List[Dict[str, Any]] = [json.loads(it) for it in outcome.said.splitlines()]
    assert found[16]['page'] == 'almanac' and found[16]['af0_s'] == -582 / 2**20
    assert found[15]['page'] is None


def test_dummies(run: Command) -> None:
    ones = subframe(5, 5 * 9, [0x490000 | 0xFFFF, *[0xFFFFFF] * 7])
    fourth = subframe(4, 4 + 5 * 8, [0x400000, *[0] * 7])
    text = dummy(2) + dummy(3) + lines_of('alm', 9, ones) + sub(9, fourth)
    text += lines_of('alm', 9, almanac(2)) + lines_of('alm', 9, almanac(4)) + dummy(4)
    text += dummy(24) + dummy(25) + dummy(7).replace('aaaaaa\n', '------\n')
    pages = {at: it['page'] for at, it in rows(run, text).items() if it['page']}
    assert pages == {2: 'almanac', 3: 'dummy', 4: 'almanac', 9: 'dummy', 24: 'dummy', 31: 'dummy'}


def test_the_last_almanac_counts(run: Command) -> None:
    first, second = (lines_of('alm', 9, almanac(5, health=it)) for it in (1, 2))
    assert rows(run, first + second)[5]['health'] == '2'
    assert rows(run, second + first.replace('alm 0', 'alm 1'))[5]['health'] == '1'


@pytest.mark.parametrize(
    'toa, health, has_ephemeris, date, week',
    [
        # Of an ephemeris of week 2117, at 442596 s, the nearest time.
        (108, None, True, None, 2117),
        (1, None, True, None, 2118),
        (34, None, True, None, 2118),
        (35, None, True, None, 2117),
        (34, (34, 2118), True, None, 2118),
        (35, (34, 2118), True, None, 2117),
        (34, (34, 2118), False, '2020-08-07', 2118),
        (34, (34, 2118), False, '2015-08-07', 2118 - 256),
        (34, None, False, '2020-08-07', 2117),
        (1, None, False, '2020-08-07', 2118),
        (34, None, False, None, None),
    ],
)
def test_weeks(
    run: Command, toa: int, health: Any, has_ephemeris: bool, date: Optional[str], week: Any
) -> None:
    text = ephemeris_of(3) if has_ephemeris else ''
    text += lines_of('alm', 9, almanac(6, toa=toa))
    if health is not None:
        text += lines_of('hlt', 9, health_page(toa=health[0], week=health[1]))
    words = () if date is None else ('--week-near', date)
    found = rows(run, text, *words)[6]
    assert (found['toa_s'], found['week']) == (str(4096 * toa), '' if week is None else str(week))


def test_what_is_left_out(run: Command) -> None:
    text = ''.join(lines_of('alm', 9, almanac(it)) for it in (1, 2, 3))
    for form in ('--yuma', '--sem'):
        outcome = run('almanac', form, given=text.encode())
        refused(outcome, 1, 'missing 4-32, of an unknown week 1-3: name it by --week-near')
        refused(
            run('almanac', form, given=b'1 5 ok\n'), 1, 'almanacs none, dummies none, missing 1-32'
        )
    text += lines_of('alm', 9, almanac(7, toa=TOA + 1)) + ephemeris_of(3)
    outcome = run('almanac', '--sem', given=text.encode())
    assert [it.values['sv'] for it in almanac_back.sem(outcome.said)] == [1, 2, 3]
    assert outcome.errors.endswith('missing 4-6,8-32, of another time 7\n')
    outcome = run('almanac', '--yuma', given=text.encode())
    assert [it.values['sv'] for it in almanac_back.yuma(outcome.said)] == [1, 2, 3, 7]
    both = lines_of('hlt', 9, health_page()) + ''.join(
        lines_of('alm', 9, almanac(at, toa=toa)) for at, toa in ((1, TOA), (2, TOA), (3, 5))
    )
    outcome = run('almanac', '--sem', given=both.encode())
    assert 'of another time' not in outcome.errors
    assert outcome.errors.endswith(', of an unknown week 3: name it by --week-near\n')


def test_configuration_in_sem(run: Command) -> None:
    text = lines_of('alm', 9, almanac(3)) + sub(9, words_of(CONFIGURED))
    outcome = run('almanac', '--sem', '--week-near', '2020-08-07', given=text.encode())
    [it] = almanac_back.sem(outcome.said)
    assert it.values['configuration'] == CONFIGURATIONS[2] == 13


def test_words_that_are_refused(run: Command) -> None:
    refused(run('almanac', '--yuma', '--sem'), 2, '--sem')
    refused(run('almanac', '--csv', '--sem'), 2, '--sem')
    refused(run('almanac', given=b'x\n'), 1, "line 1 isn't one that the receiver prints")
