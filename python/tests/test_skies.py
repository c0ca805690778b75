"""What lines say of satellites, and the command `sky` over the bundled and made recordings."""

from __future__ import annotations

import csv
import io
import json
import os
from datetime import datetime
from pathlib import Path
from typing import Any, Callable, Dict, List

import pytest
import made_samples
from conftest import EXAMPLES, Command, refused

from seldomplough.lines import parse
from seldomplough.scripts import Search
from seldomplough.skies import Sky, scripts

TODAY = datetime(2026, 1, 1)
WORDS = ' '.join(['000000'] * 10)
EPHEMERIS = 'iode crs dn m0 cuc e cus sqrta toe fit aodo cic om0 cis i0 crc w omdot iode3 idot'


def named(plain: Dict[str, str]) -> List[str]:
    return [it for pair in plain.items() for it in pair]


def rows_of(said: str) -> Dict[int, Dict[str, Any]]:
    rows = [json.loads(it) for it in said.splitlines()]
    return {it['satellite']: it for it in rows}


def real_ephemeris() -> str:
    """The ephemeris of the bundled message, of client 1 and slot 0."""
    with open(os.path.join(EXAMPLES, 'real_message.expected'), encoding='ascii') as file:
        return next(it for it in file.read().splitlines() if ' eph ' in it)


def fed(*texts: str) -> Sky:
    sky = Sky(Search(), 2046000)
    for text in texts:
        sky.feed(parse(text))
    return sky


def test_life_of_a_slot() -> None:
    sky = fed(
        '3 356000 acq 1 10 none 3 4 5',
        '3 20460000 acq 1 10 found -3 44 5000',
        '3 21000000 lock 1',
        '3 21500000 bits 1',
        '3 22000000 state 1 track 10 9 -65536000 7 bits',
    )
    (it,) = sky.rows()
    # A search with 20 bins and 10 ms takes 10 * 2046 + 4 * 2046 * 41 samples.
    assert (it.number, it.found, it.half_chip) == (10, 20460000 - 356004, 44)
    assert (it.locked, it.bits, it.doppler_hz, it.lost) == (21000000, 21500000, -1000.0, None)
    sky.feed(parse('3 23000000 unlock 1'))
    assert it.locked is None and it.lost is None
    sky.feed(parse('3 24000000 lost 1'))
    assert it.lost == 24000000
    sky.feed(parse('3 41000000 acq 1 10 found 2 45 5000'))
    assert (it.lost, it.half_chip, it.doppler_hz) == (None, 45, 500.0)


def test_counts_before_the_lock_are_left_out() -> None:
    sky = fed(
        '1 356004 acq 0 1 found 0 0 9',
        '1 400000 count 0 0 0 3 0 0 0',
        '1 410000 lock 0',
        '1 420000 count 0 0 0 4 3 0 0',
        '1 420000 end',
    )
    (it,) = sky.rows()
    assert (it.moments.dumps, it.moments.powers) == (1, 25)


def test_week_and_time() -> None:
    # Week 69, in the third week-count since 1980: 2 August 2020 and 442608 s.
    tows = [
        f'1 {tow}00 sub 0 {at} {tow} {WORDS}' for at, tow in ((1, 73766), (2, 73767), (3, 73768))
    ]
    (it,) = fed('1 400 acq 0 1 found 0 0 9', *tows, real_ephemeris()).rows()
    assert (it.week, it.time_of_week_s, it.subframes, it.health) == (69, 442608, 3, 0)
    assert it.date(None, TODAY) == datetime(2020, 8, 7, 2, 56, 48)
    assert it.date(1, TODAY) == datetime(2000, 12, 22, 2, 56, 48)


def test_damaged_words_and_flags() -> None:
    texts = ['1 400 acq 0 1 found 0 0 9']
    # Alert and anti-spoof, then anti-spoof alone with two damaged words, then no handover word.
    middle = WORDS[13:-7]
    for words in (
        f'000000 000060{middle} 000000',
        f'------ 000020{middle} ------',
        f'000000 ------{middle} 000000',
    ):
        texts.append(f'1 900 sub 0 2 73767 {words}')
    (it,) = fed(texts[0]).rows()
    assert (it.words_failed, it.alert, it.anti_spoof) == (0, None, None)
    (it,) = fed(*texts[:2]).rows()
    assert (it.words_failed, it.alert, it.anti_spoof) == (0, True, True)
    (it,) = fed(*texts).rows()
    assert (it.subframes, it.words_failed, it.alert, it.anti_spoof) == (3, 3, False, True)


@pytest.mark.parametrize(
    'tows, expected',
    [
        # The week's number came with the first subframe of the week.
        ([(2, 100797), (3, 100798), (1, 1)], datetime(2020, 8, 2, 0, 0, 6)),
        # The week ended after its number came.
        ([(1, 100796), (2, 100797), (3, 100798), (4, 100799), (5, 0), (1, 1)],
         datetime(2020, 8, 9, 0, 0, 6)),
    ],
)  # fmt: skip
def test_ends_of_weeks(tows: List[Any], expected: datetime) -> None:
    subs = [f'1 9 sub 0 {at} {tow} {WORDS}' for at, tow in tows]
    place = 3
    texts = [*subs[:place], real_ephemeris(), *subs[place:]]
    (it,) = fed('1 400 acq 0 1 found 0 0 9', *texts).rows()
    assert it.date(2, TODAY) == expected


def test_scripts_keep_to_the_time() -> None:
    for script in scripts(Search(), 2046000, 25, 50000000):
        times = [int(it.split()[0]) for it in script]
        assert times == sorted(times) and times[-1] == 50000000
        assert sum('acquire' in it for it in script) == 4 * 3
    assert max(int(it.split()[0]) for it in scripts(Search(), 2046000, 2, None)[0]) == 4092000


def test_real_message(run: Command, plain: Dict[str, str]) -> None:
    path = os.path.join(EXAMPLES, 'real_message.real1')
    outcome = run('sky', '--json', '--rollovers', '2', '--offset', '511500', *named(plain), path)
    assert outcome.status == 0
    (row,) = rows_of(outcome.said).values()
    assert (row['satellite'], row['subframes'], row['week'], row['health']) == (3, 3, 69, 0)
    assert row['gps_time'] == '2020-08-07 02:56:48'
    assert (row['words_failed'], row['alert'], row['anti_spoof']) == (0, 0, 1)


def test_made_satellites(run: Command, plain: Dict[str, str], tmp_path: Path) -> None:
    path = tmp_path / '-a=b c'
    path.write_bytes(made_samples.made())
    words = ['--kind', 'iq-i8', '--rate', str(made_samples.RATE), *named(plain)]
    rows = rows_of(run('sky', '--json', *words, '--', str(path)).said)
    assert set(rows) == set(made_samples.SHIFTS)
    for satellite, shift in made_samples.SHIFTS.items():
        assert abs(rows[satellite]['doppler_hz'] - shift) < 15
        # 48 and 47 dB-Hz were made, and one bit a part loses 2.3 to 2.4.
        assert 43.5 < rows[satellite]['cn0_db_hz'] < 47
        assert rows[satellite]['bits_s'] > rows[satellite]['locked_s'] > 0
    table = list(csv.DictReader(io.StringIO(run('sky', '--csv', *words, '--', str(path)).said)))
    assert [int(it['satellite']) for it in table] == sorted(made_samples.SHIFTS)
    assert os.listdir(tmp_path) == ['-a=b c']


def test_from_a_pipe(launch: Callable[..., Any], plain: Dict[str, str]) -> None:
    with open(os.path.join(EXAMPLES, 'three_satellites.real1'), 'rb') as file:
        data = file.read()
    outcome = launch('sky', '--csv', '--offset', '511500', *named(plain), '-', input=data)
    assert outcome.returncode == 0
    rows = csv.DictReader(io.StringIO(outcome.stdout.decode()))
    assert {it['satellite'] for it in rows if it['bits_s']} == {'5', '17', '29'}


def test_nothing_is_not_met_with_silence(
    run: Command, plain: Dict[str, str], tmp_path: Path
) -> None:
    path = tmp_path / 'my.iq1'
    path.write_bytes(bytes(range(256)) * 500)
    outcome = run('sky', '--format', 'iq1', *named(plain), str(path))
    assert outcome.status == 1 and outcome.said.startswith('satellite')
    assert 'no satellite has bits: `seldomplough doctor`' in outcome.errors


@pytest.mark.parametrize(
    'words, status, text',
    [
        (['gone'], 1, 'gone: No such file'),
        (['--swap', 'x'], 2, '--swap needs --kind'),
        (['--kind', 'i8', '--format', 'iq1', 'x'], 2, 'no kind of pairs'),
        (['--offset', '-5', '--minus', 'x'], 2, 'leave out --minus'),
        (['--offset', '1500000', 'x'], 2, 'at most half the rate'),
        (['--seconds', '0', 'x'], 2, 'outside 1 to 3600'),
        (['--receiver', 'gone', 'x'], 2, 'no program'),
    ],
)
def test_refusals(
    run: Command, plain: Dict[str, str], words: List[str], status: int, text: str
) -> None:
    refused(run('sky', *named(plain), *words), status, text)
