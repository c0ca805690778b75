"""Navigation files of RINEX, against the words that were sent, and against RTKLIB's."""

from __future__ import annotations

import os
import random
import shutil
import subprocess
from datetime import datetime
from pathlib import Path
from typing import Dict, List, Tuple

import made_pages
import pytest
import rinex_back
from conftest import EXAMPLES, HANGS, Command, refused
from made_pages import ephemeris, lines_of, put, satellite, subframe

from seldomplough import dates, rinex, ubx
from seldomplough.lines import Sub, read
from seldomplough.satellites import with_satellites

SAID = '{} written, {} of an unknown satellite, {} without a subframe 1\n'
VERSIONS = {'3.04': 3, '2.11': 2}
with open(os.path.join(EXAMPLES, 'real_message.expected'), encoding='ascii') as _file:
    REAL = _file.read()
SUBFRAMES = [it.split()[6:] for it in REAL.splitlines() if ' sub ' in it]
REAL_WORDS = [[int(it, 16) for it in words] for words in SUBFRAMES]
# The real record by hand from its words: RTKLIB's convbin 2.4.3 b34 wrote the same to its digits.
REAL_RECORD = '''\
G03 2020 08 07 04 00 00-2.626678906381D-04-1.114131009672D-11 0.000000000000D+00
     9.400000000000D+01-8.215625000000D+01 4.441613582463D-09 1.041529986145D+00
    -4.477798938751D-06 3.130251308903D-03 5.796551704407D-06 5.153774734497D+03
     4.464000000000D+05-9.313225746155D-09 2.860741495903D+00 0.000000000000D+00
     9.667070967623D-01 2.698437500000D+02 8.183397679589D-01-8.184269479103D-09
    -2.032227507576D-10 1.000000000000D+00 2.117000000000D+03 0.000000000000D+00
     2.000000000000D+00 0.000000000000D+00 1.862645149231D-09 9.400000000000D+01
     4.425960000000D+05 4.000000000000D+00
'''
END = f'{"":60}END OF HEADER\n'

needs_convbin = pytest.mark.skipif(
    shutil.which('convbin') is None, reason="RTKLIB's convbin is not in the PATH"
)


def made(seed: int, tow: int = 73766, **given: int) -> List[List[int]]:
    """Subframes 1 to 3 of one issue, their other fields by chance."""
    chance = random.Random(seed)
    drawn = [made_pages.drawn(chance, chance.randrange(256)) for _ in range(3)]
    result = [subframe(at, (tow - 1 + at) % 100800, body) for at, body in enumerate(drawn, 1)]
    issue = chance.randrange(240)
    near = tow * 6 // 16
    values = {
        'wn': 69, 'iodc': issue, 'iode': issue, 'iode3': issue, 'fit': 0,
        'ura': chance.randrange(15), 'toc': near + chance.randrange(-400, 400),
        'toe': near + chance.randrange(-400, 400),
    }  # fmt: skip
    values.update(given)
    for words, name in zip(result, made_pages.LISTS.values()):
        put(words, name, **{it: values[it] for it in values if it in made_pages.PLACES[name]})
    return result


def lines(sets: Dict[int, List[List[int]]], others: str = '') -> str:
    """The lines of the sets of satellites, one after another in a slot."""
    texts = [satellite(it) + ephemeris(9, words) + '1 9 lost 0\n' for it, words in sets.items()]
    return others + ''.join(texts)


def written(run: Command, text: str, *words: str, unknown: int = 0, timeless: int = 0) -> str:
    """The file that is written of lines."""
    outcome = run('rinex', *words, given=text.encode())
    count = outcome.said.split(END)[1].count('\n') // 8
    assert outcome.errors == 'seldomplough: ' + SAID.format(count, unknown, timeless)
    assert outcome.status == 0
    return outcome.said


def test_the_record_of_a_real_message(run: Command) -> None:
    for words in ((), ('--week-near', '2020-08-07'), ('--week-near', '2029-12-31')):
        assert written(run, REAL, *words).split(END)[1] == REAL_RECORD
    text = written(run, REAL, '--version', '2.11').split(END)[1]
    first, *rest = REAL_RECORD.splitlines(True)
    assert text == ' 3 20  8  7  4  0  0.0' + first[23:] + ''.join(it[1:] for it in rest)


@pytest.mark.parametrize('version', VERSIONS)
def test_the_way_back_to_the_words(run: Command, version: str) -> None:
    sets = {3: REAL_WORDS, **{it: made(it) for it in (1, 2, *range(4, 33))}}
    text = written(run, lines(sets), '--version', version, '--week-near', '2020-08-07')
    found = list(rinex_back.records(text, VERSIONS[version]))
    assert [it.satellite for it in found] == list(sets)
    for it, words in zip(found, sets.values()):
        assert it.words == rinex_back.masked(words)
        assert (it.week, it.sent_s) == (2117, 73766 * 6)


def test_the_header(run: Command) -> None:
    for version, kinds in (
        ('3.04', 'N: GNSS NAV DATA    G: GPS              '),
        ('2.11', 'N: GPS NAV DATA                         '),
    ):
        first, second, third = written(run, REAL, '--version', version).splitlines(True)[:3]
        assert first == f'     {version}           {kinds}RINEX VERSION / TYPE\n'
        assert second.startswith('seldomplough ') and second[60:] == 'PGM / RUN BY / DATE\n'
        assert datetime.strptime(second[40:60], '%Y%m%d %H%M%S UTC ')
        assert third == END


def page_of_utc(**values: int) -> List[int]:
    words = subframe(4, 73789, made_pages.drawn(random.Random(8), 0x40 | 56))
    put(words, 'utc_fields', **values)
    return words


# Values of satellites in 2020, with 18 leap seconds since the end of 2016.
UTC = {
    'al0': 9, 'al1': 2, 'al2': -1, 'al3': -1, 'be0': 43, 'be1': 3, 'be2': -1, 'be3': -6, 'a1': -6,
    'a0': -3, 'tot': 147, 'wnt': 2117 % 256, 'dtls': 18, 'wnlsf': 137, 'dn': 7, 'dtlsf': 18,
}  # fmt: skip
# 9/2^30, 2/2^27 and so on, by hand.
IONOSPHERE = (
    '  8.3819D-09  1.4901D-08 -5.9605D-08 -5.9605D-08',
    '  8.8064D+04  4.9152D+04 -6.5536D+04 -3.9322D+05',
)


def labelled(text: str) -> List[Tuple[str, str]]:
    """The lines of a header, with their labels, after the first two."""
    head = text.split(END)[0].splitlines()[2:]
    return [(it[:60].rstrip(), it[60:]) for it in head]


def test_time_in_the_header(run: Command) -> None:
    text = REAL + lines_of('utc', 9, page_of_utc(**UTC))
    alpha, beta = IONOSPHERE
    assert labelled(written(run, text)) == [
        (f'GPSA {alpha}', 'IONOSPHERIC CORR'),
        (f'GPSB {beta}', 'IONOSPHERIC CORR'),
        ('GPUT -2.7939677238D-09-5.329070518D-15 602112 2117', 'TIME SYSTEM CORR'),
        ('    18', 'LEAP SECONDS'),
    ]
    assert labelled(written(run, text, '--version', '2.11')) == [
        (f'  {alpha}', 'ION ALPHA'),
        (f'  {beta}', 'ION BETA'),
        ('   -2.793967723846D-09-5.329070518201D-15   602112     2117', 'DELTA-UTC: A0,A1,T,W'),
        ('    18', 'LEAP SECONDS'),
    ]


@pytest.mark.parametrize(
    'tow, week, day, leap',
    [
        # The ephemeris is of week 2117. GPS time is 18 s ahead of UTC, by which the day ends.
        (73766, 2118, 7, '    18    19  2118     7'),
        (73766, 2116, 7, '    19    19  2116     7'),
        (73766, 2117 + 127, 1, '    18    19  2244     1'),
        (73766, 2117 - 127, 1, '    19    19  1990     1'),
        (14402, 2117, 1, '    18    19  2117     1'),
        (14403, 2117, 1, '    19    19  2117     1'),
    ],
)
def test_leap_seconds_that_change(run: Command, tow: int, week: int, day: int, leap: str) -> None:
    page = page_of_utc(**{**UTC, 'dtlsf': 19, 'wnlsf': week % 256, 'dn': day})
    text = lines({3: made(5, tow)}, lines_of('utc', 9, page))
    near = ('--week-near', '2020-08-05')
    assert labelled(written(run, text, *near))[-1] == (leap, 'LEAP SECONDS')
    assert labelled(written(run, text, *near, '--version', '2.11'))[-1][0] == leap[:6]


@pytest.mark.parametrize(
    'tow, toe, week, sent',
    [
        # In seconds of the week in which the subframe begins, and of that of `toe`.
        (73766, 450000, 2117, 442596),
        (100750, 0, 2118, 100750 * 6 - 604800),
        (0, 0, 2118, 0),
        (1, 604784, 2116, 604800 + 6),
        (100799, 604784, 2117, 604794),
    ],
)
def test_weeks_of_toe(run: Command, tow: int, toe: int, week: int, sent: int) -> None:
    text = lines({3: made(5, tow, toe=toe // 16, toc=toe // 16)})
    [it] = rinex_back.records(written(run, text, '--week-near', '2020-08-05'), 3)
    assert (it.week, it.sent_s) == (week, sent)
    [record] = rinex.records(written(run, text).encode())
    assert record.seconds == toe
    date = dates.EPOCH + dates.timedelta(weeks=week, seconds=toe)
    start = f'G03 {date:%Y %m %d %H %M %S}'
    assert start in written(run, text, '--week-near', '2020-08-05')


@pytest.mark.parametrize(
    'date, week',
    [
        ('2020-08-07', 2117),
        ('2010-10-09', 1093),
        ('2010-10-18', 2117),
        ('1980-01-06', 69),
    ],
)
def test_the_whole_week(run: Command, date: str, week: int) -> None:
    [it] = rinex_back.records(written(run, REAL, '--week-near', date), 3)
    assert it.week == week


@pytest.mark.parametrize(
    'issue, hours',
    [
        # Tables 20-XI and 20-XII.
        (12, 6), (239, 6), (240, 8), (247, 8), (248, 14), (255, 14), (496, 14), (497, 26),
        (503, 26), (504, 50), (510, 50), (511, 74), (752, 74), (756, 74), (757, 98), (1021, 26),
        (1023, 26), (256 + 12, 6), (758, 0),
    ],
)  # fmt: skip
def test_hours_of_the_fit(run: Command, issue: int, hours: int) -> None:
    low = issue % 256
    text = lines({3: made(5, iodc=issue, iode=low, iode3=low, fit=1)})
    [it] = rinex_back.records(written(run, text), 3)
    assert it.hours == hours


def test_what_is_left_out(run: Command) -> None:
    text = REAL.replace('acq 0 3', 'acq 1 3')
    refused(
        run('rinex', given=text.replace('track 3', 'track 5', 1).encode()),
        1,
        SAID.format(0, 1, 0)[:-1],
    )
    no_subframe = ''.join(it for it in REAL.splitlines(True) if ' sub 0 1 ' not in it)
    refused(run('rinex', given=no_subframe.encode()), 1, SAID.format(0, 0, 1)[:-1])
    refused(run('rinex', given=b'1 5 ok\n'), 1, SAID.format(0, 0, 0)[:-1])
    damaged = REAL.replace('8b0114 901327', '------ 901327')
    refused(run('rinex', given=damaged.encode()), 1, SAID.format(0, 0, 1)[:-1])
    assert written(run, REAL + ephemeris(9, made(4), slot=4), unknown=1).endswith(REAL_RECORD)


def test_a_set_that_comes_again_is_written_once(run: Command) -> None:
    again = lines({3: REAL_WORDS, 5: made(5)}) + lines({3: REAL_WORDS}) + lines({7: REAL_WORDS})
    found = list(rinex_back.records(written(run, again), 3))
    assert [it.satellite for it in found] == [3, 5, 7]


@pytest.mark.parametrize('date', ['2020-13-01', '20200807', '2020-8-7', 'now', '\u0662020-08-07'])
def test_dates_that_are_none(run: Command, date: str) -> None:
    refused(run('rinex', '--week-near', date), 2, 'is no date such as 2020-08-07')


def test_dates_that_are_far(run: Command) -> None:
    for date in ('1980-01-05', '0001-01-01', '3000-01-01', '9999-12-31'):
        outcome = run('rinex', '--week-near', date, given=REAL.encode())
        refused(outcome, 2, f'{date} is outside 1980-01-06 to 2999-12-31')
    for date, week in (('1980-01-06', 69), ('2999-12-31', 69 + 1024 * 52)):
        [it] = rinex_back.records(written(run, REAL, '--week-near', date), 3)
        assert it.week == week


def test_words_that_are_refused(run: Command) -> None:
    refused(run('rinex', '--version', '3.05'), 2, '--version')
    refused(run('rinex', given=b'x\n'), 1, "line 1 isn't one that the receiver prints")


def convert(messages: Path, version: str, kind: str = 'ubx') -> Path:
    """The navigation file that convbin writes of a file."""
    path = messages.with_suffix('.theirs')
    words = ['convbin', '-r', kind, '-v', version, '-n', str(path), str(messages)]
    subprocess.run(words, stdin=subprocess.DEVNULL, capture_output=True, timeout=HANGS, check=True)
    return path


def numbers(path: Path, width: int = 23) -> Dict[int, List[str]]:
    """The words of each satellite's epoch, and all numbers after it, as they are shown."""
    rows = path.read_text(encoding='ascii').split('END OF HEADER')[1].splitlines()[1:]
    result = {}
    for at in range(0, len(rows), 8):
        number, *epoch = rows[at][:width].replace('G', ' ').split()
        texts = [rows[at][width + 19 * it :][:19] for it in range(3)]
        for row in rows[at + 1 : at + 8]:
            texts += [row[width - 19 + 19 * it :][:19] for it in range(4)]
        result[int(number)] = [f'{float(it):g}' for it in epoch] + [
            it for it in texts if it.strip()
        ]
    return result


def compare(ours: Dict[int, List[str]], theirs: Dict[int, List[str]]) -> None:
    """Sees that both have the same numbers, to the twelve digits that RTKLIB shows."""
    assert sorted(ours) == sorted(theirs) == list(range(1, 33))
    for number, texts in ours.items():
        assert len(texts) == len(theirs[number]) == 6 + 29
        for mine, other in zip(texts, theirs[number]):
            wanted = float(other.replace('D', 'E'))
            assert float(mine.replace('D', 'E')) == pytest.approx(wanted, rel=5.1e-12)


@pytest.fixture
def sent(run: Command, tmp_path: Path) -> Tuple[str, Path]:
    """The lines of a set of each satellite, and a file of their subframes as u-blox messages."""
    text = lines({it: made(it) for it in range(1, 33)})
    messages = tmp_path / 'my.ubx'
    found = with_satellites(read([text]), Sub)
    body = (ubx.message(it or 0, [word or 0 for word in line.words]) for line, it in found)
    messages.write_bytes(b''.join(body))
    return text, messages


@needs_convbin
@pytest.mark.parametrize('version', VERSIONS)
def test_the_values_are_those_of_rtklib(
    run: Command, tmp_path: Path, sent: Tuple[str, Path], version: str
) -> None:
    ours, width = tmp_path / 'ours.nav', 23 if version == '3.04' else 22
    ours.write_text(written(run, sent[0], '--version', version), encoding='ascii')
    compare(numbers(ours, width), numbers(convert(sent[1], version), width))


@needs_convbin
def test_rtklib_reads_what_is_written(run: Command, tmp_path: Path, sent: Tuple[str, Path]) -> None:
    # Of version 2.11 convbin 2.4.3 b34 doesn't read its own files either.
    ours = tmp_path / 'ours.nav'
    ours.write_text(written(run, sent[0]), encoding='ascii')
    compare(numbers(ours), numbers(convert(ours, '3.04', 'rinex')))


def test_rinex_check_agrees(run: Command, tmp_path: Path, sent: Tuple[str, Path]) -> None:
    files = tmp_path / 'my.lines', tmp_path / 'ours.nav'
    for path, text in zip(files, (sent[0], written(run, sent[0]))):
        path.write_text(text, encoding='ascii')
    outcome = run('rinex-check', *map(str, files))
    assert outcome.status == 0 and outcome.said.endswith('\n32 of 32 `eph` lines agree\n')
