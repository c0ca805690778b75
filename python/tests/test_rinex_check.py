"""`eph` lines beside a navigation file of RINEX."""

from __future__ import annotations

import os
import time
from typing import Callable

import pytest
from conftest import EXAMPLES, NAMES, Command, Outcome, refused

# What RTKLIB's convbin 2.4.3 b34 wrote of the messages of the real recording.
HEADER = f'{"3.04":>9}{"":11}N: GNSS NAV DATA{"":4}G: GPS{"":14}RINEX VERSION / TYPE\n'
END = f'{"":60}END OF HEADER\n'
RECORD = '''\
G03 2020 08 07 04 00 00 -.262667890638D-03 -.111413100967D-10  .000000000000D+00
      .940000000000D+02 -.821562500000D+02  .444161358246D-08  .104152998614D+01
     -.447779893875D-05  .313025130890D-02  .579655170441D-05  .515377473450D+04
      .446400000000D+06 -.931322574615D-08  .286074149590D+01  .000000000000D+00
      .966707096762D+00  .269843750000D+03  .818339767959D+00 -.818426947910D-08
     -.203222750758D-09  .100000000000D+01  .211700000000D+04  .000000000000D+00
      .200000000000D+01  .000000000000D+00  .186264514923D-08  .940000000000D+02
      .442596000000D+06  .400000000000D+01
'''
RINEX = HEADER + END + RECORD
OTHER = RECORD.replace('G03', 'G05')
GLONASS = 'R03 2020 08 07 04 00 00 junk\n     junk\n'
AGREES = 'satellite 3: 28 of 28 fields agree\n1 of 1 `eph` lines agree\n'

Check = Callable[..., Outcome]


def stored_lines() -> str:
    with open(os.path.join(EXAMPLES, 'real_message.expected'), encoding='ascii') as file:
        return file.read()


LINES = stored_lines()
[EPH] = [it for it in LINES.splitlines(True) if ' eph ' in it]


@pytest.fixture
def check(run: Command, tmp_path: os.PathLike[str]) -> Check:
    """Compares lines with a file."""

    def compare(text: str = RINEX, lines: str = LINES) -> Outcome:
        path = os.path.join(tmp_path, 'rinex')
        with open(path, 'w', encoding='utf-8', newline='') as file:
            file.write(text)
        return run('rinex-check', '-', path, given=lines.encode())

    return compare


def test_all_fields_of_a_real_message_agree(check: Check) -> None:
    assert check() == (0, AGREES, '')
    assert check(RINEX.replace('\n', '\r\n')) == (0, AGREES, '')
    assert check(RINEX.replace('D+', 'E+').replace('D-', 'e-')) == (0, AGREES, '')
    assert check(RINEX.replace('G03', 'G 3')) == (0, AGREES, '')
    assert check(HEADER + 'caf\u00e9\n' + END + OTHER + GLONASS + RECORD) == (0, AGREES, '')
    assert check(RINEX.rstrip('\n')) == (0, AGREES, '')


def test_the_record_of_the_same_time_is_taken(check: Check) -> None:
    earlier = RECORD.replace('08 07 04', '08 06 04').replace('.8215625', '.7215625')
    assert check(HEADER + END + earlier + RECORD) == (0, AGREES, '')


@pytest.mark.parametrize(
    'old, new, said',
    [
        ('04 00 00', '06 00 00', '  toc\n'),
        (
            '.940000000000D+02 -.82',
            '.940000000000D+02 -.81',
            '  crs: -81.15625 and not -82.15625\n',
        ),
        ('.211700000000D+04', '.211800000000D+04', '  wn: 70.0 and not 69.0\n'),
        ('.200000000000D+01  .0', '.280000000000D+01  .0', '  ura: 2.8 and not 2.0\n'),
        ('.104152998614D+01', '.104152998615D+01', '  m0: 1.04152998615 and not 1.0415299861'),
    ],
)
def test_a_field_that_differs(check: Check, old: str, new: str, said: str) -> None:
    assert old in RINEX
    outcome = check(RINEX.replace(old, new))
    assert outcome.said.startswith('satellite 3: 27 of 28 fields agree\n' + said)
    assert outcome.said.endswith('\n0 of 1 `eph` lines agree\n')
    assert (outcome.status, outcome.errors) == (1, '')


def test_other_issues_and_other_satellites(check: Check) -> None:
    none = 'satellite 3: no record of issue 94\n0 of 1 `eph` lines agree\n'
    other_issue = RINEX.replace('      .94', '      .95')
    for text in (HEADER + END, HEADER + END + OTHER, other_issue):
        assert check(text) == (1, none, '')
    unknown = 'unknown satellite: no record of issue 94\n0 of 1 `eph` lines agree\n'
    assert check(lines=EPH) == (1, unknown, '')


def test_no_lines_do_not_agree(check: Check) -> None:
    assert check(lines='1 5 ok\n') == (1, '0 of 0 `eph` lines agree\n', '')


@pytest.mark.parametrize(
    'line',
    [
        EPH[: EPH.index(' iodc')] + '\n',
        EPH[:-1],
        EPH[:-2],
        EPH.replace('=', ':'),
        EPH.replace('idot=-569:-43', 'idot=-569:99999999'),
        EPH.replace('idot', 'tgd'),
        EPH.replace('wn=69:0', 'wn=69:0 x=1:0'),
        ' '.join(EPH.split()[:6]) + '\n',
    ],
    ids=range(8),
)
def test_lines_of_some_fields_only(check: Check, line: str) -> None:
    assert line != EPH
    started = time.process_time()
    refused(check(lines=LINES.replace(EPH, line)), 1, "isn't one that the receiver prints")
    assert time.process_time() - started < 10


@pytest.mark.parametrize(
    'old, new, why',
    [
        (RECORD, 'G03 1 2\n', 'line 3 begins with no satellite and epoch: G03 1 2'),
        (RECORD, 'G\n', 'line 3 begins with no satellite'),
        (RECORD, RECORD[: RECORD.index('\n') + 1], 'the record of line 3 has too few lines'),
        (RECORD, RECORD[: RECORD.index('.4477')], 'line 5 has no number for cuc'),
        ('G03', 'G33', 'line 3 begins with no satellite'),
        ('G03', 'G00', 'line 3 begins with no satellite'),
        ('08 07 04', '13 07 04', 'line 3 has no date'),
        ('08 07 04', '02 30 04', 'line 3 has no date'),
        ('2020', '0000', 'line 3 has no date'),
        ('04 00 00', '04 00 60', 'line 3 has no date'),
        ('.940000000000D+02 -', '            1/0    -', 'line 4 has no number for iode'),
        ('.940000000000D+02 -', '        1D99999999 -', 'line 4 has no number for iode'),
        ('.940000000000D+02 -', '              1_0  -', 'line 4 has no number for iode'),
        ('.940000000000D+02 -', '              nan  -', 'line 4 has no number for iode'),
        ('.940000000000D+02 -', '              \u0663    -', 'line 4 has no number for iode'),
        ('.940000000000D+02 -', '                   -', "line 4 has no number for iode: ' "),
        ('3.04', '2.11', 'it is no navigation file'),
        ('N: GNSS', 'O: GNSS', 'it is no navigation file'),
        ('END OF HEADER', '', 'it is no navigation file'),
    ],
    ids=range(19),
)
def test_hostile_files(check: Check, old: str, new: str, why: str) -> None:
    assert old in RINEX
    outcome = check(RINEX.replace(old, new))
    refused(outcome, 1, f'rinex: {why}')


def test_other_hostile_files(check: Check) -> None:
    for text in ('', '\0' * 5000, '\n' * 100000, '3.04' * 100000, RECORD):
        refused(check(text), 1, 'it is no navigation file of RINEX')
    long = check(RINEX.replace('G03 2020', 'G03 ' + '9' * 100000))
    refused(long, 1, 'line 3 begins with no satellite')
    assert len(long.errors) < 300


def test_too_large_a_file(check: Check, monkeypatch: pytest.MonkeyPatch) -> None:
    monkeypatch.setattr('seldomplough.rinex.LONGEST', 100)
    refused(check(), 1, 'more than 100 bytes')


def test_any_name_of_a_file(run: Command, tmp_path: os.PathLike[str]) -> None:
    for name in NAMES:
        lines, rinex = (os.path.join(tmp_path, it) for it in (name, f'{name}.nav'))
        for path, text in ((lines, LINES), (rinex, RINEX)):
            with open(path, 'w', encoding='ascii') as file:
                file.write(text)
        assert run('rinex-check', lines, rinex) == (0, AGREES, '')
    refused(run('rinex-check', 'a'), 2, 'RINEX')
    refused(run('rinex-check', os.path.join(tmp_path, 'none'), 'b'), 1, 'none: No such file')
