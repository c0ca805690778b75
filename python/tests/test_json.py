"""Lines to JSON and back."""

from __future__ import annotations

import json
import math
import os
from typing import Dict

import printed
import pytest
from conftest import Command, expected_lines, refused


def test_lines_come_back_byte_for_byte(run: Command) -> None:
    text = expected_lines() + ''.join(it + '\n' for it in printed.lines(6000, 7))
    for words in ((), ('--rate', '4092000')):
        objects = run('json', *words, given=text.encode())
        assert (objects.status, objects.errors) == (0, '')
        assert objects.said.isascii() and objects.said.count('\n') == text.count('\n')
        back = run('json', '--back', given=objects.said.encode())
        assert back == (0, text, '')


def test_an_object_has_raw_values_and_si_values(run: Command) -> None:
    text = '1 4092000 state 0 track 5 253 81920000 -65536 lock\n'
    outcome = run('json', '--rate', '2046000', given=text.encode())
    assert json.loads(outcome.said) == {
        'kind': 'state',
        'client': 1,
        'time': 4092000,
        'seconds': 2.0,
        'slot': 0,
        'mode': 'track',
        'satellite': 5,
        'dumps': 253,
        'v': 81920000,
        'w': -65536,
        'stage': 'lock',
        'doppler_hz': 1250.0,
        'code_correction_chips_per_s': -1.0,
    }


def test_counts_have_the_satellite_that_is_known(run: Command) -> None:
    count = '1 2046 count 0 1 -2 3 -4 5 -6\n'
    sums = {'ie': 1, 'qe': -2, 'ip': 3, 'qp': -4, 'il': 5, 'ql': -6}
    plain: Dict[str, object] = {'kind': 'count', 'client': 1, 'time': 2046, 'slot': 0, **sums}
    outcome = run('json', given=count.encode())
    assert json.loads(outcome.said) == plain
    given = '1 0 state 0 hold 9 0\n' + count
    outcome = run('json', '--rate', '2046000', given=given.encode())
    second = outcome.said.splitlines()[1]
    assert json.loads(second) == dict(plain, seconds=0.001, satellite=9)


def test_pages_have_units(run: Command) -> None:
    fields = ' '.join(f'{it.name}=1:{it.exponent}' for it in printed.FIELDS['alm'])
    outcome = run('json', given=f'1 5 alm 0 {fields}\n'.encode())
    record = json.loads(outcome.said)
    assert record['toa'] == 1 and record['toa_s'] == 4096
    assert record['e_dimensionless'] == 2**-21
    assert record['m0_semicircles'] == 2**-23
    assert record['m0_rad'] == pytest.approx(math.pi * 2**-23, rel=1e-12)
    assert 'sv_s' not in record and record['sv'] == 1


def test_words_that_fail_are_null(run: Command) -> None:
    text = '1 5 sub 0 1 7 ------' + ' 00000a' * 9 + '\n'
    record = json.loads(run('json', given=text.encode()).said)
    assert (record['w1'], record['w2'], record['next_subframe_s']) == (None, 10, 42)
    assert (record['words_passed'], record['words_failed']) == (9, 1)
    assert (record['integrity_status'], record['alert'], record['anti_spoof']) == (
        None,
        False,
        False,
    )


OK = '{"kind": "ok", "client": 1, "time": 5}\n'


@pytest.mark.parametrize(
    'text, why',
    [
        ('{', "isn't JSON"),
        ('[' * 60000, "isn't JSON"),
        ('[]', "isn't an object"),
        ('{}', 'has no kind'),
        ('{"kind": "okay"}', 'has no kind'),
        ('{"kind": ["ok"]}', 'has no kind'),
        ('{"kind": "state", "mode": "run"}', 'has no kind'),
        ('{"kind": "ok", "client": 1}', 'lacks time'),
        ('{"kind": "ok", "client": 1.0, "time": 5}', "isn't one that"),
        ('{"kind": "ok", "client": true, "time": 5}', "isn't one that"),
        ('{"kind": "ok", "client": 1, "time": -5}', "isn't one that"),
        ('{"kind": "ok", "client": 1, "time": ' + '9' * 5000 + '}', "isn't"),
        ('{"kind": "lock", "client": 1, "time": 5, "slot": 8}', "isn't one that"),
        ('{"kind": "acq", "client": 1, "time": 5, "slot": 0, "satellite": 1, "found": 1, '
         '"bin": 0, "half_chip": 0, "power": 0}', 'another kind'),
        ('{"kind": "acq", "client": 1, "time": 5, "slot": 0, "satellite": 1, "found": "yes", '
         '"bin": 0, "half_chip": 0, "power": 0}', 'another kind'),
        ('{"kind": "acq", "client": 1, "time": 5, "slot": 0, "satellite": 1, "found": [1], '
         '"bin": 0, "half_chip": 0, "power": 0}', 'another kind'),
        ('{"kind": "sub", "client": 1, "time": 5, "slot": 0, "id": 1, "tow": 1, '
         + ', '.join(f'"w{it}": "abc"' for it in range(1, 11)) + '}', 'another kind'),
    ],
)  # fmt: skip
def test_objects_that_are_no_lines(run: Command, text: str, why: str) -> None:
    outcome = run('json', '--back', given=(OK + text + '\n').encode())
    assert outcome.status == 1 and outcome.said == '1 5 ok\n'
    assert outcome.errors.startswith('seldomplough: line 2 ') and why in outcome.errors
    assert outcome.errors.count('\n') == 1


def test_other_values_of_objects_are_left(run: Command) -> None:
    text = '{"time": 5, "who": "\u00e4", "kind": "ok", "doppler_hz": "x", "client": 1}\n'
    assert run('json', '--back', given=text.encode()).said == '1 5 ok\n'


def test_a_cut_object_is_left_out(run: Command) -> None:
    outcome = run('json', '--back', given=(OK + OK[:-1]).encode())
    assert (outcome.status, outcome.said) == (0, '1 5 ok\n')
    assert 'line 2, the last one, is cut' in outcome.errors


def test_words_that_are_refused(run: Command, tmp_path: os.PathLike[str]) -> None:
    refused(run('json', '--back', '--rate', '2046000'), 2, '--rate has no use with --back')
    refused(run('json', '--rate', '²'), 2, "'\\xb2' is no number")
    refused(run('json', '--rate', '٣'), 2, 'is no number')
    refused(run('json', '--rate', '2_046_000'), 2, 'is no number')
    refused(run('json', '--rate', '9' * 5000), 2, 'is no number')
    refused(run('json', '--rate', '2045999'), 2, '2045999 is outside 2046000 to 20000000')
    refused(run('json', '--rat', '2046000'), 2, 'unrecognized')
    refused(run('json', os.path.join(tmp_path, 'none')), 1, 'No such file or directory')
    refused(run('json', os.fspath(tmp_path)), 1, 'Is a directory')
    refused(run('json', ''), 1, 'no name of a file')
    refused(run('json', 'a\0b'), 1, 'no name of a file')
    refused(run('json', given=b'1 5 ok\xff\n'), 1, 'line 1 ')
