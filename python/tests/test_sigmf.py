"""Options for SigMF recordings."""

from __future__ import annotations

import json
import os
import random
import struct
import subprocess
from typing import Any, Dict, List, Tuple

import pytest
from conftest import NAMES, Command, Outcome, refused

# core:datatype's numbers: how struct writes them, the least and the greatest, and the centre.
NUMBERS: Dict[str, Tuple[str, float, float, float]] = {
    'u8': ('<B', 0, 255, 127.5),
    'i8': ('<b', -128, 127, 0),
    'i16_le': ('<h', -32768, 32767, 0),
    'i16_be': ('>h', -32768, 32767, 0),
    'f32_le': ('<f', -1.0, 1.0, 0),
}
REAL = '--from i8 --to real1\n'


def text_of(about: Dict[str, Any], *captures: Dict[str, Any]) -> str:
    """Metadata of a recording, usual but for what is given."""
    usual = {'core:datatype': 'ri8', 'core:sample_rate': 2046000}
    firsts = captures or ({'core:sample_start': 0, 'core:frequency': 1574908500},)
    return json.dumps({'global': {**usual, **about}, 'captures': firsts})


def of(run: Command, text: str) -> Outcome:
    """What the command says of metadata."""
    return run('sigmf', '-', given=text.encode('utf-8', 'surrogateescape'))


def values(kind: str, count: int) -> Tuple[bytes, List[float]]:
    """Random numbers of a kind, as struct writes and reads them."""
    form, least, greatest, _ = NUMBERS[kind]
    chance = random.Random(kind)
    draw: Any = chance.uniform if kind == 'f32_le' else chance.randint
    written = b''.join(struct.pack(form, draw(least, greatest)) for _ in range(count))
    return written, [it for it, in struct.iter_unpack(form, written)]


def signs(numbers: List[float], centre: float) -> bytes:
    """One bit a number, the earliest on top: 1 below the centre."""
    bits = ''.join('1' if it < centre else '0' for it in numbers)
    return bytes(int(bits[at : at + 8], 2) for at in range(0, len(bits), 8))


@pytest.mark.parametrize('kind', NUMBERS)
@pytest.mark.parametrize('first', ['c', 'r'])
def test_pack_with_the_options_makes_the_signs(
    run: Command, plain: Dict[str, str], kind: str, first: str
) -> None:
    capture = {'core:sample_start': 0, 'core:frequency': 1575120000}
    about = {'core:datatype': first + kind, 'core:sample_rate': 2048000}
    outcome = of(run, text_of(about, capture))
    assert (outcome.status, outcome.errors) == (0, '')
    pack, receiver = outcome.said.splitlines()
    packing = 'iq1' if first == 'c' else 'real1'
    assert receiver == f'--rate 2048000 --offset 300000 --format {packing}'
    written, numbers = values(kind, 8000)
    command = [plain['--pack'], *pack.split()]
    packed = subprocess.run(command, input=written, stdout=subprocess.PIPE)
    assert packed.stdout == signs(numbers, NUMBERS[kind][3])


@pytest.mark.parametrize('datatype', ['cu16_le', 'cf64_le', 'ri32_le', 'cf32_be', 'i8', ''])
def test_other_kinds_are_refused(run: Command, datatype: str) -> None:
    outcome = of(run, text_of({'core:datatype': datatype}))
    refused(outcome, 1, f'core:datatype {datatype} is not one that pack reads')


def test_offsets_of_both_signs(run: Command) -> None:
    for frequency, words in (
        (1575420000, '--offset 0'),
        (1575420000 - 1023000, '--offset 1023000'),
        (1575420000 + 1023000, '--offset 1023000 --minus'),
        (1575420000.0 + 1, '--offset 1 --minus'),
    ):
        outcome = of(run, text_of({}, {'core:frequency': frequency}, {'core:frequency': 0}))
        assert outcome == (0, f'{REAL}--rate 2046000 {words} --format real1\n', '')
    for frequency, far in ((1575420000 + 1023001, -1023001), (0, 1575420000)):
        outcome = of(run, text_of({}, {'core:frequency': frequency}))
        refused(outcome, 1, f'1575.42 MHz is {far} Hz from core:frequency')


@pytest.mark.parametrize('rate', [2045999, 20000001, -1, 10**29, 1e300])
def test_rates_that_the_receiver_refuses(run: Command, rate: float) -> None:
    refused(of(run, text_of({'core:sample_rate': rate})), 1, 'is not 2046000 to 20000000')


@pytest.mark.parametrize('value', [2046000.5, '2046000', True, None, [], {}, [2046000]])
def test_what_is_no_whole_number(run: Command, value: object) -> None:
    text = text_of({'core:sample_rate': value})
    refused(of(run, text), 1, 'core:sample_rate is not a whole number of hertz')
    text = text_of({}, {'core:frequency': value})
    refused(of(run, text), 1, 'core:frequency is not a whole number of hertz')


def test_other_members_that_matter(run: Command) -> None:
    capture = {'core:frequency': 1574908500, 'core:header_bytes': 16}
    refused(of(run, text_of({}, capture)), 1, 'core:header_bytes is not 0')
    late = {'core:header_bytes': [1]}
    refused(of(run, text_of({}, {'core:frequency': 1574908500}, late)), 1, 'core:header_bytes')
    refused(of(run, text_of({'core:num_channels': 2})), 1, 'core:num_channels is not 1')


@pytest.mark.parametrize('name', ['core:datatype', 'core:sample_rate', 'core:frequency'])
def test_members_that_are_missing(run: Command, name: str) -> None:
    refused(of(run, text_of({}).replace(name, 'x')), 1, f'there is no {name}')


@pytest.mark.parametrize(
    'text, why',
    [
        ('', "it isn't JSON"),
        ('{', "it isn't JSON"),
        ('\udcff', "it isn't JSON"),
        ('\ufeff{}', "it isn't JSON"),
        ('[]', 'the metadata is no object'),
        ('7', 'the metadata is no object'),
        ('{}', 'there is no global'),
        ('{"global": []}', 'global is no object'),
        ('{"global": {}}', 'there is no captures'),
        ('{"global": {}, "captures": {}}', 'captures is no list'),
        ('{"global": {}, "captures": []}', 'captures is no list'),
        ('{"global": {}, "captures": ["x"]}', 'a capture is no object'),
        ('{"global": {"core:datatype": {"a": []}}, "captures": [{}]}', 'is not one that pack'),
        ('{"global": ' + '9' * 5000 + '}', 'a number has 5000 digits'),
        ('{"global": NaN}', 'NaN is no number'),
        ('{"global": -Infinity}', '-Infinity is no number'),
        ('[' * 200000, 'too deep'),
        ('{"a":' * 100000, 'too deep'),
    ],
    ids=lambda it: it[:30],
)
def test_what_no_metadata_is(run: Command, text: str, why: str) -> None:
    outcome = of(run, text)
    refused(outcome, 1, why)
    assert outcome.errors.startswith('seldomplough: standard input: ')


def test_numbers_without_an_end_and_without_a_bound(run: Command) -> None:
    text = text_of({'core:sample_rate': 5}).replace(': 5', ': 1e999')
    refused(of(run, text), 1, 'core:sample_rate is not a whole number')
    refused(of(run, ' ' * (1 << 24) + '{}'), 1, 'bytes are no metadata')


def test_any_name_of_a_file(run: Command, tmp_path: os.PathLike[str]) -> None:
    for name in NAMES:
        path = os.path.join(tmp_path, name)
        with open(path, 'w', encoding='ascii') as file:
            file.write(text_of({}))
        outcome = run('sigmf', path)
        assert outcome == (0, f'{REAL}--rate 2046000 --offset 511500 --format real1\n', '')
    refused(run('sigmf', os.path.join(tmp_path, 'none')), 1, 'none: No such file')
    refused(run('sigmf', str(tmp_path)), 1, 'Is a directory')
    refused(run('sigmf'), 2, 'METADATA')
    refused(run('sigmf', 'a', '--help-me'), 2, '--help-me')
