"""Subframes as u-blox messages."""

from __future__ import annotations

import io
import os
import random
import struct
import sys
from typing import Any, Callable, List, NamedTuple

import pytest
from conftest import EXAMPLES, NAMES, expected_lines

from seldomplough import ubx
from seldomplough.cli import main

WORDS = '8b0114 901327 115000 46d440 87b875 fc1f8a 312704 5e6cfc 00ff9e dd9255'
SUB = f'1 60 sub 0 1 73766 {WORDS}\n'
STATE = '1 50 state 0 track 3 5 0 0 bits\n'
FIVE = '1 70 state 0 track 5 5 0 0 bits\n'
FOUND, NONE = '1 50 acq 0 4 found 1 2 3\n', '1 50 acq 0 4 none 1 2 3\n'

# The length of a message, and the masks of the six parity bits as other decoders have them: the
# last two bits of the word before on top, then 24 data bits.
LENGTH = 56
MASKS = (0xBB1F3480, 0x5D8F9A40, 0xAEC7CD00, 0x5763E680, 0x6BB1F340, 0x8B7A89C0)


class Messages(NamedTuple):
    """What the command wrote: the satellite of each message, what it said, and its status."""

    satellites: List[int]
    errors: str
    status: int
    data: bytes


Convert = Callable[..., Messages]


@pytest.fixture
def convert(capfdbinary: pytest.CaptureFixture[bytes], monkeypatch: pytest.MonkeyPatch) -> Convert:
    """Gives the messages of lines."""

    def convert(text: str, *words: str) -> Messages:
        monkeypatch.setattr(sys, 'stdin', io.TextIOWrapper(io.BytesIO(text.encode())))
        status = main(['ubx', *words])
        data, errors = capfdbinary.readouterr()
        assert len(data) % LENGTH == 0
        found = [data[at + 7] for at in range(0, len(data), LENGTH)]
        return Messages(found, errors.decode(), status, data)

    return convert


def said(written: int, damaged: int = 0, unknown: int = 0) -> str:
    """What standard error has at the end."""
    return (
        f'seldomplough: {written} written, {damaged} with damaged words,'
        f' {unknown} of an unknown satellite\n'
    )


def is_refused(it: Messages) -> bool:
    """Whether nothing was written and one line says why."""
    is_said = it.errors.startswith('seldomplough: line ') and it.errors.count('\n') == 1
    return not it.data and it.status == 1 and is_said


def test_the_sum_of_a_message_is_that_of_a_known_one() -> None:
    # UBX-MON-VER asked for, as u-blox's description of its protocol shows it.
    assert ubx.checksum(bytes.fromhex('0a040000')) == bytes.fromhex('0e34')


def test_parity_is_that_of_the_masks() -> None:
    chance = random.Random(1)
    for before in range(4):
        for data in (0, 2**24 - 1, *(chance.randrange(2**24) for _ in range(200))):
            word, bits = before << 30 | data << 6, 0
            for mask in MASKS:
                bits = bits << 1 | bin(word & mask).count('1') % 2
            assert ubx.parity(data, before) == bits


def test_a_message(convert: Convert) -> None:
    data = convert(STATE + SUB).data
    assert data[:6] == bytes.fromhex('b56202133000')
    numbers = struct.unpack('<8B10I', data[6:-2])
    assert numbers[:8] == (0, 3, 0, 0, 10, 0, 2, 0)
    assert [f'{it >> 6:06x}' for it in numbers[8:]] == WORDS.split()
    first = second = 0
    for it in data[2:-2]:
        first += it
        second += first
    assert data[-2:] == bytes((first % 256, second % 256))


def test_each_cut_of_the_last_line_is_said_and_left_out(convert: Convert) -> None:
    whole = convert(STATE + SUB)
    for last in (SUB, STATE, '1 70 acq 0 31 found 1 2 3\n'):
        for at in range(1, len(last)):
            it = convert(STATE + SUB + last[:at])
            assert (it.data, it.status) == (whole.data, 0)
            assert 'line 3, the last one, is cut and was left out' in it.errors
        assert is_refused(convert(STATE + last[2:] + SUB))


@pytest.mark.parametrize(
    'word',
    '0x8b01 8_0114 8B0114 8b011 8b01144 +8b011 ----- ------- 8b-114 \u06608b011 xyzxyz'.split(),
)
def test_words_are_six_digits_or_dashes(convert: Convert, word: str) -> None:
    assert is_refused(convert(STATE + SUB.replace('8b0114', word)))


def test_other_words_of_a_subframe(convert: Convert) -> None:
    for words in (f'{WORDS} 8b0114', WORDS[7:], f'{WORDS[:6]}\t{WORDS[7:]}'):
        assert is_refused(convert(STATE + SUB.replace(WORDS, words)))
    for old, new in (('sub 0', 'sub 8'), ('1 60', '0 60'), (' 1 73766', ' 73766')):
        assert is_refused(convert(STATE + SUB.replace(old, new)))
    for text in ('| true\n', '\0\n', 'x' * 5000 + '\n'):
        assert is_refused(convert(STATE + text + SUB))


def test_damaged_words(convert: Convert) -> None:
    it = convert(STATE + SUB + SUB.replace('dd9255', '------'))
    assert (it.satellites, it.errors, it.status) == ([3], said(1, damaged=1), 0)


@pytest.mark.parametrize('satellite', ['0', '33', '999', '03', '+3', '3_1', '40'])
def test_no_satellites(convert: Convert, satellite: str) -> None:
    for text in (
        f'state 0 track {satellite} 5 0 0 bits',
        f'acq 0 {satellite} found 1 2 3',
        f'state 0 hold {satellite} 5',
        f'state 0 acquire {satellite} 5 9',
    ):
        assert is_refused(convert(f'1 50 {text}\n' + SUB))


@pytest.mark.parametrize('satellite', [1, 9, 10, 19, 29, 30, 32])
def test_satellites(convert: Convert, satellite: int) -> None:
    it = convert(f'1 50 acq 0 {satellite} found 1 2 3\n' + SUB)
    assert (it.satellites, it.status) == ([satellite], 0)


@pytest.mark.parametrize(
    'text, satellite',
    [
        (SUB, None),
        (STATE + SUB, 3),
        (SUB + STATE, 3),
        (FOUND + SUB, 4),
        (SUB + FOUND, None),
        (STATE + NONE + SUB, None),
        (SUB + NONE + STATE, None),
        (STATE + '1 55 lost 0\n' + SUB, None),
        (SUB + '1 65 lost 0\n' + FIVE, None),
        (STATE + '1 55 state 0 idle\n' + SUB, None),
        (SUB + '1 65 state 0 acquire 5 1 9\n' + FIVE, None),
        (STATE + SUB + STATE, 3),
        (STATE + '1 55 state 0 idle\n' + SUB + FIVE, 5),
        (STATE + SUB + FIVE, None),
        (STATE.replace('1 50', '2 50') + SUB, None),
        (STATE + '1 55 lost 1\n' + SUB, 3),
        (STATE + FOUND + SUB, 4),
    ],
)
def test_whose_a_subframe_is(convert: Convert, text: str, satellite: int) -> None:
    it = convert(text)
    known = [] if satellite is None else [satellite]
    assert (it.satellites, it.status) == (known, 0)
    assert it.errors == said(len(known), unknown=1 - len(known))


def test_messages_are_in_the_order_of_the_lines(convert: Convert) -> None:
    other, last = SUB.replace('sub 0', 'sub 1'), '1 90 state 1 hold 7 5\n'
    assert convert(SUB + other + FIVE + SUB + last).satellites == [5, 7, 5]


def test_any_name_of_a_file(convert: Convert, tmp_path: os.PathLike[str]) -> None:
    for name in NAMES:
        path = os.path.join(tmp_path, name)
        with open(path, 'w', encoding='ascii') as file:
            file.write(STATE + SUB)
        assert convert('', path).satellites == [3]


def test_stored_lines_are_taken(convert: Convert) -> None:
    for name in sorted(it for it in os.listdir(EXAMPLES) if it.endswith('.expected')):
        with open(os.path.join(EXAMPLES, name), encoding='ascii') as file:
            text = file.read()
        it = convert(text)
        assert it.status == 0 and it.errors == said(len(it.satellites))
        wanted = [
            [int(word, 16) for word in it.split()[6:]] for it in text.splitlines() if ' sub ' in it
        ]
        starts = range(14, len(it.data), LENGTH)
        written = [struct.unpack('<10I', it.data[at : at + 40]) for at in starts]
        assert [[word >> 6 for word in words] for words in written] == wanted
    assert is_refused(convert(expected_lines() + 'x\n'))


def test_a_full_disk_and_a_closed_pipe(launch: Any) -> None:
    with open('/dev/full', 'wb') as full:
        it = launch(
            'ubx', input=(STATE + SUB).encode(), stdout=full, stderr=-1, capture_output=False
        )
    assert it.stderr == b'seldomplough: standard output: No space left on device\n'
    reader, writer = os.pipe()
    os.close(reader)
    it = launch('ubx', input=(STATE + SUB).encode(), stdout=writer, stderr=-1, capture_output=False)
    os.close(writer)
    assert (it.returncode, it.stderr) == (-13, b'')
