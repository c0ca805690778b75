"""The reader of lines: each kind, and how it reads."""

from __future__ import annotations

import copy
import io
import pickle
import random
from fractions import Fraction
from typing import Iterator, List

import printed
import pytest
from conftest import expected_lines

from seldomplough import lines
from seldomplough.failures import Failure

WORDS = '8b0114 901327 115000 46d440 87b875 fc1f8a 312704 5e6cfc 00ff9e dd9255'
SUB = f'1 60 sub 0 1 73766 {WORDS}'
ALS = '1 60 als 0 toa=147:12' + ' 0' * 32


def test_lines_of_the_examples_come_back() -> None:
    text = expected_lines()
    source = io.BytesIO(text.encode())
    assert ''.join(it.text() + '\n' for it in lines.read(source)) == text


@pytest.mark.parametrize('kind', printed.ALL_KINDS)
def test_made_lines_of_each_kind_come_back(kind: str) -> None:
    chance = random.Random(kind)
    for time in range(50):
        text = printed.line(kind, time, chance)
        line = lines.parse(text)
        assert (line.kind, line.time, line.text()) == (kind, time, text)
        assert len(line.raw()) == len(line.names)
        assert len(line.derived()) == len(line.derived_names)
        exact = [it for it in line.derived() if isinstance(it, (int, Fraction))]
        nearest = [it for it in line.nearest() if isinstance(it, (int, float))]
        assert nearest == [float(it) for it in exact]


def test_all_kinds_are_made() -> None:
    assert set(printed.ALL_KINDS) == set(lines.KINDS)


def test_values_of_lines() -> None:
    assert lines.parse('1 9 count 3 -1 2 -3 4 -5 6') == lines.Count(1, 9, 3, -1, 2, -3, 4, -5, 6)
    acquired = lines.parse('2 9 acq 3 32 found -4 2045 99')
    assert acquired == lines.Acq(2, 9, 3, 32, True, -4, 2045, 99)
    assert isinstance(acquired, lines.Acq)
    assert acquired.doppler_hz(500) == -500
    assert acquired.code_phase_chips == Fraction(2045, 2)
    assert lines.parse('1 9 state 0 idle') == lines.StateIdle(1, 9, 0)
    assert lines.parse('1 9 state 0 acquire 5 7 8') == lines.StateAcquire(1, 9, 0, 5, 7, 8)
    assert lines.parse('1 9 state 0 hold 5 7') == lines.StateHold(1, 9, 0, 5, 7)
    assert lines.parse('12 9 lost 7') == lines.Lost(12, 9, 7)
    assert lines.parse('1 9 lock 7') != lines.parse('1 9 unlock 7')


def test_doppler_of_a_state() -> None:
    state = lines.parse('1 4092000 state 0 track 5 253 81920000 -65536 lock')
    assert isinstance(state, lines.StateTrack)
    assert state.doppler_hz == 1250 and state.code_correction_chips_per_s == -1
    assert state.seconds(2046000) == 2


def test_values_of_pages() -> None:
    chance = random.Random(1)
    line = lines.parse(printed.line('eph', 5, chance))
    assert isinstance(line, lines.Eph)
    assert line.value('toe') == 16 * line.integer('toe')
    assert line.radians('m0') == line.value('m0') * Fraction('3.1415926535898')
    values = dict(zip(line.derived_names, line.derived()))
    assert values['toe_s'] == line.value('toe')
    assert values['idot_rad_per_s'] == line.radians('idot')
    assert values['crs_m'] == Fraction(line.integer('crs'), 32)


def test_values_of_subframes_sets_and_messages() -> None:
    line = lines.parse(SUB.replace('901327', '------'))
    assert isinstance(line, lines.Sub)
    assert line.words[:3] == (0x8B0114, None, 0x115000)
    assert line.derived() == (6 * 73766, 9, 1, False, None, None)
    line = lines.parse(SUB.replace('8b0114', '------'))
    assert line.derived() == (6 * 73766, 9, 1, None, False, True)
    line = lines.parse(SUB.replace('8b0114', '8b0116').replace('901327', '901347'))
    assert line.derived() == (6 * 73766, 10, 0, True, True, False)
    almanacs = lines.parse(ALS)
    assert isinstance(almanacs, lines.Als) and almanacs.toa_s == 602112
    text = 'GPS 25'.encode() + bytes([0o370, 0o7]) + b' ' * 14
    message = lines.parse(f'1 5 msg 0 {text.hex()}')
    assert isinstance(message, lines.Msg)
    assert message.characters == 'GPS 25°\ufffd' + ' ' * 14
    late = lines.parse('1 5 gap 0 25')
    assert isinstance(late, lines.Gap) and late.late_s == Fraction(1, 2)


def test_lines_are_values() -> None:
    for text in printed.lines(100, 3):
        line = lines.parse(text)
        assert pickle.loads(pickle.dumps(line)) == line == copy.copy(line)
        assert hash(line) == hash(lines.parse(text))
        with pytest.raises(AttributeError):
            line.time = 0  # type: ignore[misc]
        assert not hasattr(line, '__dict__')


def test_a_cut_last_line_is_said_and_left_out() -> None:
    for cut in range(1, len(SUB) + 1):
        said: List[str] = []
        source = io.BytesIO(f'1 5 ok\n{SUB[:cut]}'.encode())
        assert [it.kind for it in lines.read(source, said.append)] == ['ok']
        assert len(said) == 1 and said[0].startswith('line 2, the last one, is cut')


def test_lines_come_as_they_are_read() -> None:
    taken = []

    def texts() -> Iterator[str]:
        for number in range(1, 4):
            taken.append(number)
            yield f'1 {number} ok\n'

    reader = lines.read(texts())
    assert next(reader).time == 1
    assert taken == [1]


def test_pieces_are_put_together() -> None:
    text = '1 5 ok\n' + SUB + '\n1 9 end\n'
    whole = list(lines.read([text]))
    assert [it.kind for it in whole] == ['ok', 'sub', 'end']
    assert list(lines.read(list(text))) == whole


def test_a_line_without_end_is_refused_early() -> None:
    class Endless(io.RawIOBase):
        """Zeros without end; how many were read."""

        count = 0

        def readable(self) -> bool:
            return True

        def readinto(self, buffer: bytearray) -> int:  # type: ignore[override]
            self.count += len(buffer)
            buffer[:] = bytes(len(buffer))
            return len(buffer)

    stream = Endless()
    with pytest.raises(Failure, match='line 1 is longer'):
        list(lines.read(io.BufferedReader(stream)))
    assert stream.count < 10**6
