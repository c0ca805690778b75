"""The command `doctor` over made recordings: what was wrong with them is known."""

from __future__ import annotations

import shlex
from pathlib import Path
from typing import Dict, List

import pytest
import made_samples
from conftest import Command, Outcome, refused

from seldomplough import trials

BITS = 'satellites 3, 6 and 17 have bits'
# Those that are there, and one that isn't. A search of all takes eight times as long.
FEW = (*made_samples.SHIFTS, 22)
# Bins of 250 Hz that reach all shifts.
BINS = '14'


def named(plain: Dict[str, str]) -> List[str]:
    return ['--jobs', '2', *(it for pair in plain.items() for it in pair)]


class Patient:
    """A made recording that the doctor looks at."""

    def __init__(self, run: Command, plain: Dict[str, str], path: Path) -> None:
        self.run = run
        self.plain = plain
        self.path = path

    def seen(self, data: bytes, *words: str) -> Outcome:
        """What the doctor says."""
        self.path.write_bytes(data)
        usual = (*named(self.plain), '--limit', '3600')
        return self.run('doctor', *usual, *words, '--', str(self.path))

    def cured(self, data: bytes, *words: str) -> List[str]:
        """The words of the command that it ends with, which the bits are seen with."""
        outcome = self.seen(data, *words)
        assert (outcome.status, outcome.errors) == (0, '')
        lines = outcome.said.splitlines()
        assert BITS in lines
        assert 'found' not in lines[-1]
        command = shlex.split(lines[-1])
        assert command[0] == 'seldomplough' and command[-1] == str(self.path)
        words = [*command[1:-1], *named(self.plain)[2:], '--bins', BINS, '--csv', command[-1]]
        rows = self.run(*words).said
        assert [it.split(',')[0] for it in rows.splitlines()[1:]] == ['3', '6', '17']
        self.said = outcome.said
        return command[2:-1]


@pytest.fixture
def patient(run: Command, plain: Dict[str, str], tmp_path: Path) -> Patient:
    return Patient(run, plain, tmp_path / 'a b=c;d')


@pytest.fixture
def few(monkeypatch: pytest.MonkeyPatch) -> None:
    """The doctor searches for few satellites."""
    monkeypatch.setattr(trials, 'SATELLITES', FEW)


needs_few = pytest.mark.usefixtures('few')


def words(text: str) -> List[str]:
    return text.split()


RATE = ['--rate', str(made_samples.RATE)]


def test_what_is_right_stays(patient: Patient) -> None:
    command = patient.cured(made_samples.made(), '--kind', 'iq-i8', *RATE)
    assert command == words('--kind iq-i8 --format iq1 --rate 2048000 --offset 0')


@needs_few
def test_other_kind(patient: Patient) -> None:
    data = made_samples.words16(made_samples.made(), 'big')
    command = patient.cured(data, '--kind', 'iq-i16', *RATE)
    assert command[:2] == ['--kind', 'iq-i16be']
    assert 'the kind is iq-i16be, not iq-i16' in patient.said


@needs_few
def test_nothing_believed_of_floats(patient: Patient) -> None:
    assert patient.cured(made_samples.floats(made_samples.made()))[:2] == ['--kind', 'iq-f32']


@needs_few
def test_other_sign(patient: Patient) -> None:
    data = made_samples.made(-500000)
    command = patient.cured(data, '--kind', 'iq-i8', *RATE, '--offset', '500000')
    assert command[-3:] == ['--offset', '500000', '--minus']
    assert 'the offset has the other sign' in patient.said


@needs_few
def test_mirrored_pairs(patient: Patient) -> None:
    data = made_samples.conjugate(made_samples.made())
    assert '--conjugate' in patient.cured(data, '--kind', 'iq-i8', *RATE)
    assert 'the spectrum is mirrored' in patient.said


@needs_few
def test_mirrored_real_samples(patient: Patient) -> None:
    data = made_samples.made(-512000, 'i8')
    command = patient.cured(data, '--kind', 'i8', *RATE, '--offset', '512000')
    assert command[-1] == '--minus'


@needs_few
@pytest.mark.parametrize('ppm, way', [(30, 'fast'), (-30, 'slow')])
def test_crystal(patient: Patient, ppm: int, way: str) -> None:
    # By the definition of ppm: the rate is so much greater, and the carrier lies so much lower.
    rate = round(made_samples.RATE * (1 + ppm / 1e6))
    data = made_samples.unsigned(made_samples.made(round(-1575.42 * ppm), rate=rate))
    patient.cured(data, '--kind', 'iq-u8', *RATE)
    (line,) = [it for it in patient.said.splitlines() if 'the crystal is' in it]
    assert way in line
    # All shifts within 5 kHz leave this much open.
    assert abs(float(line.split()[-2]) - 30) < (5000 - 3300) / 1575.42 + 1


@needs_few
def test_mean(patient: Patient) -> None:
    data = made_samples.scaled(made_samples.made(), 1, 15)
    command = patient.cured(data, '--kind', 'iq-i8', *RATE)
    assert float(command[command.index('--centre') + 1]) in (14.5, 15, 15.5)


@needs_few
def test_gain_too_low(patient: Patient) -> None:
    data = made_samples.scaled(made_samples.made(), 0.47 / 20)
    command = patient.cured(data, '--kind', 'iq-i8', *RATE)
    assert 'the gain is too low' in patient.said
    assert command[2:4] == ['--format', 'iq2'] and '--threshold' in command


@needs_few
def test_gain_too_high(patient: Patient) -> None:
    command = patient.cured(made_samples.scaled(made_samples.made(), 10), '--kind', 'iq-i8', *RATE)
    assert command[:2] == ['--kind', 'iq-i8']
    assert 'clipped: the gain is too high' in patient.said


@needs_few
def test_bits_in_either_order(patient: Patient) -> None:
    data = made_samples.bits(made_samples.made(), 2, (0, 1, 2, 3))
    command = patient.cured(data, *RATE)
    assert command[:2] == ['--kind', 'iq-bits2-sm-low']


@needs_few
def test_packing_by_its_kind(patient: Patient) -> None:
    data = made_samples.bits(made_samples.made(), 1, (0, 0, 1, 1))
    # The order of the bits in each byte is turned round, since the receiver's packing has the
    # earliest sample in the high bits.
    turned = bytes(int(f'{it:08b}'[::-1], 2) for it in range(256))
    command = patient.cured(data.translate(turned), '--kind', 'iq-bits1-high', *RATE)
    assert command[:2] == ['--kind', 'iq-bits1-high']
    assert 'the kind is' not in patient.said and 'do not look like' not in patient.said


@needs_few
def test_noise_is_no_satellite(patient: Patient) -> None:
    outcome = patient.seen(
        made_samples.made(satellites=()), '--kind', 'iq-i8', *RATE, '--limit', '2', '--seconds', '1'
    )
    assert outcome.status == 1
    assert 'the time of 2 s is over' in outcome.said
    assert 'no satellite has bits after' in outcome.errors


def test_nothing_recorded(patient: Patient) -> None:
    outcome = patient.seen(bytes(100000))
    assert outcome.said == 'all bytes are 0: nothing was recorded\n'
    assert 'after 0 trials' in outcome.errors


def test_refusals(run: Command, plain: Dict[str, str], tmp_path: Path) -> None:
    refused(run('doctor', *named(plain), '-'), 2, 'give the name of a file')
    refused(run('doctor', *named(plain), str(tmp_path / 'gone')), 1, 'No such file')
    refused(run('doctor', '--limit', '0', 'x'), 2, 'outside 1 to 3600')
