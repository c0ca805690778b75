"""Tries of a recording, without a program."""

from __future__ import annotations

from seldomplough.benches import Bench
from seldomplough.lines import StateTrack
from seldomplough.programs import Program
from seldomplough.recordings import Recording, Tuning
from seldomplough.trials import Outcome, better, conjugate, mirrored


def recording(kind: str = 'iq-i8', form: str = 'iq1', offset: int = 7) -> Recording:
    return Recording('x', kind or None, form, Tuning(2048000, offset))


def outcome(*corrections: int) -> Outcome:
    states = {
        at: StateTrack(1, 0, 0, at, 1, 0, it * 65536, 'bits')
        for at, it in enumerate(corrections, 1)
    }
    return Outcome(recording(), states)


def test_more_bits_are_better() -> None:
    one, two = outcome(0), outcome(9, 9)
    assert better(one, two) is two and better(two, one) is two
    assert better(outcome(), outcome()) is None


def test_of_equals_the_code_decides() -> None:
    small, great = outcome(1, -1), outcome(3, -3)
    assert better(great, small) is small and better(small, great) is small
    # What is believed stays where they hardly differ.
    near = outcome(2, -2)
    assert better(near, small) is near


def test_mirrored() -> None:
    it = mirrored(recording())
    assert (it.packing, it.tuning.offset) == (('--conjugate',), -7)
    assert mirrored(it) == recording()
    assert mirrored(recording('', 'iq1')).kind == 'iq-bits1-high'
    assert mirrored(recording('', 'iq2')).kind is None
    real = mirrored(recording('i8', 'real1'))
    assert (real.packing, real.tuning.offset) == ((), -7)


def test_conjugate_of_packed_pairs() -> None:
    # The signs in quadrature are bits 6, 4, 2 and 0 of iq1, and bits 5 and 1 of iq2.
    assert conjugate(b'\x00\xff', 'iq1') == b'\x55\xaa'
    assert conjugate(b'\x00\xff', 'iq2') == b'\x22\xdd'


def test_energy_of_samples() -> None:
    program = Program('receiver', 'none')
    assert Bench(program, 'real1', b'\x72').energy == 1
    assert Bench(program, 'iq1', b'\x72').energy == 2
    # +3 -3 +1 -1 as real2, by docs/FORMATS.md: (9 + 9 + 1 + 1) / 4.
    assert Bench(program, 'real2', b'\x72').energy == 5
    assert Bench(program, 'iq2', b'\x72').energy == 10
    assert Bench(program, 'iq2', b'').energy == 0
