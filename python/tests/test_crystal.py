"""The command `crystal` over the bundled recording, of which all is known by how it was made."""

from __future__ import annotations

import os
import subprocess
from typing import Dict, List

import pytest
from conftest import EXAMPLES, Command, refused

RATE, PPM = 2048000, 26.7
SHIFTS = (1250, -2100, 3300)
RECORDING = os.path.join(EXAMPLES, 'crystal.iq1')
WORDS = ['--rate', str(RATE), '--format', 'iq1', '--satellites', '3,6,17,22', '--jobs', '2']


def named(plain: Dict[str, str]) -> List[str]:
    return [it for pair in plain.items() for it in pair]


def test_finds_the_crystal(run: Command, plain: Dict[str, str]) -> None:
    outcome = run('crystal', *WORDS, '--from', '15', '--to', '35', *named(plain), RECORDING)
    assert (outcome.status, outcome.errors) == (0, '')
    lines = outcome.said.splitlines()
    assert lines[0] == '# ppm found bits shifts in Hz'
    ppm, found, bits = lines[-2].split()[:3]
    # All shifts within 5 kHz leave this much open.
    near = (10000 - max(SHIFTS) + min(SHIFTS)) / 2 / 1575.42
    assert abs(float(ppm) - PPM) <= near and found == bits == '3'
    rate, offset = (int(it) for it in lines[-1].split()[1:4:2])
    assert lines[-1] == f'--rate {rate} --offset {offset} --minus'
    assert abs(offset - 1575.42 * float(ppm)) < 80
    assert bits_of(plain['--receiver'], lines[-1].split()) == 3


def bits_of(receiver: str, options: List[str]) -> int:
    """How many slots of the example's script find the edge of the bits with these options."""
    words = [receiver, *options, '--format', 'iq1', os.path.join(EXAMPLES, 'crystal.script')]
    with open(RECORDING, 'rb') as samples:
        ran = subprocess.run(words, stdin=samples, stdout=subprocess.PIPE, check=True)
    return ran.stdout.count(b' bits ')


def test_nothing_without_the_crystal(run: Command, plain: Dict[str, str]) -> None:
    outcome = run('crystal', *WORDS, '--from', '0', '--to', '0', *named(plain), RECORDING)
    assert (outcome.status, outcome.said) == (1, '# ppm found bits shifts in Hz\n')
    assert 'no satellite has bits' in outcome.errors


def test_refused_tunings_are_said(run: Command, plain: Dict[str, str]) -> None:
    words = ['--format', 'iq1', '--from', '-5', '--to', '0', '--satellites', '22', '--seconds', '1']
    outcome = run('crystal', *words, *named(plain), RECORDING)
    assert 'refuses the rate or offset at -5 ppm' in outcome.errors


@pytest.mark.parametrize(
    'words, text',
    [
        (['--satellites', '1-99999999999'], 'outside 1 to 32'),
        (['--satellites', ''], 'is no number'),
        (['--satellites', '5-3'], 'has no satellite'),
        (['--step', 'nan'], 'is no decimal number'),
        (['--step', '0.5'], 'outside 1 to 10'),
        (['--from', '5', '--to', '4'], '--from is greater than --to'),
        (['--jobs', '0'], 'outside'),
        (['--rate', '\u0663'], 'is no number'),
    ],
)
def test_refusals(run: Command, words: List[str], text: str) -> None:
    refused(run('crystal', *words, 'x'), 2, text)
