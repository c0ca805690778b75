"""What no line is."""

from __future__ import annotations

import random
from typing import List

import printed
import pytest

from seldomplough import lines
from seldomplough.failures import Failure

WORDS = '8b0114 901327 115000 46d440 87b875 fc1f8a 312704 5e6cfc 00ff9e dd9255'
SUB = f'1 60 sub 0 1 73766 {WORDS}'
ALS = '1 60 als 0 toa=147:12' + ' 0' * 32


WRONG = [
    '',
    'ok',
    '1 5',
    '1 5 okay',
    '0 5 ok',
    '9999999999 5 ok',
    '01 5 ok',
    '1 05 ok',
    '1 99999999999999 ok',
    '1 5 ok ',
    ' 1 5 ok',
    '1  5 ok',
    '1 5 ok\r',
    '1 5 ok\0',
    '1 -5 ok',
    '1 5_0 ok',
    '1 ٣ ok',
    '² 5 ok',
    '1 5 err 0',
    '1 5 err 11',
    '1 5 lock 8',
    '1 5 lock',
    '1 5 count 0 1 2 3 4 5',
    '1 5 count 0 1 2 3 4 5 6 7',
    '1 5 count 0 1 2 3 4 5 -0',
    '1 5 count 0 1 2 3 4 5 1e3',
    '1 5 count 0 1 2 3 4 5 ' + '9' * 5000,
    '1 5 acq 0 33 found 1 2 3',
    '1 5 acq 0 0 found 1 2 3',
    '1 5 acq 0 999 found 1 2 3',
    '1 5 state 0 track 33 5 0 0 bits',
    '1 5 state 0 track 3 5 0 0',
    '1 5 state 0 track',
    '1 5 gap 0 -1',
    '1 5 gap 0 1' + '0' * 18,
    SUB[:-1],
    SUB[:-6],
    SUB.replace('8b0114', '0x8b01'),
    SUB.replace('8b0114', '8_0114'),
    SUB.replace('8b0114', '8B0114'),
    SUB.replace('8b0114', '+b0114'),
    SUB.replace('8b0114', '-----'),
    ALS[:-2],
    ALS.replace(':12', ':11'),
    ALS.replace('147', '256'),
    '1 5 msg 0 ' + '20' * 21,
    '1 5 msg 0 ' + 'zz' * 22,
]


@pytest.mark.parametrize('text', WRONG)
def test_what_no_line_is(text: str) -> None:
    source = ['1 0 ok\n', text + '\n', '1 9 end\n']
    found: List[lines.Line] = []
    with pytest.raises(Failure) as caught:
        found.extend(lines.read(source))
    assert caught.value.text.startswith('line 2 ')
    assert caught.value.status == 1
    assert caught.value.text.isascii() and caught.value.text.isprintable()


@pytest.mark.parametrize('kind', printed.FIELDS)
def test_fields_keep_to_their_names_places_and_bits(kind: str) -> None:
    text = printed.line(kind, 5, random.Random(kind))
    first, last = printed.FIELDS[kind][0], printed.FIELDS[kind][-1]
    words = text.split()
    for field, at in ((first, 4), (last, -1)):
        high = 2 ** (field.bits - field.is_signed)
        for wrong in (high, high + 2**70, -1 if not field.is_signed else -high - 1):
            words[at] = f'{field.name}={wrong}:{field.exponent}'
            with pytest.raises(Failure):
                lines.parse(' '.join(words))
        words = text.split()
    for wrong in (words[:-1], words[:4] + words[5:], words[:4] + words[5:] + words[4:5]):
        with pytest.raises(Failure):
            lines.parse(' '.join(wrong))
