"""What the programs refuse, in words."""

from __future__ import annotations

from pathlib import Path

import pytest

from seldomplough.refusals import in_words


@pytest.mark.parametrize(
    'said, text',
    [
        ('rate', '2046000 to 20000000'),
        ('offset', '--minus'),
        ('shares', 'one digit from 1 to 8'),
        ('clients', 'eight scripts'),
        ('read', 'could not be read'),
        ('write', 'could not be written'),
        ('too long', '2^40'),
        ('no memory', 'memory'),
    ],
)
def test_fixed_texts_say_the_way_out(said: str, text: str) -> None:
    assert text in in_words('receiver', 1, f'receiver: {said}\n')


def test_other_texts_stay() -> None:
    assert in_words('receiver', 2, 'error: what is this\n\nUsage: ..\n') == (
        'receiver: error: what is this'
    )
    assert in_words('pack', 2, 'error: what?\n\nUsage: ..\n') == 'pack: error: what?'
    assert in_words('pack', 2, 'pack: --to is missing\n') == 'pack: --to is missing'


def test_sign_of_the_offset() -> None:
    said = "error: unexpected '-5'\nreceiver: --offset takes no sign: --offset 5000 --minus is ..\n"
    assert '`--offset 5000 --minus`' in in_words('receiver', 2, said)


def test_signals_and_silence() -> None:
    assert in_words('receiver', -11, '') == 'receiver was ended by SIGSEGV'
    assert in_words('receiver', -250, '') == 'receiver was ended by signal 250'
    assert in_words('receiver', 3, '') == 'receiver ended with status 3 and said nothing'


def test_script_that_cannot_be_read_is_named(tmp_path: Path) -> None:
    good, long = tmp_path / 'good', tmp_path / 'long'
    good.write_text('')
    with long.open('wb') as file:
        file.truncate((16 << 20) + 1)
    said = 'receiver: script\n'
    assert "gone' can't be read: No such" in in_words('receiver', 2, said, [str(good), 'gone'])
    assert "long' has more than 16 MiB" in in_words('receiver', 2, said, [str(good), str(long)])
    assert "isn't UTF-8" in in_words('receiver', 2, said, ['\udcff'])
    assert 'a script could not be read' in in_words('receiver', 2, said, [str(good)])
