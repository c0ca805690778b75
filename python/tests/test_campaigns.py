"""The table of a campaign: its cells, its refusals, and what is drawn of it."""

from __future__ import annotations

from pathlib import Path

import pytest

from seldomplough.campaigns import drawn, read
from seldomplough.failures import Failure
from seldomplough.recordings import Tuning

HEADER = 'path,kind,rate,offset,mirrored'


def table(folder: Path, text: str) -> str:
    """The name of a table with this text."""
    path = folder / 'recordings.csv'
    path.write_bytes(text.encode('latin-1'))
    return str(path)


def test_what_a_row_says(tmp_path: Path) -> None:
    name = table(
        tmp_path,
        'name,samples,threshold,path,kind,rate,offset,mirrored\r\n'
        ',,,a.real1,real1,2046000,511500,no\r\n\r\n'
        'b2,4000,20,"sub/b,2.bin",iq-u8,4000000,-300000,yes\r\n'
        ',,,/c.iq1,iq1,2048000,5,yes\r\n,,,d.i8,i8,2046000,511500,yes\r\n',
    )
    first, second, third, fourth = read(name)
    assert (first.row, first.name, first.samples) == (2, 'a', None)
    assert first.recording.name == str(tmp_path / 'a.real1')
    assert first.recording.kind is None and first.recording.format == 'real1'
    assert first.recording.tuning == Tuning(2046000, 511500)
    assert (second.row, second.name, second.samples) == (4, 'b2', 4000)
    assert second.recording.name == str(tmp_path / 'sub/b,2.bin')
    # A mirrored recording of pairs is turned by `pack`, and its carrier lies at the other side.
    assert second.recording.tuning == Tuning(4000000, 300000)
    words = '--from iq-u8 --to iq2 --threshold 20 --conjugate'
    assert second.recording.pack_words() == words.split()
    assert third.recording.pack_words() == '--from iq-bits1-high --to iq1 --conjugate'.split()
    assert third.recording.name == '/c.iq1'
    # Of real samples the receiver takes the other half of the spectrum.
    assert fourth.recording.tuning == Tuning(2046000, -511500)
    assert fourth.recording.pack_words() == '--from i8 --to real1'.split()


@pytest.mark.parametrize(
    'text, said',
    [
        ('', 'it is empty'),
        (HEADER, 'it has no recording'),
        ('path,kind,rate,offset', 'row 1: the column mirrored is missing'),
        (f'{HEADER},gain', "row 1: 'gain' is no column"),
        (f'{HEADER},path', 'row 1: path is there twice'),
        (f'{HEADER}\na,u8,2046000,0', 'row 2: 4 cells, the header 5'),
        (f'{HEADER}\na,u8,2046000,0,no\n\nb,u9,2046000,0,no', "row 4: kind: 'u9' is none of u8, "),
        (f'{HEADER}\na,u8,5,0,no', 'row 2: rate: 5 is outside 2046000 to 20000000'),
        (f'{HEADER}\na,u8,2e6,0,no', "row 2: rate: '2e6' is no number"),
        (f'{HEADER}\na,u8,2046000,1023001,no', 'row 2: offset: it is at most half the rate'),
        (f'{HEADER}\na,u8,2046000,,no', "row 2: offset: '' is no number"),
        (f'{HEADER}\na,u8,2046000,0,maybe', "row 2: mirrored: 'maybe' is neither yes nor no"),
        (f'{HEADER}\na,iq2,2046000,0,yes', 'row 2: mirrored: iq2 is packed already'),
        (f'{HEADER}\n,u8,2046000,0,no', 'row 2: path: it is no name'),
        (f'{HEADER}\n.u8,u8,2046000,0,no', "row 2: name: '' is not letters"),
        (f'{HEADER}\na b.x,u8,2046000,0,no', "row 2: name: 'a b' is not letters"),
        (f'{HEADER}\na.x,u8,2046000,0,no\na.y,u8,2046000,0,no', 'row 3: the name a is that of row'),
        (f'{HEADER},samples\na,u8,2046000,0,no,0', 'row 2: samples: 0 is outside'),
        (f'{HEADER},threshold\na,iq1,2046000,0,no,9', 'row 2: threshold: iq1 is packed already'),
        (f'{HEADER},threshold\na,u8,2046000,0,no,-1', 'row 2: threshold: -1 is outside'),
        (f'{HEADER}\n"a,u8', 'row 2: unexpected end of data'),
        (f'{HEADER}\na,u8,2046000,0,no\n\xff', 'row 3: it is not UTF-8'),
    ],
)
def test_refusals_name_the_row(tmp_path: Path, text: str, said: str) -> None:
    name = table(tmp_path, text)
    with pytest.raises(Failure) as failed:
        read(name)
    assert failed.value.text.startswith(f'{name}: {said}')


def test_what_is_drawn_goes_by_the_names_alone() -> None:
    names = [f'night{it}' for it in range(95)]
    tenth = drawn(names)
    assert len(tenth) == 10 and set(tenth) < set(names)
    assert drawn(names[::-1]) == tenth
    assert drawn(['only']) == ['only']
