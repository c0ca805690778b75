"""Pictures of a run: their points, and their files."""

from __future__ import annotations

import os
import sys
import xml.etree.ElementTree
from typing import Any, List, Sequence

import pytest
from conftest import NAMES, Command, refused

from seldomplough import commanded, lines
from seldomplough.commands import plots
from seldomplough.curves import Curve, Mark, Picture, Wanted
from seldomplough.drawing import drawn
from seldomplough.failures import Failure
from seldomplough.outputs import to_file
from seldomplough.pictures import PICTURES

RATE = 2046000
PNG = b'\x89PNG\r\n\x1a\n'
# Names that a program of plots or a shell takes for a part of a program.
HOSTILE = ("x';system('touch made');y='", 'a b;touch made;', '`touch made`', '$(touch made)"')


def picture(name: str, text: str, *scripts: str, **wanted: Any) -> Picture:
    """The picture of lines."""
    chosen = Wanted(RATE, scripts=[it.encode() for it in scripts], **wanted)
    return PICTURES[name](lines.read([text]), chosen)


def points(curves: Sequence[Curve]) -> List[Any]:
    """The names and the points of curves."""
    return [(it.name, list(zip(it.xs, it.ys))) for it in curves]


def counts(sums: Sequence[str], client: int = 1, slot: int = 0) -> str:
    """`count` lines a tenth of a second apart."""
    return ''.join(f'{client} {RATE // 10 * at} count {slot} {it}\n' for at, it in enumerate(sums))


def test_prompt_sums() -> None:
    text = '1 0 lock 1\n' + counts(['1 2 3 4 5 6', '1 2 -7 8 5 6'], slot=1)
    text += '1 307 bits 0\n1 409200 bits 1\n1 511500 lock 1\n' + counts(['0 0 9 9 0 0'], slot=2)
    got = picture('prompt', text)
    in_phase, in_quadrature = [(0.0, 3), (0.1, -7)], [(0.0, 4), (0.1, 8)]
    assert points(got.curves) == [
        ('in phase (IP)', in_phase),
        ('in quadrature (QP)', in_quadrature),
    ]
    assert got.marks == [Mark(0.0, 'lock'), Mark(0.2, 'bits')]
    other = picture('prompt', text, slot=2)
    assert points(other.curves)[0][1] == [(0.0, 9)] and other.marks == []
    assert points(picture('prompt', text, since=0.05).curves)[0][1] == [(0.1, -7)]
    assert points(picture('prompt', text, until=0.05).curves)[0][1] == [(0.0, 3)]


def test_many_prompt_sums_are_thinned() -> None:
    got = picture('prompt', counts([f'0 0 {it} 0 0 0' for it in range(1001)]))
    assert got.curves[0].ys == list(range(0, 1001, 3))


def test_the_plane() -> None:
    got = picture('scatter', counts([f'0 0 {it} {-it} 0 0' for it in range(20)]))
    assert points(got.curves) == [
        ('first 0.2 s', [(0, 0), (1, -1)]),
        ('1.0 s to 1.3 s', [(10, -10), (11, -11), (12, -12)]),
    ]


def test_sizes_of_sums() -> None:
    text = counts(['3 4 0 -10 5 12'] * 20 + ['0 0 6 8 0 0', '0 0 0 20 0 0'] * 10 + ['1 1 1 1 1 1'])
    got = picture('correlators', text)
    assert [it.name for it in got.curves] == ['early', 'prompt', 'late']
    assert [it.ys for it in got.curves] == [[5, 0], [10, 15], [13, 0]]
    assert got.curves[0].xs == pytest.approx([1.9, 3.9])


def test_doppler_shifts() -> None:
    text = (
        '1 0 state 0 track 3 5 -65536 0 open\n2 0 state 0 track 31 5 98304 0 bits\n'
        '1 4092000 state 0 track 3 9 32768 0 lock\n1 5 state 1 idle\n1 6 state 1 hold 4 5\n'
    )
    assert points(picture('doppler', text).curves) == [
        ('satellite 3', [(0.0, -1.0), (2.0, 0.5)]),
        ('satellite 31', [(0.0, 1.5)]),
    ]
    assert points(picture('doppler', text, client=2).curves) == [('satellite 31', [(0.0, 1.5)])]


def test_powers_of_bins() -> None:
    script = '0 acquire 0 3 -500 1 4 1000\n0 acquire 1 22 0 0 4 1000\n9 acquire 0 3 1 0 4 1\n'
    script += '99 acquire 0 3 -1000 0 4 1000\n'
    text = (
        '1 0 ok\n1 0 ok\n1 9 err 9\n1 50 acq 0 3 none -1 5 1500\n1 60 acq 1 22 none 0 5 700\n'
        '1 99 ok\n1 150 acq 0 3 none 0 6 2000\n1 200 end\n'
    )
    assert points(picture('bins', text, script).curves) == [
        ('satellite 3', [(-1000, 2.0), (-750, 1.5)]),
        ('satellite 22', [(0, 0.7)]),
    ]


def test_the_triangle() -> None:
    # Two slots hold the satellite half a chip apart, at both ends of the code.
    script = '0 hold 0 5 0 2045\n0 hold 1 5 0 1\n0 hold 2 5 0 0\n'
    text = '1 0 ok\n' * 3 + '2 0 ok\n'
    text += counts(['9 9 9 9 9 9', '1 0 2 0 3 0', '3 0 4 0 5 0'], slot=0)
    text += counts(['9 9 9 9 9 9', '7 0 0 0 1 0'], slot=1) + counts(['9 9 9 9 9 9'] * 2, client=2)
    text += counts(['9 9 9 9 9 9', '0 4 0 8 0 16'], slot=2)
    # Early, prompt and late are half a chip apart, from half a chip before the slot's own place on.
    assert points(picture('triangle', text, script).curves) == [
        (
            'satellite 5',
            [
                (-1.0, 2.0),
                (-0.5, (2 + 4 + 4) / 3),
                (0.0, (3 + 5 + 8 + 7) / 4),
                (0.5, 8.0),
                (1.0, 1.0),
            ],
        )
    ]


def test_scripts_that_are_others(run: Command, tmp_path: os.PathLike[str]) -> None:
    script = os.path.join(tmp_path, 'script')
    with open(script, 'w', encoding='ascii') as file:
        file.write('0 hold 0 5 0 2045\n')
    to = os.path.join(tmp_path, 'a.png')
    for given, why in (
        (b'1 0 ok\n1 0 ok\n', 'client 1 has more answers than its script has lines'),
        (b'1 5 ok\n', 'line 1 has another time than its answer'),
        (b'1 0 ok\n2 0 ok\n1 9 end\n', 'no `count` lines of what the scripts hold'),
    ):
        refused(run('plots', 'triangle', '--script', script, '--to', to, given=given), 1, why)
    assert os.listdir(tmp_path) == ['script']
    assert commanded.Commanded([]).commands == {}


@pytest.mark.parametrize('name', PICTURES)
def test_nothing_to_draw(name: str) -> None:
    if name in ('prompt', 'scatter', 'correlators'):
        why = 'no `count` lines of that slot and time'
    else:
        why = 'no `.*` lines .*'
    with pytest.raises(Failure, match=why):
        picture(name, '1 5 ok\n1 10 end\n', '5 stop 0\n')


LINES = counts(['1 2 3 4 5 6', '1 2 -7 8 5 6'] * 20) + '1 409200 lock 0\n'
DRAWN = Picture('a', 'b', 'c', [Curve('one', [0, 1], [2, 3]), Curve('two')], marks=[Mark(1, 'm')])


def texts(svg: bytes) -> List[str]:
    """The texts of a picture."""
    root = xml.etree.ElementTree.fromstring(svg)
    return [it.text or '' for it in root.iter('{http://www.w3.org/2000/svg}text')]


@pytest.mark.parametrize('title', ['<b>&"', '$x$', '$', r'a\$b$\frac$', '_x', 'a%d{0}', *HOSTILE])
def test_titles_and_names_are_data(title: str) -> None:
    it = Picture(
        title, f'{title}1', f'{title}2', [Curve(f'n{title}', [0], [1])], marks=[Mark(0, title)]
    )
    found = texts(drawn(it, 'svg'))
    for text in (title, f'{title}1', f'{title}2', f'n{title}'):
        assert text in found


def test_a_picture_is_the_same_each_time() -> None:
    for form, start in (('svg', b'<?xml'), ('png', PNG)):
        first = drawn(DRAWN, form)
        assert first.startswith(start) and drawn(DRAWN, form) == first
    plane = Picture('a', 'b', 'c', [Curve('\u4e2d\0')], is_plane=True, from_zero=True)
    assert drawn(plane, 'png').startswith(PNG)


@pytest.fixture
def draw(run: Command, tmp_path: os.PathLike[str], monkeypatch: pytest.MonkeyPatch) -> Command:
    """Draws the prompt sums in a folder of the test's own."""
    monkeypatch.chdir(tmp_path)
    return lambda *words, given=LINES: run('plots', 'prompt', *words, given=given.encode())


def test_files_of_any_name(draw: Command) -> None:
    for at, name in enumerate((*NAMES, *HOSTILE)):
        form = 'svg' if at else 'png'
        path = os.path.join(name, f'{name}.{form}')
        os.mkdir(name)
        assert draw('--to', path, '--title', name.replace('\n', ' ')) == (0, '', '')
        assert os.listdir(name) == [f'{name}.{form}']
        with open(path, 'rb') as file:
            data = file.read()
        assert name.replace('\n', ' ') in texts(data) if at else data.startswith(PNG)
    assert draw('--to=-x.png') == (0, '', '')
    assert os.path.exists('-x.png') and not os.path.exists('made')


def test_lines_of_any_name(run: Command, draw: Command, monkeypatch: pytest.MonkeyPatch) -> None:
    monkeypatch.setattr(plots, 'drawn', lambda picture, form: f'{picture}{form}'.encode())
    usual = draw('--to', 'a.svg')
    with open('a.svg', 'rb') as file:
        wanted = file.read()
    for name in (*NAMES, *HOSTILE, '<touch made', '|touch made'):
        with open(name, 'w', encoding='ascii') as file:
            file.write(LINES)
        assert run('plots', 'prompt', name, '--to', 'b.svg') == usual == (0, '', '')
        with open('b.svg', 'rb') as file:
            assert file.read() == wanted
        os.remove(name)
    assert sorted(os.listdir('.')) == ['a.svg', 'b.svg']


def test_what_cannot_be_drawn_leaves_the_old_picture(draw: Command) -> None:
    with open('a.svg', 'w', encoding='ascii') as file:
        file.write('old')
    refused(draw('--to', 'a.svg', given='1 10 end\n'), 1, 'no `count` lines')
    refused(draw('--to', 'a.svg', given=LINES + 'x\n'), 1, 'line 42 ')
    with open('a.svg', encoding='ascii') as file:
        assert file.read() == 'old'
    assert os.listdir('.') == ['a.svg']


def test_a_link_is_replaced_and_not_written_through(draw: Command) -> None:
    with open('other', 'w', encoding='ascii') as file:
        file.write('old')
    os.symlink('other', 'a.svg')
    assert draw('--to', 'a.svg') == (0, '', '')
    assert not os.path.islink('a.svg') and os.path.getsize('a.svg') > 1000
    assert os.stat('a.svg').st_mode & 0o777 == 0o666 & ~_mask()
    with open('other', encoding='ascii') as file:
        assert file.read() == 'old'


def _mask() -> int:
    mask = os.umask(0)
    os.umask(mask)
    return mask


def test_places_that_cannot_be_written(draw: Command) -> None:
    os.mkdir('folder.svg')
    refused(draw('--to', 'none/a.svg'), 1, 'none/a.svg: No such file')
    refused(draw('--to', 'folder.svg'), 1, 'folder.svg: Is a directory')
    assert os.listdir('.') == ['folder.svg']
    os.symlink('/dev/full', 'full')
    with pytest.raises(Failure, match='No space left'):
        to_file('/dev/full', b'x')
    with pytest.raises(Failure, match='is no name of a file'):
        to_file('', b'x')


def test_words_that_are_refused(run: Command, draw: Command) -> None:
    refused(run('plots'), 2, 'PICTURE')
    refused(run('plots', 'none', '--to', 'a.svg'), 2, "'none'")
    refused(run('plots', '../plots/prompt', '--to', 'a.svg'), 2, 'prompt')
    refused(draw(), 2, '--to')
    for name in ('a', 'a.pdf', 'a.SVG', 'svg', '-'):
        refused(draw('--to', name), 2, 'ends neither with .png nor with .svg')
    for rate in ('0', '2046000;x', '²', '1e6'):
        refused(draw('--to', 'a.svg', '--rate', rate), 2, '--rate')
    refused(draw('--to', 'a.svg', '--slot', '8'), 2, '--slot')
    refused(draw('--to', 'a.svg', '--since', 'nan'), 2, '--since')
    refused(draw('--to', 'a.svg', '--script', 'x'), 2, 'prompt has no use for --script')
    for name in ('bins', 'triangle'):
        refused(run('plots', name, '--to', 'a.svg'), 2, f'{name} needs --script')
    refused(run('plots', 'prompt', '--to', 'a.svg', 'none'), 1, 'none: No such file')
    refused(run('plots', 'prompt', '--to', 'a.svg', '.'), 1, '.: Is a directory')
    assert os.listdir('.') == []


def test_matplotlib_is_asked_for(draw: Command, monkeypatch: pytest.MonkeyPatch) -> None:
    monkeypatch.setitem(sys.modules, 'matplotlib', None)
    refused(draw('--to', 'a.svg'), 1, "it needs matplotlib: install Debian's python3-matplotlib")
