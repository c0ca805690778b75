"""The live table of slots."""

from __future__ import annotations

import io
import os
import pty
import re
import select
import signal
import subprocess
import sys
import types
from typing import Any, Callable, Dict, Iterator, List

import pytest
from conftest import EXAMPLES, LAUNCHER, NAMES, Command, expected_lines, refused

from seldomplough import files, lines, screens
from seldomplough.commands import watch
from seldomplough.failures import Failure
from seldomplough.slots import COLUMNS, Slots

STATE = '1 2046000 state 0 track 3 1000 -65536 0 open\n'
WORDS = '8b0114 901327 115000 46d440 87b875 fc1f8a 312704 5e6cfc 00ff9e dd9255'


def row(text: str, rate: int = 2046000) -> Dict[str, str]:
    """What the table says of the only slot of lines, but for what isn't known."""
    slots = Slots(rate)
    for line in lines.read([text]):
        slots.feed(line)
    [values] = slots.rows()
    names = [it.replace('-\n', '').replace('\n', ' ') for it in COLUMNS]
    return {name: it for name, it in zip(names[2:], values[2:]) if it != '-'}


@pytest.mark.parametrize(
    'text, known',
    [
        ('1 5 acq 0 3 found 1 2 3', {'satellite': '3', 'state': 'track'}),
        ('1 5 acq 0 3 none 1 2 3', {'satellite': '3', 'state': 'none'}),
        ('1 5 state 0 acquire 3 1 4', {'satellite': '3', 'state': 'search 25 %'}),
        ('1 5 state 0 hold 3 7', {'satellite': '3', 'state': 'hold', 'dumps': '7'}),
        ('1 5 state 0 idle', {'state': 'idle'}),
        ('1 5 lock 0', {'state': 'track', 'loops': 'lock'}),
        ('1 5 unlock 0', {'state': 'track', 'loops': 'open'}),
        ('1 5 bits 0', {'state': 'track', 'loops': 'bits'}),
        ('1 5 gap 0 3', {}),
        (f'1 5 sub 0 1 100 {WORDS}', {'subframe': '1', 'next at [s]': '600'}),
        (
            f'1 5 sub 0 1 100 {WORDS}'.replace('dd9255', '------').replace('8b0114', '------'),
            {'subframe': '1, 2 bad', 'next at [s]': '600'},
        ),
    ],
)
def test_what_lines_say_of_a_slot(text: str, known: Dict[str, str]) -> None:
    assert row(text + '\n') == known


def test_what_a_slot_goes_on_with() -> None:
    tracks = {
        'satellite': '3', 'state': 'track', 'loops': 'open', 'Doppler [Hz]': '-1.0', 'dumps': '1000'
    }  # fmt: skip
    assert row(STATE) == tracks
    assert row(STATE + '1 5 lock 0\n') == {**tracks, 'loops': 'lock'}
    assert row(STATE + '1 5 count 0 1 2 3 4 5 6\n') == {**tracks, 'dumps': '1001'}
    assert row(STATE + '1 5 lost 0\n') == {'satellite': '3', 'state': 'lost'}
    sub = f'1 5 sub 0 1 100 {WORDS}\n'
    assert row(STATE + sub)['subframe'] == row(STATE + sub + STATE)['subframe'] == '1'
    assert 'subframe' not in row(STATE + sub + STATE.replace('track 3', 'track 4'))


def counts(client: int, count: int) -> Iterator[str]:
    """Dumps whose powers are 16 and 4 in turn: of these the C/N0 is 36.0 dB-Hz."""
    for at in range(count):
        yield f'{client} {2046 * at} count 0 0 0 {4 - at % 2 * 2} 0 0 0\n'


def test_the_density_of_the_last_second() -> None:
    assert 'C/N0 [dB-Hz]' not in row(''.join(counts(1, 900)))
    assert row(''.join(counts(1, 1001)))['C/N0 [dB-Hz]'] == '36.0'
    few = ''.join(list(counts(1, 1001))[950:])
    assert 'C/N0 [dB-Hz]' not in row(few)


def test_of_seconds_that_are_over_nothing_is_kept() -> None:
    slots = Slots(2046000)
    for line in lines.read(counts(1, 20000)):
        slots.feed(line)
    assert len(slots.estimator.moments) == 1


def test_the_table_of_what_is_no_terminal(run: Command) -> None:
    text = STATE + '1 4092000 err 5\n2 4092000 lock 7\n1 4092000 end\n2 4092000 end\n'
    outcome = run('watch', given=text.encode())
    assert outcome == (
        0,
        '2.000 s, 5 lines, 1 commands refused, 2 clients at their end\n'
        'client  slot  satellite  state  loops  Doppler  dumps   sub-  next at     C/N0\n'
        '                                          [Hz]         frame      [s]  [dB-Hz]\n'
        '     1     0          3  track   open     -1.0   1000      -        -        -\n'
        '     2     7          -  track   lock        -      -      -        -        -\n',
        '',
    )
    assert run('watch', '--rate', '4092000', given=text.encode()).said.startswith('1.000 s, ')
    assert run('watch', given=b'').said.splitlines()[0] == '0.000 s, 0 lines'
    refused(run('watch', '--rate', '²'), 2, '--rate')


def test_lines_are_passed_on(run: Command) -> None:
    for name in sorted(it for it in os.listdir(EXAMPLES) if it.endswith('.expected')):
        path = os.path.join(EXAMPLES, name)
        with open(path, encoding='ascii') as file:
            text = file.read()
        outcome = run('watch', '--tee', path)
        assert (outcome.status, outcome.said) == (0, text)
        assert f' {text.count(chr(10))} lines' in outcome.errors.splitlines()[0]
    outcome = run('watch', '--tee', given=(STATE + STATE[:-1]).encode())
    assert (outcome.status, outcome.said) == (0, STATE)
    assert 'line 2, the last one, is cut and was left out' in outcome.errors


def test_what_no_line_is(run: Command) -> None:
    outcome = run('watch', '--tee', given=(STATE + 'x\n' + STATE).encode())
    assert (outcome.status, outcome.said) == (1, STATE)
    assert outcome.errors.endswith("seldomplough: line 2 isn't one that the receiver prints: x\n")
    refused(run('watch', 'none'), 1, 'none: No such file')


def test_any_name_of_a_file(run: Command, tmp_path: os.PathLike[str]) -> None:
    for name in NAMES:
        path = os.path.join(tmp_path, name)
        with open(path, 'w', encoding='ascii') as file:
            file.write(STATE)
        assert run('watch', '--tee', path).said == STATE


def test_no_standard_error_and_no_table(run: Command, monkeypatch: pytest.MonkeyPatch) -> None:
    monkeypatch.setattr(sys, 'stderr', None)
    assert run('watch', '--tee', given=STATE.encode()).said == STATE


class Fake(io.StringIO):
    """An output that says that it is a terminal."""

    def isatty(self) -> bool:
        return True


@pytest.fixture
def terminal(monkeypatch: pytest.MonkeyPatch) -> Fake:
    """A terminal of 12 lines and 60 columns, without rich."""
    for name, value in (('TERM', 'xterm'), ('COLUMNS', '60'), ('LINES', '12')):
        monkeypatch.setenv(name, value)
    monkeypatch.setitem(sys.modules, 'rich', None)
    return Fake()


def drawn(text: str) -> List[str]:
    """The lines of a terminal of text with the cursor's moves, at its end."""
    screen: List[str] = []
    at = 0
    for part in re.findall(r'\x1b\[[0-9]*[AKJ]|[^\x1b\n]+|\n', text):
        if part.endswith('A') and part.startswith('\x1b'):
            at -= int(part[2:-1])
        elif part == '\x1b[J':
            screen = screen[:at]
        elif part == '\n':
            at += 1
        elif part != '\x1b[K':
            screen[at : at + 1] = [part]
    return screen


def test_a_table_is_drawn_over_the_one_before(terminal: Fake) -> None:
    screen = screens.screen_of(files.Sink(terminal, 'terminal', True))
    assert isinstance(screen, screens.Terminal) and screen.is_live
    for count in (3, 9, 2, 8):
        rows = [['1', str(it), 'x' * 99] for it in range(count)]
        screen.show(f'head {count}', ['client', 'slot', 'long'], rows)
        got = drawn(terminal.getvalue())
        assert got[0] == f'head {count}' and len(got) == min(count + 2, 11)
        assert max(map(len, got)) <= 59
    screen.show('head', ['a'], [[str(it)] for it in range(40)])
    got = drawn(terminal.getvalue())
    assert len(got) == 11 and got[1:3] == [' a', ' 0'] and got[-1] == '.. and 32 more'
    screen.close()


def test_a_terminal_that_cannot_move_its_cursor(
    terminal: Fake, monkeypatch: pytest.MonkeyPatch
) -> None:
    monkeypatch.setenv('TERM', 'dumb')
    screen = screens.screen_of(files.Sink(terminal, 'terminal', True))
    assert not screen.is_live


class Clock:
    """A clock that a test moves."""

    def __init__(self) -> None:
        self.now = 1000.0

    def monotonic(self) -> float:
        return self.now


def test_it_is_drawn_four_times_a_second_at_most(
    terminal: Fake, monkeypatch: pytest.MonkeyPatch
) -> None:
    clock = Clock()
    monkeypatch.setattr(watch.time, 'monotonic', clock.monotonic)
    shown = watch.Watch(screens.Terminal(files.Sink(terminal, 'terminal', True)), 2046000)
    for line in lines.read(counts(1, 1000)):
        shown.feed(line)
        clock.now += 0.001
    assert 3 <= terminal.getvalue().count(' lines') <= 4


def test_what_is_new_is_drawn_before_it_waits(terminal: Fake) -> None:
    shown = watch.Watch(screens.Terminal(files.Sink(terminal, 'terminal', True)), 2046000)
    reader, writer = os.pipe()
    with os.fdopen(reader, 'rb') as stream, os.fdopen(writer, 'wb') as sent:
        source = files.Source(stream, 'pipe')
        for line in lines.read([STATE, STATE]):
            shown.feed(line)
        assert ' 2 lines' not in terminal.getvalue()
        shown.before_wait(source)
        assert ' 2 lines' in terminal.getvalue()
        length = len(terminal.getvalue())
        shown.before_wait(source)
        shown.slots.feed(next(lines.read([STATE])))
        sent.write(b'more')
        sent.flush()
        shown.before_wait(source)
        assert len(terminal.getvalue()) == length
    assert watch.has_more(files.Source(io.BytesIO(), 'memory'), 0)  # type: ignore[arg-type]


def test_a_real_terminal(monkeypatch: pytest.MonkeyPatch) -> None:
    leader, follower = pty.openpty()
    environment = {**os.environ, 'TERM': 'xterm'}
    with subprocess.Popen(
        [LAUNCHER, 'watch', '--tee'], stdin=subprocess.PIPE, stdout=subprocess.PIPE,
        stderr=follower, env=environment,
    ) as process:  # fmt: skip
        os.close(follower)
        assert process.stdin and process.stdout
        seen = b''
        for at in range(3):
            process.stdin.write(STATE.encode())
            process.stdin.flush()
            assert process.stdout.readline() == STATE.encode()
            while b' %d lines' % (at + 1) not in seen:
                assert select.select([leader], [], [], 30)[0]
                seen += os.read(leader, 4096)
        interrupt(process)
        assert process.returncode == -signal.SIGINT
        assert process.stdout.read() == b''
    os.close(leader)


def interrupt(process: 'subprocess.Popen[bytes]') -> None:
    """Ends a program by Ctrl-C, again where one came just before the program waits for input:
    Python sees that one only with the next."""
    for _ in range(30):
        process.send_signal(signal.SIGINT)
        try:
            process.wait(2)
            return
        except subprocess.TimeoutExpired:
            continue
    process.kill()


def test_a_closed_pipe_ends_by_its_signal(launch: Callable[..., Any]) -> None:
    for words in (('watch',), ('watch', '--tee')):
        reader, writer = os.pipe()
        os.close(reader)
        outcome = launch(
            *words, input=STATE.encode() * 9999, stdout=writer, stderr=-1, capture_output=False
        )
        os.close(writer)
        assert outcome.returncode == -signal.SIGPIPE
        assert b'Traceback' not in outcome.stderr


class FakeRich:
    """Stands in for rich: what was drawn, and whether it ended."""

    def __init__(self, monkeypatch: pytest.MonkeyPatch) -> None:
        self.calls: List[Any] = []
        self.is_broken = False
        parts: Dict[str, Any] = {'console': 'Console', 'live': 'Live', 'table': 'Table'}
        whole: Any = types.ModuleType('rich')
        monkeypatch.setitem(sys.modules, 'rich', whole)
        for name, what in parts.items():
            module: Any = types.ModuleType(f'rich.{name}')
            setattr(module, what, getattr(self, name))
            setattr(whole, name, module)
            monkeypatch.setitem(sys.modules, f'rich.{name}', module)

    def console(self, file: Any) -> Any:
        return file

    def live(self, **_: Any) -> Any:
        return types.SimpleNamespace(start=self.start, stop=self.stop, update=self.update)

    def table(self, title: str, **_: Any) -> Any:
        columns: List[str] = []
        rows: List[Any] = []
        return types.SimpleNamespace(
            title=title,
            columns=columns,
            rows=rows,
            add_column=lambda name, **_: columns.append(name),
            add_row=lambda *row: rows.append(row),
        )

    def start(self) -> None:
        self.calls.append('start')

    def stop(self) -> None:
        if self.is_broken:
            raise OSError(5, 'Input/output error')
        self.calls.append('stop')

    def update(self, table: Any, refresh: bool) -> None:
        if self.is_broken:
            raise OSError(5, 'Input/output error')
        self.calls.append((table.title, table.columns, table.rows, refresh))


def test_rich_draws_where_it_is_installed(terminal: Fake, monkeypatch: pytest.MonkeyPatch) -> None:
    rich = FakeRich(monkeypatch)
    screen = screens.screen_of(files.Sink(terminal, 'terminal', True))
    screen.close()
    assert isinstance(screen, screens.Rich) and rich.calls == []
    screen.show('head', ['a', 'b [Hz]'], [('1', '2')])
    screen.show('head', ['a', 'b [Hz]'], [])
    screen.close()
    first = ('head', ['a', r'b \[Hz]'], [('1', '2')], True)
    assert rich.calls == ['start', first, ('head', ['a', r'b \[Hz]'], [], True), 'stop']
    rich.is_broken = True
    for act in (lambda: screen.show('head', [], []), screen.close):
        with pytest.raises(Failure, match='terminal: Input/output error'):
            act()


def test_all_kinds_of_lines(run: Command) -> None:
    outcome = run('watch', given=expected_lines().encode())
    assert outcome.status == 0 and outcome.errors == ''
