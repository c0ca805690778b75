"""Lines that were made elsewhere, and are opened."""
from __future__ import annotations

from .cases import Row, Rows, expected


def opened(rows: Rows, name: str, text: bytes) -> str:
    """What the page says of lines that are opened."""
    rows.page.forget()
    rows.page.choose(rows.file(name, text))
    return rows.page.done()


def whole_lines(rows: Rows) -> None:
    """The lines of an example open, and are saved as they were."""
    text = expected('busy_bank')
    rows.says('lines of a run', opened(rows, 'busy.lines', text.encode()), '')
    rows.tell('lines that are saved again', rows.page.saved() == text, len(text))


def cut_lines(rows: Rows) -> None:
    """Lines that are cut in the middle of one: what came before it is shown."""
    text = expected('three_satellites')
    at = text.index('\n', len(text) // 2) + 8
    before = text[: text.rindex('\n', 0, at) + 1]
    number = before.count('\n') + 1
    came = opened(rows, 'cut.lines', text[:at].encode())
    rows.says(
        'cut lines',
        came,
        f'Line {number}, the last one, is cut and was left out:'
        f' {text[len(before):at]}. What came before it is shown.',
    )
    rows.tell('the lines before the cut', rows.page.saved() == before, rows.page.saved()[-80:])


def lines_without_end(rows: Rows) -> None:
    """Lines of a run that was ended."""
    text = ''.join(expected('three_satellites').splitlines(True)[:-1])
    rows.says(
        'lines without an end',
        opened(rows, 'ended.lines', text.encode()),
        'There is no end line: the lines were cut, or their run was.',
    )


def other_text(rows: Rows) -> None:
    """A text that no receiver prints."""
    came = opened(rows, 'other.lines', b'1 0 ok\n1 0 Ok\n')
    rows.says(
        'lines that are none',
        came,
        'Line 2 isn\'t one that the receiver prints: 1 0 Ok.' ' What came before it is shown.',
    )
    rows.runs_example('three_satellites', 'lines that are none')


ROWS: tuple[Row, ...] = (whole_lines, cut_lines, lines_without_end, other_text)
