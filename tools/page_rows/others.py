"""One recording after another: nothing of the first stands under the name of the next, and values
that came with it go with it."""
from __future__ import annotations

import json
import os
from typing import Any

from .cases import Row, Rows, expected
from .page import Page

# What shows a run: texts, canvases, and how far it is.
TEXTS = ('sky-rows', 'absent', 'far', 'heard', 'said', 'refusals', 'week', 'fields-rows', 'many')
CANVASES = ('timeline', 'plot')

# What the page has of a recording before anything is said of it, and what a reader might say.
USUAL: dict[str, Any] = {
    'kind': 'real1',
    'rate': '2046000',
    'offset': '0',
    'inverted': False,
    'swapped': False,
    'skip': '',
    'count': '',
    'threshold': '',
    'shares': '',
    'text': '0 acquire 0 5 1000 4 4 60',
}
TYPED: dict[str, Any] = {
    'rate': '4092000',
    'offset': '-7',
    'inverted': True,
    'skip': '8',
    'text': '0 state 1',
}

# What SigMF metadata have of a recording.
METADATA = {
    'global': {'core:datatype': 'ci8', 'core:sample_rate': 3000000},
    'captures': [{'core:frequency': 1575000000}],
}
DESCRIBED: dict[str, Any] = {'kind': 'iq-i8', 'rate': '3000000', 'offset': '420000'}


def shown(page: Page) -> dict[str, Any]:
    """What the page shows of a run, when what is new is drawn. A second of the page's own time has
    five drawings."""
    page.value('new Promise((act) => setTimeout(act, 1000))')
    came = {it: page.text(it) for it in TEXTS}
    for it in CANVASES:
        came[it] = page.value(f'document.getElementById("{it}").toDataURL()')
        came[f'{it}, as it is said'] = page.value(f'document.getElementById("{it}").ariaLabel')
    came['bar'] = page.value('document.getElementById("bar").value')
    came['pair'] = page.value('document.getElementById("pair").hidden')
    came['lines'] = page.saved()
    return came


def fields(page: Page) -> dict[str, Any]:
    """The values of the fields."""
    names = [[it, 'checked' if isinstance(value, bool) else 'value'] for it, value in USUAL.items()]
    text = 'document.getElementById(it)[of]'
    came = page.value(f'{json.dumps(names)}.map(([it, of]) => {text})')
    return dict(zip(USUAL, came))


def chosen(rows: Rows, name: str, is_dropped: bool = False) -> None:
    """Chooses or drops zeros of a name, and waits until they are named."""
    path = rows.file(name, bytes(4096))
    (rows.page.drop if is_dropped else rows.page.choose)(path)
    rows.page.wait(f'document.getElementById("name").textContent.startsWith({json.dumps(name)})')


def tell(rows: Rows, name: str, came: dict[str, Any], wanted: dict[str, Any]) -> None:
    """Sees that all is as it should be."""
    wrong = {it: str(value)[:60] for it, value in came.items() if value != wanted[it]}
    rows.tell(name, not wrong, wrong)


def results(rows: Rows) -> None:
    """What an example showed is gone as another recording is chosen or dropped, as lines are, and
    as another example is clicked whose recording doesn't come."""
    page, folder = rows.page, os.path.join(rows.folder, 'one example')
    page.open()
    chosen(rows, 'first.real1')
    nothing = shown(page)
    rows.tell('nothing is shown of a recording', nothing['lines'] == '', nothing['lines'])
    for is_dropped in (False, True):
        rows.runs_example('real_message', 'another recording')
        chosen(rows, 'next.real1', is_dropped)
        tell(rows, f'a recording after an example, dropped: {is_dropped}', shown(page), nothing)
    os.makedirs(os.path.join(folder, 'examples'))
    for name in ('index.html', 'examples/three_satellites.js'):
        os.symlink(os.path.join(page.folder, name), os.path.join(folder, name))
    page.open(folder=folder)
    rows.runs_example('three_satellites', 'opening with one example')
    page.forget()
    page.click('example-zero_if')
    said = page.said()
    rows.says('an example that is missing', said, 'examples/zero_if.js isn’t beside this page.')
    tell(rows, 'a missing example after another', shown(page), {**nothing, 'said': said})
    page.browser.console.clear()
    page.open()


def values(rows: Rows) -> None:
    """Values that came with an example go with it, and those that were typed stay."""
    page = rows.page
    page.open()
    rows.runs_example('crystal', 'opening')
    chosen(rows, 'next.dat')
    tell(rows, 'values after an example', fields(page), USUAL)
    name = page.text('name')
    rows.says('what is to say', name, 'next.dat, 0.004 MB; say its kind, rate and offset')
    page.put(**TYPED)
    rows.runs_example('crystal', 'typed values')
    chosen(rows, 'next.dat')
    tell(rows, 'values that were typed before', fields(page), {**USUAL, **TYPED})
    rows.runs_example('zero_if', 'those')
    page.put(rate='5000000')
    chosen(rows, 'next.i16')
    typed = {**USUAL, **TYPED, 'rate': '5000000', 'kind': 'i16'}
    tell(rows, 'a value that was typed over', fields(page), typed)
    page.put(kind='i16', bits='2')
    page.click('measure')
    page.wait('document.getElementById("threshold").value !== ""')
    chosen(rows, 'next.dat')
    tell(rows, 'a threshold that was measured', fields(page), {**typed, 'kind': 'real1'})
    page.open()


def metadata(rows: Rows) -> None:
    """Values of metadata go with their recording, and wait for it."""
    page = rows.page
    described = {**USUAL, **DESCRIBED}
    page.open()
    meta = rows.file('a.sigmf-meta', json.dumps(METADATA).encode())
    data = rows.file('a.sigmf-data', bytes(4096))
    page.choose(meta, data)
    page.wait('document.getElementById("rate").value === "3000000"')
    tell(rows, 'metadata with a recording', fields(page), described)
    chosen(rows, 'b.dat')
    tell(rows, 'a recording after one with metadata', fields(page), USUAL)
    page.choose(meta)
    page.wait('document.getElementById("rate").value === "3000000"')
    chosen(rows, 'a.sigmf-data')
    tell(rows, 'metadata before their recording', fields(page), described)
    page.open()


def lines(rows: Rows) -> None:
    """Lines that are opened take the place of a recording: none is run under their name."""
    page = rows.page
    chosen(rows, 'a.real1')
    page.forget()
    page.choose(rows.file('b.lines', expected('hold_counts').encode()))
    page.done()
    page.forget()
    page.click('run')
    rows.says('a run of lines', page.said(), 'Choose a recording first, or an example.')
    page.forget()
    page.choose(rows.file('c.real1', b'1'), rows.file('d.lines', b'1 0 ok\n'))
    said = 'One recording, or one file of lines, at a time: c.real1, d.lines.'
    rows.says('a recording and lines', page.said(), said)


ROWS: tuple[Row, ...] = (results, values, metadata, lines)
