"""The table of a whole campaign: a row for each satellite of each recording, as CSV and as a page.

A recording that isn't done is in both, with the reason that its last job gave."""

from __future__ import annotations

import glob
import html
import io
import os
from datetime import datetime, timezone
from typing import Dict, Iterator, List, NamedTuple, Optional, Sequence

from seldomplough import files, outputs, provenance, tables
from seldomplough.campaigns import Entry, drawn
from seldomplough.commands import sky
from seldomplough.failures import Failure, escaped
from seldomplough.groups import scripts_of
from seldomplough.heard import Heard
from seldomplough.layouts import Campaign
from seldomplough.lines import read
from seldomplough.provenance import Record
from seldomplough.tables import Cell

COLUMNS = ('recording', 'state', 'samples', 'client', 'slot', *sky.COLUMNS)
DONE = 'done'
# Where a log has what its job failed by.
FAILED = 'seldomplough: '
STYLE = (
    'body{font-family:sans-serif;margin:2em}table{border-collapse:collapse;margin:1em 0}'
    'td,th{border:1px solid #999;padding:.2em .6em;text-align:right}td.bad{background:#fdd}'
)
# What the page has of each recording.
OF_RECORDINGS = ('recording', 'state', 'seconds', 'heard', 'with_bits', 'compared')


class Done(NamedTuple):
    """A recording of the campaign: what is known of it, and the rows of its satellites."""

    about: Dict[str, Cell]
    rows: Sequence[Dict[str, Cell]]


def write(campaign: Campaign, entries: Sequence[Entry], rollovers: Optional[int]) -> List[str]:
    """Writes campaign.csv and campaign.html, and says what isn't done, a text each."""
    tenth = set(drawn([it.name for it in entries]))
    found = [_done(campaign, it, it.name in tenth, rollovers) for it in entries]
    _write_csv(os.path.join(campaign.folder, 'campaign.csv'), found)
    page = ''.join(_page(found)).encode()
    outputs.to_file(os.path.join(campaign.folder, 'campaign.html'), page)
    named = [it.about for it in found if it.about['state'] != DONE]
    return [f'{it["recording"]}: {it["state"]}' for it in named]


def _done(campaign: Campaign, entry: Entry, is_drawn: bool, rollovers: Optional[int]) -> Done:
    """What is known of a recording."""
    about: Dict[str, Cell] = dict.fromkeys((*OF_RECORDINGS, 'samples'))
    about['recording'] = entry.name
    try:
        checked = _checked(campaign, entry, 'checked', 'samples')
        if is_drawn:
            _checked(campaign, entry, 'compared')
    except Failure:
        about['state'] = _reason(campaign, entry, is_drawn)
        return Done(about, [])
    rate, samples = entry.recording.tuning.rate, checked['samples']
    rows = list(_satellites(campaign, entry, rollovers))
    with_bits = {it['satellite'] for it in rows if it['bits_s'] is not None}
    about.update(
        state=DONE,
        samples=samples,
        seconds=round(samples / rate, 3),
        heard=len({it['satellite'] for it in rows}),
        with_bits=len(with_bits),
        compared='yes' if is_drawn else None,
    )
    return Done(about, rows)


def _checked(campaign: Campaign, entry: Entry, step: str, *keys: str) -> Record:
    """What a step saw of the merged lines, which have to be those that are there."""
    record = provenance.read(campaign.seen(entry, step), *keys)
    if not provenance.is_whole(campaign.merged(entry), record):
        raise Failure(f'{entry.name}: its lines are not those that were {step}')
    return record


def _reason(campaign: Campaign, entry: Entry, is_drawn: bool) -> str:
    """What the jobs of a recording failed by, by their logs. A job that was killed says nothing
    there. Of such a recording it is the first file that isn't there."""
    folder = os.path.join(campaign.folder, 'logs', entry.name)
    begun = sorted(glob.glob(os.path.join(glob.escape(folder), '*.log')))
    for path in begun:
        with files.read(path) as source:
            texts = source.read().decode('utf-8', 'replace').splitlines()
        for text in reversed(texts):
            if text.startswith(FAILED):
                return escaped(text[len(FAILED) :].replace(f'{entry.name}: ', '', 1))
    if not begun:
        return 'not begun'
    needed = [campaign.source(entry).name, campaign.merged(entry), campaign.seen(entry, 'checked')]
    needed += [campaign.seen(entry, 'compared')] if is_drawn else []
    for name in needed:
        if not os.path.exists(name):
            return escaped(f'not done: there is no {os.path.relpath(name, campaign.folder)}')
    return 'not done: its lines are not those that were checked'


def _satellites(
    campaign: Campaign, entry: Entry, rollovers: Optional[int]
) -> Iterator[Dict[str, Cell]]:
    """The rows of the satellites that a recording's lines have."""
    rate = entry.recording.tuning.rate
    heard = Heard([it.text for it in scripts_of(campaign.scripts)])
    with files.read(campaign.merged(entry)) as source:
        for line in read(source):
            heard.feed(line)
    today = datetime.now(timezone.utc).replace(tzinfo=None)
    for client, slot, it in heard.rows():
        yield {'client': client, 'slot': slot, **sky.row_of(it, rate, rollovers, today)}


def _write_csv(name: str, found: Sequence[Done]) -> None:
    """Writes the rows. A recording without satellites has one row too."""
    text = io.StringIO(newline='')
    empty: Dict[str, Cell] = dict.fromkeys(COLUMNS)
    rows = [{**empty, **it.about, **row} for it in found for row in it.rows or ({},)]
    tables.write(files.Sink(text, name), tables.CSV, COLUMNS, rows)
    outputs.to_file(name, text.getvalue().encode())


def _page(found: Sequence[Done]) -> Iterator[str]:
    """The page: all recordings, then the satellites of all."""
    done = sum(it.about['state'] == DONE for it in found)
    title = f'{done} of {len(found)} recordings are done'
    yield '<!DOCTYPE html>\n<html lang="en"><head><meta charset="utf-8">'
    yield f'<title>{title}</title><style>{STYLE}</style></head>\n<body><h1>{title}</h1>\n'
    yield from _table(OF_RECORDINGS, [it.about for it in found])
    columns = ('recording', *COLUMNS[3:])
    rows = [{'recording': it.about['recording'], **row} for it in found for row in it.rows]
    yield from _table(columns, rows)
    yield '</body></html>\n'


def _table(columns: Sequence[str], rows: Sequence[Dict[str, Cell]]) -> Iterator[str]:
    """A table of HTML."""
    yield '<table><tr>' + ''.join(f'<th>{it}</th>' for it in columns) + '</tr>\n'
    for row in rows:
        bad = row.get('state', DONE) != DONE
        yield '<tr>'
        for it in columns:
            shown = '' if row[it] is None else html.escape(str(row[it]))
            yield f'<td class="bad">{shown}</td>' if bad else f'<td>{shown}</td>'
        yield '</tr>\n'
    yield '</table>\n'
