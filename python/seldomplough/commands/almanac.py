"""Shows the almanacs and the health of all 32 satellites, as far as printed lines have them.

An almanac is that of the last `alm` line of its satellite, whoever sent it. `page` says `dummy`
where a page without an almanac came in the satellite's place, and is empty where neither came. The
health of six bits is that of the pages with SV ID 51 and 63, or else by the almanac itself; 0 is
healthy. With `anti_spoof` and the configuration it is known for each satellite after 12.5 minutes.
--csv and --json have the orbits too.

With --yuma or --sem the almanacs are written in that format, with the week modulo 1024. SEM has one
time for all: the one that most of them have. It has 0 for the satellite's own number, which isn't
in the message, and where the configuration isn't known. The index of accuracy is that of the
satellite's own `eph` line, and 15 (no prediction) where there is none.

The week is that of the `hlt` line with the same time. It has the week modulo 256, so that the one
nearest to the last ephemeris is taken, or where there is none to the date of --week-near or today.
Without such a line it is the week in which the almanac's time is nearest to that ephemeris, or else
to the date of --week-near.

Standard error says what came and what is missing. Where no almanac would be written in such a
format the status is 1.

    seldomplough almanac my.lines
    seldomplough almanac --yuma my.lines > my.alm
"""

from __future__ import annotations

import argparse
from typing import Dict, Iterable, List

from seldomplough import files, tables
from seldomplough.almanac_text import sem, yuma
from seldomplough.almanacs import Gathered, Known, usual_time
from seldomplough.commands import options
from seldomplough.failures import Failure
from seldomplough.fields import DEGREES_A_SEMICIRCLE, INCLINATION
from seldomplough.lines import read
from seldomplough.tables import Cell

YUMA, SEM = 'yuma', 'sem'
COLUMNS = (
    'satellite', 'page', 'toa_s', 'week', 'health', 'almanac_health', 'anti_spoof', 'configuration',
)  # fmt: skip
ORBIT = (
    'e', 'sqrta_sqrt_m', 'i_deg', 'om0_deg', 'omdot_deg_per_s', 'w_deg', 'm0_deg', 'af0_s',
    'af1_s_per_s',
)  # fmt: skip


def add(subparsers: options.Subparsers) -> None:
    """Adds the command's words."""
    parser = options.command(subparsers, 'almanac')
    tables.add(parser, {YUMA: 'the format YUMA', SEM: 'the format SEM'})
    options.add_week(parser)
    options.add_lines(parser)
    parser.set_defaults(run=run)


def run(arguments: argparse.Namespace) -> int:
    """Writes the table or the almanacs, and says what is missing."""
    gathered = Gathered(arguments.week_near)
    with files.read(arguments.lines) as source:
        gathered.take(read(source))
    rows = gathered.rows()
    if arguments.table not in (YUMA, SEM):
        columns = COLUMNS if arguments.table == tables.TEXT else (*COLUMNS, *ORBIT)
        with files.write() as sink:
            tables.write(sink, arguments.table, columns, [row_of(it) for it in rows])
        files.say(said(rows))
        return 0
    written = chosen(rows, arguments.table)
    text = said(rows) + left_out(rows, written)
    if not written:
        raise Failure(text)
    with files.write() as sink:
        for piece in yuma(written) if arguments.table == YUMA else sem(written):
            sink.write(piece)
    files.say(text)
    return 0


def chosen(rows: Iterable[Known], form: str) -> List[Known]:
    """The almanacs that a format takes: those with a week, for SEM of one time."""
    found = [it for it in rows if it.line is not None and it.week is not None]
    if form == YUMA:
        return found
    time = usual_time(found)
    return [it for it in found if it.line and (it.line.integer('toa'), it.week) == time]


def said(rows: Iterable[Known]) -> str:
    """What came, and what is missing."""
    groups: Dict[str, List[int]] = {'almanacs': [], 'dummies': [], 'missing': []}
    for it in rows:
        name = 'almanacs' if it.line else 'dummies' if it.is_dummy else 'missing'
        groups[name].append(it.satellite)
    return ', '.join(f'{name} {_list(those)}' for name, those in groups.items())


def left_out(rows: Iterable[Known], written: Iterable[Known]) -> str:
    """What else is said where almanacs that came aren't written."""
    numbers = {it.satellite for it in written}
    rest = [it for it in rows if it.line and it.satellite not in numbers]
    weekless = [it.satellite for it in rest if it.week is None]
    others = [it.satellite for it in rest if it.week is not None]
    text = f', of an unknown week {_list(weekless)}: name it by --week-near' if weekless else ''
    return f', of another time {_list(others)}{text}' if others else text


def _list(numbers: List[int]) -> str:
    """Numbers as `1-5,8`, or `none`."""
    parts: List[List[int]] = []
    for it in numbers:
        if parts and parts[-1][-1] == it - 1:
            parts[-1].append(it)
        else:
            parts.append([it])
    texts = [f'{it[0]}-{it[-1]}' if len(it) > 1 else str(it[0]) for it in parts]
    return ','.join(texts) or 'none'


def row_of(it: Known) -> Dict[str, Cell]:
    """The row of a satellite."""
    row: Dict[str, Cell] = dict.fromkeys((*COLUMNS, *ORBIT))
    row.update(
        satellite=it.satellite,
        page='almanac' if it.line else 'dummy' if it.is_dummy else None,
        week=it.week,
        health=it.health,
        anti_spoof=None if it.anti_spoof is None else int(it.anti_spoof),
        configuration=it.configuration,
    )
    line = it.line
    if line is not None:
        row['almanac_health'] = line.integer('health')
        row['e'] = float(line.value('e'))
        row['i_deg'] = float(DEGREES_A_SEMICIRCLE * (INCLINATION + line.value('di')))
        for field, integer in zip(line.table, line.values):
            row.update((n, float(value)) for n, value in field.named(integer) if n in row)
        row['toa_s'] = int(line.value('toa'))
    return row
