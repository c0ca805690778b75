"""Printed lines as records: names and values, for JSON, CSV and frames.

A record has the raw integers of a line by the names of docs/FORMATS.md, and the values that follow
from them under names with units, as the nearest floats."""

from __future__ import annotations

from typing import Dict, Iterator, List, Optional, Tuple, Type, Union

from seldomplough.lines import KINDS, Input, Line, Satellites, read

Value = Union[int, float, str, bool, None]
Record = Dict[str, Value]


class Records:
    """Makes records of lines in their order. With a rate they have the time in seconds.

    A line of a slot has its satellite where the lines before say it."""

    def __init__(self, rate: Optional[int] = None) -> None:
        self.rate = rate
        self.satellites = Satellites()
        self.names: Dict[Tuple[Type[Line], bool], Tuple[str, ...]] = {}

    def row(self, line: Line) -> Tuple[Tuple[str, ...], Tuple[Value, ...]]:
        """The names and the values of the next line, but for its kind."""
        satellite = self.satellites.feed(line)
        names = self._names(type(line), satellite is not None and 'satellite' not in line.names)
        values: Tuple[Value, ...] = line.client, line.time
        if self.rate is not None:
            values += (line.time / self.rate,)
        values += line.raw()
        if line.derived_names:
            values += line.nearest()
        return names, values if len(names) == len(values) else (*values, satellite)

    def of(self, line: Line) -> Record:
        """The record of the next line."""
        names, values = self.row(line)
        return {'kind': line.kind, **dict(zip(names, values))}

    def _names(self, kind: Type[Line], has_satellite: bool) -> Tuple[str, ...]:
        """The names of a class of lines. They are made once."""
        known = self.names.get((kind, has_satellite))
        if known is None:
            seconds = () if self.rate is None else ('seconds',)
            satellite = ('satellite',) if has_satellite else ()
            known = ('client', 'time', *seconds, *kind.names, *kind.derived_names, *satellite)
            self.names[kind, has_satellite] = known
        return known


def records(
    source: Input, rate: Optional[int] = None, kind: Optional[str] = None
) -> Iterator[Record]:
    """The records of the printed lines of a source, or of those of one kind."""
    maker = Records(rate)
    for line in read(source):
        if kind is None or line.kind == kind:
            yield maker.of(line)
        else:
            maker.satellites.feed(line)


def columns(kind: str, rate: Optional[int] = None) -> Tuple[str, ...]:
    """The names of the values of a kind of line, but for the kind itself, in their order."""
    result: List[str] = ['client', 'time']
    if rate is not None:
        result.append('seconds')
    classes = KINDS[kind]
    if any('slot' in it.names for it in classes):
        result += ['slot', 'satellite']
    for names in [it.names for it in classes] + [it.derived_names for it in classes]:
        result += [name for name in names if name not in result]
    return tuple(result)
