"""Printed lines as pandas DataFrames, one for each kind of line.

    from seldomplough.frames import frames
    states = frames('my.lines', rate=4092000)['state']
    states.plot('seconds', 'doppler_hz')

Columns are named as in `seldomplough csv`. Whole numbers stay whole: a column of them that has gaps
is of pandas' type Int64."""

from __future__ import annotations

from typing import Any, Dict, List, Optional, Sequence, Union

from seldomplough import files
from seldomplough.failures import Failure
from seldomplough.records import Value, columns, records


def pandas() -> Any:
    """The module pandas, or a failure that says how to get it."""
    try:
        import pandas as module
    except ImportError as why:
        raise Failure(
            "it needs pandas: install Debian's python3-pandas, or `pandas` by pip"
        ) from why
    return module


def frames(source: Union[str, files.Source], rate: Optional[int] = None) -> Dict[str, Any]:
    """The frames of the kinds of lines that a file has, in the order in which they come.

    `source` is the name of a file, `-` for standard input, or an open input. With `rate`, samples a
    second, there is a column of seconds."""
    if isinstance(source, str):
        with files.read(source) as opened:
            return frames(opened, rate)
    module = pandas()
    tables: Dict[str, Dict[str, List[Value]]] = {}
    for record in records(source, rate):
        kind = str(record['kind'])
        if kind not in tables:
            tables[kind] = {name: [] for name in columns(kind, rate)}
        for name, values in tables[kind].items():
            values.append(record.get(name))
    return {kind: _frame(module, table) for kind, table in tables.items()}


def _frame(module: Any, table: Dict[str, List[Value]]) -> Any:
    return module.DataFrame({name: _column(module, it) for name, it in table.items()})


def _column(module: Any, values: Sequence[Value]) -> Any:
    """A column. Numbers that aren't there are missing ones, and texts None."""
    there = {type(it) for it in values if it is not None}
    if None in values and there <= {int}:
        return module.array(values, dtype='Int64')
    return module.Series(values, dtype='float64' if float in there else None)
