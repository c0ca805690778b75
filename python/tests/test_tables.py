"""Tables as text, JSON Lines and CSV."""

from __future__ import annotations

import io

from seldomplough.files import Sink
from seldomplough.tables import CSV, JSON, TEXT, write

ROWS = [{'a': 1, 'long_name': None}, {'a': 2.5, 'long_name': 'x, y'}]


def written(form: str) -> str:
    stream = io.StringIO()
    write(Sink(stream, 'made'), form, ['a', 'long_name'], ROWS)
    return stream.getvalue()


def test_text() -> None:
    assert written(TEXT) == '  a  long_name\n  1          -\n2.5       x, y\n'


def test_json() -> None:
    assert written(JSON) == '{"a": 1, "long_name": null}\n{"a": 2.5, "long_name": "x, y"}\n'


def test_csv() -> None:
    assert written(CSV) == 'a,long_name\n1,\n2.5,"x, y"\n'
