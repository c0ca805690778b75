"""The examples, by clicks."""
from __future__ import annotations

from .cases import EXAMPLES, Row, Rows

# Sizes of the page in pixels, of which the last is a narrow screen.
SIZES = ((1280, 800), (800, 600), (400, 800))


# A browser that has no relaxed operations.
WITHOUT = 'WebAssembly.validate = () => false;'


def each_example(rows: Rows) -> None:
    """Each example's lines are those of the checkout, byte for byte, by the quicker bank."""
    for name in EXAMPLES:
        rows.runs_example(name)
    banks = rows.page.banks()
    rows.tell('the bank where there are relaxed operations', banks == ['relaxed'], banks)


def each_without(rows: Rows) -> None:
    """The same by the bank for any browser, where there are no relaxed operations."""
    rows.page.open(WITHOUT)
    for name in EXAMPLES:
        rows.runs_example(name, 'opening without relaxed operations')
    banks = rows.page.banks()
    rows.tell('the bank where there are none', banks == ['bank'], banks)
    rows.page.open()


def every_picture(rows: Rows) -> None:
    """Each thing that can be drawn over time is drawn, at each size, and nothing is wider than the
    screen."""
    rows.runs_example('real_message')
    names = rows.page.value('[...document.getElementById("what").options].map((it) => it.value)')
    rows.tell('what can be drawn', len(names) == 5, names)
    for width, height in SIZES:
        rows.page.size(width, height)
        for name in names:
            rows.page.put(what=name)
        wide = rows.page.value('document.documentElement.scrollWidth')
        rows.tell(f'the width at {width} pixels', wide <= width, wide)
    rows.page.size(*SIZES[0])


ROWS: tuple[Row, ...] = (each_example, each_without, every_picture)
