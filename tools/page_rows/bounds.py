"""The bound on the lines of a run: what the page says of more, and what it shows."""
from __future__ import annotations

import os

from built import read
from page_text import sums_policy

from .cases import Row, Rows

# How the page has its bound, and a bound that a run reaches within a moment. The page's own takes a
# minute and more, and 1.7 GB; `page/tests/runs.test.js` has it.
OWN, LESS, BOUND = 'MOST_TEXT = 2 ** 28;', 'MOST_TEXT = 2 ** 20;', 2**20

# Zeros at 2.046 MHz in which four slots print some eight times as many characters: one line for
# each of them and each period of the code, of 2,046 samples.
ZEROS, SLOTS, PERIOD = 16 * 10**6, 4, 2046

# More characters than a line has that is printed here.
LINE = 100


def limited(rows: Rows) -> str:
    """The folder of a page with the lesser bound, and the policy for it."""
    folder = os.path.join(rows.folder, 'limited')
    os.mkdir(folder)
    os.symlink(os.path.join(rows.page.folder, 'examples'), os.path.join(folder, 'examples'))
    text = read(os.path.join(rows.page.folder, 'index.html')).decode()
    rows.tell('the bound in the page', text.count(OWN) == 1, text.count(OWN))
    less = text.replace(OWN, LESS)
    with open(os.path.join(folder, 'index.html'), 'w', encoding='utf-8') as file:
        file.write(less.replace(sums_policy(text), sums_policy(less)))
    return folder


def too_many_lines(rows: Rows) -> None:
    """A run with more lines than the bound is ended by a sentence, all that came before is shown,
    and the page lives on."""
    page = rows.page
    page.open(folder=limited(rows))
    path = rows.file('many.real1', b'')
    os.truncate(path, ZEROS)
    page.choose(path)
    page.wait('document.getElementById("name").textContent.startsWith("many.real1")')
    counted = '\n'.join(f'0 hold {it} 1 0 0\n0 counts {it} 1000000' for it in range(SLOTS))
    page.put(kind='real1', rate='2046000', offset='511500', text=counted)
    page.forget()
    page.click('run')
    rows.says(
        'more lines than the bound',
        page.done(),
        'These are more lines than a page can hold, and the run was ended. What came before is'
        ' shown: ask for fewer dumps, or run the program receiver.',
    )
    os.remove(path)
    came = page.saved()
    rows.tell('as many as the bound are shown', len(came) > BOUND - LINE, len(came))
    whole(rows, came)
    rows.runs_example('three_satellites', 'more lines than the bound')
    page.open()


def whole(rows: Rows, came: str) -> None:
    """Sees that no line is cut or missing before the last one of a run that was ended."""
    lines = came.split('\n')
    rows.tell('the last line is whole', lines.pop() == '', came[-LINE:])
    rows.tell('the answers', lines[: 2 * SLOTS] == ['1 0 ok'] * 2 * SLOTS, lines[: 2 * SLOTS])
    words = [it.split(' ') for it in lines[2 * SLOTS :]]
    rows.tell('the sums', all(it[2] == 'count' and len(it) == 10 for it in words), words[-1])
    # Each slot's periods, from the first one on.
    wanted = [(n // SLOTS * PERIOD + PERIOD, n % SLOTS) for n in range(len(words))]
    found = [(int(it[1]), int(it[3])) for it in words]
    wrong = [pair for pair in zip(found, wanted) if pair[0] != pair[1]]
    rows.tell('each slot and period in its turn', not wrong, wrong[:1])


ROWS: tuple[Row, ...] = (too_many_lines,)
