"""Recordings: one of gigabytes, one that is searched for all 32 satellites, one that is dropped."""
from __future__ import annotations

import hashlib
import os
import re
import time

import children
from built import TOP
from hanging import HANGS

from .cases import Row, Rows, expected
from .page import PAUSE

# The bytes of a great recording, which has no blocks on the disc. As samples of one bit they are
# two hours and 20 minutes at the least rate.
GREAT = 2 * 10**9
# The seconds of a processor that it may take: 65 times real time. Alone it took 23 to 56 of the
# clock, and 51 of a processor for those 56.
SECONDS = 120
# The most memory that the bank may take, and that the renderer may take beside what it had: pieces
# of a megabyte wait for the collector there.
MOST_MEMORY, MOST_GROWTH = 8 << 20, 1 << 30

# A made recording: satellites with their Doppler shift in Hz, half chip and C/N0 in dB-Hz.
MADE = {3: (1500, 100, 47), 17: (-2250, 777, 46), 31: (250, 2001, 48)}
MADE_SECONDS, MADE_OFFSET = 4, 250000

# The bytes of noise that is searched: half a second.
NOISE = 2**17


def great_recording(rows: Rows) -> None:
    """Gigabytes run to their end with flat memory."""
    page = rows.page
    path = rows.file('great.real1', b'')
    os.truncate(path, GREAT)
    page.choose(path)
    page.wait('document.getElementById("name").textContent.startsWith("great.real1")')
    page.put(kind='real1', rate='2046000', offset='511500', text='0 hold 0 1 0 0', shares='')
    page.value('kept.memory = 0')
    before = most = page.browser.resident()
    page.forget()
    page.click('run')
    began, was_busy = time.monotonic(), page.browser.busy()
    while page.value('document.getElementById("far").dataset.done') != 'true':
        most = max(most, page.browser.resident())
        if time.monotonic() - began > HANGS:
            break
        time.sleep(10 * PAUSE)
    took, busy = time.monotonic() - began, page.browser.busy() - was_busy
    os.remove(path)
    memory = page.value('kept.memory')
    is_quick = 0 < busy <= SECONDS
    rows.tell(f'a great recording within {SECONDS} s of a processor', is_quick, f'{busy:.0f} s')
    rows.tell('its lines', page.saved() == f'1 0 ok\n1 {GREAT * 8} end\n', page.saved())
    rows.tell('the memory of the bank', 0 < memory <= MOST_MEMORY, memory)
    rows.tell('the memory of the renderer', most - before <= MOST_GROWTH, most - before)
    rows.note(
        f'{GREAT / 1e9:.0f} GB in {took:.0f} s, {busy:.0f} of a processor,'
        f' {GREAT * 8 / 2046000 / took:.0f} times real time; {memory / 2 ** 20:.1f} MiB of'
        f' memory of the bank, {(most - before) / 2 ** 20:.0f} MiB more of the renderer'
    )


def stopped_recording(rows: Rows) -> None:
    """A run stops by its button, what came stays, and the page lives on."""
    page = rows.page
    path = rows.file('stopped.real1', b'')
    os.truncate(path, GREAT)
    page.choose(path)
    page.wait('document.getElementById("name").textContent.startsWith("stopped.real1")')
    page.put(text='0 state 0')
    page.forget()
    page.click('run')
    page.wait('document.getElementById("bar").value > 0.01')
    page.click('stop')
    page.done()
    os.remove(path)
    rows.tell('a run that is stopped', page.text('far').endswith(', stopped'), page.text('far'))
    rows.tell(
        'the lines of a run that is stopped', page.saved() == '1 0 state 0 idle\n', page.saved()
    )
    rows.runs_example('three_satellites', 'a run that is stopped')


def made(rows: Rows) -> str:
    """The path of a made recording, of one byte for each value of real samples."""
    words = [f'{it}:{shift}:{half}:{density}' for it, (shift, half, density) in MADE.items()]
    path = os.path.join(rows.folder, 'made.i8')
    with open(path, 'wb') as file:
        status, _, errors = children.run(
            [
                os.path.join(TOP, 'seldomplough'),
                'made',
                '--kind',
                'i8',
                '--seconds',
                str(MADE_SECONDS),
                '--offset',
                str(MADE_OFFSET),
                *words,
            ],
            rows.folder,
            stdout=file,
        )
    if status:
        raise OSError(status, errors, path)
    return path


def search(rows: Rows) -> None:
    """A search of all 32 by its button finds the satellites that are in a recording, and no
    others, where they are."""
    page = rows.page
    page.choose(made(rows))
    page.wait('document.getElementById("name").textContent.startsWith("made.i8")')
    page.put(kind='i8', bits='1', rate='2046000', offset=str(MADE_OFFSET), skip='', count='')
    page.forget()
    page.click('search')
    rows.says('a search', page.done(), '')
    lines = [line.split(' ') for line in page.saved().splitlines()]
    answers = [it for it in lines if it[2] == 'acq']
    found = {int(it[4]): 250 * int(it[6]) for it in answers if it[5] == 'found'}
    rows.tell(
        'all 32 are searched for', {int(it[4]) for it in answers} == set(range(1, 33)), len(answers)
    )
    near = {it: abs(found.get(it, 10**6) - shift) <= 250 for it, (shift, _, _) in MADE.items()}
    rows.tell(
        'the satellites that are found', set(found) == set(MADE) and all(near.values()), found
    )
    # The table is drawn some moments later.
    page.wait(f'document.querySelectorAll("#sky-rows tr").length === {len(MADE)}')
    shown = page.text('sky-rows')
    numbers = {int(it) for it in re.findall(r'PRN (\d+)', shown)}
    rows.tell('the satellites in the table', numbers == set(MADE), shown)


def vain_search(rows: Rows) -> None:
    """A search through noise says what may be wrong."""
    page = rows.page
    noise = hashlib.shake_256(b'noise').digest(NOISE)
    page.choose(rows.file('noise.real1', noise))
    page.wait('document.getElementById("name").textContent.startsWith("noise.real1")')
    page.put(kind='real1', rate='2046000', offset='0', skip='', count='')
    page.forget()
    page.click('search')
    rows.says(
        'a search in vain',
        page.done(),
        'No satellite has its bit edge: are kind, rate and offset right, and the offset’s sign?'
        ' docs/GUIDE.md says what to try when nothing is found.',
    )
    rows.tell('its end', page.saved().endswith(f'\n8 {NOISE * 8} end\n'), page.saved()[-99:])


def drop(rows: Rows) -> None:
    """Lines that are dropped open."""
    text = expected('hold_counts')
    rows.page.forget()
    rows.page.drop(rows.file('dropped.lines', text.encode()))
    rows.says('lines that are dropped', rows.page.done(), '')
    rows.tell('the lines of a drop', rows.page.saved() == text, len(text))


ROWS: tuple[Row, ...] = (drop, search, vain_search, stopped_recording, great_recording)
