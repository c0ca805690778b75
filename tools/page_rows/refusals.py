"""Bad input of each kind: one sentence, and the page lives on."""
from __future__ import annotations

import json
import math
import os
import struct

from .cases import Row, Rows

# A picture of one pixel begins so.
PICTURE = b'\x89PNG\r\n\x1a\n' + bytes(100)

# Three lines that are refused, and one that isn't.
JUNK = 'junk\n0 fly 0\n0 state 9\n0 state 0'


def lives_on(rows: Rows, name: str) -> None:
    """Sees that an example runs after what was wrong."""
    rows.runs_example('three_satellites', name)


def refused_file(rows: Rows, name: str, data: bytes, sentence: str) -> None:
    """Sees what the page says of a file that is chosen."""
    rows.page.forget()
    rows.page.choose(rows.file(name, data))
    rows.says(name, rows.page.said(), sentence)
    lives_on(rows, name)


def empty_file(rows: Rows) -> None:
    """A file without a byte."""
    refused_file(rows, 'nothing.real1', b'', 'The file is empty.')


def picture(rows: Rows) -> None:
    """A picture as a recording, by its first bytes."""
    refused_file(rows, 'picture.real1', PICTURE, 'This is no recording of samples, but a picture.')


def two_files(rows: Rows) -> None:
    """Two recordings at once."""
    rows.page.forget()
    rows.page.choose(rows.file('one.real1', b'1'), rows.file('two.real1', b'2'))
    rows.says(
        'two recordings',
        rows.page.said(),
        'One recording, or one file of lines, at a time: one.real1, two.real1.',
    )
    lives_on(rows, 'two recordings')


def metadata(rows: Rows) -> None:
    """Metadata that is no JSON."""
    refused_file(rows, 'a.sigmf-meta', b'{', 'The SigMF metadata can’t be used: it isn\'t JSON.')


def fill(rows: Rows, path: str, given: dict[str, str]) -> None:
    """Chooses a recording, and puts values into fields; into others what is usual."""
    page = rows.page
    page.choose(path)
    page.wait(
        'document.getElementById("name").textContent.startsWith('
        f'{json.dumps(os.path.basename(path))})'
    )
    usual = {'rate': '2046000', 'offset': '0', 'skip': '', 'count': '', 'shares': '', 'bits': '1'}
    page.put(**{**usual, 'text': '0 state 0', **given})
    page.forget()


def ran(rows: Rows, path: str, **given: str) -> str:
    """What the page says of a recording that is run with these values in its fields."""
    fill(rows, path, given)
    rows.page.click('run')
    return rows.page.said()


def refused_form(rows: Rows, name: str, sentence: str, **given: str) -> None:
    """Sees what the page says of zeros that are run with wrong values in its fields."""
    rows.says(name, ran(rows, rows.file('zeros.real1', bytes(4096)), **given), sentence)
    lives_on(rows, name)


def fields(rows: Rows) -> None:
    """A rate, an offset, a window, shares and scripts that can't be."""
    rate = 'The rate in samples a second is a whole number from 2046000 to 20000000.'
    for word in ('1', '20000001', 'fast', '2.046e6', ''):
        refused_form(rows, f'a rate "{word}"', rate, rate=word)
    offset = (
        'The offset in Hz, at most half of the rate, is a whole number from -1023000 to' ' 1023000.'
    )
    refused_form(rows, 'an offset beyond half of the rate', offset, offset='1023001')
    refused_form(
        rows,
        'samples to skip beyond the end',
        'The file ends before the first sample that is asked for.',
        skip='400000',
    )
    refused_form(
        rows,
        'samples to skip that fill no byte',
        'The samples to skip and to take have to fill whole bytes of the file.',
        skip='3',
    )


def clients(rows: Rows) -> None:
    """Nine clients, and a share of none."""
    refused_form(
        rows,
        'nine clients',
        'A run takes eight scripts at most: run it again for the others.',
        text='\n--\n'.join(['0 state 0'] * 9),
    )
    refused_form(
        rows, 'a share of no slot', 'Shares need one digit from 1 to 8 for each script.', shares='0'
    )


def junk_script(rows: Rows) -> None:
    """A script of junk: each line has its refusal beside it, and the run goes to its end."""
    refused_form(rows, 'a script of junk', 'Lines that were refused: 3.', text=JUNK)
    page = rows.page
    ran(rows, rows.file('zeros.real1', bytes(4096)), text=JUNK)
    beside = page.text('refusals').split('\n')[:4]
    wanted = [
        'the first word isn\'t a time, 1 to 13 digits, at most 2^40',
        'no verb, or an unknown one',
        'a number is out of its range',
        '',
    ]
    rows.tell('refusals beside their lines', beside == wanted, beside)
    lines = '1 0 err 3\n1 0 err 5\n1 0 err 8\n1 0 state 0 idle\n1 32768 end\n'
    rows.tell('the lines of a script of junk', page.saved() == lines, page.saved())


def odd_end(rows: Rows) -> None:
    """Pairs of bytes with half a pair at the end."""
    path = rows.file('odd.cu8', bytes([128] * 4097))
    came = ran(rows, path, kind='iq-u8')
    rows.says('pairs with an odd end', came, 'Left out at the end: a part of a sample.')
    rows.tell(
        'the samples before an odd end',
        rows.page.saved().endswith('\n1 2048 end\n'),
        rows.page.saved(),
    )
    lives_on(rows, 'pairs with an odd end')


def no_number(rows: Rows) -> None:
    """A float that is no number can't be packed, and one that is infinite can't be measured."""
    path = rows.file('floats.f32', struct.pack('<1001f', *[1.0] * 1000, math.nan))
    rows.says(
        'a float that is no number',
        ran(rows, path, kind='f32'),
        'The recording has a float that is no number: is its kind right?',
    )
    lives_on(rows, 'a float that is no number')
    path = rows.file('great.f32', struct.pack('<8f', *[1.0] * 7, math.inf))
    fill(rows, path, {'kind': 'f32'})
    rows.page.click('measure')
    rows.says(
        'a float that is infinite',
        rows.page.said(),
        'The recording has a float that is infinite: is its kind right?',
    )
    lives_on(rows, 'a float that is infinite')


ROWS: tuple[Row, ...] = (
    empty_file,
    picture,
    two_files,
    metadata,
    fields,
    clients,
    junk_script,
    odd_end,
    no_number,
)
