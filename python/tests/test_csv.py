"""Tables of CSV."""

from __future__ import annotations

import csv
import os
import random

import printed
import pytest
from conftest import NAMES, Command, refused

from seldomplough.records import columns

TEXT = (
    '1 0 ok\n'
    '1 2046000 acq 0 7 found -2 3 99\n'
    '1 2046000 acq 1 8 none 2 4 9\n'
    '1 4092000 state 0 track 7 5 98304 0 open\n'
    '1 4092000 state 1 idle\n'
)
STATES = (
    'client,time,seconds,slot,satellite,mode,dumps,v,w,stage,done,cells,doppler_hz,'
    'code_correction_chips_per_s\n'
    '1,4092000,2.0,0,7,track,5,98304,0,open,,,1.5,0.0\n'
    '1,4092000,2.0,1,,idle,,,,,,,,\n'
)
ACQUISITIONS = (
    'client,time,slot,satellite,found,bin,half_chip,power,doppler_from_centre_hz,'
    'code_phase_chips\n'
    '1,2046000,0,7,True,-2,3,99,-500,1.5\n'
    '1,2046000,1,8,False,2,4,9,500,2.0\n'
)


def test_the_table_of_a_kind(run: Command) -> None:
    outcome = run('csv', '--kind', 'state', '--rate', '2046000', given=TEXT.encode())
    assert outcome == (0, STATES, '')
    assert run('csv', '--kind', 'acq', given=TEXT.encode()) == (0, ACQUISITIONS, '')
    assert run('csv', '--kind', 'ok', given=TEXT.encode()).said == 'client,time\n1,0\n'
    assert run('csv', '--kind', 'end', given=TEXT.encode()).said == 'client,time\n'


@pytest.mark.parametrize('kind', printed.FIELDS)
def test_pages_have_a_column_for_each_field(kind: str) -> None:
    names = [it.name for it in printed.FIELDS[kind]]
    assert list(columns(kind))[:4] == ['client', 'time', 'slot', 'satellite']
    assert list(columns(kind))[4 : 4 + len(names)] == names


def test_a_file_for_each_kind(run: Command, tmp_path: os.PathLike[str]) -> None:
    for name in NAMES:
        folder = os.path.join(tmp_path, 'under', name)
        outcome = run('csv', '--folder', folder, given=TEXT.encode())
        assert outcome == (0, '', '')
        assert sorted(os.listdir(folder)) == ['acq.csv', 'ok.csv', 'state.csv']
        with open(os.path.join(folder, 'acq.csv'), encoding='utf-8', newline='') as file:
            assert file.read() == ACQUISITIONS


def test_tables_of_all_kinds_have_all_values(run: Command, tmp_path: os.PathLike[str]) -> None:
    chance = random.Random(2)
    text = ''.join(printed.line(it, 5, chance) + '\n' for it in printed.ALL_KINDS)
    assert run('csv', '--folder', os.fspath(tmp_path), given=text.encode()).status == 0
    for kind in printed.ALL_KINDS:
        with open(os.path.join(tmp_path, f'{kind}.csv'), encoding='utf-8', newline='') as file:
            rows = list(csv.reader(file))
        assert len(rows) == 2 and len(rows[0]) == len(rows[1]) == len(set(rows[0]))


def test_files_that_are_there_are_left(run: Command, tmp_path: os.PathLike[str]) -> None:
    path = os.path.join(tmp_path, 'acq.csv')
    with open(path, 'w', encoding='utf-8') as file:
        file.write('mine')
    refused(run('csv', '--folder', os.fspath(tmp_path), given=TEXT.encode()), 1, 'File exists')
    with open(path, encoding='utf-8') as file:
        assert file.read() == 'mine'
    refused(run('csv', '--folder', path, given=TEXT.encode()), 1, 'acq.csv: ')


def test_words_that_are_refused(run: Command) -> None:
    refused(run('csv'), 2, 'one of the arguments --kind --folder is required')
    refused(run('csv', '--kind', 'okay'), 2, 'invalid choice')
    refused(run('csv', '--kind', 'ok', '--folder', 'x'), 2, 'not allowed with')
    refused(run('csv', '--folder', ''), 1, 'no name of a file')
