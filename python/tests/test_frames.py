"""Frames of pandas."""

from __future__ import annotations

import builtins
import os
import sys
from typing import Any

import pytest
from conftest import Command, refused
from test_csv import STATES, TEXT

from seldomplough.frames import frames

pandas = pytest.importorskip('pandas')
WHOLE = TEXT + f'1 4092000 sub 0 1 7 ------{" 00000a" * 9}\n'


@pytest.fixture
def path(tmp_path: os.PathLike[str]) -> str:
    name = os.path.join(tmp_path, 'run=1 .lines')
    with open(name, 'w', encoding='ascii') as file:
        file.write(WHOLE)
    return name


def test_frames_have_whole_numbers_floats_and_texts(path: str) -> None:
    result = frames(path, rate=2046000)
    assert list(result) == ['ok', 'acq', 'state', 'sub']
    state = result['state']
    assert state['seconds'].tolist() == [2.0, 2.0]
    assert state['v'].dtype == 'Int64' and state['v'][0] == 98304 and state['v'].isna()[1]
    assert state['doppler_hz'].dtype == 'float64' and state['doppler_hz'][0] == 1.5
    assert state['mode'].tolist() == ['track', 'idle'] and state['stage'].tolist()[0] == 'open'
    assert result['acq']['found'].dtype == 'bool' and result['acq']['slot'].dtype == 'int64'
    assert result['sub']['w1'].isna()[0] and result['sub']['w2'][0] == 10
    assert 'seconds' not in frames(path)['state']


def test_the_largest_numbers_fit(run: Command, tmp_path: os.PathLike[str]) -> None:
    path = os.path.join(tmp_path, 'x')
    nines = '9' * 18
    with open(path, 'w', encoding='ascii') as file:
        file.write(f'1 5 state 0 idle\n1 5 state 0 track 1 {nines} -{nines} 0 open\n')
    state = frames(path)['state']
    assert state['dumps'][1] == int(nines) and state['v'][1] == -int(nines)


def test_the_summary(run: Command, path: str) -> None:
    outcome = run('frames', path)
    assert (outcome.status, outcome.errors) == (0, '')
    assert outcome.said.splitlines()[0] == 'ok: 1 rows: client time'
    assert outcome.said.splitlines()[2].startswith('state: 2 rows: client time slot satellite mode')
    assert run('frames').said == ''


def test_files_of_csv(run: Command, path: str, tmp_path: os.PathLike[str]) -> None:
    folder = os.path.join(tmp_path, '-f')
    words = ('frames', '--rate', '2046000', f'--csv={folder}', path)
    assert run(*words) == (0, '', '')
    assert sorted(os.listdir(folder)) == ['acq.csv', 'ok.csv', 'state.csv', 'sub.csv']
    with open(os.path.join(folder, 'state.csv'), encoding='utf-8') as file:
        assert file.read() == STATES
    refused(run(*words), 1, 'File exists')


def test_files_of_parquet(
    run: Command, path: str, tmp_path: os.PathLike[str], monkeypatch: pytest.MonkeyPatch
) -> None:
    folder = os.path.join(tmp_path, 'parquet')

    def to_parquet(self: Any, stream: Any, index: bool) -> None:
        stream.write(b'PAR1')

    monkeypatch.setattr(pandas.DataFrame, 'to_parquet', to_parquet)
    assert run('frames', '--parquet', folder, path) == (0, '', '')
    assert len(os.listdir(folder)) == 4
    refused(run('frames', '--parquet', folder, path), 1, 'File exists')


def test_parquet_without_its_module(
    run: Command, path: str, tmp_path: os.PathLike[str], monkeypatch: pytest.MonkeyPatch
) -> None:
    def to_parquet(self: Any, stream: Any, index: bool) -> None:
        raise ImportError('no engine')

    monkeypatch.setattr(pandas.DataFrame, 'to_parquet', to_parquet)
    folder = os.path.join(tmp_path, 'parquet')
    refused(run('frames', '--parquet', folder, path), 1, 'Parquet needs `pyarrow`')
    assert os.listdir(folder) == []


def test_without_pandas(run: Command, path: str, monkeypatch: pytest.MonkeyPatch) -> None:
    whole = builtins.__import__

    def without(name: str, *rest: Any) -> Any:
        if name == 'pandas':
            raise ImportError(name)
        return whole(name, *rest)

    monkeypatch.delitem(sys.modules, 'pandas')
    monkeypatch.setattr(builtins, '__import__', without)
    refused(run('frames', path), 1, 'it needs pandas: install')
