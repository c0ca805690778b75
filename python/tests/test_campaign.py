"""The steps of a campaign: what they make, what they refuse, and that all is whole or not there."""

from __future__ import annotations

import csv
import json
import os
import subprocess
from pathlib import Path
from typing import Callable, Dict, List, NamedTuple

import pytest
from conftest import EXAMPLES, Command, Outcome, refused

RATE = 2046000
SCRIPT = '0 hold 0 5 1250 700\n0 counts 0 3\n0 acquire 1 17 -2500 2 4 60\n90000 state 1\n'
TABLE = (
    'name,path,kind,rate,offset,mirrored,samples\n'
    'whole,whole.i8,i8,2046000,511500,no,\n'
    'packed,packed.real1,real1,2046000,511500,no,200000\n'
)


class Farm(NamedTuple):
    """A campaign of two recordings and three scripts in a folder of the test's own."""

    folder: Path
    step: Callable[..., Outcome]


@pytest.fixture
def farm(run: Command, tmp_path: Path, plain: Dict[str, str]) -> Farm:
    """The first 200,000 samples of a bundled recording, packed and as bytes."""
    with open(os.path.join(EXAMPLES, 'three_satellites.real1'), 'rb') as stream:
        packed = stream.read(25000)
    (tmp_path / 'packed.real1').write_bytes(packed)
    bits = (byte >> at & 1 for byte in packed for at in range(7, -1, -1))
    (tmp_path / 'whole.i8').write_bytes(bytes(255 if it else 1 for it in bits))
    (tmp_path / 'table.csv').write_text(TABLE)
    (tmp_path / 'scripts').mkdir()
    for at in range(1, 4):
        (tmp_path / 'scripts' / f'{at}.script').write_text(SCRIPT)
    words = ['--to', str(tmp_path / 'out'), '--scripts', str(tmp_path / 'scripts')]
    words += [word for it in plain.items() for word in it]

    def step(name: str, *more: str) -> Outcome:
        return run('campaign', name, *words, str(tmp_path / 'table.csv'), *more)

    return Farm(tmp_path, step)


def all_steps(farm: Farm, name: str, groups: List[str]) -> None:
    """All steps of a recording."""
    for group in groups:
        assert farm.step('run', name, group) == (0, '', '')
    for step in ('merge', 'check'):
        assert farm.step(step, name, *groups) == (0, '', '')
    assert farm.step('compare', name) == (0, '', '')


def test_lines_are_those_of_one_process(farm: Farm, plain: Dict[str, str]) -> None:
    assert farm.step('pack', 'whole') == (0, '', '')
    packed = farm.folder / 'packed.real1'
    assert (farm.folder / 'out/packed/whole.real1').read_bytes() == packed.read_bytes()
    all_steps(farm, 'whole', ['1-2', '3-3'])
    all_steps(farm, 'packed', ['1-1', '2-3'])
    scripts = [str(farm.folder / 'scripts' / f'{at}.script') for at in (1, 2, 3)]
    one = subprocess.run(
        [plain['--receiver'], '--offset', '511500', *scripts],
        input=packed.read_bytes(),
        stdout=subprocess.PIPE,
        check=True,
    ).stdout
    for name in ('whole', 'packed'):
        assert (farm.folder / f'out/merged/{name}.lines').read_bytes() == one
        record = json.loads((farm.folder / f'out/checked/{name}.json').read_text())
        assert record['samples'] == 200000
        assert record['receiver']['version'] == 'receiver 1.0.0'
        assert '--offset 511500' in ' '.join(record['options'])
    assert farm.step('table') == (0, '', '')
    with open(farm.folder / 'out/campaign.csv', encoding='utf-8', newline='') as stream:
        rows = list(csv.DictReader(stream))
    assert {it['state'] for it in rows} == {'done'}
    found = {(it['recording'], it['client'], it['satellite'], it['half_chip']) for it in rows}
    # The satellites of that recording, and where their codes begin: docs/GUIDE.md.
    assert ('whole', '1', '5', '700') in found and ('packed', '3', '17', '1511') in found
    assert '2 of 2 recordings are done' in (farm.folder / 'out/campaign.html').read_text()


def test_the_plan(farm: Farm) -> None:
    outcome = farm.step('plan', '--csv', '--seconds', '0')
    rows = list(csv.DictReader(outcome.said.splitlines()))
    assert [(it['name'], it['group']) for it in rows] == [
        (name, group) for name in ('whole', 'packed') for group in ('1-1', '2-2', '3-3')
    ]
    assert [it['packed'] for it in rows] == ['whole.real1'] * 3 + [''] * 3
    assert {it['samples'] for it in rows} == {'200000'}
    digests = [it['scripts_sha256'] for it in rows]
    assert len(set(digests)) == 3
    (farm.folder / 'scripts/2.script').write_text('0 state 0\n')
    outcome = farm.step('plan', '--csv', '--seconds', '0')
    now = [it['scripts_sha256'] for it in csv.DictReader(outcome.said.splitlines())]
    assert [it == old for it, old in zip(now, digests)] == [True, False, True] * 2
    assert sum(it['drawn'] == 'yes' for it in rows) == 3
    assert len(farm.step('plan', '--csv').said.splitlines()) == 3


def test_a_run_that_is_there_is_left_and_another_is_done_anew(farm: Farm) -> None:
    lines = farm.folder / 'out/lines/packed/1-3.lines'
    farm.step('run', 'packed', '1-3')
    before = lines.stat().st_ino
    assert farm.step('run', 'packed', '1-3').status == 0 and lines.stat().st_ino == before
    (farm.folder / 'scripts/2.script').write_text('0 state 0\n')
    text = lines.read_text()
    assert farm.step('run', 'packed', '1-3').status == 0 and lines.read_text() != text
    lines.write_text('')
    assert farm.step('run', 'packed', '1-3').status == 0 and lines.read_text() != ''
    assert [it.name for it in lines.parent.iterdir() if it.name.startswith('.')] == []


def test_a_pipe_and_a_scratch_folder(farm: Farm) -> None:
    (farm.folder / 'scratch').mkdir()
    words = ['--pipe', '--scratch', str(farm.folder / 'scratch')]
    assert farm.step('run', *words, 'whole', '1-3') == (0, '', '')
    assert not (farm.folder / 'out/packed').exists()
    assert list((farm.folder / 'scratch').iterdir()) == []
    for step in ('merge', 'check'):
        assert farm.step(step, '--pipe', 'whole', '1-3') == (0, '', '')


@pytest.mark.parametrize(
    'words, status, text',
    [
        (['run', 'whole'], 2, 'run takes one GROUP'),
        (['run', 'whole', '3-1'], 2, 'is no group such as 1-3'),
        (['run', 'packed', '1-4'], 1, 'packed: there are 3 scripts, and no 1-4'),
        (['run', 'nobody', '1-3'], 2, "'nobody' is the name of no recording"),
        (['run'], 2, 'run needs the NAME'),
        (['plan', 'whole'], 2, 'plan takes no NAME'),
        (['merge', 'whole'], 2, 'merge needs all GROUPs'),
        (['merge', 'whole', '1-1', '3-3'], 1, 'the groups go from script 1 to 3'),
        (['merge', 'whole', '1-2'], 1, 'the groups end with script 2 of 3'),
        (['merge', 'whole', '1-3'], 1, 'No such file'),
        (['check', 'whole', '1-3'], 1, 'No such file'),
        (['pack', 'packed'], 1, 'packed: it is packed already'),
        (['run', 'whole', '1-3'], 1, 'No such file'),
        (['run', '--scratch', '/nowhere', 'packed', '1-3'], 1, '/nowhere: No such file'),
    ],
)
def test_refusals(farm: Farm, words: List[str], status: int, text: str) -> None:
    refused(farm.step(*words), status, text)


def test_scripts_that_are_not_there(farm: Farm) -> None:
    refused(farm.step('plan', '--scripts', str(farm.folder / 'none')), 1, 'no file there')


def test_a_recording_that_is_cut_or_gone(farm: Farm) -> None:
    path = farm.folder / 'packed.real1'
    path.write_bytes(path.read_bytes()[:-1])
    refused(farm.step('run', 'packed', '1-3'), 1, 'it has 199992 samples of 200000: was it cut?')
    path.unlink()
    refused(farm.step('run', 'packed', '1-3'), 1, 'No such file')
    logs = farm.folder / 'out/logs/packed'
    logs.mkdir(parents=True)
    (logs / '2-run.log').write_text('warning\nseldomplough: packed: <gone>\n')
    outcome = farm.step('table')
    assert outcome.status == 1
    assert outcome.errors.splitlines() == [
        'seldomplough: whole: not begun',
        'seldomplough: packed: <gone>',
        'seldomplough: 2 of 2 recordings are not done',
    ]
    assert '&lt;gone&gt;' in (farm.folder / 'out/campaign.html').read_text()


def test_a_job_that_says_nothing_is_named_by_what_is_missing(farm: Farm) -> None:
    farm.step('run', 'packed', '1-3')
    for name in ('whole', 'packed'):
        (farm.folder / 'out/logs' / name).mkdir(parents=True)
        (farm.folder / 'out/logs' / name / '2-run-1-3.log').write_text('')
    said = farm.step('table').errors
    assert 'seldomplough: whole: not done: there is no packed/whole.real1\n' in said
    assert 'seldomplough: packed: not done: there is no merged/packed.lines\n' in said
    farm.step('merge', 'packed', '1-3')
    assert 'not done: there is no checked/packed.json\n' in farm.step('table').errors
    farm.step('check', 'packed', '1-3')
    assert 'packed: ' not in farm.step('table').errors
    # That one isn't drawn, and this one is.
    for step in (['pack'], ['run', '1-3'], ['merge', '1-3'], ['check', '1-3']):
        assert farm.step(step[0], 'whole', *step[1:]).status == 0
    assert 'not done: there is no compared/whole.json\n' in farm.step('table').errors
    (farm.folder / 'out/merged/packed.lines').write_text('')
    assert 'not done: its lines are not those that were checked' in farm.step('table').errors


def test_steps_that_run_no_program_need_none(farm: Farm) -> None:
    all_steps(farm, 'packed', ['1-3'])
    words = ['--receiver', '/nowhere', '--pack', '/nowhere']
    for step in ('merge', 'check'):
        assert farm.step(step, *words, 'packed', '1-3') == (0, '', '')
    refused(farm.step('plan', *words), 2, '/nowhere')


def test_what_is_damaged_is_refused(farm: Farm) -> None:
    lines = farm.folder / 'out/lines/packed/1-3.lines'
    all_steps(farm, 'packed', ['1-3'])
    whole = lines.read_bytes()
    lines.write_bytes(whole[:-1])
    refused(farm.step('check', 'packed', '1-3'), 1, 'it is not what its record says')
    lines.write_bytes(whole)
    record = Path(f'{lines}.json')
    text = record.read_text()
    record.write_text('{')
    refused(farm.step('check', 'packed', '1-3'), 1, 'it is no record')
    record.write_text('[]')
    refused(farm.step('check', 'packed', '1-3'), 1, 'it is no record')
    record.write_text(text.replace('"samples": 200000', '"samples": 199992'))
    refused(farm.step('check', 'packed', '1-3'), 1, 'not all 3 clients end at sample 199992')
    record.write_text(text)
    merged = farm.folder / 'out/merged/packed.lines'
    merged.write_bytes(whole.replace(b'1 0 ok', b'1 1 ok', 1))
    refused(farm.step('compare', 'packed'), 1, 'the merged lines are not those of one process')
    os.utime(farm.folder / 'packed.real1', (1, 1))
    refused(farm.step('check', 'packed', '1-3'), 1, 'it changed since 1-3 was run')


def test_runs_that_were_made_otherwise_are_refused(farm: Farm) -> None:
    for group in ('1-2', '3-3'):
        farm.step('run', 'packed', group)
    farm.step('merge', 'packed', '1-2', '3-3')
    record = farm.folder / 'out/lines/packed/3-3.lines.json'
    record.write_text(record.read_text().replace('receiver 1.0.0', 'receiver 0.9.0'))
    refused(farm.step('check', 'packed', '1-2', '3-3'), 1, 'receiver of 3-3 is not that of 1-2')


def test_packed_samples_that_changed_are_refused(farm: Farm) -> None:
    farm.step('pack', 'whole')
    farm.step('run', 'whole', '1-3')
    farm.step('merge', 'whole', '1-3')
    record = farm.folder / 'out/packed/whole.real1.json'
    text = record.read_text()
    record.write_text(text.replace('"samples": 200000', '"samples": 7'))
    refused(farm.step('check', 'whole', '1-3'), 1, 'it has not the samples of the recording')
    record.write_text(text.replace('"bytes": 25000', '"bytes": 25001'))
    refused(farm.step('check', 'whole', '1-3'), 1, 'what was read of it is not what was packed')
