"""What a record says of where a file came from."""

from __future__ import annotations

import subprocess
from pathlib import Path
from typing import Iterator

import pytest
from seldomplough import provenance
from seldomplough.failures import Failure
from seldomplough.programs import Program


@pytest.fixture(autouse=True)
def fresh() -> Iterator[None]:
    """Each test asks for the revision anew."""
    provenance.revision.cache_clear()
    yield
    provenance.revision.cache_clear()


def git(folder: Path, *words: str) -> str:
    """What git prints."""
    name = ['-c', 'user.name=a', '-c', 'user.email=a@b']
    command = ['git', '-C', str(folder), *name, *words]
    return subprocess.run(command, stdout=subprocess.PIPE, check=True, text=True).stdout


def test_the_revision_is_that_of_the_checkout(
    tmp_path: Path, monkeypatch: pytest.MonkeyPatch
) -> None:
    git(tmp_path, 'init', '-q')
    (tmp_path / 'file').write_text('1')
    git(tmp_path, 'add', 'file')
    git(tmp_path, 'commit', '-q', '-m', 'one')
    head = git(tmp_path, 'rev-parse', 'HEAD').strip()
    monkeypatch.setattr(provenance, 'TOP', str(tmp_path))
    inside = Program('receiver', str(tmp_path / 'out' / 'receiver'))
    said = provenance.revision(inside)
    assert said is not None and len(said) >= 7 and head.startswith(said)
    assert provenance.revision(Program('receiver', '/bin/true')) is None
    provenance.revision.cache_clear()
    (tmp_path / 'file').write_text('2')
    assert provenance.revision(inside) == f'{said}-dirty'


def test_there_is_none_without_a_checkout_or_git(
    tmp_path: Path, monkeypatch: pytest.MonkeyPatch
) -> None:
    monkeypatch.setattr(provenance, 'TOP', str(tmp_path))
    inside = Program('receiver', str(tmp_path / 'receiver'))
    assert provenance.revision(inside) is None
    provenance.revision.cache_clear()
    (tmp_path / '.git').mkdir()
    monkeypatch.setenv('PATH', str(tmp_path))
    assert provenance.revision(inside) is None


def test_builds_of_one_revision_are_alike() -> None:
    """Where the revision is known and nothing of it was changed."""
    record = {'receiver': {'version': '1', 'sha256': 'a'}, 'pack': None, 'revision': 'abc'}
    other = {**record, 'receiver': {'version': '1', 'sha256': 'b'}}
    for revision, is_alike in (('abc', True), ('abc-dirty', False), (None, False)):
        one, two = ({**it, 'revision': revision} for it in (record, other))
        assert (provenance.maker(one, 'receiver') == provenance.maker(two, 'receiver')) == is_alike
        assert provenance.maker(one, 'pack') is None


def test_a_record_has_the_keys_that_are_asked_for(tmp_path: Path) -> None:
    name = str(tmp_path / 'run.json')
    Path(name).write_text('{"samples": 8}')
    assert provenance.read(name, 'samples') == {'samples': 8}
    for text, keys in (('{"samples": 8}', ('samples', 'read')), ('[]', ()), ('{', ())):
        Path(name).write_text(text)
        with pytest.raises(Failure, match='it is no record'):
            provenance.read(name, *keys)
