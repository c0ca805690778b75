"""Made recordings."""

from __future__ import annotations

import os
import statistics
import subprocess
import sys
from typing import Any, Dict, Iterator, List, Tuple

import pytest
from conftest import EXAMPLES, Command, built, refused

from seldomplough import samples, signals
from seldomplough.cli import main

# How the stored recording of a crystal that is off was made: satellite, Doppler shift in Hz, half
# chip at sample 0, C/N0 in dB-Hz.
RATE, PPM, CARRIER = 2048000, 26.7, 1575.42e6
MADE = {3: (1250, 700, 47), 6: (-2100, 67, 45), 17: (3300, 1510, 44)}
SATELLITES = [':'.join(map(str, (it, *numbers))) for it, numbers in MADE.items()]
WORDS = ('--crystal', str(PPM), '--rate', str(RATE), '--seconds', '2', *SATELLITES)
# Hz that a tracked shift may waver, and half chips that a search may be beside the code.
NEAR, BESIDE = 15, 1


def made(module: Any, *words: str, **settings: Any) -> bytes:
    """A recording of these satellites."""
    chosen = signals.Settings(**settings)
    named = [signals.signal(signals.satellite(it), chosen) for it in words]
    return b''.join(samples.recording(chosen, named, module))


def signed(data: bytes) -> List[int]:
    """Bytes of two's complement."""
    return [it - 256 if it > 127 else it for it in data]


@pytest.mark.parametrize(
    'words, settings',
    [
        ((), {'rate': 70000}),
        (('3:1250:700:40', '17:-3300.5:1510.25:38'), {'rate': 66000, 'seed': 7}),
        (('32:-16000:0:42',), {'rate': 65536, 'kind': 'i8', 'offset': 30000, 'seed': -5}),
        (('1:0:2045.5:40',), {'rate': 33000, 'crystal': 26.7, 'offset': -1000, 'seconds': 2}),
    ],
)
def test_numpy_makes_the_same_bytes(words: Tuple[str, ...], settings: Dict[str, Any]) -> None:
    numpy = samples.numpy()
    assert numpy is not None
    assert made(None, *words, **settings) == made(numpy, *words, **settings)


def test_noise() -> None:
    data = made(samples.numpy(), rate=200000)
    for part in (data[::2], data[1::2]):
        assert abs(statistics.fmean(signed(part))) < 0.3
        assert abs(statistics.pstdev(signed(part)) - 20) < 0.3
    assert made(samples.numpy(), rate=200000) == data
    assert made(samples.numpy(), rate=200000, seed=2) != data


def test_the_power_of_a_signal() -> None:
    # The power of noise in pairs is 2 * 20^2; a signal of C dB-Hz has 10^(C/10) / rate of it.
    settings = signals.Settings(rate=200000)
    signal = signals.signal(signals.satellite('3:0:0:45'), settings)
    assert signal.amplitude**2 == pytest.approx(800 * 10**4.5 / 200000)
    real = signals.signal(signals.satellite('3:0:0:45'), settings._replace(kind='i8'))
    assert real.amplitude**2 / 2 == pytest.approx(800 * 10**4.5 / 200000)


def test_a_crystal_that_is_fast() -> None:
    # By the definition of ppm: the rate and the tuner's frequency are so much greater.
    fast = signals.Settings(rate=2000000, offset=-20000, crystal=100.0)
    rate, offset = fast.true_rate_and_offset()
    assert rate == pytest.approx(2000200)
    assert offset == pytest.approx(-20000 - 157544, abs=0.01)


@pytest.fixture
def make(capfdbinary: pytest.CaptureFixture[bytes], tmp_path: os.PathLike[str]) -> Iterator[Any]:
    """Gives what the command writes."""

    def make(*words: str) -> bytes:
        status = main(['made', *words])
        data, errors = capfdbinary.readouterr()
        assert (status, errors) == (0, b'')
        return data

    yield make


def written(*command: str, given: bytes = b'') -> bytes:
    """What a program writes over these bytes."""
    return subprocess.run(command, input=given, stdout=subprocess.PIPE, check=True).stdout


def packed(data: bytes, plain: Dict[str, str]) -> bytes:
    """Pairs of bytes as the stored recording has them."""
    return written(plain['--pack'], '--from', 'iq-i8', '--to', 'iq1', given=data)


def stored(kind: str) -> bytes:
    """A file of the recording of a crystal that is off."""
    with open(os.path.join(EXAMPLES, f'crystal.{kind}'), 'rb') as file:
        return file.read()


def received(data: bytes, plain: Dict[str, str]) -> bytes:
    """The lines of the stored script over a recording of this crystal."""
    # By the definition of ppm: the crystal is fast, so the signal lies below 0.
    rate, offset = round(RATE * (1 + PPM / 1e6)), round(CARRIER * PPM / 1e6)
    words = ['--rate', str(rate), '--offset', str(offset), '--minus', '--format', 'iq1']
    script = os.path.join(EXAMPLES, 'crystal.script')
    return written(plain['--receiver'], *words, script, given=data)


def see_that_lines_are_true(printed: bytes) -> None:
    """Sees that the lines have the satellites where they were made."""
    found, shifts = {}, {}
    for line in printed.decode().splitlines():
        it = line.split()
        if it[2] == 'acq' and it[5] == 'found':
            found[int(it[4])] = (int(it[6]) * 250, int(it[7]))
        if it[2] == 'state' and it[-1] == 'bits':
            shifts[int(it[5])] = int(it[7]) / 65536
    assert set(found) == set(shifts) == set(MADE)
    for number, (shift, half_chip, _) in MADE.items():
        assert abs(found[number][0] - shift) <= 250
        assert abs(found[number][1] - half_chip) <= BESIDE
        assert abs(shifts[number] - shift) <= NEAR


def test_the_stored_recording_is_the_one_that_is_made(make: Any, plain: Dict[str, str]) -> None:
    assert packed(make(*WORDS), plain) == stored('iq1')


def test_the_stored_lines_are_true(plain: Dict[str, str]) -> None:
    printed = received(stored('iq1'), plain)
    assert printed == stored('expected')
    see_that_lines_are_true(printed)


def test_the_maker_takes_the_same_words(plain: Dict[str, str]) -> None:
    data = written(built('maker', 'maker'), *WORDS)
    assert len(data) == 4 * RATE
    see_that_lines_are_true(received(packed(data, plain), plain))


def test_without_numpy(make: Any, monkeypatch: pytest.MonkeyPatch) -> None:
    words = ('--rate', '1000', '--kind', 'i8', '6:10:67:20')
    data = make(*words)
    monkeypatch.setitem(sys.modules, 'numpy', None)
    assert make(*words) == data and len(data) == 1000


@pytest.mark.parametrize(
    'word',
    [
        '1.9:0:0:40', '1_0:0:0:40', 'inf:0:0:40', '+3:0:0:40', '33:0:0:40', '0:0:0:40', '3',
        '3:0:0', '3:0:0:40:1', '3:nan:0:40', '3:1e3:0:40', '3:16000.5:0:40', '3:0:2046:40',
        '3:0:-1:40', '3:0:0:60', '3:0:0:-1', '²:0:0:40', '3:٣:0:40', '3:' + '9' * 5000 + ':0:40',
        '', 'x\ny',
    ],
)  # fmt: skip
def test_satellites_that_are_refused(run: Command, word: str) -> None:
    refused(run('made', '--rate', '1000', word), 2, 'made: argument SATELLITE')


@pytest.mark.parametrize(
    'words',
    [
        ('--seconds', '²'), ('--seconds', '0'), ('--seconds', '3601'), ('--rate', '999'),
        ('--rate', '20000001'), ('--offset', '9' * 400), ('--offset', '10000001'),
        ('--crystal', '1001'), ('--crystal', 'nan'), ('--seed', 'x'), ('--kind', 'u8'),
        ('--seconds',), ('--none=1',),
    ],
)  # fmt: skip
def test_words_that_are_refused(run: Command, words: Tuple[str, ...]) -> None:
    refused(run('made', *words), 2, words[0])


def test_too_strong_together(run: Command) -> None:
    words = ('--rate', '1000', '--seconds', '3600', '3:0:0:50', '4:0:0:50')
    refused(run('made', *words), 2, 'the satellites are too strong together')


def test_a_full_disk_and_a_closed_pipe(launch: Any) -> None:
    with open('/dev/full', 'wb') as full:
        outcome = launch('made', '--rate', '1000', stdout=full, stderr=-1, capture_output=False)
    said = b'seldomplough: standard output: No space left on device\n'
    assert (outcome.returncode, outcome.stderr) == (1, said)
    reader, writer = os.pipe()
    os.close(reader)
    outcome = launch('made', '--rate', '1000', stdout=writer, stderr=-1, capture_output=False)
    os.close(writer)
    assert (outcome.returncode, outcome.stderr) == (-13, b'')
