"""A recording of samples with all that one has to know of it, and how the programs read it."""

from __future__ import annotations

import os
import shlex
import stat
from contextlib import contextmanager
from dataclasses import dataclass
from io import BufferedReader
from typing import Callable, Dict, Iterator, List, Optional, Sequence, Tuple

from seldomplough import feeds, files
from seldomplough.programs import Program, Stage, running

# The bits of a value of each kind that `pack` reads, and those of a sample of each packing.
VALUES: Dict[str, int] = {
    'u8': 8, 'i8': 8, 'i16': 16, 'i16be': 16, 'f32': 32, 'bits2-low': 2, 'bits2-sm-low': 2,
    'bits1-low': 1, 'bits1-high': 1,
}  # fmt: skip
KINDS: Dict[str, int] = {**VALUES, **{f'iq-{it}': 2 * bits for it, bits in VALUES.items()}}
FORMATS: Dict[str, int] = {'real1': 1, 'real2': 2, 'iq1': 2, 'iq2': 4}
# What `pack` calls the packings that are kinds too.
ALIASES: Dict[str, str] = {'real1': 'bits1-high', 'iq1': 'iq-bits1-high'}
PAIRS = 'iq'


def usual_format(kind: str) -> str:
    """The packing of one bit a part that a kind is packed to."""
    return 'iq1' if kind.startswith(PAIRS) else 'real1'


@dataclass(frozen=True)
class Tuning:
    """How a recording was made: its rate in samples a second, and where 1575.42 MHz lies in it, in
    Hz, negative where it lies below 0."""

    rate: int
    offset: int

    def words(self) -> List[str]:
        """The receiver's words for it."""
        minus = ['--minus'] if self.offset < 0 else []
        return ['--rate', str(self.rate), '--offset', str(abs(self.offset)), *minus]


@dataclass(frozen=True)
class Recording:
    """A recording: its file's name (`-` is standard input), the kind of its values or None where it
    is packed, the packing, its tuning, and further words for `pack`."""

    name: str
    kind: Optional[str]
    format: str
    tuning: Tuning
    packing: Tuple[str, ...] = ()

    @property
    def bits(self) -> int:
        """The bits of a sample in the file."""
        return FORMATS[self.format] if self.kind is None else KINDS[self.kind]

    def bytes_of(self, samples: int) -> int:
        """The bytes of so many samples in the file."""
        return samples * self.bits // 8

    def samples(self) -> Optional[int]:
        """How many samples the receiver gets of a whole file, None where that isn't known."""
        try:
            found = None if self.name == '-' else os.stat(self.name)
        except (OSError, ValueError):
            # Whoever opens it says why.
            return None
        if found is None or not stat.S_ISREG(found.st_mode):
            return None
        return self.samples_of(found.st_size)

    def samples_of(self, size: int) -> int:
        """How many samples the receiver gets of so many bytes of the file."""
        whole = 8 // FORMATS[self.format]
        return size * 8 // self.bits // whole * whole

    def pack_words(self) -> List[str]:
        """The words for `pack`."""
        return ['--from', str(self.kind), '--to', self.format, *self.packing]

    def receiver_words(self) -> List[str]:
        """The words for the receiver, without the scripts."""
        return [*self.tuning.words(), '--format', self.format]

    def stages(self, receiver: Program, pack: Program, scripts: Sequence[str]) -> List[Stage]:
        """The programs that make lines of it."""
        last = Stage(receiver, [*self.receiver_words(), *scripts], scripts)
        return [last] if self.kind is None else [Stage(pack, self.pack_words()), last]

    def command(self, script: str) -> str:
        """The command that makes lines of it, as it is typed in a shell."""
        source = '' if self.name == '-' else f' < {shlex.quote(path_word(self.name))}'
        receiver = shlex.join(['receiver', *self.receiver_words()]) + f' {script}'
        if self.kind is None:
            return receiver + source
        return shlex.join(['pack', *self.pack_words()]) + f'{source} | {receiver}'


def path_word(name: str) -> str:
    """A file's name as a shell opens it."""
    return f'./{name}' if name.startswith('-') else name


@contextmanager
def opened(
    stages: Sequence[Stage], name: str, size: int, note: Optional[Callable[[str], None]] = None
) -> Iterator[BufferedReader]:
    """What the last of these programs writes, over at most so many bytes of a file."""
    with files.read(name) as source:
        with running(stages, feeds.of_source(source, size), note) as stream:
            yield stream


def beginning(name: str, size: int) -> bytes:
    """At most so many bytes at the beginning of a file."""
    with files.read(name) as source:
        return source.read(size)
