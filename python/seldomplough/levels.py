"""The level of a recording's values, in words: gain too low, gain too high, a mean that is off."""

from __future__ import annotations

from dataclasses import dataclass, field
from typing import Dict, List, Tuple

from seldomplough import feeds
from seldomplough.programs import Program, Stage, output
from seldomplough.recordings import PAIRS

# Below this root mean square an integer's steps are too coarse, and below `LOW` two bits help not.
TOO_LOW, LOW = 1.0, 3.0
# More of the values at the ends of the range are clipped too often, in per cent.
CLIPPED = 1.0
# A mean of more than this part of the root mean square does harm.
FAR = 0.1


@dataclass(frozen=True)
class Level:
    """What `pack --measure` prints: its figures by their names, and the centres that it suggests as
    words."""

    kind: str
    figures: Dict[str, float] = field(default_factory=dict)
    centres: Tuple[str, ...] = ()

    def figure(self, name: str) -> float:
        """A figure of that part which has the greater one."""
        return max(self.figures.get(name, 0.0), self.figures.get(f'{name}-q', 0.0))

    @property
    def rms(self) -> float:
        """The root mean square about the mean."""
        return self.figure('rms')

    @property
    def is_coarse(self) -> bool:
        """Whether the values are so small that they are hardly more than their signs."""
        return self.kind.split('-')[-1] in ('i8', 'u8', 'i16', 'i16be') and self.rms < TOO_LOW

    @property
    def mean(self) -> float:
        """The mean that is farthest from the centre of the kind, in parts of the rms."""
        centre = 127.5 if self.kind.endswith('u8') else 0.0
        names = [it for it in ('mean', 'mean-q') if it in self.figures]
        return max([abs(self.figures[it] - centre) for it in names] or [0.0]) / (self.rms or 1.0)

    def packing(self) -> Tuple[str, ...]:
        """The words for `pack` that the level asks for: centres where the mean is off."""
        return self.centres if self.mean > FAR else ()

    def texts(self) -> List[str]:
        """What is to be said of it; nothing of values of a few bits."""
        said: List[str] = []
        if 'bits' in self.kind:
            return said
        clipped = self.figure('at-the-ends')
        if self.is_coarse:
            said.append(f'rms {self.rms:.2g}: the gain is too low')
        elif self.kind.split('-')[-1] in ('i8', 'u8', 'i16', 'i16be') and self.rms < LOW:
            said.append(f'rms {self.rms:.2g}: the gain is low; two bits a part hardly help')
        if clipped > CLIPPED:
            said.append(f'{clipped:.1f} % of the values are clipped: the gain is too high')
        if self.mean > FAR:
            way = ' '.join(self.packing()) or '`pack` takes none from floats'
            said.append(f'the mean is off by {self.mean:.2f} of the rms (DC): {way}')
        return said or [f'rms {self.rms:.4g}: the level is good']


def measured(pack: Program, kind: str, data: bytes) -> Level:
    """The level of some bytes of a kind."""
    stage = Stage(pack, ['--from', kind, '--measure'])
    text = output([stage], feeds.of_bytes(data)).decode('ascii', 'replace')
    figures: Dict[str, float] = {}
    centres: List[str] = []
    for name, value in (line.split(' ', 1) for line in text.splitlines() if ' ' in line):
        if name.startswith('--centre'):
            centres += [name, value]
        elif name.split('-q')[0] in ('mean', 'rms', 'at-the-ends'):
            figures[name] = float(value.rstrip('%'))
    return Level(kind, figures, tuple(centres))


def packings(level: Level) -> List[Tuple[str, Tuple[str, ...]]]:
    """The packings to try with their words for `pack`, the likeliest first."""
    size = 'iq' if level.kind.startswith(PAIRS) else 'real'
    words = level.packing()
    if 'bits1' in level.kind or not level.is_coarse:
        return [(f'{size}1', words)]
    # With two bits what lies at the centre is told from what lies beside it.
    return [(f'{size}2', (*words, '--threshold', '0.5')), (f'{size}1', words)]
