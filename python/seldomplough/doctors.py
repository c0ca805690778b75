"""Finds out whether a recording or the settings for it are wrong.

It tries the settings first, and then what most often is wrong: the kind of the values, the sign
of the offset, an inverted spectrum, a crystal that is off, another rate."""

from __future__ import annotations

import time
from dataclasses import dataclass, field
from typing import Callable, Dict, Iterator, List, Optional, Tuple

from seldomplough import levels, looks, recordings
from seldomplough.benches import Bench, bench_of
from seldomplough.crystals import is_taken, tuned
from seldomplough.programs import Program
from seldomplough.recordings import ALIASES, FORMATS, PAIRS, Recording, Tuning
from seldomplough.trials import Outcome, Trial

# What is looked at of a file, in bytes, and how much of it is measured.
LOOKED_AT, MEASURED = 1 << 16, 1 << 20
# Rates that radios have, in samples a second.
RATES = (2048000, 2046000, 2400000, 2500000, 4000000, 4092000, 5000000, 5456000, 8000000, 8184000,
         10000000, 16000000, 16368000, 20000000)  # fmt: skip
# Intermediate frequencies of front ends with real samples in Hz, besides a quarter of the rate.
FREQUENCIES = (4092000, 4130400, 38400)
# The crystals that are tried in ppm: so far apart that no frequency is between two searches.
PPM = (12, -12, 24, -24, 36, -36, 48, -48)
# As many satellites with bits are no chance.
ENOUGH = 2
# How many of the readings are tried with other crystals and rates.
LIKELIEST = 2

Plan = Iterator[Tuple[Trial, float]]


@dataclass(frozen=True)
class Belief:
    """The settings for a recording; None where they aren't known. The offset is in Hz."""

    name: str
    kind: Optional[str] = None
    format: Optional[str] = None
    rate: Optional[int] = None
    offset: Optional[int] = None
    packing: Tuple[str, ...] = ()


@dataclass(frozen=True)
class Reading:
    """A way to read the bytes: a kind or None, and the packing with the words for `pack`."""

    kind: Optional[str]
    format: str
    packing: Tuple[str, ...] = ()

    @property
    def text(self) -> str:
        """What it is called."""
        return ' '.join((self.kind or self.format, *self.packing))


@dataclass
class Doctor:
    """Tries a recording for at most `limit` seconds. `say` gets each line as it comes."""

    belief: Belief
    receiver: Program
    pack: Program
    seconds: int
    limit: float
    jobs: int
    say: Callable[[str], None]
    benches: Dict[Tuple[Reading, int], Bench] = field(default_factory=dict)
    best: Optional[Outcome] = None
    tries: int = 0
    has_bits_alone: bool = False
    """Whether the bytes are bits, whose order can't be seen."""

    def examine(self) -> Optional[Outcome]:
        """The best of what was tried, None where no satellite had bits."""
        end = time.monotonic() + self.limit
        readings = self.readings()
        for stage in (self.as_meant, self.with_crystals, self.with_rates):
            for trial, ppm in stage(readings):
                if time.monotonic() > end:
                    self.say(f'the time of {self.limit:g} s is over: --limit S gives more')
                    return self.best
                self.attempt(trial, ppm)
                # Bits in another order may have bits too, so that all orders are tried.
                if self.is_certain and not (self.has_bits_alone and stage == self.as_meant):
                    return self.best
            if self.is_certain:
                break
        return self.best

    @property
    def likeliest(self) -> int:
        """How many readings are tried with other crystals and rates: that which is believed."""
        return LIKELIEST if self.belief.kind is None and self.belief.format is None else 1

    @property
    def is_certain(self) -> bool:
        """Whether as many satellites have bits as by no chance."""
        return self.best is not None and len(self.best.states) >= ENOUGH

    def readings(self) -> List[Reading]:
        """The ways to read the bytes, the likeliest first. Says what they look like."""
        data = recordings.beginning(self.belief.name, MEASURED)
        seen = looks.look(data[:LOOKED_AT])
        self.say(seen.text)
        self.has_bits_alone = any('bits' in it for it in seen.kinds)
        believed = self.belief.kind or self.belief.format
        names = [believed if believed and ALIASES.get(it) == believed else it for it in seen.kinds]
        if believed in names:
            names.remove(believed)
            names.insert(0, believed)
        elif believed is not None and names:
            self.say(f'they do not look like {believed}')
            names.append(believed)
        return [it for name in names for it in self._readings_of(name, data, name in seen.kinds)]

    def _readings_of(self, name: str, data: bytes, is_likely: bool) -> Iterator[Reading]:
        """The packings of a kind to try, or a packing itself. Says the level of a likely kind."""
        if name in FORMATS:
            yield Reading(None, name)
            return
        level = levels.measured(self.pack, name, data)
        for text in level.texts() if is_likely else ():
            self.say(f'as {name}: {text}')
        if name == self.belief.kind and self.belief.packing:
            form = self.belief.format or recordings.usual_format(name)
            yield Reading(name, form, self.belief.packing)
        for form, words in levels.packings(level):
            yield Reading(name, form, words)

    def as_meant(self, readings: List[Reading]) -> Plan:
        """The trials of all readings, and their crystals' ppm."""
        rate = self.belief.rate or RATES[0]
        for reading in readings:
            for offset in self.offsets(reading, rate):
                yield self.trial(reading, Tuning(rate, offset)), 0.0

    def with_crystals(self, readings: List[Reading]) -> Plan:
        """The trials of the likeliest readings with a crystal that is off."""
        rate = self.belief.rate or RATES[0]
        for reading in readings[: self.likeliest]:
            tuning = Tuning(rate, self.offsets(reading, rate)[0])
            for ppm in PPM:
                if is_taken(tuned(tuning, ppm)):
                    yield self.trial(reading, tuning), ppm

    def with_rates(self, readings: List[Reading]) -> Plan:
        """The trials of the likeliest readings with other rates."""
        for rate in RATES:
            for reading in readings[: self.likeliest] if rate != self.belief.rate else ():
                for offset in self.offsets(reading, rate)[:1]:
                    yield self.trial(reading, Tuning(rate, offset)), 0.0

    def offsets(self, reading: Reading, rate: int) -> List[int]:
        """The offsets to try, the believed one first. Real samples have both signs at once."""
        believed = self.belief.offset or 0
        if reading.format.startswith(PAIRS):
            every = [believed, -believed, 0]
        elif believed:
            every = [believed]
        else:
            every = [rate // 4, *FREQUENCIES]
        return [it for it in dict.fromkeys(every) if 2 * abs(it) <= rate]

    def trial(self, reading: Reading, tuning: Tuning) -> Trial:
        """The trial of a reading and a tuning."""
        recording = Recording(
            self.belief.name, reading.kind, reading.format, tuning, reading.packing
        )
        place = reading, self.seconds * tuning.rate
        if place not in self.benches:
            self.benches.clear()
            self.benches[place] = bench_of(recording, place[1], self.receiver, self.pack)
        return Trial(recording, self.benches[place], self.jobs)

    def attempt(self, trial: Trial, ppm: float) -> None:
        """Tries, says what came of it, and keeps the best."""
        self.tries += 1
        found = trial.found(ppm)
        outcome = trial.tracked(found, ppm) if found else None
        if outcome is not None and outcome.ppm:
            outcome = trial.refined(outcome)
        recording = trial.recording
        reading = Reading(recording.kind, recording.format, recording.packing)
        crystal = f', crystal {ppm:+g} ppm' if ppm else ''
        what = f'{reading.text}, {" ".join(recording.tuning.words())}{crystal}'
        if outcome is None:
            none = f'{len(found)} found, none with bits' if found else 'nothing found'
            self.say(f'{what}: {none}')
            return
        self.say(f'{what}: {len(found)} found, {len(outcome.states)} with bits')
        if self.best is None or outcome.rank > self.best.rank:
            self.best = outcome
