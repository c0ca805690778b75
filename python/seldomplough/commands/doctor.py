"""Finds out whether a recording or the settings for it are wrong.

Give the settings that you have: the kind, the rate, the offset, or nothing. It looks at the bytes,
measures their level, and searches for satellites: with your settings first, then with other kinds,
the other sign of the offset, the offset 0, the crystal off by up to 50 ppm, and other rates. What
it finds is tracked as it stands and with the spectrum inverted. Only a satellite with `bits`
counts. It ends with the command that works, or with what it tried, and the status 1. It uses the
first two seconds of a recording, so that these have to be whole. Nothing is written but its lines.

    seldomplough doctor rtl.u8
    seldomplough doctor --kind iq-i8 --rate 4000000 --offset 500000 capture.i8
"""

from __future__ import annotations

import argparse
import shlex
from typing import List

from seldomplough import files, numbers, programs, recordings
from seldomplough.commands import options, recorded
from seldomplough.doctors import Belief, Doctor
from seldomplough.failures import Failure, one_line
from seldomplough.trials import Outcome

# Seconds of the recording, and seconds that it may take.
SECONDS, LIMIT = 2, 60


def add(subparsers: options.Subparsers) -> None:
    """Adds the command's words."""
    parser = options.command(subparsers, 'doctor')
    recorded.add(parser)
    parser.set_defaults(rate=None, offset=None)
    for name, low, high, value, what in (
        ('seconds', 1, 60, SECONDS, 'seconds of the recording'),
        ('limit', 1, 3600, LIMIT, 'seconds after which it begins no other trial'),
    ):
        parser.add_argument(
            f'--{name}',
            type=numbers.integer(low, high),
            default=value,
            metavar='S',
            help=f'{what}; {value} if not given',
        )
    options.add_jobs(parser)
    options.add_programs(parser)
    parser.set_defaults(run=run)


def run(arguments: argparse.Namespace) -> int:
    """Examines a recording, and says what works."""
    belief = belief_of(arguments)
    receiver = programs.find(programs.RECEIVER, arguments.receiver)
    pack = programs.find(programs.PACK, arguments.pack)
    with files.write() as sink:

        def say(text: str) -> None:
            sink.write(one_line(text) + '\n')
            sink.flush()

        doctor = Doctor(
            belief, receiver, pack, arguments.seconds, arguments.limit, arguments.jobs, say
        )
        outcome = doctor.examine()
        if outcome is None:
            name = one_line(belief.name)
            raise Failure(f'{name}: no satellite has bits after {doctor.tries} trials')
        for text in conclusion(belief, outcome):
            say(text)
        if is_packed_anew(outcome):
            say('the packed samples are mirrored: pack the recording anew with --conjugate')
        else:
            sink.write(command(outcome) + '\n')
    return 0


def belief_of(arguments: argparse.Namespace) -> Belief:
    """What the words say of the recording."""
    if arguments.recording == '-':
        raise Failure('doctor: it reads a recording several times: give the name of a file', 2)
    offset = arguments.offset
    if offset is not None:
        known = argparse.Namespace(
            **{**vars(arguments), 'rate': arguments.rate or numbers.GREATEST_RATE}
        )
        offset = recorded.signed_offset(known)
    return Belief(
        arguments.recording,
        arguments.kind,
        arguments.format,
        arguments.rate,
        offset,
        tuple(recorded.packing(arguments)) if arguments.kind else (),
    )


def conclusion(belief: Belief, outcome: Outcome) -> List[str]:
    """Which satellites have bits, and what is otherwise than was believed."""
    recording = outcome.recording
    said = [f'{listed(sorted(outcome.states))} bits']
    if belief.kind is not None and belief.kind != recording.kind:
        said.append(f'the kind is {recording.kind or recording.format}, not {belief.kind}')
    if '--conjugate' in recording.packing and '--conjugate' not in belief.packing:
        said.append('the spectrum is mirrored: --conjugate')
    if belief.offset and belief.offset * recording.tuning.offset < 0:
        said.append('the offset has the other sign')
    if outcome.ppm:
        way = 'fast' if outcome.ppm > 0 else 'slow'
        said.append(f'the crystal is {way} by about {abs(outcome.ppm):g} ppm')
    elif belief.rate is not None and belief.rate != recording.tuning.rate:
        said.append(f'the rate is {recording.tuning.rate}, not {belief.rate}')
    return said


def is_packed_anew(outcome: Outcome) -> bool:
    """Whether no command can read the packed samples as they are."""
    return outcome.recording.kind is None and bool(outcome.recording.packing)


def listed(numbers_: List[int]) -> str:
    """Satellites in words, with the verb."""
    if len(numbers_) == 1:
        return f'satellite {numbers_[0]} has'
    first = ', '.join(map(str, numbers_[:-1]))
    return f'satellites {first} and {numbers_[-1]} have'


def command(outcome: Outcome) -> str:
    """The command that works, as it is typed in a shell."""
    recording = outcome.recording
    words = ['seldomplough', 'sky']
    if recording.kind is not None:
        words += ['--kind', recording.kind]
    words += ['--format', recording.format, *recording.tuning.words(), *recording.packing]
    return shlex.join([*words, recordings.path_word(recording.name)])
