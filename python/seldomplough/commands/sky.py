"""Shows the satellites of a recording.

It searches for all 32 satellites, tracks those that are found, and prints a table: the Doppler
shift in Hz, the C/N0 in dB-Hz, the half chip at which the code began when it was found, since when
it is locked, when the edge of its data bits was found (both in s of the recording), how many
subframes came, the time of week with its date by GPS time, its health (0 is healthy), how many
words of the subframes failed by their parity, and the alert and anti-spoof flags of the last one.

The recording is read once, from a file or a pipe. The searches themselves go on to track what they
find, and each satellite that is missing is searched for anew every 10 s. So a satellite that was
lost comes back. Noise is found now and then: what has `bits` is a satellite. The status is 1 where
none has. Nothing is written but the table.

    seldomplough sky --offset 511500 my.real1
    seldomplough sky --kind iq-u8 --rate 2048000 rtl.u8
"""

from __future__ import annotations

import argparse
from datetime import datetime, timezone
from typing import Dict, List, Optional

from seldomplough import files, numbers, programs, scripts, tables
from seldomplough.commands import options, recorded
from seldomplough.failures import Failure, one_line
from seldomplough.lines import read
from seldomplough.recordings import Recording, opened
from seldomplough.scripts import Search
from seldomplough.skies import Satellite, Sky
from seldomplough.skies import scripts as sky_scripts
from seldomplough.tables import Cell

# A whole frame of the message takes 30 s, and begins within 30 s.
SECONDS = 66
LONGEST = 3600


def add(subparsers: options.Subparsers) -> None:
    """Adds the command's words."""
    parser = options.command(subparsers, 'sky')
    recorded.add(parser)
    options.add_search(parser, Search(), 'search-threshold')
    parser.add_argument(
        '--seconds',
        type=numbers.integer(1, LONGEST),
        default=SECONDS,
        metavar='S',
        help=f'of the recording at most; {SECONDS} if not given',
    )
    parser.add_argument(
        '--rollovers',
        type=numbers.integer(0, 100),
        metavar='N',
        help="of the week's number; so that the date is the last one up to today if not given",
    )
    tables.add(parser)
    options.add_programs(parser)
    parser.set_defaults(run=run)


def run(arguments: argparse.Namespace) -> int:
    """Prints the table."""
    recording = recorded.recording(arguments)
    search = Search(arguments.bins, arguments.ms, arguments.search_threshold)
    sky = watch(recording, search, arguments)
    today = datetime.now(timezone.utc).replace(tzinfo=None)
    rate = recording.tuning.rate
    rows = [row_of(it, rate, arguments.rollovers, today) for it in sky.rows()]
    with files.write() as sink:
        tables.write(sink, arguments.table, COLUMNS, rows)
    if not any(it.bits is not None for it in sky.rows()):
        name = one_line(recording.name)
        raise Failure(f'{name}: no satellite has bits: `seldomplough doctor` looks for the reason')
    return 0


def watch(recording: Recording, search: Search, arguments: argparse.Namespace) -> Sky:
    """Runs the programs over a recording, and gathers what their lines say."""
    receiver = programs.find(programs.RECEIVER, arguments.receiver)
    pack = programs.find(programs.PACK, arguments.pack)
    rate = recording.tuning.rate
    longest = rate * arguments.seconds
    samples = recording.samples()
    last = None if samples is None else min(samples, longest)
    seconds = arguments.seconds if last is None else min(arguments.seconds, last // rate + 1)
    sky = Sky(search, rate)
    with scripts.written(sky_scripts(search, rate, seconds, last)) as paths:
        stages = recording.stages(receiver, pack, paths)
        with opened(stages, recording.name, recording.bytes_of(longest), files.say) as stream:
            for line in read(stream):
                sky.feed(line)
    return sky


COLUMNS = (
    'satellite', 'doppler_hz', 'cn0_db_hz', 'half_chip', 'found_s', 'locked_s', 'bits_s', 'lost_s',
    'subframes', 'week', 'time_of_week_s', 'gps_time', 'health', 'words_failed', 'alert',
    'anti_spoof',
)  # fmt: skip


def row_of(it: Satellite, rate: int, rollovers: Optional[int], today: datetime) -> Dict[str, Cell]:
    """The row of a satellite."""
    density = it.moments.density if it.moments.dumps else None
    date = it.date(rollovers, today)
    values: List[Cell] = [
        it.number,
        round(it.doppler_hz, 1),
        None if density is None else round(density, 1),
        it.half_chip,
        *(None if at is None else round(at / rate, 3) for at in times_of(it)),
        it.subframes,
        it.week,
        it.time_of_week_s,
        None if date is None else date.isoformat(' '),
        it.health,
        it.words_failed,
        *(None if flag is None else int(flag) for flag in (it.alert, it.anti_spoof)),
    ]
    return dict(zip(COLUMNS, values))


def times_of(it: Satellite) -> List[Optional[int]]:
    """When it was found, locked, had bits and was lost, in samples."""
    return [it.found, it.locked, it.bits, it.lost]
