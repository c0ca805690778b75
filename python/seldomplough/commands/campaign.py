"""Does a step of a campaign: many recordings, with the same scripts for each.

TABLE is CSV with a header. Its columns are path, kind (as `pack --from`, or a packing of the
receiver), rate, offset (where 1575.42 MHz lies in the file as it is) and mirrored (yes where the
spectrum is inverted, else no). name, threshold (for two bits a part) and samples (how many it ought
to have) may be there too.
Paths begin at the table's folder, and names are those of the files if not given.

    plan      prints the jobs: each recording with its groups of scripts, what they cost in seconds
              of a processor, and whether it is of the tenth that is drawn to be compared; builds
              the programs of a checkout where they aren't
    pack      packs the recording NAME
    run       runs one GROUP of scripts, such as 1-3, over it
    merge     merges the lines of all of its groups
    check     sees that all runs of it are whole, read all samples, and were made alike
    compare   sees that its merged lines are those of one process
    table     writes campaign.csv and campaign.html for all recordings

Files go into FOLDER: packed, lines, merged, checked and compared. Each is written beside its place
and moved when it is whole, with a record of JSON of what it was made of. `pack` and `run` do
nothing where that is there already. examples/farm has these steps for Snakemake, Slurm and GNU
parallel.

    seldomplough campaign plan --scripts folder recordings.csv
"""

from __future__ import annotations

import argparse
import os
import re
from typing import Callable, Dict, List, Sequence

from seldomplough import campaigns, checking, files, jobs, numbers, provenance, summaries
from seldomplough import tables
from seldomplough.campaigns import Entry
from seldomplough.commands import options
from seldomplough.failures import WORDS, Failure, shown
from seldomplough.groups import SEARCH, Group, groups, scripts_of, sha256_of
from seldomplough.layouts import Campaign
from seldomplough.tables import Cell

# The seconds of a processor that a job with more than one script may cost.
SECONDS = 600
PLAN = ('name', 'group', 'path', 'packed', 'drawn', 'samples', 'cost_s', 'scripts_sha256')
GROUP = re.compile('([1-9][0-9]{0,5})-([1-9][0-9]{0,5})')


def add(subparsers: options.Subparsers) -> None:
    """Adds the command's words."""
    parser = options.command(subparsers, 'campaign')
    parser.add_argument('step', choices=list(STEPS), metavar='STEP', help=', '.join(STEPS))
    parser.add_argument('recordings', metavar='TABLE', help='the recordings')
    parser.add_argument('name', nargs='?', metavar='NAME', help='that of a recording')
    parser.add_argument('groups', nargs='*', type=group, metavar='GROUP', help='of its scripts')
    for name, metavar, value, what in (
        ('scripts', 'FOLDER', SEARCH, 'of files *.script; those of `search` if not given'),
        ('to', 'FOLDER', os.curdir, 'where files go; the current one if not given'),
        ('scratch', 'FOLDER', None, 'where files are written first; beside their places if not'),
    ):
        parser.add_argument(f'--{name}', metavar=metavar, default=value, help=what)
    parser.add_argument(
        '--seconds',
        type=numbers.decimal(0, 999999),
        default=SECONDS,
        metavar='S',
        help=f'plan: of a processor, for a job of more than one script; {SECONDS} if not given',
    )
    parser.add_argument(
        '--pipe', action='store_true', help='each run packs for itself: no packed file is kept'
    )
    parser.add_argument(
        '--rollovers',
        type=numbers.integer(0, 100),
        metavar='N',
        help="table: of the week's number, as for `sky`",
    )
    tables.add(parser)
    options.add_programs(parser)
    parser.set_defaults(run=run)


def group(word: str) -> Group:
    """A type of argparse: FIRST-LAST."""
    found = GROUP.fullmatch(word)
    if not found or int(found[1]) > int(found[2]):
        raise argparse.ArgumentTypeError(f"'{shown(word)}' is no group such as 1-3")
    return Group(int(found[1]), int(found[2]))


def run(arguments: argparse.Namespace) -> int:
    """Does the step."""
    entries = campaigns.read(arguments.recordings)
    campaign = Campaign(
        arguments.scripts,
        arguments.to,
        arguments.receiver,
        arguments.pack,
        arguments.scratch,
        not arguments.pipe,
    )
    if (arguments.step in OF_ONE) != (arguments.name is not None):
        text = 'takes no NAME' if arguments.name else 'needs the NAME of a recording'
        raise Failure(f'campaign: {arguments.step} {text}', WORDS)
    return STEPS[arguments.step](campaign, entries, arguments)


def plan(campaign: Campaign, entries: Sequence[Entry], arguments: argparse.Namespace) -> int:
    """Prints the jobs. A checkout's programs are built here, so that no job has to."""
    for program in (campaign.receiver, campaign.pack):
        provenance.of_program(program)
    found = scripts_of(campaign.scripts)
    drawn = set(campaigns.drawn([it.name for it in entries]))
    rows: List[Dict[str, Cell]] = []
    for entry in entries:
        source = campaign.source(entry)
        packed = None if source == entry.recording else os.path.basename(source.name)
        is_drawn = 'yes' if entry.name in drawn else 'no'
        for it, cost in groups(entry, found, arguments.seconds):
            samples, digest = entry.recording.samples(), sha256_of(it.of(found))
            what = (entry.name, str(it), entry.recording.name, packed, is_drawn, samples)
            rows.append(dict(zip(PLAN, (*what, round(cost, 3), digest))))
    with files.write() as sink:
        tables.write(sink, arguments.table, PLAN, rows)
    return 0


def named(entries: Sequence[Entry], arguments: argparse.Namespace) -> Entry:
    """The recording that is named, with at least one group where the step needs such."""
    for entry in entries:
        if entry.name == arguments.name:
            return entry
    raise Failure(f"campaign: '{shown(arguments.name)}' is the name of no recording", WORDS)


def pack(campaign: Campaign, entries: Sequence[Entry], arguments: argparse.Namespace) -> int:
    """Packs a recording."""
    jobs.pack(campaign, named(entries, arguments))
    return 0


def run_group(campaign: Campaign, entries: Sequence[Entry], arguments: argparse.Namespace) -> int:
    """Runs a group of scripts."""
    if len(arguments.groups) != 1:
        raise Failure('campaign: run takes one GROUP', WORDS)
    jobs.run(campaign, named(entries, arguments), arguments.groups[0])
    return 0


def merge(campaign: Campaign, entries: Sequence[Entry], arguments: argparse.Namespace) -> int:
    """Merges the lines of a recording."""
    jobs.merge(campaign, named(entries, arguments), needed(arguments))
    return 0


def needed(arguments: argparse.Namespace) -> Sequence[Group]:
    """All groups of a recording."""
    found: Sequence[Group] = arguments.groups
    if not found:
        raise Failure(f'campaign: {arguments.step} needs all GROUPs', WORDS)
    return found


def check(campaign: Campaign, entries: Sequence[Entry], arguments: argparse.Namespace) -> int:
    """Checks a recording."""
    entry = named(entries, arguments)
    seen = checking.check(campaign, entry, needed(arguments))
    return record(campaign.seen(entry, 'checked'), seen)


def compare(campaign: Campaign, entries: Sequence[Entry], arguments: argparse.Namespace) -> int:
    """Compares a recording's lines with those of one process."""
    entry = named(entries, arguments)
    return record(campaign.seen(entry, 'compared'), checking.compare(campaign, entry))


def record(name: str, seen: provenance.Record) -> int:
    """Writes what a step saw into a file."""
    files.folder(os.path.dirname(name))
    provenance.write(name, seen)
    return 0


def table(campaign: Campaign, entries: Sequence[Entry], arguments: argparse.Namespace) -> int:
    """Writes the table of the campaign."""
    missing = summaries.write(campaign, entries, arguments.rollovers)
    for text in missing:
        files.say(text)
    if missing:
        raise Failure(f'{len(missing)} of {len(entries)} recordings are not done')
    return 0


Step = Callable[[Campaign, Sequence[Entry], argparse.Namespace], int]
STEPS: Dict[str, Step] = {
    'plan': plan, 'pack': pack, 'run': run_group, 'merge': merge, 'check': check,
    'compare': compare, 'table': table,
}  # fmt: skip
OF_ONE = ('pack', 'run', 'merge', 'check', 'compare')
