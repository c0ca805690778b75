"""Rows of tools/gate. All its parts are stand-ins."""
from __future__ import annotations

import os
import re
from typing import Any

from processor_shares import Shares, shares_since

from .commands import TOP, Outcome, contents, copied, run, write

# A part: it notes that it begins, by which Python, how many modules are compiled for that, how many
# jobs `rt` would take, and that it has ended, waits in between until all have begun that a file
# names, and has the status that another says.
PART = '''#!/bin/bash
here="$(dirname "$0")"
name="${0##*/}"
echo "$name $*" >> "$here/../began"
echo "$name $(readlink "$(command -v python3)")" >> "$here/../pythons"
echo "$name $(find "$PYTHONPYCACHEPREFIX" -name '*.pyc' 2> /dev/null | wc -l)" >> "$here/../modules"
echo "$name ${RT_JOBS-}" >> "$here/../jobs"
for ((at = 0; at < 20000; at++)); do
    [[ -s "$here/$name.waits" ]] || break
    missing=''
    while read -r other; do
        grep -q "^$other" "$here/../began" || missing="$other"
    done < "$here/$name.waits"
    [[ -n "$missing" ]] || break
    sleep 0.05
done
echo "words of $name"
echo "$name" >> "$here/../ended"
exit "$(cat "$here/$name.status" 2> /dev/null || echo 0)"
'''
SETUP, FIRST = 'setup --tests', 'gate-times rt ci'

# A line of its table, on Linux: what was idle while a part ran, and what other machines took.
LINE = r'^\| `tools/([a-z-]+)` \| \d+ \| \d+ \| (?:(\d+) %)? \| (?:(\d+) %)? \| passed \|$'

# Those that need nothing of the proofs.
EARLY = {'plain-check', 'python-check', 'tools-check'}


class Gate:
    """The gate over stand-ins of its parts."""

    def __init__(self, folder: str, failing: str = '') -> None:
        self.top = copied(folder, 'tools/gate', 'tools/crate_order.py', 'tools/helping.py',
                          'tools/processor_shares.py')
        with open(os.path.join(TOP, 'tools', 'gate'), encoding='utf-8') as text:
            self.parts = sorted({*re.findall(r"'tools/([a-z-]+)'", text.read())})
        for name in self.parts:
            write(self.at(f'tools/{name}'), PART, 0o755)
        write(self.at('python/seldomplough/own.py'), '')
        if failing:
            write(self.at(f'tools/{failing}.status'), '3')

    def at(self, name: str) -> str:
        """The path of a file of it."""
        return os.path.join(self.top, name)

    def run(self, *words: str) -> Outcome:
        """The outcome of the gate."""
        return run([self.at('tools/gate'), *words], self.top)

    def lines(self, name: str) -> list[str]:
        """The lines of a file that the parts write."""
        if not os.path.exists(self.at(name)):
            return []
        with open(self.at(name), encoding='utf-8') as lines:
            return lines.read().splitlines()

    def faults(self, outcome: Outcome, status: int, last: str, ran: int) -> list[str]:
        """What is wrong with an outcome: its status, its last line, and how many parts ran."""
        found = outcome.status, outcome.said.splitlines()[-1:], len(self.lines('ended'))
        return [f'{found}: {outcome.errors[-300:]}'] * (found != (status, [f'gate: {last}'], ran))


def passes(rows: Any, folder: str) -> None:
    """All parts run, and their words are printed whole, in their order."""
    gate = Gate(folder)
    write(gate.at('tools/gate-times.waits'), ''.join(f'{it}\n' for it in EARLY))
    others = len(gate.parts) - 1
    outcome = gate.run()
    # `tools/build --keep` is run between, and is no part.
    faults = gate.faults(outcome, 0, f'{others - 1} passed, 0 failed', others)
    began = gate.lines('began')
    rows.say('tools/gate', faults + ['it installs'] * (SETUP in began))
    said = re.findall(r'^== tools/(.*)\nwords of (.*)$', outcome.said, re.M)
    pythons, modules = ({it.split()[1] for it in gate.lines(name)
                         if it.split()[0] not in ('gate-times', 'build')}
                        for name in ('pythons', 'modules'))
    rows.say('tools/gate, the Python of the parts',
             [] if len(pythons) == 1 and os.access(min(pythons), os.X_OK) else [str(pythons)])
    left = [it for it in contents(gate.top) if it.endswith('.pyc')]
    rows.say("tools/gate, the companion's modules", [f'{modules}'] * (modules != {'1'}) + left)
    jobs = [it for it in gate.lines('jobs') if re.search(r' \d', it)]
    rows.say('tools/gate, the jobs of its rt ci',
             [] if len(jobs) == 1 and re.match(r'gate-times [1-9]', jobs[0]) else [str(jobs)])
    table = re.findall(LINE, outcome.said, re.M)
    # What ends within a hundredth of a second has no shares. The first part waits for others, and
    # has them where the system counts any.
    wrong = [it for it in table if sum(int(share or 0) for share in it[1:]) > 100]
    is_right = len(table) == others - 1 and table[0][0] == 'gate-times'
    has_shares = is_right and '' not in table[0]
    is_counted = shares_since([0] * 8) is not None
    rows.say('tools/gate, its table',
             [f'{table}'] * (not is_right or wrong != [] or has_shares != is_counted))
    in_order = [name for name, words in said if name == words]
    rows.say('tools/gate, the words of the parts',
             [] if in_order[0] == 'examples-check' and in_order[-1] == 'edits'
             and len(in_order) == others - 2 else [str(in_order)])
    kept = began.index('build --keep')
    rows.say('tools/gate, what begins before the programs are there',
             [] if {*began[:kept]} == {FIRST, *(f'{it} ' for it in EARLY)} else [str(began)])


def shares(rows: Any, folder: str) -> None:
    """What was idle, and what other machines took, of a hundred ticks whose use is known, of which
    none is taken back; nothing where the system doesn't count them."""
    path = os.path.join(folder, 'stat')
    before = [100, 0, 100, 100, 50, 0, 0, 7, 3, 0]
    for name, gone, wanted in (('a hundred', [40, 5, 20, 18, 7, 3, 2, 5, 9, 0], Shares(25, 5)),
                               ('one taken back', [90, 0, 0, 10, -1, 0, 0, 0, 0, 0], Shares(10, 0)),
                               ('none', [0] * 10, None),
                               ('not of other machines', [40, 5, 20, 18, 7, 3, 2], None)):
        after = [was + it for was, it in zip(before, gone)]
        write(path, f'cpu  {" ".join(map(str, after))}\ncpu0 {after[0]} 0 0 9 0 0 0 9 0 0\n')
        found = shares_since(before[:8], path)
        rows.say(f'the shares of processors, {name}', [f'{found}'] * (found != wanted))
    found = shares_since(before[:8], os.path.join(folder, 'nowhere'))
    rows.say('the shares of processors, not counted', [f'{found}'] * (found is not None))


def installs(rows: Any, folder: str) -> None:
    """What the parts need is installed beside the proofs, before any part begins."""
    gate = Gate(folder)
    # The proofs wait for it here, and it for them, to begin.
    write(gate.at('tools/gate-times.waits'), f'{SETUP}\n')
    write(gate.at('tools/setup.waits'), f'{FIRST}\n')
    count = len(gate.parts)
    outcome = gate.run('--setup')
    rows.say('tools/gate --setup', gate.faults(outcome, 0, f'{count - 1} passed, 0 failed', count))
    began = gate.lines('began')
    rows.say('tools/gate --setup, what begins first',
             [] if sorted(began[:2]) == [FIRST, SETUP] else [str(began)])


def failures(rows: Any, folder: str) -> None:
    """A part that fails fails the gate. What waits for the proofs, or for what is installed, isn't
    run where these fail."""
    for failing, words, counts, ran in (
            ('hostile', (), '{} passed, 1 failed', None),
            ('gate-times', (), '3 passed, 1 failed', {'gate-times', *EARLY}),
            ('gate-times', ('--setup',), '4 passed, 1 failed',
             {'gate-times', 'setup', *EARLY}),
            ('setup', ('--setup',), '1 passed, 1 failed', {'gate-times', 'build', 'setup'})):
        gate = Gate(os.path.join(folder, ' '.join((failing, *words))), failing)
        outcome = gate.run(*words)
        count = len(ran) if ran else len(gate.parts) - 1
        faults = gate.faults(outcome, 1, counts.format(len(gate.parts) - 3), count)
        ended = {*gate.lines('ended')}
        rows.say(f'tools/gate {words}, {failing} fails',
                 faults + [str(ended)] * bool(ran and ended != ran))


def odd_words(rows: Any, folder: str) -> None:
    """Other words are refused by what the usage is."""
    gate = Gate(folder)
    for words in (['x'], ['--setup', '--setup'], ['']):
        outcome = gate.run(*words)
        is_right = (outcome.status == 1 and 'usage: gate' in outcome.errors and not outcome.said
                    and not gate.lines('began'))
        rows.say(f'tools/gate {words}', [] if is_right else [str(outcome)[-300:]])


ROWS = passes, shares, installs, failures, odd_words
