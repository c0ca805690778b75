"""Rows of tools/unused: the sources import no name that no clause has, and what counts as one."""
from __future__ import annotations

import os
from typing import Any

from .commands import TOP, copied, refused, run, write

# A file, and the names that the tool has to list for it, by their lines.
FILE = '''//! List is a word of this comment.
ghost use Rattle.std.specs.Prelude.{◌≡◌, ◌<◌, ◌↔◌, length, take, List, first_of as first};
ghost use Rattle.std.specs.Alone;
ghost use Rattle.std.specs.Kept as kept;

pub struct Thing {
    /// take
    count: u64,
    ghost few: { kept.few count },
}

impl<'a> Model for Thing<'a> {
    ghost use Rattle.std.specs.Prelude.{length, take};

    ghost view = { length _ };
}

impl Thing {
    ghost use Rattle.std.specs.Prelude.{length, drop, ◌◂◌};
    ghost use Rattle.channels.specs.Things.{Stands-for, Stands};

    pub fn count(&self) -> u64
        ensures few { (x : Bool) → length result ≡ drop 2 x }
        ensures stands { Stands-for self.now }
    {
        self.count
    }
}

fn least(count: u64) -> bool
    ensures { Stands (count<2) }
    ensures { first ≡ drop }
{
    count < 2
}
'''
LISTED = ['2: ◌↔◌', '2: take', '2: List', '3: Alone', '13: take', '19: length', '19: ◌◂◌',
          '20: Stands']


def rows_of_files(rows: Any, folder: str) -> None:
    """What it lists, and that it lists nothing of the sources here."""
    top = copied(folder, 'tools/unused', 'tools/crate_order.py', 'tools/helping.py')
    write(os.path.join(top, 'crates.txt'), 'one:\nother: one\n')
    path = 'crates/one/src/deep/thing.rt'
    write(os.path.join(top, path), FILE)
    write(os.path.join(top, 'crates/other/src/lib.rt'),
          'ghost use Rattle.std.specs.Alone;\nAlone\n')
    tool = os.path.join(top, 'tools/unused')
    outcome = run([tool], folder)
    found = [it.replace(f'{path}:', '', 1) for it in outcome.said.splitlines()]
    rows.say('tools/unused', [f'{outcome}'] * (outcome.status != 1 or found != LISTED))
    outcome = run([tool, 'other'], folder)
    rows.say('tools/unused of a crate', [f'{outcome}'] * bool(outcome.status or outcome.said))
    rows.say('tools/unused of no crate', refused(run([tool, 'none'], folder), 'unused: [^\n]+'))
    outcome = run([os.path.join(TOP, 'tools/unused')], folder)
    rows.say('imports that no clause names', (outcome.said + outcome.errors).splitlines())


ROWS = (rows_of_files,)
