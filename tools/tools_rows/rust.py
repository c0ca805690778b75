"""Rows of tools/rust: what it writes of a source, that clauses leave nothing, what it leaves alone,
and what the checks over what it writes go through."""
import os
import re
import sys

from .commands import TOP, changes, contents, copied, refused, run, write

sys.path.insert(0, os.path.join(TOP, 'tools'))
from built import version  # noqa: E402
from rust_text import stripped  # noqa: E402

SOURCE = '''//! A source.

ghost use Rattle.std.specs.Prelude.{◌≡◌};

/// A count.
#[derive(Clone, Drop)]
pub struct Count {
    own: u64,
    ghost small: { own ≤ 8 } by { own-prop self },
}

impl Model for Count {
    ghost type Of = ℕ;
}

impl Count {
    /// One more.
    pub fn next(&mut self, by: u64) -> u64
        requires { by ≤ 8 }
        ensures { result ≡ 1 }
    {
        prove!(by <= 8, "Count::next requires by ≤ 8");
        prove!(self.own <= 8);
        self.own += by;
        self.own
    }
}

/// A law.
pub fn is_small()
    ensures { IsSmall }
{}

#[test]
fn a_test(rt: HostRuntime) {
    assert_one(&rt, one().expect(rt, "{"));
}
'''
AS_RUST = '''//! A source.

/// A count.
#[derive(Clone)]
pub struct Count {
    own: u64,
}

impl Count {
    /// One more.
    pub fn next(&mut self, by: u64) -> u64 {
        assert!(by <= 8, "Count::next requires by ≤ 8");
        debug_assert!(self.own <= 8);
        self.own += by;
        self.own
    }
}

/// A law.
#[doc(hidden)]
pub fn is_small() {}

#[test]
fn a_test() {
    let rt = HostRuntime;
    assert_one(&rt, one().expect((rt, "{").1));
}
'''

# Texts of the sources that are put in another way, and others; and what is then missing.
EDITED = (
    ('bit_planes/src/word_lanes.rt', 'two_windows(table, at[2], at[3])',
     'two_windows(table, at[3], at[2])', 'row 0 of FAST'),
    ('bit_planes/src/word_lanes.rt', 'u8x16::from_slice(&table[second..])',
     'u8x16::from_slice(&table[first..])', 'row 1 of FAST'),
    (None, '#[cold]', '', 'row 3 of FAST'),
    (None, '[u8; 64]', '[u8; 60 + 4]', '64 bytes'),
)
PARITY = 'crates/nav_parity/src/parity.rt'


def read(path):
    """The text of a file."""
    with open(path, encoding='utf-8') as file:
        return file.read()


def texts(rows, _):
    """A source as Rust."""
    said = stripped(SOURCE)
    rows.say('a source as Rust', [said] * (said != AS_RUST))


def words(rows, folder):
    """It has one option, and its help."""
    top = copied(folder, 'tools')
    for given in ['--chek'], ['rust'], ['--check', '--check'], ['']:
        before = contents(folder)
        outcome = run([os.path.join(top, 'tools', 'rust'), *given], folder)
        rows.say(f'tools/rust {given}',
                 refused(outcome, 'rust: .*') + changes(before, contents(folder)))


def a_copy(folder):
    """A copy of what tools/rust reads and writes, and what starts it there."""
    top = copied(folder, 'tools', 'crates', 'crates.txt', 'rust')
    return top, lambda *given: run([os.path.join(top, 'tools', 'rust'), *given], folder)


def checks(rows, folder):
    """What is checked in is what it writes. A change of clauses alone changes nothing, and one of
    code is said and written. What it didn't make it leaves, and says so."""
    top, rust = a_copy(folder)
    rows.say('what is checked in', [str(rust('--check'))] * (rust('--check').status != 0))
    path = os.path.join(top, PARITY)
    text = read(path)
    clause = re.search(r'^ +ensures .*\n', text, re.M)[0]
    write(path, text.replace(clause, f'{clause}    ensures other {{ result ≡ result }}\n', 1))
    outcome = rust('--check')
    rows.say('a clause', [str(outcome)] * (outcome.status or bool(outcome.errors)))
    write(path, f'{text}\n/// One more.\npub fn one_more() {{}}\n')
    line = "rust: rust/nav_parity/parity.rs isn't what tools/rust writes"
    rows.say('another source', refused(rust('--check'), line, 1))
    gone = os.path.join(top, 'rust/nav_parity/gone.rs')
    write(gone, '// Made by tools/rust of nothing.\n')
    own = write(os.path.join(top, 'rust/nav_parity/own.rs'), '// My own.\n')
    rows.say('a file of another', refused(rust(), "rust: rust/nav_parity/own.rs isn't a .*", 1)
             + ['it is gone'] * (not os.path.exists(own) or not os.path.exists(gone)))
    os.remove(own)
    outcome = rust()
    faults = [str(outcome)] * (outcome.status or rust('--check').status)
    rows.say('written anew', faults + ['a file stays'] * os.path.exists(gone))


def fast(rows, folder):
    """Where a text has changed that is put in another way to be fast, one line says so."""
    top, rust = a_copy(folder)
    crates = os.path.join(top, 'crates')
    for file, old, new, missing in EDITED:
        before = {}
        for at, _, names in os.walk(crates):
            for name in names:
                path = os.path.join(at, name)
                if name.endswith('.rt') and (file is None or path.endswith(file)):
                    text = read(path)
                    if old in text:
                        before[path] = text
                        write(path, text.replace(old, new))
        faults = refused(rust('--check'), f'rust: no source has .*{missing}.*', 1)
        rows.say(f'without {old}', faults + ['no source has it'] * (not before))
        for path, text in before.items():
            write(path, text)


def versions(rows, _):
    """The package has the version of the programs."""
    said = re.search(r'^version = "(.*)"$', read(os.path.join(TOP, 'Cargo.toml')), re.M)[1]
    rows.say('the version of Cargo.toml', [f'{said}, not {version()}'] * (said != version()))


def exported():
    """The types that the library exports."""
    uses = re.findall(r'^pub use [\w:]+::(?:\{([^}]*)\}|(\w+));',
                      read(os.path.join(TOP, 'rust/facade/mod.rs')), re.M)
    names = re.findall(r'\w+', ' '.join(several or one for several, one in uses))
    return {name for name in names if re.match('[A-Z].*[a-z]', name)}


def threads(rows, _):
    """The test of threads names each type that the library exports."""
    tests = read(os.path.join(TOP, 'tools/second_receiver/tests/threads.rs'))
    tried = set(re.findall(r'\w+', re.search(r'all_of_threads! \{\n([^}]*)\}', tests)[1]))
    types = exported()
    rows.say('the threads of exported types',
             [f'{it} is not tried' for it in sorted(types - tried)]
             + [f'{it} is not exported' for it in sorted(tried - types)]
             + [f'{len(types)} types'] * (len(types) < 50))


ROWS = (texts, words, checks, fast, versions, threads)
