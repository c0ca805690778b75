"""The sources as modules of one package: their paths, the names that they see with no `use`, their
errors, their example, and the root."""
from __future__ import annotations

import os
import re

from rust_text import FAST, FOUND, Failed, block_end, fast, stripped

TOP = os.path.dirname(os.path.dirname(os.path.realpath(__file__)))
MADE = '// Made by tools/rust of '

# The crate whose root is that of the package. Its modules stand in one of their own, since one of
# them is called as another crate is.
ROOT, FACADE = 'seldomplough', 'facade'
KIT = ('arrayvec', 'circular_buffer', 'clap')
# Crates for tests alone, for these and the checks, and for the programs alone, which need a std.
TESTS = ('assertions', 'signal_tests', 'satellite_tests', 'bank_tests', 'programs_tests')
PROGRAMS = ('devices', 'receiver_options', 'receiver', 'receiver_cli', 'packer', 'packer_cli')
BUILT_FOR = {TESTS: 'test', ('made_signals',): 'any(test, feature = "internals")',
             PROGRAMS: 'feature = "programs"'}
# The functions that the programs of rust/bin start with.
STARTS = (('receiver_cli', 'run_receiver'), ('packer_cli', 'run_pack'))

# What sources see with no `use`, and Rust's have not, or otherwise: where it is used in code, its
# name, and its path in kit::std.
PRELUDE = [(rf'\b{path.split(" ")[-1].split("::")[-1]}\b(?!!)', path) for path in (
    'AnyDrop as Drop', 'HostRuntime', 'boxes::Box', 'vec::Vec', 'string::String', 'io::Print',
    'io::Eprint', 'alloc::AllocGlobal as Alloc', 'alloc::AllocGlobal')]
PRELUDE += [(rf'(?<!:)\b{name}!\s*[(\[]\s*(?:in\b|[&*]?\$?\w+;)', path) for name, path in (
    *((name, name) for name in ('assert', 'assert_eq', 'panic', 'println', 'eprint', 'eprintln',
                                'format')), ('vec', 'vec_ as vec'))]
PRELUDE.append((r'\.to_string_in\(', 'string::ToString'))

ERROR = re.compile(r'^#\[derive\((.*), (?:thiserror::)?Error\)\]\n((?:#\[.*\]\n)*)'
                   r'pub (struct|enum) (\w+)', re.M)
SHOWN = '''

impl core::fmt::Display for {name} {{
    fn fmt(&self, f: &mut core::fmt::Formatter<'_>) -> core::fmt::Result {{
{said}    }}
}}

impl core::error::Error for {name} {{}}'''

# The lines around an example, so that it can end early. rustdoc shows none of them.
EXAMPLE = re.compile(r'^//!     .*\n(?:(?://!\n)*//!     .*\n)*', re.M)
MAIN = '# fn main() -> Result<(), std::boxed::Box<dyn core::error::Error>> {\n'
FENCE = ('#![cfg_attr(feature = "internals", doc = "```")]\n'
         '#![cfg_attr(not(feature = "internals"), doc = "```ignore")]\n')

HEAD = '''#![cfg_attr(not(any(test, feature = "programs")), no_std)]
#![deny(unsafe_code)]
// Names that only clauses use, which fell away.
#![allow(dead_code, unused_imports, unused_variables)]
// The lints are for what is exported. The parts that `internals` shows are for this project alone.
#![cfg_attr(feature = "internals", allow(missing_debug_implementations))]
#![cfg_attr(feature = "internals", allow(clippy::all, clippy::pedantic))]

extern crate alloc;

#[doc(hidden)]
pub mod kit;
'''
INTERNALS = '''
/// The parts, for the programs and the checks of this project. They may change in any version.
#[cfg(feature = "internals")]
#[doc(hidden)]
pub mod internals {
    pub use crate::kit::std;
'''


def read(path: str) -> str:
    """The text of a file of the checkout."""
    try:
        with open(os.path.join(TOP, path), encoding='utf-8') as file:
            return file.read()
    except UnicodeDecodeError:
        raise Failed(f'{path} is not in UTF-8') from None


def files_below(folder: str) -> list[str]:
    """The files below a folder, but for an editor's own, by their paths in it."""
    top = os.path.join(TOP, folder)
    return [os.path.relpath(os.path.join(at, name), top) for at, _, names in os.walk(top)
            for name in names if not name.startswith('.') and not name.endswith('~')]


def module(crate: str) -> str:
    """The path of a crate in the package."""
    return f'kit::{crate}' if crate in KIT else FACADE if crate == ROOT else crate


def moduled(text: str, crate: str, below: list[str]) -> str:
    """A source whose paths are those of one package."""
    rules = [(re.compile(rf'(?<![\w:.$]){name}::'), f'crate::{module(name)}::') for name in below]
    rules = [(re.compile(r'\bcrate::(?!kit::)'), f'crate::{module(crate)}::'), *rules,
             (re.compile(r'(?<![\w:])std::'), 'crate::kit::std::')]
    rows = text.splitlines(True)
    for pattern, new in rules:
        rows = [row if row.lstrip().startswith('//') else pattern.sub(new, row) for row in rows]
    return ''.join(rows)


def imported(text: str) -> str:
    """A source that names what it has of the kit's prelude."""
    code = re.sub(r'(?m)^\s*//.*', '', text)
    named = ' '.join(re.findall(r'^ *use [^;]*;', code, re.M))
    paths = sorted(path for word, path in PRELUDE if re.search(word, code) and not re.search(
        rf'\b{path.split(" ")[-1].split("::")[-1]}\b(?!::)', named))
    uses = ''.join(f'use crate::kit::std::{path};\n' for path in paths)
    head = len(re.split(r'^(?!//!|#!\[|$)', text, 1, re.M)[0])
    gap = '\n' * bool(uses and not text.startswith('use ', head))
    return text[:head] + uses + gap + text[head:]


def shown(kind: str, name: str, attributes: str, item: str) -> str:
    """The lines that write an error of a type, by what its attributes say."""
    if kind == 'struct':
        return f'        f.write_str({"".join(re.findall("#.error.(.*).]", attributes))})\n'
    arms = re.findall(r'#\[error\((".*")\)\]\n(?: *///.*\n)* *(\w+)(\()?', item)
    return '        match self {\n' + ''.join(
        f'            {name}::{variant}(value) => write!(f, {words}, value),\n' if held else
        f'            {name}::{variant} => f.write_str({words}),\n'
        for words, variant, held in arms) + '        }\n'


def erring(text: str) -> str:
    """A source whose errors have what `derive(Error)` writes."""
    text = re.sub(r'^use thiserror::Error;\n', '', text, flags=re.M)
    while found := ERROR.search(text):
        derived, attributes, kind, name = found.groups()
        end = text.index(';', found.end()) + 1 if text[found.end()] in '(;' else \
            block_end(text, found.end())
        item = text[found.start():end].replace(found[0].split('\n')[0], f'#[derive({derived})]', 1)
        said = shown(kind, name, attributes, item)
        item = re.sub(r'^ *#\[error\(.*\)\]\n', '', item, flags=re.M)
        text = text[:found.start()] + item + SHOWN.format(name=name, said=said) + text[end:]
    return text


def example(text: str, crate: str, crates: list[str]) -> str:
    """A root whose example, which is indented, is a test. That of a part is one of the checks."""
    def fenced(found: re.Match[str]) -> str:
        lines = re.sub(r'^//!(?:     )?', '', found[0], flags=re.M)
        if crate != ROOT:
            lines = imported(moduled(lines, crate, crates))
            lines = re.sub('crate::(?!kit::)', 'crate::internals::', lines)
            lines = lines.replace('crate::', f'{ROOT}::')
        if 'HostRuntime' not in lines:
            lines = lines.replace('rt.alloc()', f'{ROOT}::Global')
        lines = f'{MAIN}{lines}# Ok(())\n# }}\n```\n'
        lines = re.sub(r'^.*\n', lambda it: f'//! {it[0]}'.rstrip() + '\n', lines, flags=re.M)
        return ('//! ```\n' if crate == ROOT else FENCE) + lines

    return EXAMPLE.sub(fenced, text, count=1)


def condition(crate: str) -> str:
    """The line that says for what a crate is built; none for one that always is."""
    return next((f'#[cfg({when})]\n' for crates, when in BUILT_FOR.items() if crate in crates), '')


def files_of(crate: str, crates: dict[str, list[str]], seen: set[object]) -> dict[str, str]:
    """The files of a crate, by path. Adds to `seen` as `fast` does."""
    folder, files = f'crates/{crate}/src', {}
    below = [name for name in crates[crate] if name in KIT or name in crates]
    sources = {name[:-3]: read(f'{folder}/{name}') for name in files_below(folder)}
    has_lanes = any('std::simd' in text for text in sources.values())
    sources = {name: stripped(text) for name, text in sources.items()}
    for name, text in (fast(sources, seen) if has_lanes else sources).items():
        text = example(text, crate, [*crates]) if name == 'lib' else text
        text = re.sub(r'^fn main\(', '#[must_use]\npub fn main(', text, flags=re.M)
        text = imported(moduled(erring(text), crate, below))
        file = 'mod' if name in ('lib', 'main') else name
        files[f'{module(crate)}/{file}.rs'] = f'{MADE}{folder}/{name}.rt: change that.\n{text}'
    return files


def root(docs: str, crates: list[str], programs: list[str]) -> str:
    """The root of the package, whose docs are given: crates and programs, in their order."""
    mods = ''.join(f'{condition(it)}mod {module(it)};\n' for it in crates)
    starts = ''.join(f'#[cfg(feature = "programs")]\n#[doc(hidden)]\npub use {crate}::main as '
                     f'{name};\n' for crate, name in STARTS)
    parts = ''.join(
        f'{"    " * bool(condition(it))}{condition(it)}    pub mod {it} {{\n'
        f'        pub use crate::{it}::*;\n    }}\n'
        for it in crates if it not in (*TESTS, *programs, ROOT))
    made = f'{MADE}crates.txt and crates/{ROOT}/src/lib.rt: change those.\n'
    return f'{made}{docs}{HEAD}{mods}\npub use {FACADE}::*;\n\n{starts}{INTERNALS}{parts}}}\n'


def all_files() -> dict[str, str]:
    """All files that the tool makes, by path."""
    rows = [row.split('#')[0].partition(':') for row in read('crates.txt').split('\n')]
    crates = {crate.strip(): names.split() for crate, colon, names in rows if colon}
    crates = {crate: names for crate, names in crates.items() if not crate.startswith('definition')}
    files: dict[str, str] = {}
    seen: set[object] = set()
    for crate in crates:
        files.update(files_of(crate, crates, seen))
    for it in (*range(len(FAST)), *FOUND) if seen else ():
        if it not in seen:
            what = it if it in FOUND else f'what row {it} of FAST'
            raise Failed(f'no source has {what}, which tools/rust_text.py makes faster by its text')
    made, docs, rest = re.split(r'^((?://!.*\n)+)', files[f'{FACADE}/mod.rs'], 1, re.M)
    files[f'{FACADE}/mod.rs'] = made + rest
    files['lib.rs'] = root(docs, list(crates), [crate for crate, _ in STARTS])
    return files
