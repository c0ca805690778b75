"""The receiver bank as WebAssembly: for any browser, and for those that have relaxed operations.
Both are kept in the folder `out/page` of the checkout, and made anew where a source or the
toolchain is another."""

from __future__ import annotations

import hashlib
import os
import tempfile

import built
from built import TOP
from wasm_toolchain import FEATURES, KEPT, TARGET, Say, Toolchain, build, environment, flags_of
from wasm_toolchain import make_kept, toolchain

# The bank's package, and the profile of its build.
PACKAGE, PROFILE = 'bank', 'page'
CRATE = os.path.join(TOP, 'page', 'wasm')
TOOLCHAIN = os.path.join(TOP, 'tools', 'wasm_toolchain.py')


def make_banks(of: Toolchain, say: Say) -> dict[str, bytes]:
    """Makes the banks, by their names."""
    with tempfile.TemporaryDirectory() as work:
        work = os.path.realpath(work)
        banks = {}
        for name, features in FEATURES.items():
            flags = [*flags_of(of, features, say), f'--remap-path-prefix={TOP}=.']
            kept = environment(of, os.path.join(work, 'home'), flags)
            say(f'builds the bank for {features}, which is of plain Rust and not proved')
            target = os.path.join(work, name)
            build(of, TOP, kept, '--package', PACKAGE, '--profile', PROFILE, '--target-dir', target)
            banks[name] = built.read(os.path.join(target, TARGET, PROFILE, f'{PACKAGE}.wasm'))
        return banks


def sum_of_banks(of: Toolchain) -> str:
    """The sum of all that the banks are made of."""
    made = hashlib.sha256(f'{of}\n{built.sum_of_sources("cargo")}\n'.encode())
    for path in sorted(built.files_below(CRATE, {'target'})) + [
        os.path.realpath(__file__),
        TOOLCHAIN,
    ]:
        data = built.read(path)
        made.update(f'{os.path.basename(path)} {len(data)}\n'.encode())
        made.update(data)
    return made.hexdigest()


def path_of(name: str) -> str:
    """Where the bank of a name is kept."""
    return os.path.join(KEPT, f'{name}.wasm')


def mark_of(sources: str, banks: dict[str, bytes]) -> str:
    """What is kept beside banks: the sums of their sources, and of each of them."""
    return ' '.join([sources, *(hashlib.sha256(it).hexdigest() for it in banks.values())])


def kept_banks(mark: str, sources: str) -> dict[str, bytes]:
    """The banks that are kept, where they are made of these sources, and else none."""
    try:
        banks: dict[str, bytes] = {name: built.read(path_of(name)) for name in FEATURES}
        text = built.read(mark).decode()
    except (OSError, UnicodeDecodeError):
        return {}
    return banks if text == mark_of(sources, banks) else {}


def banks_of_page(say: Say) -> dict[str, bytes]:
    """The banks by their names, made where they aren't kept of these sources by this toolchain."""
    make_kept()
    of = toolchain()
    say(
        f'the toolchain is {of.name} with '
        + (f'the standard library of {of.library}' if of.library else f'its target {TARGET}')
    )
    sources, mark = sum_of_banks(of), os.path.join(KEPT, 'bank.sum')
    banks = kept_banks(mark, sources)
    if not banks:
        banks = make_banks(of, say)
        for name, data in banks.items():
            new = f'{path_of(name)}.{os.getpid()}'
            with open(new, 'xb') as file:
                file.write(data)
            os.replace(new, path_of(name))
        built.replace(mark, mark_of(sources, banks))
    return banks
