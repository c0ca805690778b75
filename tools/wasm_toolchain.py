"""What builds for WebAssembly: a toolchain that has the target, or the one of Debian's packages
with a standard library that is made of their sources first. That is kept in the folder `out/page`
of the checkout."""

from __future__ import annotations

import hashlib
import os
import shutil
import tempfile
from typing import Callable, NamedTuple, Optional

import built
from builders import Failed, run

TARGET = 'wasm32-unknown-unknown'
KEPT = os.path.join(built.OUT, 'page')

# The features that the bank is built for, by the name of what comes of it. All browsers have had
# vectors of 16 bytes since 2023. Relaxed operations make it quicker, and not all browsers have
# them.
FEATURES = {'bank': '+simd128', 'relaxed': '+simd128,+relaxed-simd'}

# The programs of Debian's packages, and the packages that have all that is needed.
DEBIAN = ('/usr/bin/rustc', '/usr/bin/cargo')
PACKAGES = 'rustc-web cargo-web rust-web-src lld'

# What tests alone need of the standard library. It isn't optimised: that took a fifth of the
# seconds of processors, and tests would end no sooner.
OF_TESTS = ('test', 'proc_macro', 'getopts')

# An empty crate: cargo builds the standard library beside it.
EMPTY = '[package]\nname = "empty"\nedition = "2024"\n\n[lib]\n\n[workspace]\n' + ''.join(
    f'\n[profile.release.package.{it}]\nopt-level = 0\n' for it in OF_TESTS
)
VENDORED = '[source.crates-io]\nreplace-with = "vendored"\n\n[source.vendored]\ndirectory = "{}"\n'

Say = Callable[[str], None]


class Toolchain(NamedTuple):
    """A rustc with its cargo: what it says of itself, and the sources of its standard library where
    that has to be made."""

    rustc: str
    cargo: str
    line: str
    library: Optional[str]

    @property
    def name(self) -> str:
        """Its version, as it is said."""
        return ' '.join(self.line.split()[:2])


def has_target(rustc: str, target: str = TARGET) -> bool:
    """Whether a toolchain has a standard library for a target."""
    folder = built.said_by([rustc, '--print', 'target-libdir', '--target', target])
    return os.path.isdir(folder) and any(it.startswith('libstd-') for it in os.listdir(folder))


def toolchain() -> Toolchain:
    """The toolchain that makes the bank: the one in the PATH or Debian's where it has the target,
    or else Debian's with the sources of its standard library."""
    in_path = (built.find('rustc'), built.find('cargo'))
    for rustc, cargo in (in_path, DEBIAN):
        if rustc and cargo and os.access(rustc, os.X_OK) and has_target(rustc):
            return Toolchain(rustc, cargo, built.said_by([rustc, '-Vv']), None)
    has_debian = all(os.access(path, os.X_OK) for path in DEBIAN)
    line = built.said_by([DEBIAN[0], '-Vv']) if has_debian else ''
    library = f'/usr/src/rustc-{line.split()[1]}/library' if line else ''
    if not os.path.isdir(os.path.join(library, 'vendor')):
        raise Failed(
            f'the target {TARGET} is missing: rustup target add {TARGET}, or'
            f' apt-get install {PACKAGES}'
        )
    if not built.find('wasm-ld'):
        raise Failed('wasm-ld is missing: apt-get install lld')
    return Toolchain(*DEBIAN, line, library)


def environment(of: Toolchain, home: str, flags: list[str]) -> dict[str, str]:
    """The environment of a build with these flags of rustc: nothing of the user's turns it."""
    kept = {**built.clean_environment(), 'RUSTC': of.rustc, 'CARGO_HOME': home}
    if of.library:
        # The rustc of Debian has no linker of its own.
        kept['CARGO_TARGET_WASM32_UNKNOWN_UNKNOWN_LINKER'] = 'wasm-ld'
    # A blank in a path parts no flags.
    return {**kept, 'CARGO_ENCODED_RUSTFLAGS': '\x1f'.join(flags)}


def write(path: str, text: str) -> None:
    """Writes a file, and the folders that it lies in."""
    os.makedirs(os.path.dirname(path), exist_ok=True)
    with open(path, 'w', encoding='utf-8') as file:
        file.write(text)


def build(of: Toolchain, folder: str, kept: dict[str, str], *more: str) -> None:
    """Builds a crate for the target, in an environment."""
    words = [of.cargo, 'build', '--offline', '--quiet', '--target', TARGET, *more]
    run(words, folder, env=kept)


def make_library(of: Toolchain, library: str, to: str) -> None:
    """Makes the standard library, with that of tests, for the target."""
    with tempfile.TemporaryDirectory() as work:
        write(os.path.join(work, 'Cargo.toml'), EMPTY)
        write(os.path.join(work, 'src', 'lib.rs'), '')
        vendored = os.path.join(library, 'vendor')
        write(os.path.join(work, '.cargo', 'config.toml'), VENDORED.format(vendored))
        flags = [f'--remap-path-prefix={os.path.dirname(library)}=rust']
        kept = environment(of, os.path.join(work, 'home'), flags)
        # What std has that isn't stable. It goes without backtraces, of which there are none here.
        kept['RUSTC_BOOTSTRAP'] = '1'
        of_std = ['build-std=std,panic_abort,test', 'build-std-features=panic-unwind']
        build(of, work, kept, '--release', *(word for it in of_std for word in ('-Z', it)))
        made = os.path.join(work, 'target', TARGET, 'release', 'deps')
        os.makedirs(to)
        for name in os.listdir(made):
            if name.endswith('.rlib') and not name.startswith('libempty-'):
                shutil.copyfile(os.path.join(made, name), os.path.join(to, name))


def make_kept() -> None:
    """Makes the folder in which all this is kept."""
    built.make_out()
    os.makedirs(KEPT, exist_ok=True)


def sysroot(of: Toolchain, library: str, say: Say) -> str:
    """The folder in which rustc finds the standard library for the target, made where it isn't."""
    mark = hashlib.sha256(of.line.encode()).hexdigest()[:16]
    path = os.path.join(KEPT, f'sysroot-{mark}')
    if not os.path.isdir(path):
        say(f'makes the standard library for {TARGET}, once, in about a minute')
        new = tempfile.mkdtemp(dir=KEPT)
        try:
            make_library(of, library, os.path.join(new, 'lib', 'rustlib', TARGET, 'lib'))
            os.replace(new, path)
        finally:
            shutil.rmtree(new, ignore_errors=True)
    return path


def flags_of(of: Toolchain, features: str, say: Say) -> list[str]:
    """The flags of rustc for the target with some features, and without a counter for each address
    in a loop. There is no register left for those."""
    flags = [f'-Ctarget-feature={features}', '-Cllvm-args=-disable-lsr']
    return [*flags, f'--sysroot={sysroot(of, of.library, say)}'] if of.library else flags
