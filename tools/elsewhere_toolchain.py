"""What builds for another processor of Linux: a toolchain that has the target, or the one of
Debian's packages with a standard library that is made of their sources first, a linker of its own,
and qemu, by which the programs run here. The library is kept in the folder `out/elsewhere` of the
checkout."""

from __future__ import annotations

import hashlib
import json
import os
import re
import shutil
import tempfile
from typing import Callable, NamedTuple, Optional

import built
from builders import Failed, run
from wasm_toolchain import DEBIAN, EMPTY, VENDORED, Toolchain, has_target, write

# The processors that are tried, as compilers and qemu call them, and as Debian's libraries do.
PROCESSORS = {'aarch64': 'arm64', 's390x': 's390x'}
KEPT = os.path.join(built.OUT, 'elsewhere')

Say = Callable[[str], None]


class Elsewhere(NamedTuple):
    """What builds and runs for a processor, by paths."""

    processor: str
    of: Toolchain
    linker: str
    qemu: str

    @property
    def target(self) -> str:
        """What rustc calls it."""
        return f'{self.processor}-unknown-linux-gnu'

    @property
    def versions(self) -> str:
        """The versions of all this, as they are said."""
        tools = [built.said_by([it, '--version']) for it in (self.linker, self.qemu)]
        linker, qemu = (re.search(r'\d+\.\d+[.\d]*', text) for text in tools)
        return (
            f'{self.of.name}, gcc {linker[0] if linker else "?"},'
            f' qemu {qemu[0] if qemu else "?"}'
        )


def packages(processor: str) -> str:
    """What has all that is needed, as Debian 12 calls it."""
    return (
        f'gcc-{processor}-linux-gnu libc6-dev-{PROCESSORS[processor]}-cross qemu-user-static'
        ' rustc-web cargo-web rust-web-src'
    )


def sources_of(line: str) -> Optional[str]:
    """The folder of the sources of a standard library, with all that they stand on, which Debian's
    rustc of this line has."""
    folder = f'/usr/src/rustc-{line.split()[1]}/library' if line else ''
    return folder if os.path.isdir(os.path.join(folder, 'vendor')) else None


def toolchain(target: str) -> Optional[Toolchain]:
    """The one in the PATH or Debian's where it has the target, or else Debian's with the sources of
    its standard library."""
    in_path = (built.find('rustc'), built.find('cargo'))
    for rustc, cargo in (in_path, DEBIAN):
        if rustc and cargo and os.access(rustc, os.X_OK) and has_target(rustc, target):
            return Toolchain(rustc, cargo, built.said_by([rustc, '-Vv']), None)
    has_debian = all(os.access(path, os.X_OK) for path in DEBIAN)
    line = built.said_by([DEBIAN[0], '-Vv']) if has_debian else ''
    library = sources_of(line)
    return Toolchain(*DEBIAN, line, library) if library else None


def linker_for(processor: str) -> Optional[str]:
    """The C compiler that links for a processor, where it has a C library too."""
    linker = built.find(f'{processor}-linux-gnu-gcc')
    is_whole = linker and os.path.isabs(built.said_by([linker, '-print-file-name=libc.a']))
    return linker if is_whole else None


def elsewhere(processor: str) -> Elsewhere:
    """What builds and runs for a processor."""
    linker = linker_for(processor)
    qemu = built.find(f'qemu-{processor}-static') or built.find(f'qemu-{processor}')
    of = toolchain(f'{processor}-unknown-linux-gnu')
    if not (linker and qemu and of):
        raise Failed(f'something is missing; on Debian 12: apt-get install {packages(processor)}')
    return Elsewhere(processor, of, linker, qemu)


def environment(it: Elsewhere, home: str, flags: list[str]) -> dict[str, str]:
    """The environment of a build with these flags of rustc: nothing of the user's turns it."""
    name = it.target.upper().replace('-', '_')
    # A blank in a path parts no flags.
    return {
        **built.clean_environment(),
        'RUSTC': it.of.rustc,
        'CARGO_HOME': home,
        f'CARGO_TARGET_{name}_LINKER': it.linker,
        'CARGO_ENCODED_RUSTFLAGS': '\x1f'.join(flags),
    }


def executables(it: Elsewhere, work: str, flags: list[str], *words: str) -> list[str]:
    """The paths of what cargo builds of the package for a processor, in a folder, by its words and
    flags of rustc."""
    command = [it.of.cargo, *words, '--offline', '--quiet', '--release', '--target', it.target]
    command += ['--message-format', 'json-render-diagnostics', '--package', 'seldomplough']
    command += ['--target-dir', os.path.join(work, 'target')]
    kept = environment(it, os.path.join(work, 'home'), flags)
    messages = str(run(command, built.TOP, env=kept))
    made = (json.loads(line) for line in messages.split('\n') if line.startswith('{'))
    return sorted(found['executable'] for found in made if found.get('executable'))


def make_library(it: Elsewhere, library: str, to: str) -> None:
    """Makes the standard library, with that of tests, for the target."""
    with tempfile.TemporaryDirectory() as work:
        write(os.path.join(work, 'Cargo.toml'), EMPTY)
        write(os.path.join(work, 'src', 'lib.rs'), '')
        vendored = os.path.join(library, 'vendor')
        write(os.path.join(work, '.cargo', 'config.toml'), VENDORED.format(vendored))
        # The programs are built by `lto`, which needs the bitcode.
        flags = ['-Cembed-bitcode=yes', f'--remap-path-prefix={os.path.dirname(library)}=rust']
        kept = environment(it, os.path.join(work, 'home'), flags)
        # What std has that isn't stable.
        kept['RUSTC_BOOTSTRAP'] = '1'
        words = [it.of.cargo, 'build', '--offline', '--quiet', '--release', '--target', it.target]
        run([*words, '-Z', 'build-std=std,panic_unwind,test'], work, env=kept)
        made = os.path.join(work, 'target', it.target, 'release', 'deps')
        os.makedirs(to)
        for name in os.listdir(made):
            if name.endswith('.rlib') and not name.startswith('libempty-'):
                shutil.copyfile(os.path.join(made, name), os.path.join(to, name))


def kept_library(it: Elsewhere) -> str:
    """Where the standard library is kept that is made for a processor."""
    mark = hashlib.sha256(f'{it.target} {it.of.line}'.encode()).hexdigest()[:16]
    return os.path.join(KEPT, f'sysroot-{mark}')


def flags_of(it: Elsewhere, say: Say) -> list[str]:
    """The flags of rustc for the target: a program that needs no library of that system, over a
    standard library that is made where the toolchain has none."""
    flags = ['-Ctarget-feature=+crt-static']
    if not it.of.library:
        return flags
    path = kept_library(it)
    if not os.path.isdir(path):
        say(f'makes the standard library for {it.target}, once, in about a minute')
        built.make_out()
        os.makedirs(KEPT, exist_ok=True)
        new = tempfile.mkdtemp(dir=KEPT)
        try:
            make_library(it, it.of.library, os.path.join(new, 'lib', 'rustlib', it.target, 'lib'))
            os.replace(new, path)
        finally:
            shutil.rmtree(new, ignore_errors=True)
    return [*flags, f'--sysroot={path}']
