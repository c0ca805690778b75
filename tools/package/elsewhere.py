#!/usr/bin/env python3
"""Builds both programs as plain Rust for another architecture of Debian, by what tools/elsewhere
needs, and puts them into a folder, by the names `receiver` and `pack`. They need no library of that
system. It prints the path of the qemu by which they run here.
usage: elsewhere.py ARCHITECTURE FOLDER
Where something is missing it says in one line what to type, and ends with status 2."""
from __future__ import annotations

import os
import shutil
import sys
import tempfile

sys.dont_write_bytecode = True
sys.path.insert(0, os.path.dirname(os.path.dirname(os.path.realpath(__file__))))
import children
from builders import Failed
from built import TOP
from elsewhere_toolchain import elsewhere, executables, flags_of

# The processors of other architectures for which packages were tried.
ARCHITECTURES = {'arm64': 'aarch64'}
# The programs, as cargo and the package call them.
PROGRAMS = {'seldomplough-receiver': 'receiver', 'seldomplough-pack': 'pack'}


def say(text: str) -> None:
    """Says a line on standard error."""
    print(f'deb: {text}', file=sys.stderr, flush=True)


def make(processor: str, folder: str) -> str:
    """Puts both programs for a processor into a folder. Gives the path of its qemu."""
    it = elsewhere(processor)
    say(f'cargo build for {processor} by {it.versions}')
    with tempfile.TemporaryDirectory() as work:
        work = os.path.realpath(work)
        # The strip of this system may know no other processor.
        flags = [*flags_of(it, say), '-Cstrip=symbols', f'--remap-path-prefix={TOP}=.']
        os.makedirs(folder)
        for path in executables(it, work, flags, 'build', '--bins'):
            shutil.copy(path, os.path.join(folder, PROGRAMS[os.path.basename(path)]))
    return it.qemu


def main() -> int:
    if len(sys.argv) != 3:
        print(__doc__, file=sys.stderr)
        return 2
    _, architecture, folder = sys.argv
    if architecture not in ARCHITECTURES:
        say(f'of other architectures it builds {" ".join(ARCHITECTURES)} alone')
        return 2
    try:
        children.end_with_signals()
        print(make(ARCHITECTURES[architecture], folder))
    except children.Ended as ended:
        return 128 + int(ended.args[0])
    except Failed as why:
        say(str(why).rstrip())
        return 2
    except OSError as why:
        say(f'{why.filename or ""}: {why.strerror}'.lstrip(': '))
        return 2
    return 0


if __name__ == '__main__':
    sys.exit(main())
