"""A system of stand-ins for all that tools/setup asks or installs by. Nothing is installed."""
from __future__ import annotations

import os

from .commands import Outcome, copied, refused, run, write
from .small_checkout import linked_path

# The stand-ins: each reads and writes files in the folder above its own.
APT_GET = '''#!/bin/bash
here="$(dirname "$0")/.."
words=()
while (($#)); do
    if [[ "$1" == -o ]]; then echo "$2" >> "$here/hooks"; shift; else words+=("$1"); fi
    shift
done
set -- "${words[@]}"
echo "${DEBIAN_FRONTEND-} $*" >> "$here/calls"
[[ "$*" != "$(cat "$here/fails")"* ]] || exit 100
case "$1" in
update) cat "$here/later" >> "$here/known" ;;
install) for it in rustc cargo cc python3; do ln -sf "$here/new/$it" "$here/bin/$it"; done ;;
esac
'''
APT_CACHE = '''#!/bin/bash
while read -r name version; do
    [[ "$name" != "$2" ]] || printf '%s:\\n  Installed: (none)\\n  Candidate: %s\\n' "$2" "$version"
done < "$(dirname "$0")/../known"
'''
DPKG_QUERY = '''#!/bin/bash
status=0
for it in "${@:3}"; do
    sed -n "s/^$it //p" "$(dirname "$0")/../states" | grep . || status=1
done
exit "$status"
'''
INSTALL = 'noninteractive install --yes --quiet=2 --no-install-recommends'
UPDATE = ' update --quiet=2'


class Machine:
    """A system of stand-ins: who asks, the Rust in its PATH, and what apt knows, also later."""

    def __init__(self, folder: str, user: int = 0, rust: str = '', known: str = '',
                 later: str = '') -> None:
        self.top = copied(folder, 'tools/setup', '.ci/run', name=f'of {len(os.listdir(folder))}')
        self.bin = linked_path(self.at('bin'), 'grep', 'ln')
        for name in 'cargo', 'cc', 'python3':
            write(self.at(f'new/{name}'), '#!/bin/sh\n', 0o755)
        write(self.at('new/rustc'), '#!/bin/sh\necho rustc 1.96.0\n', 0o755)
        self.has('id', f'#!/bin/sh\necho {user}\n')
        self.has('apt-get', APT_GET)
        self.has('apt-cache', APT_CACHE)
        self.has('dpkg-query', DPKG_QUERY)
        self.has('cc', '#!/bin/sh\n')
        if rust:
            self.has('cargo', '#!/bin/sh\n')
            self.has('rustc', f'#!/bin/sh\necho rustc {rust} "(x 2025-01-01)"\n')
        self.write(calls='', fails='nothing', known=known, later=later, states='')
        write(self.at('tools/gate'), '#!/bin/sh\necho gate "$@"\n', 0o755)

    def at(self, name: str) -> str:
        """The path of a file of it."""
        return os.path.join(self.top, name)

    def write(self, **texts: str) -> None:
        """Writes files that the stand-ins read."""
        for name, text in texts.items():
            write(self.at(name), text)

    def has(self, name: str, text: str) -> None:
        """Puts a stand-in into the PATH."""
        write(self.at(f'bin/{name}'), text, 0o755)

    def lacks(self, *names: str) -> None:
        """Takes commands out of the PATH."""
        for name in names:
            os.remove(self.at(f'bin/{name}'))

    def calls(self) -> list[str]:
        """The calls of apt-get."""
        with open(self.at('calls'), encoding='utf-8') as lines:
            return lines.read().splitlines()

    def run(self, *words: str) -> Outcome:
        """The outcome of a tool."""
        return run([self.at(words[0]), *words[1:]], self.top,
                   {'PATH': self.bin, 'DEBIAN_FRONTEND': None})

    def installs(self, packages: str, *words: str, lines: int = 2) -> list[str]:
        """The faults of tools/setup, which has to install these packages and say so."""
        outcome = self.run('tools/setup', *words)
        said = outcome.said.splitlines()
        faults = [] if (outcome.status, outcome.errors) == (0, '') else [str(outcome)[-300:]]
        wanted = [f'setup: apt-get installs {packages}', 'setup: all is there']
        faults += [f'it says {said}'] * (said[-2:] != wanted or len(said) != lines)
        calls = [it for it in self.calls() if it != UPDATE]
        faults += [f'it calls {self.calls()}'] * (calls != [f'{INSTALL} {packages}'])
        return faults + ['its lists are old'] * (self.calls()[-2:-1] != [UPDATE])

    def does_nothing(self, *words: str) -> list[str]:
        """The faults of tools/setup, which has to find all there."""
        outcome = self.run('tools/setup', *words)
        is_right = outcome == Outcome(0, 'setup: all is there\n', '')
        return ([] if is_right else [str(outcome)[-300:]]) + self.calls()

    def refuses(self, pattern: str, *words: str, status: int = 1) -> list[str]:
        """The faults of tools/setup, which has to say a line and to call nothing."""
        return refused(self.run('tools/setup', *words), f'setup: {pattern}', status) + self.calls()
