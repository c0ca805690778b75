"""A checkout as small as can be built: two programs over one library that print their version, or
an option where they are asked for help. All its tools are the real ones. A row may give it an `rt`
of the kit's kind, which proves nothing."""
import os
import re
import shutil
import signal
import subprocess
import sys

from hanging import HANGS

from .commands import TOP, copied, run, write

MAIN = '''//! A program that prints its version, or its help.
use std::env;
use version::VERSION;

fn main(rt: HostRuntime) {
    if env::args(&rt).is_ok_and(|mut words| words.any(|it| it.as_str() == "--help")) {
        println!("      --rate <HZ>  Samples a second");
    } else {
        println!("%s {}", VERSION);
    }
}
'''
CRATES = 'version:\nreceiver_cli: version\npacker_cli: version\nseldomplough: version\n'
LIBRARY = 'crates/version/src/lib.rt'

FACADE = '//! The library.\n\npub use version::VERSION;\n'
LOCK = 'version = 4\n\n[[package]]\nname = "seldomplough"\nversion = "1.0.0"\n'

# Its rt notes each call. `lib` waits where a file says so. `run` makes the program, or takes one
# that lies beside it.
RT = '''#!%s
import os
import re
import shutil
import sys
import time

HERE = os.path.dirname(os.path.realpath(__file__))


class rtlib:
    stop_on_text = None

    class Crate:
        is_built = build_rlib = None

        def stamp(self):
            return ''


def main(words):
    if words[0] == 'version':
        print(open(HERE + '/line').read())
        return 0
    with open(HERE + '/calls', 'a', errors='surrogateescape') as calls:
        print(os.getpid(), words[0], os.getcwd(), file=calls)
    if words[0] == 'lib' and os.path.exists(HERE + '/waits'):
        time.sleep(%d)
    os.makedirs('out/rlib', exist_ok=True)
    if words[0] == 'run':
        name = os.path.basename(os.getcwd())
        path = 'out/' + name
        if os.path.exists(HERE + '/' + name):
            shutil.copy(HERE + '/' + name, path)
            return 0
        with open(path, 'w') as program:
            program.write('#!/bin/sh\\necho proved\\n')
        os.chmod(path, 0o755)
    return 0


if __name__ == '__main__':
    sys.exit(main(sys.argv[1:]))
'''


def heed_signals():
    """Takes back that signals are ignored which end a command."""
    for number in signal.SIGINT, signal.SIGTERM, signal.SIGHUP:
        signal.signal(number, signal.SIG_DFL)


def linked_path(folder, *names):
    """A folder for the PATH with links to these commands alone, and what every script needs."""
    os.makedirs(folder, exist_ok=True)
    usual = ('bash', 'sh', 'env', 'readlink', 'dirname', 'nice', 'git', 'sed', 'cat', 'sleep')
    for name in (*usual, *names):
        found = shutil.which(name)
        if found and not os.path.lexists(os.path.join(folder, name)):
            os.symlink(found, os.path.join(folder, name))
    # Not by pyenv's script, which would be much of what is measured.
    if not os.path.lexists(os.path.join(folder, 'python3')):
        os.symlink(sys.executable, os.path.join(folder, 'python3'))
    return folder


class Checkout:
    """A small checkout in a folder, and the PATH that its commands get."""

    def __init__(self, folder, name='checkout'):
        self.folder = folder
        self.top = copied(folder, 'tools', 'receiver', 'pack', 'HANDLES', 'LICENSE-MIT',
                          'LICENSE-APACHE', 'Makefile', 'rust/kit', 'rust/bin', name=name)
        os.makedirs(os.path.join(self.top, '.git'))
        write(self.at('crates.txt'), CRATES)
        for crate, called in ('receiver_cli', 'receiver'), ('packer_cli', 'pack'):
            write(self.at(f'crates/{crate}/src/main.rt'), MAIN % called)
        write(self.at('crates/seldomplough/src/lib.rt'), FACADE)
        # The other members stand on crates that aren't here. The size of its programs is no matter,
        # and how long they take to build is.
        with open(os.path.join(TOP, 'Cargo.toml'), encoding='utf-8') as file:
            text = re.sub('members = .*', 'members = []', file.read())
        write(self.at('Cargo.toml'), text.replace('lto = true', 'opt-level = 0'))
        write(self.at('Cargo.lock'), LOCK)
        self.set_version('1.0.1')
        self.path = linked_path(os.path.join(folder, 'bin'), 'cargo', 'rustc', 'rustup', 'cc', 'ld')
        self.bare = linked_path(os.path.join(folder, 'bare'))

    def at(self, name):
        """The path of a file in it."""
        return os.path.join(self.top, name)

    def set_version(self, version):
        """Has its programs print a version."""
        write(self.at(LIBRARY), f'//! The version.\n\npub const VERSION: &str = "{version}";\n')
        self.write_rust()

    def write_rust(self):
        """Has tools/rust write its sources as Rust."""
        subprocess.run([sys.executable, self.at('tools/rust')], check=True)

    def add_rt(self, line):
        """Puts an `rt` that calls itself so before all else in the PATH. Gives its folder."""
        folder = os.path.join(self.folder, 'kit', 'bin')
        write(os.path.join(folder, 'rt'), RT % (sys.executable, 2 * HANGS), 0o755)
        write(os.path.join(folder, 'line'), line)
        self.path = f'{folder}:{self.path}' if folder not in self.path else self.path
        return folder

    def calls(self):
        """The calls of its rt: process, command and folder."""
        path = os.path.join(self.folder, 'kit', 'bin', 'calls')
        if not os.path.exists(path):
            return []
        with open(path, encoding='utf-8', errors='surrogateescape') as lines:
            return [line.split(maxsplit=2) for line in lines.read().splitlines()]

    def environment(self, **more):
        """The environment of its commands."""
        return {'PATH': self.path, 'RECEIVER_PLAIN': None, **more}

    def run(self, *words, **more):
        """The outcome of one of its tools, by its path in the checkout and its words."""
        return run([self.at(words[0]), *words[1:]], self.top, self.environment(**more))

    def start(self, *words, **more):
        """Starts one of its tools, with pipes. No signal that ends it is ignored from the start, as
        it would be below nohup."""
        environment = {**os.environ, **self.environment(**more)}
        environment = {name: value for name, value in environment.items() if value is not None}
        return subprocess.Popen([self.at(words[0]), *words[1:]], cwd=self.top, env=environment,
                                stdin=subprocess.DEVNULL, stdout=subprocess.PIPE,
                                stderr=subprocess.PIPE, encoding='utf-8', preexec_fn=heed_signals)

    def prove(self, crate='receiver_cli', called='receiver', **more):
        """Has its rt prove and build a program. Gives the outcome."""
        return self.run('tools/build', '--proved', crate, called, **more)

    def prints(self, version, **more):
        """The faults of ./receiver, which has to print this version."""
        outcome = self.run('receiver', **more)
        if (outcome.status, outcome.said) == (0, f'receiver {version}\n'):
            return []
        return [f'status {outcome.status}, {outcome.said!r} where receiver {version} had to come, '
                f'{outcome.errors[-300:]!r}']
