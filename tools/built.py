"""What makes a built program new: a sum of all that it is made of, by content. It is kept in the
folder `out` beside README.md, with the line of the toolchain that made the program, and a sum of
the program itself; of each, where there is one for any processor and one for a level of it. A start
reads no more than this, so it imports little."""
import hashlib
import os
import select
import signal
import stat

TOP = os.path.dirname(os.path.dirname(os.path.realpath(__file__)))
OUT = os.path.join(TOP, 'out')

# The packages of plain Rust that stand apart from the crates, by their programs. Nothing of them is
# proved, so cargo builds them wherever they are built.
APART = {'maker': 'benchmarks/maker'}

# What cargo calls the programs of plain Rust, by their crates.
NAMES = {'receiver_cli': 'seldomplough-receiver', 'packer_cli': 'seldomplough-pack'}

# What the files of sources end with, and the folders among them that make no program of a kind.
SOURCES = ('.rt', '.antt', '.rs', '.toml', '.txt')
NO_SOURCES = {'proved': {'out', 'must-fail'}, 'plain': {'out', 'must-fail', 'specs', 'proofs'},
              'cargo': set(), 'apart': {'target'}}

# What cargo builds a program of plain Rust of, and what writes that.
OF_CARGO = ('Cargo.toml', 'Cargo.lock', 'rust')
OF_RUST = ('crates.txt', 'crates', 'tools/rust', 'tools/rust_package.py', 'tools/rust_text.py')

# The folders and files that a program is made of: a proved one, one of plain Rust, what cargo takes
# of this, and those that stand apart.
PARTS = {
    'proved': ('crates.txt', 'HANDLES', 'crates', 'tools/build', 'tools/built.py',
               'tools/builders.py', 'tools/crate_order.py', 'tools/crate_shares.py',
               'tools/rooms.py', 'tools/rt_once'),
    'plain': (*OF_CARGO, *OF_RUST, 'tools/build', 'tools/built.py', 'tools/builders.py'),
    'cargo': (*OF_CARGO, 'tools/builders.py'),
    'apart': (*APART.values(), 'tools/build', 'tools/built.py', 'tools/builders.py'),
}

# How the variables begin that would turn a build, or Python; and those of them that are kept: where
# cargo keeps its things, and how many processors it takes.
TURNING = ('CARGO', '__CARGO', 'PYTHON', 'RUSTC', 'RUSTFLAGS', 'RUSTDOC', 'RUST_TARGET_PATH',
           'RT_ALLOW_C', 'RT_BACKEND')
KEPT = ('CARGO_HOME', 'CARGO_BUILD_JOBS')

# The levels of processors that programs are built for: the least one, for which a toolchain builds
# where none is named, and the third one of x86-64. The file has what a processor needs for this, as
# /proc/cpuinfo calls it. The package's launcher goes by the same file.
ANY, THIRD = 'any', 'x86-64-v3'
FLAGS = os.path.join(TOP, 'tools', 'package', f'{THIRD}.flags')

# The seconds after which a command that has said nothing is ended. It takes less than one, or ten
# where a machine lends a tenth of its processors.
LONGEST = 120

# What the kit's `rt` calls itself, and the file beside it that says so too.
KIT = 'rattle-kit-'
KIT_ID = 'KIT-ID'


def is_plain_wanted():
    """Whether the program of cargo is asked for, also where there is a proved one."""
    return os.environ.get('RECEIVER_PLAIN', '0') not in ('', '0')


def find(name):
    """The path of a command in the PATH; nothing where there is none."""
    for folder in os.environ.get('PATH', os.defpath).split(os.pathsep):
        path = os.path.join(folder or '.', name)
        if os.access(path, os.X_OK) and os.path.isfile(path):
            return os.path.abspath(path)
    return None


def read(path):
    """The bytes of a file."""
    with open(path, 'rb', buffering=0) as file:
        return file.readall()


def files_below(folder, skipped):
    """The paths of the sources in a folder, but for an editor's own, which begin with a dot. Links
    to folders aren't followed."""
    found, left = [], [folder]
    while left:
        with os.scandir(left.pop()) as entries:
            for it in entries:
                if it.is_dir(follow_symlinks=False):
                    if it.name not in skipped:
                        left.append(it.path)
                elif it.name.endswith(SOURCES) and not it.name.startswith('.'):
                    found.append(it.path)
    return found


def sum_of_sources(kind):
    """The sum of all that a program of a kind is made of: names, sizes and contents."""
    made = hashlib.sha256()
    for part in PARTS[kind]:
        path = os.path.join(TOP, part)
        is_folder = os.path.isdir(path)
        for file in sorted(files_below(path, NO_SOURCES[kind])) if is_folder else [path]:
            data = read(file)
            made.update(f'{file[len(TOP):]} {len(data)}\n'.encode('utf-8', 'surrogateescape'))
            made.update(data)
    return made.hexdigest()


def version():
    """The version of all programs and packages, which the crate of that name has."""
    text = read(os.path.join(TOP, 'crates', 'version', 'src', 'lib.rt')).decode()
    return text.partition('VERSION: &str = "')[2].partition('"')[0]


def sum_of(path):
    """The sum of one file; nothing where there is none that can be read."""
    try:
        return hashlib.sha256(read(path)).hexdigest()
    except OSError:
        return None


def level():
    """The highest level that the processor at hand has; the least where nothing says which."""
    try:
        with open('/proc/cpuinfo', 'rb') as lines:
            flags = next((it.split() for it in lines if it.startswith(b'flags')), [])
    except OSError:
        flags = []
    return THIRD if set(read(FLAGS).split()) <= set(flags) else ANY


def clean_environment():
    """The environment without what would turn a build."""
    return {name: value for name, value in os.environ.items()
            if name in KEPT or not name.startswith(TURNING)}


def said_by(command):
    """What a command prints, as one line; nothing where it fails or long says nothing. It runs in
    the checkout."""
    os.chdir(TOP)
    said, prints = os.pipe()
    null = os.open(os.devnull, os.O_RDWR)
    actions = [(os.POSIX_SPAWN_DUP2, null, 0), (os.POSIX_SPAWN_DUP2, prints, 1),
               (os.POSIX_SPAWN_DUP2, null, 2)]
    try:
        child = os.posix_spawn(command[0], command, clean_environment(), file_actions=actions)
    except OSError:
        child = None
    os.close(null)
    os.close(prints)
    with open(said, 'rb') as file:
        if child and not select.select([file], [], [], LONGEST)[0]:
            os.kill(child, signal.SIGKILL)
        line = ' '.join(file.read().decode('utf-8', 'replace').split())
    is_well = child is not None and os.waitpid(child, 0)[1] == 0
    return line if is_well else ''


def line_of_rustc():
    """What rustc says of itself; nothing where there is none."""
    rustc = find('rustc')
    return said_by([rustc, '-Vv']) if rustc else ''


class Prover:
    """The `rt` in the PATH, if there is one, and its line, if it is the Rattle kit's."""

    def __init__(self):
        self.path = find('rt')
        self.line = self.line_of_kit() if self.path else ''

    def line_of_kit(self):
        """The kit's line, from its file, or from `rt version`."""
        home = os.path.dirname(os.path.dirname(os.path.realpath(self.path)))
        try:
            line = ' '.join(read(os.path.join(home, KIT_ID)).decode('utf-8', 'replace').split())
        except OSError:
            line = ''
        if not line.startswith(KIT):
            line = said_by([self.path, 'version'])
        return line if line.startswith(KIT) else ''


def replace(path, text):
    """Writes a file anew, whole or not at all."""
    new = f'{path}.{os.getpid()}'
    try:
        with open(new, 'x', encoding='utf-8') as file:
            file.write(text)
        os.replace(new, path)
    except OSError:
        if os.path.lexists(new):
            os.remove(new)
        raise


class Built:
    """A program of a kind, as it was built last: for one level of processors, or for more."""

    def __init__(self, crate, kind):
        self.kind = kind
        self.stamp = os.path.join(OUT, f'{crate}.{kind}')

    def program(self, line=''):
        """The path of the program for the processor at hand where it is what the sources are, and
        the toolchain of this line made it; any toolchain where the line is empty. Nothing where it
        isn't."""
        try:
            sources, made_by, *rows = read(self.stamp).decode().split('\n')
            known = {row.split(' ', 2)[0]: row.split(' ', 2)[1:] for row in rows}
            found, path = known.get(level()) or known[ANY]
        except (OSError, ValueError, KeyError):
            return None
        path = os.path.join(TOP, path)
        if line not in ('', made_by) or sources != sum_of_sources(self.kind):
            return None
        is_whole = found == sum_of(path) and os.access(path, os.X_OK)
        return path if is_whole else None

    def is_harmed(self):
        """Whether one of its programs is there, and isn't what was built."""
        try:
            _, _, *rows = read(self.stamp).decode().split('\n')
            known = [row.split(' ', 2)[1:] for row in rows]
        except (OSError, ValueError):
            return False
        return any(sum_of(os.path.join(TOP, path)) not in (None, found) for found, path in known)

    def keep(self, paths, sources, line):
        """Keeps that the program is built of sources of this sum: its paths by the levels."""
        rows = [f'{it} {sum_of(path)} {os.path.relpath(path, TOP)}' for it, path in paths.items()]
        replace(self.stamp, '\n'.join([sources, line, *rows]))


# The sum of the sources that the last `rt ci` had which was kept.
OF_CI = os.path.join(OUT, 'rt-ci')


def keep_libraries():
    """Keeps that the libraries of all crates are what the sources make, as `rt ci` left them."""
    replace(OF_CI, sum_of_sources('proved'))


def make_out():
    """Makes the folder in which all this is kept."""
    os.makedirs(OUT, exist_ok=True)
    if not stat.S_ISDIR(os.lstat(OUT).st_mode):
        raise NotADirectoryError(20, 'Not a folder', OUT)
