"""Rows of tools/rt_once: which libraries it takes as built, and which it builds as statements."""
import os
import shutil

from .commands import copied, run, write

# A stand-in for the kit's `rt`, over two libraries: `upper` is over `lower`. It writes what it is
# asked to build into the file `calls`. What it builds has the text of its source, and the sum of
# what `lower` says of itself.
RT = '''import hashlib, os

class Crate:
    def __init__(self, name, below):
        self.name, self.deps, self.folder, self.of_kit = name, below, name, ['std']
        self.rlib = f'{name}/rlib/{name}.rlib'

    def below(self):
        return self.deps

    def stamp(self):
        return ' '.join(open(f'{it.name}/source').read() for it in [self, *self.deps])

    def has_kept(self):
        return os.path.exists(f'{self.name}/kept')

    def is_built(self):
        path = f'{self.name}/rlib/stamp'
        return os.path.exists(path) and open(path).read() == self.stamp()

    def words(self, flags, keeps=True):
        libraries = [word for it in self.deps for word in
                     ('--extern', f'{it.name}={it.rlib}', '-L', f'dependency={it.name}/rlib')]
        return [self.name, '-L', 'dependency=kit', *libraries, *flags]

    def write_library(self, way):
        os.makedirs(self.rlib, exist_ok=True)
        built = [it for it in self.deps if os.path.exists(it.rlib)]
        sums = [hashlib.sha256(open(f'{it.rlib}/format', 'rb').read()).hexdigest()
                for it in built]
        with open(f'{self.rlib}/format', 'w') as file:
            file.write(f'{way} {self.stamp()}\\n')
            file.writelines(f'over {it.name} {sum}\\n' for it, sum in zip(built, sums))
        open('calls', 'a').write(f'{self.name}{way} ')

    def call(self, *words):
        is_read = 'RT_SOURCES' in os.environ
        self.write_library(' '.join(it for it in words if it == '--statements' or is_read))
        return os.path.exists('fails')

    def build_rlib(self, flags, anew):
        if not self.is_built():
            self.write_library('')
            stated = f'{self.name}/rlib/stated'
            if os.path.exists(stated):
                os.remove(stated)
            open(f'{self.name}/rlib/stamp', 'w').write(self.stamp())
        return 0

class rtlib:
    RATTLE, KIT, Crate = 'rattle', 'kit', Crate

    def help_of(verb):
        return open('help').read()

    def stop_on_text(crate, verb):
        open('calls', 'a').write(f'read-{crate.name} ')

def main(words):
    lower = rtlib.Crate('lower', [])
    upper = rtlib.Crate('upper', [lower])
    # As where `rt` was called in the folder of the upper one.
    upper.folder = os.getcwd()
    for it in (lower, upper):
        rtlib.stop_on_text(it, words[0])
    return max(it.build_rlib([], False) for it in (lower, upper))
'''


class Kit:
    """A folder with such an `rt` and the sources of both libraries."""

    def __init__(self, folder):
        self.top = copied(folder, 'tools/rt_once', 'tools/children.py',
                          'tools/helping.py')
        self.write(**{'bin/rt': RT, 'lower/source': 'one', 'upper/source': 'two',
                      'help': '--statements'})
        os.chmod(self.at('bin/rt'), 0o755)

    def at(self, name):
        """The path of a file."""
        return os.path.join(self.top, name)

    def write(self, **texts):
        """Writes files."""
        for name, text in texts.items():
            write(self.at(name), text)

    def built(self, status=0, **environment):
        """What `rt_once` builds now, or what is wrong with the status or with the texts that `rt`
        looks over first."""
        self.write(calls='')
        path = os.pathsep.join([self.at('bin'), os.environ['PATH']])
        ran = run([self.at('tools/rt_once'), 'lib'], self.top, {'PATH': path, **environment})
        with open(self.at('calls'), encoding='utf-8') as calls:
            said = calls.read()
        read = ['read-lower', 'read-upper']
        if 'RT_ROOM' in environment:
            read = [] if 'RT_TRIAL' in environment else ['read-upper']
        words = said.split()
        if ran.status != status or words[:len(read)] != read:
            return f'status {ran.status}, {said}: {ran.errors[-200:]}'
        return ' '.join(words[len(read):])


def libraries(rows, folder):
    """A library of which nothing is kept becomes one of statements. It is taken as long as its
    sources are the same, and those below it are what it was proved over."""
    kit = Kit(folder)

    def say(name, wanted, **environment):
        made = kit.built(**environment)
        rows.say(f'rt_once, {name}', [made] * (made.split() != wanted.split()))

    both = 'lower--statements upper--statements'
    say('nothing is built', both)
    say('nothing has changed', '')
    kit.write(**{'upper/source': 'three'})
    say('the upper source has changed', 'upper--statements')
    kit.write(**{'lower/source': 'four'})
    say('the lower source has changed', both)
    kit.write(**{'lower/kept': '', 'lower/source': 'five'})
    say('a check has kept what it proved of the lower one', 'lower upper--statements')
    say('nothing has changed since', '')
    # As `rt` makes it anew.
    write(kit.at('lower/rlib/lower.rlib/format'), 'another')
    say('the lower one was built once more', 'upper--statements')
    os.remove(kit.at('lower/kept'))
    shutil.rmtree(kit.at('lower/rlib'))
    say('the lower one is gone', both)
    write(kit.at('upper/rlib/upper.rlib/format'), 'over another 0\n')
    write(kit.at('lower/rlib/lower.rlib/format'), 'another')
    say('the upper one rests on another alone', '')
    for name in 'lower', 'upper':
        os.remove(kit.at(f'{name}/rlib/stated'))
    say('in a room, libraries of rt ci', '', RT_ROOM='made')
    say('where edits are tried, libraries of rt ci', '', RT_ROOM='made', RT_TRIAL='1')
    say('in a room of its own, libraries of rt ci', both, RT_ROOM='own')
    shutil.rmtree(kit.at('upper/rlib/upper.rlib'))
    say('the upper one is gone, but for its sum', 'upper--statements')
    kit.write(**{'help': '', 'lower/source': 'six'})
    say('a prover that makes no statements', 'lower upper')


def failures(rows, folder):
    """A library that isn't proved isn't taken as built."""
    kit = Kit(folder)
    kit.write(fails='')
    first = kit.built(status=1)
    os.remove(kit.at('fails'))
    both = ['lower--statements', 'upper--statements']
    rows.say('rt_once, a failed build', [first] * (first.split() != both))
    again = kit.built()
    rows.say('rt_once, after a failed build', [again] * (again.split() != both))


def sources(rows, folder):
    """A library that is to be read from its source isn't built, and the check of what stands on it
    is passed its source in the place of the library."""
    kit = Kit(folder)
    made = kit.built(RT_SOURCES='lower')
    passed = made.partition('rattle build ')[2].split()
    wanted = ['upper', '-L', 'dependency=kit', '--extern', 'core=kit/rlibs/core.rlib', '--lib',
              'lower:core,std=lower/src/lib.rt', '--statements', '-o', 'upper/rlib/upper.rlib']
    faults = [made] * (not made.startswith('upper') or passed != wanted)
    rows.say('rt_once, a library that is read from its source', faults)


ROWS = (libraries, failures, sources)
