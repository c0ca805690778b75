"""Rows of tools/deb: its words, and the maintainer, who stands in the package as he is."""
import gzip
import os
import re
import shutil
import subprocess

from .commands import TOP, changes, contents, copied, refused, run, write
from .small_checkout import Checkout

# What tools/deb takes beside the sources.
PARTS = ('docs', 'README.md', 'CHANGELOG.md', 'LICENSE-MIT', 'python')

# What the tool needs, without which these rows aren't tried.
NEEDED = ('dpkg', 'dpkg-deb', 'dpkg-shlibdeps', 'git', 'cargo', 'strip', '/usr/bin/python3')

# An author whose name has all that a program of sed would run or garble, and his line.
ODD = 'x/;1etouch P # & \\1 | $(touch P) `touch P` "\' y'
ODD_LINE = f'{ODD} <one@example.org>\n'

# What would turn a build, beside another folder of what cargo makes.
TURNING = {'CARGO_BUILD_TARGET': 'no-such-target', 'CARGO_ENCODED_RUSTFLAGS': '--no-such-flag',
           'CDPATH': '/', 'TZ': 'Asia/Tokyo'}

# Why there is none where `rt` has built nothing.
MISSING = '`rt` hasn\'t built (receiver|packer)_cli of these sources: `make proved` .*'


def with_commit(folder, name='Some One', mail='one@example.org'):
    """A small checkout whose last commit has an author. Its quick start prints its version."""
    checkout = Checkout(folder)
    copied(folder, *PARTS, name='checkout')
    for kind in 'script', 'real1':
        write(checkout.at(f'examples/real_message.{kind}'), '')
    write(checkout.at('examples/real_message.expected'), 'receiver 1.0.1\n')
    shutil.rmtree(checkout.at('.git'))
    git = ['git', '-c', f'user.name={name}', '-c', f'user.email={mail}']
    for words in ['init', '-q'], ['commit', '-q', '--allow-empty', '-m', 'All']:
        subprocess.run([*git, *words], cwd=checkout.top, check=True)
    return checkout


def fake_path(folder):
    """A PATH whose cargo leaves a file that says that it was called, and fails."""
    fake = os.path.join(folder, 'fake')
    write(os.path.join(fake, 'cargo'), '#!/bin/sh\n> "$0.called"\nexit 1\n', 0o755)
    return f'{fake}:{os.environ["PATH"]}'


def lintian_path(folder, status):
    """A PATH whose lintian has this status. The authors of these rows are no contacts to it."""
    fake = os.path.join(folder, f'lintian{status}')
    write(os.path.join(fake, 'lintian'), f'#!/bin/sh\nexit {status}\n', 0o755)
    return f'{fake}:{os.environ["PATH"]}'


def deb(checkout, *words, **more):
    """The outcome of tools/deb in the folder of the row."""
    return run([checkout.at('tools/deb'), *words], checkout.folder, more)


def refuses(rows, name, checkout, words, **more):
    """A row in which tools/deb has to refuse, before it builds, and to change nothing."""
    more = {'PATH': fake_path(checkout.folder), **more}
    before = contents(checkout.folder)
    faults = refused(deb(checkout, *words, **more), 'deb: [^\n]+')
    rows.say(f'tools/deb, {name}', faults + changes(before, contents(checkout.folder)))


def words(rows, folder):
    """Words and maintainers that are refused."""
    if not all(map(shutil.which, NEEDED)):
        return
    checkout = with_commit(folder)
    for given in [''], ['-x'], ['--x'], ['nowhere'], ['.', '.'], ['checkout/README.md']:
        refuses(rows, f'{given}', checkout, given)
    for name, mail in (('a\nb', 'a@b.org'), ('a', 'a@b.org\nDepends: evil'), ('a', 'nothing'),
                       ('a <b@c.org>', 'a@b.org'), ('a\x1b[2J', 'a@b.org')):
        refuses(rows, f'maintainer {name!r} {mail!r}', checkout, [],
                DEBFULLNAME=name, DEBEMAIL=mail)
    for given in '', 'x', '-1', '1e9', '1 2':
        refuses(rows, f'the time {given!r}', checkout, [], SOURCE_DATE_EPOCH=given)
    before = contents(folder)
    outcome = deb(checkout, '--help')
    faults = changes(before, contents(folder))
    usage = 'tools/deb [--arch ARCHITECTURE] [FOLDER]'
    is_told = outcome.status == 0 and usage in outcome.said and not outcome.errors
    rows.say('tools/deb --help', faults + ([] if is_told else [str(outcome)[:200]]))
    shutil.rmtree(checkout.at('.git'))
    refuses(rows, 'nobody is named', checkout, [], DEBEMAIL=None)


def line_of(why):
    """The line that says why there is no package of proved programs."""
    return f"^deb: seldomplough-proved isn't made: {why}$"


def a_package(rows, folder, name, top, fault='', **more):
    """Makes a package in a folder of this name, with a temporary folder whose name has a blank.
    With a fault that lintian has it end with, it is made where it is called. Gives its path, None
    where something is wrong, and the outcome."""
    to, temporary = os.path.join(folder, name), os.path.join(folder, f'a {name}')
    os.makedirs(to)
    os.makedirs(temporary)
    given, at = ([], to) if fault else ([name], folder)
    outcome = run(['bash', '-c', 'umask 077; exec "$0" "$@"', f'{top}/tools/deb', *given], at,
                  {'TMPDIR': temporary, 'DEBEMAIL': None,
                   'PATH': lintian_path(folder, 2 if fault else 0), **more})
    packages = os.listdir(to)
    is_right = outcome.status == (2 if fault else 0) and (not fault or outcome.errors == fault)
    faults = [str(outcome)[-300:]] * (not is_right)
    faults += [f'{len(packages)} packages'] * (len(packages) != 1)
    left = os.listdir(temporary)
    faults += [f'{left} stay in the temporary folder'] * bool(left)
    for place in folder, to, top, temporary:
        faults += [f'a command of the name ran in {place}'] * ('P' in os.listdir(place))
    rows.say(f'tools/deb, the {name} package', faults)
    return None if faults else os.path.join(to, packages[0]), outcome


def same_bytes(rows, folder):
    """Two checkouts of one commit, in two folders, whose files have other times and modes, give the
    same package, though the environment would turn the builds of one. Another time gives another.
    An error of lintian is one of the tool, and where nothing is proved one line says so. The author
    has odd letters."""
    if not all(map(shutil.which, NEEDED)):
        return
    checkout = with_commit(folder, ODD)
    write(checkout.at('README.md'), 'See [the pages](docs/PLAIN.md), [none](NONE.md), and\n'
          '[docs/pack.1](docs/pack.1).\n')
    other = os.path.join(folder, 'another checkout')
    shutil.copytree(checkout.top, other, copy_function=shutil.copyfile)
    for tool in 'deb', 'rust':
        os.chmod(os.path.join(other, 'tools', tool), 0o700)
    kit = checkout.add_rt('rattle-kit-1 for rows')
    first, outcome = a_package(rows, folder, 'first', checkout.top, RECEIVER_PLAIN=None,
                               PATH=f'{kit}:{lintian_path(folder, 0)}')
    is_told = len(re.findall(line_of(MISSING), outcome.said, re.M)) == 1 and not outcome.errors
    rows.say('tools/deb, nothing is proved', [str(outcome)[-300:]] * (not is_told))
    second, _ = a_package(rows, folder, 'second one', other, **TURNING,
                          CARGO_TARGET_DIR=os.path.join(folder, 'elsewhere'))
    third, _ = a_package(rows, folder, 'third', other, 'deb: lintian has an error\n',
                         SOURCE_DATE_EPOCH='1000000000')
    if not (first and second and third):
        return
    data = [contents(os.path.dirname(it)) for it in (first, second, third)]
    rows.say('tools/deb, two checkouts', ['two packages'] * (data[0] != data[1]))
    rows.say('tools/deb, another time', ['the same package'] * (data[0] == data[2]))
    own = run(['dpkg', '--print-architecture'], folder).said.strip()
    wanted = f'seldomplough_1.0.1_{own}.deb'
    rows.say('tools/deb, the name', [f'{[*data[0]]}'] * ([*data[0]] != [wanted]))
    said = run(['dpkg-deb', '-f', first, 'Maintainer'], folder).said
    rows.say('tools/deb, an author of odd letters',
             [f'{said!r} where {ODD_LINE!r} had to come'] * (said != ODD_LINE))
    listed = run(['dpkg-deb', '-c', third], folder, {'TZ': 'UTC'}).said
    faults = [it for it in listed.splitlines() if ' 2001-09-09 01:46 ' not in it]
    rows.say('tools/deb, the times in a package', faults or ['it is empty'] * (not listed))
    root = os.path.join(folder, 'root')
    run(['dpkg-deb', '-x', first, root], folder)
    inside(rows, folder, root)


def inside(rows, folder, root):
    """What an unpacked package has: its pages, the programs beside these, and the companion."""
    docs = os.path.join(root, 'usr/share/doc/seldomplough')
    with open(os.path.join(docs, 'README.md'), encoding='utf-8') as file:
        text = file.read()
    wanted = 'See [the pages](docs/PLAIN.md), none, and\n`man seldomplough-pack`.\n'
    rows.say('tools/deb, links of its pages', [text] * (text != wanted))
    for name in 'receiver', 'pack':
        said = run([os.path.join(docs, name), '--version'], folder).said
        rows.say(f'tools/deb, {name} beside its pages', [said] * (said != f'{name} 1.0.1\n'))
    companion(rows, folder, root)


# A line of Python that says which programs the companion takes.
FOUND = ('from seldomplough.programs import find;'
         ' print(*(find(it).path for it in ("receiver", "pack")))')


def companion(rows, folder, root):
    """The companion of an unpacked package: its launcher, the programs that it takes, what stands
    in the package of it, and its manual page."""
    usr = os.path.join(root, 'usr')
    bin_, packages = os.path.join(usr, 'bin'), os.path.join(usr, 'lib/python3/dist-packages')
    more = {'PATH': f'{bin_}:{os.environ["PATH"]}', 'PYTHONPATH': packages}
    for called in 'bin/seldomplough', 'share/doc/seldomplough/seldomplough':
        outcome = run([os.path.join(usr, called), '--version'], folder, more)
        is_right = outcome.said.startswith('seldomplough ') and not outcome.status
        rows.say(f'tools/deb, {called} of a package', [] if is_right else [str(outcome)])
    outcome = run(['/usr/bin/python3', '-c', FOUND], folder, more)
    wanted = ' '.join(f'{bin_}/seldomplough-{it}' for it in ('receiver', 'pack'))
    rows.say("tools/deb, the companion's programs",
             [str(outcome)] * (outcome.said != wanted + '\n'))
    modules = contents(os.path.join(TOP, 'python/seldomplough'))
    source = {name: it for name, it in modules.items() if '__pycache__' not in name}
    rows.say("tools/deb, the companion's modules",
             changes(source, contents(os.path.join(packages, 'seldomplough'))))
    with gzip.open(os.path.join(usr, 'share/man/man1/seldomplough.1.gz'), 'rt') as file:
        titles = re.findall('^\\.Ss (.*)', file.read(), re.M)
    wanted = sorted(re.findall('^    ([a-z0-9-]+)(?:  |$)', run(
        [os.path.join(bin_, 'seldomplough'), '--help'], folder, more).said, re.M))
    rows.say("tools/deb, the companion's manual page",
             [f'{titles}, not {wanted}'] * (not wanted or sorted(titles) != wanted))


def launcher(rows, folder):
    """The script in the package starts the program for the level that the processor has, or for any
    where it lacks something or nothing says what it has."""
    top = copied(folder, 'tools/package')
    home = os.path.join(top, 'tools', 'package')
    flags = os.path.join(home, 'x86-64-v3.flags')
    for level in 'any', 'x86-64-v3':
        write(os.path.join(home, level, 'receiver'), f'#!/bin/sh\necho {level} "$@"\n', 0o755)
    # It goes by its own name in the package, whatever the link to it is called.
    shutil.copy(os.path.join(home, 'launcher'), os.path.join(home, 'receiver'))
    called = os.path.join(folder, 'linked')
    os.symlink(os.path.join(home, 'receiver'), called)
    with open(flags, encoding='utf-8') as file:
        needed = file.read()
    for name, text, wanted in (('all', '\n', 'x86-64-v3'), ('not all', f'{needed} no_such', 'any'),
                               ('no list', None, 'any'), ('no higher level', '\n', 'any')):
        if text is None:
            os.remove(flags)
        else:
            write(flags, text)
        if name == 'no higher level':
            shutil.rmtree(os.path.join(home, 'x86-64-v3'))
        outcome = run([called, 'a b', 'c'], folder)
        said = (outcome.status, outcome.said)
        rows.say(f'the launcher, {name}',
                 [f'{said}, not {wanted}'] * (said != (0, f'{wanted} a b c\n')))


ROWS = (words, same_bytes, launcher)
