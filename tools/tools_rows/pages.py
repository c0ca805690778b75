"""Rows of the pictures of benchmarks, of the commands of the pages, and of odd words."""
import os
import re
import shutil

from tools_rows.commands import TOP, contents, copied, refused, run, write

# Names that gnuplot or a shell takes for a part of a program.
NAMES = ("x';system('touch made');y='", 'a b;touch made;', '`touch made`', '$(touch made)"', "it's",
         '"; touch made; "')


def pictures_of_benchmarks(rows, folder):
    """The picture of the growth, by a name that is no part of a program."""
    title = 'pictures of benchmarks'
    if not shutil.which('gnuplot'):
        print(f'left out, needs gnuplot: {title}', flush=True)
        return
    benchmarks = os.path.join(copied(folder, 'benchmarks'), 'benchmarks')
    place = os.path.join(folder, NAMES[0])
    for name in ('slots', 'rates'):
        write(os.path.join(place, name), '1 1 2 3 4\n2 2 3 4 5\n')
    draw = ('import sys; sys.path[:0] = sys.argv[1:2]; import made_runs;'
            ' made_runs.draw(*sys.argv[2:])')
    picture = os.path.join(place, NAMES[0] + '.svg')
    outcome = run(['python3', '-c', draw, benchmarks, 'growth.gp', place, picture], folder)
    faults = [f'{outcome}'] * (outcome.status != 0 or not os.path.exists(picture))
    made = [it for it in contents(folder) if os.path.basename(it) == 'made']
    rows.say(title, faults + [f'a name was run: {it}' for it in made])


def folders_of_pages(rows, folder):
    """No page uses a folder that another user may have made."""
    faults = []
    for part in ('docs', 'examples', 'README.md', 'python/README.md'):
        paths = [os.path.join(TOP, part)] if part.endswith('.md') else [
            os.path.join(at, name) for at, _, names in os.walk(os.path.join(TOP, part))
            for name in names if not name.endswith(('.svg', '.png', '.real1', '.iq1', '.iq2'))]
        for path in paths:
            with open(path, encoding='utf-8') as file:
                if re.search(r'/tmp\b', file.read()):
                    faults.append(os.path.relpath(path, TOP))
    rows.say('folders of the pages', faults)


PAGE = '''# A page

    $ mkdir -p work/a
    $ rtl_sdr - > work/a/samples
    $ cat work/a/samples
    $ echo said | tee work/a/said
    said
    $ cat work/a/said work/b
    said
    $ false
    $ echo /some/work/a/samples
    /some/work/a/samples
'''


def commands_that_fail(rows, folder):
    """A command that fails is wrong, whatever it prints. One that needs a radio is left out, and so
    is one that reads what it would have made; nothing is removed."""
    top = copied(folder, 'tools/recipes-check', 'tools/helping.py')
    write(os.path.join(top, 'page.md'), PAGE)
    kept = write(os.path.join(top, 'work', 'kept'), 'kept')
    outcome = run([os.path.join(top, 'tools', 'recipes-check'), os.path.join(top, 'page.md')], top)
    last = (outcome.said.splitlines() or [''])[-1]
    faults = [] if outcome.status == 1 else [f'status {outcome.status}']
    if not re.match(r'page\.md: 5 commands ran, 2 left out, 2 ', last):
        faults.append(last)
    faults += [] if os.path.exists(kept) else ['a file under work is gone']
    rows.say('commands of a page that fail', faults)


def what_git_ignores(rows, folder):
    """The folder of the pages, and what Slurm writes."""
    if not shutil.which('git'):
        print('left out, needs git: what git ignores', flush=True)
        return
    top = copied(folder, '.gitignore')
    run(['git', 'init', '-q'], top)
    names = ['work/guide/a', 'slurm-12.out', 'slurm-12_3.out', 'examples/slurm-7.out']
    outcome = run(['git', 'check-ignore', *names, 'docs/work/a'], top)
    rows.say('what git ignores', [] if outcome.said.split() == names else [f'{outcome}'])


def odd_words(rows, folder):
    """Words that tools took for other ones, or for none."""
    outcome = run([os.path.join(TOP, 'tools', 'manual-check'), 'true'], folder)
    faults = ['one program is enough for manual-check'] * ('usage' not in outcome.errors)
    for tool, words in (('tools/examples-check', ['--odd']), ('tools/examples-check', ['a', 'b']),
                        ('tools/pack-check', ['--odd']), ('benchmarks/run', ['--help']),
                        ('benchmarks/run', ['a\\n=true']), ('benchmarks/run', ['../a=true'])):
        outcome = run([os.path.join(TOP, tool), *words], folder)
        faults += refused(outcome, '(?:usage|run): .*')
    outcome = run([os.path.join(TOP, 'benchmarks', 'instructions'), 'a=/dev/null'], folder)
    faults += refused(outcome, 'instructions: /dev/null is no program of .*', 1)
    rows.say('odd words', faults)


ROWS = (pictures_of_benchmarks, folders_of_pages, commands_that_fail, what_git_ignores, odd_words)
