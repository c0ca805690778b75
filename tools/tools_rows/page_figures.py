"""Rows of the figures of the pages: wrong ones are found, counts are those by hand, and revisions
are looked for where git has them all."""
import contextlib
import importlib.machinery
import importlib.util
import io
import os
import re
import shutil

import figures
from figures import FIGURES, Figure, differences_in
from tools_rows.commands import TOP, copied, run, write

TOOL = 'tools/manual-check'

# A small checkout, and what each figure of it is.
SMALL = {
    'crates.txt': '# A line: names.\ndefinitions:\ndefinition_rows: definitions\n'
                  '\nbits:\nwords: bits\n',
    'rust/kit/lanes/tests.rs': '#[test]\nfn a() {}\n    #[test]\n    fn b() {}\n// #[test]\n',
    'tools/examples-check': "judge() {\n}\nfor a in b; do\n    judge a\ndone\njudge c\nrefused 1\n",
    'tools/second_receiver/stdout': 'runs 7 lines 4321 differences 0\nok 5\n',
    'tools/runs_rows/scripts.py': "ROWS = (\n    ('0 a', 7),\n    (0, 'b', 8),\n"
                                  "    ('c (d)', 1),\n)\n",
    'tools/pack-check': 'for number in range(33):\n',
    'edits/bits/one.edit': '', 'edits/words/two.edit': '', 'edits/words/notes': '',
    'edits/definitions/four.edit': '',
    'crates/bits/must-fail/three.edit': '', 'examples/a.script': '', 'examples/a.expected': '',
    'examples/b.expected': '',
    'docs/PROOFS.md': '| Module | Turned | Refused by rows | Left |\n|---|---|---|---|\n'
                      '| A | 30 | 20 | ten |\n| B | 4 | 4 | |\n\n| C | 9 | 9 | |\n',
}
WANTED = {
    'There are': 4, 'edits of': 1, 'tries the': 1, 'Of the': 4, 'in `must-fail` are': 1,
    'loop by': 2, 'over `examples` in': 3,
    'built `pack`': 33, 'both receivers': 7, 'lines, and fails': 4321, 'definitions at': 34,
    'examples refused': 24, 'runs all': 2, 'refused lines': 2,
}


def figures_of_pages(rows, _):
    """Each figure of the pages is right, another number in its place is found, and so is a page
    that doesn't have it any more."""
    for figure in FIGURES:
        with open(os.path.join(TOP, figure.page), encoding='utf-8') as file:
            text = file.read()
        said = re.search(figure.pattern.replace(' ', r'\s+'), text)
        faults = list(differences_in(figure, text, TOP))
        for other, wanted in (('12,345', 'says'), ('some', 'says'), (None, 'has nothing like')):
            put = said[0].replace(said[1], other) if other else ''
            found = list(differences_in(figure, text.replace(said[0], put), TOP))
            if [it.split(figure.page)[1].startswith(f' {wanted} ') for it in found] != [True]:
                faults.append(f'with {other} in its place: {found}')
        rows.say(f'{figure.page}: {figure.pattern}', faults)


def figures_of_small_checkout(rows, folder):
    """What is counted is what a small checkout has."""
    for name, text in SMALL.items():
        write(os.path.join(folder, name), text)
    for part, wanted in WANTED.items():
        counts = [it.counted(folder) for it in FIGURES if part in it.pattern]
        rows.say(f'figures: {part}', [f'{counts}'] * (counts != [wanted]))
    broken = Figure('page', r'has (\S+) rows', lambda _: 1500)
    found = list(differences_in(broken, 'it has\n1,500 rows, has 1500 rows, has 1501 rows', folder))
    rows.say('figures over lines', [f'{found}'] * (
        found != ["page says 'has 1501 rows', and there are 1500"]))


def manual_check(top):
    """`tools/manual-check` as a module, over the checkout below a path."""
    loader = importlib.machinery.SourceFileLoader('manual', os.path.join(TOP, TOOL))
    module = importlib.util.module_from_spec(importlib.util.spec_from_loader('manual', loader))
    loader.exec_module(module)
    module.TOP = top
    return module


def with_own_docs(folder):
    """A checkout whose pages are copies, and which has no history. Gives its path."""
    top = copied(folder, 'docs')
    for name in set(os.listdir(TOP)) - {'docs', '.git'}:
        os.symlink(os.path.join(TOP, name), os.path.join(top, name))
    return top


def figures_of_manual_check(rows, folder):
    """The tool looks at them, and says where there is no history."""
    top = with_own_docs(folder)
    page = os.path.join(top, 'docs', 'PLAIN.md')
    with open(page, encoding='utf-8') as file:
        text = file.read()
    write(page, re.sub(r'(loop\s+by) \S+', r'\1 99', text))
    said = io.StringIO()
    with contextlib.redirect_stdout(said):
        found = list(manual_check(top).wrong_figures())
    faults = [f'{found}'] * (len(found) != 1 or not found[0].startswith(
        "docs/PLAIN.md says 'loop by 99 tests', and there are "))
    faults += [f'said {said.getvalue()!r}'] * ('no whole history' not in said.getvalue())
    rows.say(f'figures of {TOOL}', faults)


def revisions_of_pages(rows, folder):
    """A revision that git hasn't is found. Where it doesn't have all, none is looked for."""
    if not shutil.which('git'):
        print('left out, needs git: revisions of the pages', flush=True)
        return
    top = os.path.join(folder, 'whole')
    write(os.path.join(top, 'README.md'), 'text\n')
    git = ['git', '-c', 'user.name=a', '-c', 'user.email=a@a', '-C', top]
    for words in (['init', '-q'], ['add', '.'], ['commit', '-qm', 'one'],
                  ['commit', '-qm', 'two', '--allow-empty']):
        run([*git, *words], folder)
    known = figures.revisions(top)
    faults = [f'known: {known}'] * (known is None or len(known) != 2)
    first = (known or [''])[-1]
    write(os.path.join(top, 'docs', 'A.md'), f'of revision {first[:8]}, revision\n`{first}`, and of'
                                             ' revision 0123abcd; a revision and deadbeef\n')
    found = list(figures.unknown_revisions(top, known or []))
    faults += [f'{found}'] * (found != ['docs/A.md names revision 0123abcd, which git has not'])
    rows.say('revisions of the pages', faults)
    run(['git', 'clone', '-q', '--depth', '1', f'file://{top}', 'shallow'], folder)
    os.mkdir(os.path.join(top, 'below'))
    for name in 'shallow', 'whole/below', '.':
        known = figures.revisions(os.path.join(folder, name))
        rows.say(f'revisions of {name}', [f'{known}'] * (known is not None))


ROWS = (figures_of_pages, figures_of_small_checkout, figures_of_manual_check, revisions_of_pages)
