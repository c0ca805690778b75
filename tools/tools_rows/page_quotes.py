"""Rows of what pages quote of the sources: each quote stands there, one that doesn't is found, and
so is one with no file beside it. And docs/README.md has all pages."""
import glob
import os
import re

from quotes import PAGES, plain, quotes, stale_quotes
from tools_rows.commands import TOP, copied, write
from tools_rows.page_figures import TOOL, manual_check, with_own_docs

# A source, a page that quotes it, and what is stale there.
SOURCE = """fn take(&mut self, to: u64)
    requires { to ≤ end }
    ensures at { self.new
        ≡ min to end }
    ensures either { f (λ x. |x| ≡ 0) }
"""
PAGE = """# A page

In [a.rt](../crates/a/src/a.rt), as it stands:

    fn take(&mut self, to: u64)
        requires { to ≤ end }

    ensures at { self.new ≡ min to end }

Of [a.rt](../crates/a/src/a.rt) this is stale:

    ensures at { self.new ≡ max to end }

What follows is no quote: `ensures { .. }`

    rt check

| Word | In the sources | Meaning |
|---|---|---|
| `end` | [a.rt](../crates/a/src/a.rt), `take`: `requires { to ≤ end }` | `no quote` |
| `end` | [a.rt](../crates/a/src/a.rt): `ensures either { f (λ x. \\|x\\| ≡ 0) }` | |
| `end` | [a.rt](../crates/a/src/a.rt): `requires { to < end }` | |
| `end` | [b.rt](../crates/a/src/b.rt): `requires { to ≤ end }` | |
| `end` | `requires { to ≤ start }` | |

    ensures at { self.old ≡ 0 }
"""
STALE = [
    'page.md quotes `ensures at { self.new ≡ max to end }`, which crates/a/src/a.rt has not so',
    'page.md quotes `requires { to < end }`, which crates/a/src/a.rt has not so',
    'page.md quotes crates/a/src/b.rt, which is no file',
    'page.md names no file for `requires { to ≤ start }`',
    'page.md names no file for `ensures at { self.old ≡ 0 }`',
]


def text_of(*parts):
    """The text of a file."""
    with open(os.path.join(*parts), encoding='utf-8') as file:
        return file.read()


def quotes_of_small_page(rows, folder):
    """What stands so in the file beside it is right, and all else is found."""
    write(os.path.join(folder, 'crates', 'a', 'src', 'a.rt'), SOURCE)
    write(os.path.join(folder, 'page.md'), PAGE)
    found = list(stale_quotes(folder, 'page.md'))
    rows.say('quotes of a small page', [f'{found}'] * (found != STALE))
    write(os.path.join(folder, 'page.md'), '# A page\n\nwith `code` alone\n\n    rt check\n')
    found = list(stale_quotes(folder, 'page.md'))
    rows.say('a page with no quote', [f'{found}'] * (found != ['page.md quotes nothing']))


def quotes_of_pages(rows, folder):
    """Each quote of the pages stands in its file. Where it is taken out of that, it is found."""
    for page in PAGES:
        found = quotes(text_of(TOP, page))
        top = copied(folder, page, *{it.path for it in found if it.path})
        rows.say(f'quotes of {page}', list(stale_quotes(top, page)))
        for code, path in found:
            text = text_of(top, path)
            write(os.path.join(top, path), plain(text).replace(code, ''))
            stale = list(stale_quotes(top, page))
            rows.say(f'{page}: {code[:60]}', [f'{stale}'] * (not stale))
            write(os.path.join(top, path), text)


def quotes_of_manual_check(rows, folder):
    """The tool looks at them, and at the places where the prover refuses."""
    top = with_own_docs(folder)
    page = os.path.join(top, 'docs', 'PROOF-IN-ONE-PAGE.md')
    text = text_of(page)
    loop = int(re.search(r'parity\.rt:(\d+):', text)[1])
    for said, other, wanted in (
            ('pub untouched', 'pub touched', 'quotes `pub record RunsTask'),
            (f'parity.rt:{loop}:', f'parity.rt:{loop + 1}:',
             f'line {loop + 1} of parity.rt is no loop'),
            ('WordRows.antt:13:', 'WordRows.antt:12:', 'line 12 of proofs/WordRows.antt is not')):
        write(page, text.replace(said, other))
        found = [it for it in manual_check(top).stale_quotes() if 'ONE-PAGE' in it]
        rows.say(f'{TOOL}: {other}', [f'{found}'] * (len(found) != 1 or wanted not in found[0]))


def index_of_pages(rows, _):
    """The index has a link to each page, and none that goes nowhere."""
    docs = os.path.join(TOP, 'docs')
    linked = set(re.findall(r'\]\(([^)#]+)\)', text_of(docs, 'README.md')))
    pages = {os.path.basename(it) for end in ('md', '1')
             for it in glob.glob(os.path.join(docs, f'*.{end}'))} - {'README.md'}
    faults = [f'no link to {it}' for it in sorted(pages - linked)]
    faults += [f'{it} is no file' for it in sorted(linked)
               if not os.path.isfile(os.path.join(docs, it))]
    rows.say('docs/README.md', faults)


ROWS = (quotes_of_small_page, quotes_of_pages, quotes_of_manual_check, index_of_pages)
