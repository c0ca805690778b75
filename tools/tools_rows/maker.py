"""Rows of tools/maker, which cargo builds wherever it is built."""
import shutil

from .commands import copied, refused
from .small_checkout import Checkout

SOURCE = 'benchmarks/maker/src/main.rs'
MANIFEST = 'benchmarks/maker/Cargo.toml'

# A command of few samples.
FEW = ('tools/maker', '--samples', '8')


def with_maker(folder):
    """A small checkout with the maker's sources, and nothing built."""
    checkout = Checkout(folder)
    copied(folder, 'benchmarks/maker', name='checkout')
    shutil.rmtree(checkout.at('benchmarks/maker/target'), ignore_errors=True)
    # How fast it makes eight samples is no matter, and how long it takes to build is.
    with open(checkout.at(MANIFEST), 'a', encoding='utf-8') as file:
        file.write('\n[profile.release]\nopt-level = 0\n')
    return checkout


def made(outcome, lines):
    """The faults of a command that had to make samples, and say so many lines."""
    is_made = outcome.status == 0 and outcome.said
    return [] if is_made and outcome.errors.count('\n') == lines else [str(outcome)[-300:]]


def builds(rows, folder):
    """It is built once, with a line, also where there is an `rt` of the kit; and again where its
    sources are others."""
    if not shutil.which('cargo'):
        return
    checkout = with_maker(folder)
    checkout.add_rt('rattle-kit-1')
    rows.say('tools/maker, first', made(checkout.run(*FEW), 1))
    rows.say('tools/maker, the kit was not asked', [str(it) for it in checkout.calls()])
    rows.say('tools/maker, later, without cargo', made(checkout.run(*FEW, PATH=checkout.bare), 0))
    with open(checkout.at(SOURCE), 'a', encoding='utf-8') as file:
        file.write('// Another source.\n')
    rows.say('tools/maker, another source, without cargo',
             refused(checkout.run(*FEW, PATH=checkout.bare), 'maker: `cargo` .*', 1))
    rows.say('tools/maker, another source', made(checkout.run(*FEW), 1))
    rows.say('tools/maker --help', [] if 'PERIODS' in checkout.run('tools/maker', '--help').said
             else ['it has no help'])
    for given in ('5',), ('--rate', '5'), ('--kind',), ('--message', '/nowhere'), ('1:0:0',):
        rows.say(f'tools/maker {given}', refused(checkout.run('tools/maker', *given), 'maker: .*'))


ROWS = (builds,)
