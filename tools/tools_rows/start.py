"""Rows of what a program for x86-64-v3 asks the processor before it begins: all that the level is,
and that the program ends with a line where one answer is another."""
import os
import re
import shutil
import sys

from .commands import TOP, copied, refused, run, write

sys.path.insert(0, os.path.join(TOP, 'tools'))
from built import FLAGS, THIRD, level

SOURCE = 'rust/bin/start.rs'

# The bit of each flag of /proc/cpuinfo, by the constant that has to name it. Beside these the first
# has XSAVE, and that the system uses it.
BITS = {
    'FIRST': {'pni': 0, 'ssse3': 9, 'fma': 12, 'cx16': 13, 'sse4_1': 19, 'sse4_2': 20, 'movbe': 22,
              'popcnt': 23, 'avx': 28, 'f16c': 29},
    'SEVENTH': {'bmi1': 3, 'avx2': 5, 'bmi2': 8},
    'EXTENDED': {'lahf_lm': 0, 'abm': 5},
}
OF_SYSTEM = [26, 27]

# A bit of each answer that no processor has.
NEVER = {'FIRST': 16, 'SAVED': 31, 'SEVENTH': 22, 'EXTENDED': 18}

# A program with std.
MAIN = 'use std::process::id;\n\nfn main() {\n    println!("{}", id());\n}\n'

# Another one, without std, which is linked as one piece in a fifteenth of the time.
BARE = '''#![no_std]
#![no_main]

use core::panic::PanicInfo;

unsafe extern "C" {
    fn puts(text: *const u8) -> i32;
}

#[panic_handler]
fn panicked(_: &PanicInfo) -> ! {
    loop {}
}

#[unsafe(no_mangle)]
extern "C" fn main() -> i32 {
    unsafe { puts(c"begun".as_ptr().cast()) };
    0
}
'''

LINE = 'seldomplough: this program is built for x86-64-v3, which the processor lacks'


def read(path):
    """The text of a file."""
    with open(path, encoding='utf-8') as file:
        return file.read()


def questions(rows, _):
    """What is asked is what `./receiver` and the package go by."""
    named = re.findall(r'const (\w+): u32 = bits\(\[([\d, ]*)\]\)', read(os.path.join(TOP, SOURCE)))
    found = {name: [int(it) for it in numbers.split(', ')] for name, numbers in named}
    wanted = {name: sorted([*bits.values(), *(OF_SYSTEM if name == 'FIRST' else [])])
              for name, bits in BITS.items()}
    wanted['SAVED'] = [1, 2]
    rows.say('the bits of x86-64-v3', [f'{found}, not {wanted}'] * (found != wanted))
    flags = {flag for bits in BITS.values() for flag in bits}
    rows.say('the flags of x86-64-v3', [f'{flags}'] * (flags != set(read(FLAGS).split())))


def program(top, text):
    """A program of this text that asks at its start, for the third level. Gives its path, or the
    outcome of what failed."""
    linked = ['-Cpanic=abort', '-lc'] if text == BARE else []
    source = os.path.join(top, 'rust', 'bin', 'main.rs')
    write(source, re.sub(r'^(?=use )', 'mod start;\n\n', text, count=1, flags=re.M))
    outcome = run(['rustc', '--edition', '2024', '-Copt-level=1', f'-Ctarget-cpu={THIRD}',
                   '-Clto', *linked, source], top)
    return os.path.join(top, 'main'), outcome if outcome.status else None


def refusals(rows, folder):
    """A program begins where the processor is of the level, and else ends with one line and status
    1. So does one that asks for a bit that no processor has, of each answer. All programs but those
    of two cases have no std."""
    if not shutil.which('rustc') or 'x86_64-unknown-linux' not in run(['rustc', '-Vv'], '/').said:
        return
    is_third = level() == THIRD
    first, *others = NEVER
    for names, main in ([], MAIN), ([first], MAIN), *(([name], BARE) for name in others):
        asked = ' and '.join(names) or 'as it is'
        top = copied(folder, 'rust/bin', name=f'asks {len(os.listdir(folder))}')
        path = os.path.join(top, SOURCE)
        text = read(path)
        for name in names:
            text = re.sub(rf'({name}: u32 = bits\(\[)', rf'\g<1>{NEVER[name]}, ', text)
        write(path, text)
        made, fault = program(top, main)
        if fault:
            rows.say(f'a program that asks, {asked}', [fault.errors[-300:]])
            continue
        outcome = run([made], top)
        if names or not is_third:
            faults = refused(outcome, re.escape(LINE), 1)
        else:
            is_right = outcome.status == 0 and not outcome.errors and outcome.said
            faults = [str(outcome)] * (not is_right)
        rows.say(f'a program that asks, {asked}', faults)


def libraries(rows, _):
    """The programs alone ask: the library has no code that runs before that of who depends on it."""
    top, asking = os.path.join(TOP, 'rust'), set()
    for at, _, names in os.walk(top):
        for name in names:
            path = os.path.join(at, name)
            if re.search('init_array|global_asm', read(path)):
                asking.add(os.path.relpath(path, top))
    rows.say('what asks', [f'{asking}'] * (asking != {'bin/start.rs'}))


ROWS = (questions, refusals, libraries)
