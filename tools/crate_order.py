"""The crates of this repository, and work on them side by side, lowest first."""
import os
from concurrent.futures import FIRST_COMPLETED, ThreadPoolExecutor, wait

TOP = os.path.dirname(os.path.dirname(os.path.realpath(__file__)))

# The memory that a check of one crate takes, in KiB: few take more.
CHECK_KIB = 3_000_000


def read_crates(top=TOP):
    """The crates of crates.txt, and of each those of the repository that it stands on."""
    crates = {}
    with open(os.path.join(top, 'crates.txt'), encoding='utf-8') as lines:
        for line in lines:
            head, colon, below = line.split('#')[0].partition(':')
            if colon:
                crates[head.split()[0]] = below.split()
    return {name: [it for it in below if it in crates] for name, below in crates.items()}


def with_those_below(names, crates):
    """The crates named and all that they stand on, lowest first."""
    found = {}

    def visit(name):
        if name not in found:
            for below in crates[name]:
                visit(below)
            found[name] = None

    for name in names:
        visit(name)
    return list(found)


def job_count():
    """How many checks run at a time: one a processor, as far as there is memory."""
    with open('/proc/meminfo', encoding='ascii') as lines:
        free = next(int(it.split()[1]) for it in lines if it.startswith('MemAvailable:'))
    return max(1, min(len(os.sched_getaffinity(0)), free // CHECK_KIB))


def side_by_side(waits, work, jobs):
    """Calls `work` with each key, once the work of all that it waits for is done, and yields the
    key with what the call gave. Earlier keys go first."""
    left, running, done = list(waits), {}, set()
    with ThreadPoolExecutor(jobs) as pool:
        while left or running:
            ready = [key for key in left if done.issuperset(waits[key])]
            for key in ready[:jobs - len(running)]:
                left.remove(key)
                running[pool.submit(work, key)] = key
            for ended in wait(running, return_when=FIRST_COMPLETED).done:
                key = running.pop(ended)
                done.add(key)
                yield key, ended.result()
