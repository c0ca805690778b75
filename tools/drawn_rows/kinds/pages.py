"""Kinds of fields, pages and sets: words of zeros, of ones, and any; all 64 SV IDs in each
subframe; a missing word; pages of all seven kinds, the same one twice; sets whose pages come in any
order, with issues that differ in one page or by 256, and with one value changed; the almanacs of 32
satellites, then one more of another time, health or satellite."""
from __future__ import annotations

from random import Random
from typing import Optional

from .. import antt, values
from ..reference import fields as reference
from ..reference import sets
from ..reference.fields import EPHEMERIS, FIELDS, Page
from ..reference.message import Words
from .frames import DATA, data_words
from .registry import Row, kind


@kind('kind_of_page', group=1, count=1, is_whole=True)
def kind_of_page(r: Random) -> Row:
    """All subframes, with all satellites."""
    subframes, satellites = r.sample(range(8), 8), r.sample(range(64), 64)
    told = [reference.kind_of_page(it, satellite) for it in subframes for satellite in satellites]
    return (f'flat_map (λ it. map (kind_of_page it) {antt.listed(satellites)})'
            f' {antt.listed(subframes)}', antt.listed(told, antt.optional))


def page_words(r: Random) -> Words:
    """The words of a subframe that may hold a page."""
    ident = r.randint(0, 7) if r.random() < .2 else r.randint(1, 5)
    words = data_words(r, ident)[:2]
    words += [r.choice([0, DATA - 1, r.randrange(DATA), r.randrange(DATA)]) for _ in range(8)]
    if ident in (4, 5):
        satellite = r.choice([55, 56, 51, 1, 32, 0, 33, 63, r.randrange(64)])
        words[2] = (words[2] or 0) & ~(63 << 16) | satellite << 16
    if r.random() < .25:
        words[r.randrange(10)] = None
    return words


@kind('page_of', group=3, count=40)
def page_of(r: Random) -> Row:
    words = page_words(r)
    return values.subframe(words), antt.optional(reference.page(words), values.page)


@kind('field_of', group=1, count=40, is_whole=True)
def field_of(r: Random) -> Row:
    """All fields of a kind of pages at once, whatever kind the subframe is of."""
    words, of = page_words(r), r.choice(list(FIELDS))
    told = [reference.value(words, it) if reference.is_there(words, it) else None
            for it in FIELDS[of]]
    return (f'map (field_of {values.subframe(words)}) {of}_fields',
            antt.listed(told, lambda it: antt.optional(it, antt.integer)))


def pages_text(pages: list[Page]) -> str:
    """Pages as a list."""
    return antt.listed(pages, values.page)


def reported(pages: list[Page]) -> Row:
    """The row of what the last page has reported."""
    return pages_text(pages), values.reports(sets.reports(pages))


def any_page(r: Random, issue: int) -> Page:
    """A page of any kind, those of an ephemeris mostly, with an issue."""
    of = r.choice([*EPHEMERIS * 2, 'almanac', 'utc', 'health', 'message'])
    if of not in EPHEMERIS:
        return Page(of, [r.randint(-2 * it.is_signed, 1 + it.is_signed) for it in FIELDS[of]])
    made = [0] * len(FIELDS[of])
    made[-1] = r.choice([0, 0, 1])
    made[sets.ISSUES[of]] = issue + (r.choice([0, 256]) if of == 'clock' else 0)
    return Page(of, made)


def trios(r: Random) -> list[Page]:
    """Up to three times the pages of an ephemeris in any order, not always all; each time the
    issue may change, and one other value."""
    now: dict[str, list[int]] = {of: [0] * len(FIELDS[of]) for of in EPHEMERIS}
    pages = []
    for _ in range(r.randint(1, 3)):
        issue = r.choice([7, 7, 8, 255])
        for of, more in (('clock', [0, 256, 768]), ('eph2', [0]), ('eph3', [0, 0, 0, 1])):
            now[of][sets.ISSUES[of]] = issue + r.choice(more)
        if r.random() < .5:
            of = r.choice(EPHEMERIS)
            at = r.choice([it for it in range(len(now[of])) if it != sets.ISSUES[of]])
            now[of][at] = r.choice([0, 1])
        order = r.sample(EPHEMERIS, 3)[:r.choice([1, 2, 3, 3, 3])]
        pages += [Page(of, list(now[of])) for of in order]
    return pages


@kind('reports_of', group=5)
def reports_of(r: Random) -> Row:
    pages, issue = trios(r) if r.random() < .5 else [], 7
    more = r.randint(0, 1) if pages and r.random() < .7 else r.randint(not pages, 12)
    for _ in range(more):
        issue = r.choice([issue, issue, issue, 7, 8])
        page = any_page(r, issue)
        again = [pages[-1], r.choice(pages)] if pages else []
        pages.append(r.choice([page, page, *again]))
    return reported(pages)


def almanac(satellite: int, time: int = 5, health: int = 0, last: int = 0) -> Page:
    """An almanac with some values."""
    made = [0] * len(FIELDS['almanac'])
    made[sets.SATELLITE], made[sets.TIME], made[sets.HEALTH] = satellite, time, health
    made[-1] = last
    return Page('almanac', made)


@kind('reports_of_almanacs', group=1, count=24, of='reports_of')
def reports_of_almanacs(r: Random) -> Row:
    pages = [almanac(it) for it in range(1, 33)]
    if r.random() < .3:
        r.shuffle(pages)
    for _ in range(r.randint(0, 4)):
        at = r.random()
        if at < .2:
            pages.append(any_page(r, 7))
        elif at < .35:
            pages.append(Page('health', [0] * len(FIELDS['health'])))
        else:
            satellite = r.choice([1, 2, 3, 4, 5, 31, 32, 33, 0, *(r.randint(1, 32),) * 2])
            pages.append(almanac(satellite, r.choice([5, 5, 5, 6]), r.choice([0, 1]),
                                 r.choice([0, -1])))
    return reported(pages)


@kind('health_of', group=10, count=20)
def health_of(r: Random) -> Row:
    page = almanac(r.randint(1, 32), r.randint(0, 255), r.choice([0, 1, 255, r.randrange(256)]))
    return values.page(page), antt.integer(page.values[sets.HEALTH])


def last_of_three(pages: list[Page]) -> Optional[list[list[int]]]:
    """The values of the last page of each kind of an ephemeris, where all are there."""
    last = {it.kind: it.values for it in pages}
    return [last[of] for of in EPHEMERIS] if set(EPHEMERIS) <= set(last) else None


@kind('ephemeris_of', group=5, count=30)
def ephemeris_of(r: Random) -> Row:
    """Those that belong together, whether they were reported or not."""
    pages = trios(r)
    three = last_of_three(pages)
    issues = [it[sets.ISSUES[of]] for of, it in zip(EPHEMERIS, three or [])]
    is_set = three is not None and issues[0] % 256 == issues[1] == issues[2]
    joined = [it for some in three or [] for it in some] if is_set else None
    return (pages_text(pages),
            antt.optional(joined, lambda it: antt.listed(it, antt.integer)))
