"""Kinds of what sets are made of: pages of each kind, the last of several, issues that differ by
256, lists that differ in one value, sets that are missing, and what is reported once."""
from __future__ import annotations

from random import Random
from typing import Callable, Optional

from .. import antt, values
from ..reference import sets as reference
from ..reference.fields import EPHEMERIS, FIELDS, Page
from ..reference.sets import ISSUES, SATELLITE, Sets, TIME
from .pages import almanac, any_page, pages_text, trios
from .registry import Row, kind


Maybe = Optional[list[int]]


def drawn_page(r: Random) -> Page:
    """A page of any kind."""
    satellite = r.choice([0, 33, 63, r.randint(1, 32)])
    return r.choice([any_page(r, 7), almanac(satellite, r.randint(5, 6), r.randint(0, 1))])


def drawn_pages(r: Random) -> list[Page]:
    """Some pages, of which a few are of one kind."""
    return [drawn_page(r) for _ in range(r.randint(0, 6))] + trios(r) * (r.random() < .4)


@kind('is_of', count=40)
def is_of(r: Random) -> Row:
    of, page = r.choice(list(FIELDS)), drawn_page(r)
    of = r.choice([of, page.kind])
    return f'{of} {values.page(page)}', antt.boolean(of == page.kind)


@kind('is_ephemeris', count=20)
def is_ephemeris(r: Random) -> Row:
    page = drawn_page(r)
    return values.page(page), antt.boolean(page.kind in EPHEMERIS)


@kind('last_page', group=10, count=20)
def last_page(r: Random) -> Row:
    pages, of = drawn_pages(r), r.choice([*EPHEMERIS, 'almanac'])
    if r.random() < .4:
        # More than a few bits count.
        pages = [Page('utc', [])] * r.randint(0, 1)
        pages += [Page(of, [it]) for it in range(r.choice([17, 65, 130]))]
    found = [it for it in pages if it.kind == of]
    return (f'(is_of {of}) {pages_text(pages)}',
            antt.optional(found[-1] if found else None, values.page))


@kind('value_named', count=20)
def value_named(r: Random) -> Row:
    of = r.choice([it for it in FIELDS if it != 'message'])
    page = Page(of, [r.randint(-9, 9) for _ in FIELDS[of]])
    at = r.choice([0, len(page.values) - 1, r.randrange(len(page.values))])
    return (f'{of}_fields {antt.text(FIELDS[of][at].name)} {values.page(page)}',
            antt.integer(page.values[at]))


def value_kind(name: str, of: str, at: int) -> None:
    """A kind of one value of a page."""
    @kind(name, count=10)
    def _(r: Random) -> Row:
        page = Page(of, [r.randint(-9, 99) for _ in FIELDS[of]])
        return values.page(page), antt.integer(page.values[at])


value_kind('iodc', 'clock', ISSUES['clock'])
value_kind('iode', 'eph2', ISSUES['eph2'])
value_kind('iode3', 'eph3', ISSUES['eph3'])
value_kind('almanac_sv', 'almanac', SATELLITE)
value_kind('toa_of', 'almanac', TIME)


def three(r: Random) -> list[Page]:
    """A page of each kind of an ephemeris, whose issues are mostly one."""
    pages, issue = [], r.choice([0, 255, r.randrange(256)])
    other = r.choice([None, None, *EPHEMERIS])
    for of in EPHEMERIS:
        made = [r.randint(-3, 3) for _ in FIELDS[of]]
        made[ISSUES[of]] = issue ^ (1 << r.randrange(8)) * (of == other)
        if of == 'clock':
            made[ISSUES[of]] += r.choice([0, 256, 768])
        pages.append(Page(of, made))
    return pages


def are_one(pages: list[Page]) -> bool:
    """Whether three pages are of one issue."""
    clock, second, third = (it.values[ISSUES[it.kind]] for it in pages)
    return clock % 256 == second == third


@kind('belong_together', group=10, count=30)
def belong_together(r: Random) -> Row:
    pages = three(r)
    return ' '.join(map(values.page, pages)), antt.boolean(are_one(pages))


def joined(pages: list[Page]) -> list[int]:
    """The values of pages, one after the other."""
    return [value for it in pages for value in it.values]


def whole_list(it: Maybe) -> str:
    """A list of whole numbers, or none."""
    return antt.optional(it, lambda them: antt.listed(them, antt.integer))


@kind('joined_values', group=10, count=20)
def joined_values(r: Random) -> Row:
    pages = three(r)
    missing = r.choice([None, None, None, 0, 1, 2])
    given = [None if at == missing else it for at, it in enumerate(pages)]
    told = joined(pages) if missing is None and are_one(pages) else None
    return ' '.join(antt.optional(it, values.page) for it in given), whole_list(told)


def lists(r: Random) -> tuple[list[int], list[int]]:
    """Two lists, often equal, or different in one value or in length."""
    first = [r.randint(-2, 2) for _ in range(r.choice([31, 416, *(r.randint(0, 5),) * 3]))]
    other = list(first)
    if first and r.random() < .5:
        other[r.choice([0, -1, -1])] += 1
    return first, other + [0] * (r.random() < .2)


@kind('same_values', count=30)
def same_values(r: Random) -> Row:
    first, other = lists(r)
    other = other[:len(first)]
    return (' '.join(antt.listed(it, antt.integer) for it in (first, other)),
            antt.boolean(first == other))


def set_kind(name: str, told: Callable[[Maybe, Maybe], Maybe]) -> None:
    """A kind of two sets that may be missing, the one reported last and the one that is there."""
    @kind(name, group=10, count=30)
    def _(r: Random) -> Row:
        before, now = (r.choice([it, it, it, None]) for it in lists(r))
        if before and now:
            now = now[:len(before)]
        return f'{whole_list(before)} {whole_list(now)}', whole_list(told(before, now))


set_kind('differing', lambda before, now: None if now == before else now)
set_kind('later', lambda before, now: before if now is None else now)


def told_with(pages: list[Page]) -> list[Maybe]:
    """The values of the ephemeris that each page has reported, or none."""
    sets = Sets()
    told = [sets.take(it).report for it in pages]
    return [it.values if isinstance(it, reference.Ephemeris) else None for it in told]


def latest(told: list[Maybe]) -> Maybe:
    """The last that isn't missing."""
    found = [it for it in told if it]
    return found[-1] if found else None


@kind('new_set', group=5, count=20)
def new_set(r: Random) -> Row:
    pages = trios(r)
    return f'ephemerides {pages_text(pages)}', whole_list(told_with(pages)[-1])


@kind('reported_so_far', group=5, count=10)
def reported_so_far(r: Random) -> Row:
    pages = trios(r)
    return f'ephemerides {pages_text(pages)}', whole_list(latest(told_with(pages)))


@kind('last_reported', group=5, count=10)
def last_reported(r: Random) -> Row:
    pages = trios(r)
    count = r.randint(0, len(pages))
    return (f'ephemerides {pages_text(pages)} {count}',
            whole_list(latest(told_with(pages)[:count])))


@kind('page_report', group=10, count=20)
def page_report(r: Random) -> Row:
    page = drawn_page(r)
    pages = [page] if page.kind not in EPHEMERIS else trios(r)
    told = reference.reports(pages).report
    return (f'{pages_text(pages)} {values.page(pages[-1])}',
            antt.optional(told, values.report))
