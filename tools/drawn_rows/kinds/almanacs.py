"""Kinds of what sets of almanacs are made of: the last of several of one satellite, almanacs of one
time and of two, those of 32 satellites, or of all but one."""
from __future__ import annotations

from random import Random

from .. import antt, values
from ..reference import sets as reference
from ..reference.fields import FIELDS, Page
from ..reference.sets import HEALTH, SATELLITE, TIME
from .pages import almanac, any_page, pages_text
from .registry import Row, kind
from .sets import drawn_page, joined, whole_list


@kind('is_almanac_of', count=30)
def is_almanac_of(r: Random) -> Row:
    page, satellite = drawn_page(r), r.randint(1, 32)
    is_almanac = page.kind == 'almanac'
    if is_almanac and r.random() < .6:
        satellite = page.values[SATELLITE] % 32 or 32
    return (f'{satellite} {values.page(page)}',
            antt.boolean(is_almanac and page.values[SATELLITE] == satellite))


@kind('last_almanac', group=10, count=20)
def last_almanac(r: Random) -> Row:
    pages = [almanac(r.randint(1, 3), 5, r.randint(0, 9)) for _ in range(r.randint(0, 5))]
    pages.insert(0, any_page(r, 7))
    found = [it for it in pages if it.kind == 'almanac' and it.values[SATELLITE] == 2]
    return f'{pages_text(pages)} 2', antt.optional(found[-1] if found else None, values.page)


def of_times(r: Random) -> list[Page]:
    """Some almanacs of one time, or all but one of them."""
    pages = [almanac(it, 5) for it in range(1, r.choice([2, 3, 4, 33]))]
    if r.random() < .6:
        pages[r.choice([0, -1])] = almanac(1, r.choice([4, 6]))
    return pages


@kind('have_one_toa', group=10, count=20)
def have_one_toa(r: Random) -> Row:
    pages = of_times(r)
    return pages_text(pages), antt.boolean(len({it.values[TIME] for it in pages}) == 1)


@kind('values_for_one_toa', group=10, count=20)
def values_for_one_toa(r: Random) -> Row:
    pages = of_times(r)
    is_one = len({it.values[TIME] for it in pages}) == 1
    return pages_text(pages), whole_list(joined(pages) if is_one else None)


def table(r: Random) -> list[Page]:
    """The almanacs of all satellites, or of all but one; now and then one of another time."""
    pages = [almanac(it, 5, r.randint(0, 1)) for it in range(1, 33)]
    if r.random() < .3:
        del pages[r.choice([0, 31, r.randrange(32)])]
    if r.random() < .3:
        pages.append(almanac(r.randint(1, 32), r.choice([5, 6]), 9))
    return pages


@kind('almanacs_of', group=1, count=4)
def almanacs_of(r: Random) -> Row:
    pages = table(r)
    last = {it.values[SATELLITE]: it for it in pages}
    are_there = len(last) == 32 and len({it.values[TIME] for it in last.values()}) == 1
    told = joined([last[it] for it in sorted(last)]) if are_there else None
    return pages_text(pages), whole_list(told)


@kind('value_of_almanac', group=5, count=10)
def value_of_almanac(r: Random) -> Row:
    told = [r.randint(-9, 9) for _ in range(13 * r.randint(2, 4))]
    number, at = r.randrange(len(told) // 13), r.randrange(13)
    name = FIELDS['almanac'][at].name
    return (f'{antt.listed(told, antt.integer)} {number} {antt.text(name)}',
            antt.integer(told[13 * number + at]))


@kind('almanac_set', group=1, count=3)
def almanac_set(r: Random) -> Row:
    pages = [almanac(it, 5, r.randint(0, 255)) for it in range(1, 33)]
    made = reference.Almanacs(5, [it.values[HEALTH] for it in pages])
    return antt.listed(joined(pages), antt.integer), values.almanacs(made)
