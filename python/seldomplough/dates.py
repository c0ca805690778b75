"""Weeks and times of week as dates of GPS time, which has no leap seconds.

A week's number in the message is modulo 1024, so that a date needs the number of times that it
began anew at 0: its rollovers, the first of which was in August 1999."""

from __future__ import annotations

from datetime import datetime, timedelta, timezone
from typing import Optional

from seldomplough.failures import Failure

EPOCH = datetime(1980, 1, 6)
WEEKS = 1024
# Some weeks' numbers are modulo this.
SHORT_WEEKS = 256
SECONDS_A_WEEK = 604800
SECONDS_A_DAY = 86400
# Subframes of 6 s in a week, by which `sub` lines count.
SUBFRAMES_A_WEEK = 100800
SECONDS_A_SUBFRAME = 6


def rollovers_by(number: int, today: datetime) -> int:
    """The most rollovers by which the week of a number (modulo 1024) isn't after today's."""
    return max(0, (week_of(today) - number) // WEEKS)


def week_of(day: datetime) -> int:
    """The number of the week that a date is in, from that of the epoch on."""
    return (day - EPOCH) // timedelta(weeks=1)


def nearest_week(number: int, modulus: int, about: int) -> int:
    """The week that is nearest to the week `about` of those with this number modulo `modulus`."""
    half = modulus // 2
    week = about - half + (number - about + half) % modulus
    return week if week >= 0 else week + modulus


def full_week(number: int, near: Optional[datetime], today: datetime) -> int:
    """The week of a number modulo 1024: the one nearest to the date `near`, or where there is none
    the last one up to today."""
    if near is None:
        return number + WEEKS * rollovers_by(number, today)
    return nearest_week(number, WEEKS, week_of(near))


def weeks_apart(seconds: int, about: int) -> int:
    """How many weeks must be added to a time of week so that it is nearest to the time `about`, in
    seconds from the beginning of a week."""
    return (about - seconds + SECONDS_A_WEEK // 2) // SECONDS_A_WEEK


def handover_s(tow: int) -> int:
    """The time of a subframe's handover word, in seconds from the beginning of the week in which
    the subframe began. At the end of a week the word counts from the next one on."""
    return SECONDS_A_SUBFRAME * ((tow - 1) % SUBFRAMES_A_WEEK + 1)


def now() -> datetime:
    """The date by the computer's clock. It is that of UTC."""
    return datetime.now(timezone.utc).replace(tzinfo=None)


def date(number: int, rollovers: int, seconds: int) -> datetime:
    """The date of so many seconds after the beginning of the week of a number modulo 1024."""
    try:
        return EPOCH + timedelta(weeks=number + WEEKS * rollovers, seconds=seconds)
    except OverflowError as why:
        raise Failure(f'{rollovers} rollovers are beyond the last date') from why
