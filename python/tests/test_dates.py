"""Weeks and times of week as dates, by dates that are known."""

from __future__ import annotations

from datetime import datetime

import pytest

from seldomplough.dates import date, rollovers_by
from seldomplough.failures import Failure


def test_rollovers_of_the_week() -> None:
    # The week's number began anew at 0 on 22 August 1999 and on 7 April 2019.
    assert date(0, 0, 0) == datetime(1980, 1, 6)
    assert date(0, 1, 0) == datetime(1999, 8, 22)
    assert date(0, 2, 0) == datetime(2019, 4, 7)
    assert date(1023, 1, 604800) == date(0, 2, 0)


def test_the_last_one_up_to_today() -> None:
    assert rollovers_by(0, datetime(2019, 4, 6)) == 1
    assert rollovers_by(0, datetime(2019, 4, 7)) == 2
    assert rollovers_by(1023, datetime(2019, 4, 7)) == 1
    assert rollovers_by(5, datetime(1979, 1, 1)) == 0


def test_beyond_the_last_date() -> None:
    with pytest.raises(Failure, match='beyond'):
        date(0, 1000, 0)
