"""The values of pages: what `seldomplough.message` makes of lines.

Each is the nearest float of the exact value, or a whole number where a field has no unit or counts
weeks or days. The names are those of `seldomplough.fields`, with the unit at the end."""

from __future__ import annotations

from dataclasses import dataclass
from datetime import datetime
from typing import Dict, Optional

from seldomplough import dates
from seldomplough.fields import DEGREES_A_SEMICIRCLE, INCLINATION, PI


@dataclass(frozen=True)
class Ephemeris:
    """Clock and ephemeris of an `eph` line. `wn` is the week modulo 1024."""

    satellite: Optional[int]
    wn: int
    l2: int
    ura: int
    health: int
    iodc: int
    l2p: int
    tgd_s: float
    toc_s: float
    af2_s_per_s2: float
    af1_s_per_s: float
    af0_s: float
    iode: int
    crs_m: float
    dn_rad_per_s: float
    dn_deg_per_s: float
    m0_rad: float
    m0_deg: float
    cuc_rad: float
    e: float
    cus_rad: float
    sqrta_sqrt_m: float
    toe_s: float
    fit: int
    aodo_s: float
    cic_rad: float
    om0_rad: float
    om0_deg: float
    cis_rad: float
    i0_rad: float
    i0_deg: float
    crc_m: float
    w_rad: float
    w_deg: float
    omdot_rad_per_s: float
    omdot_deg_per_s: float
    idot_rad_per_s: float
    idot_deg_per_s: float

    @property
    def a_m(self) -> float:
        """The semi-major axis."""
        return self.sqrta_sqrt_m**2


@dataclass(frozen=True)
class Almanac:
    """The almanac of the satellite `sv`, of an `alm` line. `satellite` is the one that sent it."""

    satellite: Optional[int]
    sv: int
    e: float
    toa_s: float
    di_rad: float
    di_deg: float
    omdot_rad_per_s: float
    omdot_deg_per_s: float
    health: int
    sqrta_sqrt_m: float
    om0_rad: float
    om0_deg: float
    w_rad: float
    w_deg: float
    m0_rad: float
    m0_deg: float
    af0_s: float
    af1_s_per_s: float

    @property
    def i_rad(self) -> float:
        """The inclination itself: `di` is what it has above 0.3 semicircles."""
        return float(INCLINATION * PI) + self.di_rad

    @property
    def i_deg(self) -> float:
        """The same in degrees."""
        return float(INCLINATION * DEGREES_A_SEMICIRCLE) + self.di_deg


@dataclass(frozen=True)
class Almanacs:
    """An `als` line: almanacs of all satellites for one time, and their healths by satellite."""

    satellite: Optional[int]
    toa_s: float
    healths: Dict[int, int]


@dataclass(frozen=True)
class Time:
    """The ionosphere and coordinated universal time, of a `utc` line. Weeks are modulo 256."""

    satellite: Optional[int]
    al0_s: float
    al1_s_per_semicircle: float
    al2_s_per_semicircle2: float
    al3_s_per_semicircle3: float
    be0_s: float
    be1_s_per_semicircle: float
    be2_s_per_semicircle2: float
    be3_s_per_semicircle3: float
    a0_s: float
    a1_s_per_s: float
    tot_s: float
    wnt: int
    dtls_s: float
    wnlsf: int
    dn: int
    dtlsf_s: float

    def leap_day(self, near: datetime) -> Optional[datetime]:
        """The day of UTC at whose end the leap seconds change, or have changed, to `dtlsf_s`. It is
        in the week that is nearest to the date `near`. None where they don't change: then the week
        may be any of those with its number modulo 256."""
        if self.dtls_s == self.dtlsf_s:
            return None
        week = dates.nearest_week(self.wnlsf, dates.SHORT_WEEKS, dates.week_of(near))
        return dates.date(week, 0, dates.SECONDS_A_DAY * (self.dn - 1))


@dataclass(frozen=True)
class Healths:
    """The page with SV ID 51, of an `hlt` line: the health of satellites 1 to 24, six bits each,
    and the time of the almanacs. The week `wna` is modulo 256."""

    satellite: Optional[int]
    toa_s: float
    wna: int
    healths: Dict[int, int]
