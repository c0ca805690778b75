// Made by tools/rust of crates/bank_tests/src/printed_lines_tests/page_rows.rt: change that.
//! Lines of pages, of a clock and ephemeris, and of the almanacs of all satellites.

use crate::kit::std::HostRuntime;
use super::*;
use crate::bank_tests::asserted::assert_same;
use crate::data_sets::{AlmanacSet, Report};

/// The numbers 1, -2, 3, -4 and so on.
fn alternating<const N: usize>() -> [i64; N] {
    let mut numbers = [0; N];
    let mut next = 1i64;
    for number in &mut numbers {
        *number = next;
        next = if next < 0 {
            1i64.wrapping_sub(next)
        } else {
            (-1i64).wrapping_sub(next)
        };
    }
    numbers
}

static EPH_OF_ZEROS: &[u8] =
    b"1 0 eph 0 wn=0:0 l2=0:0 ura=0:0 health=0:0 iodc=0:0 l2p=0:0 tgd=0:-31 toc=0:4 \
    af2=0:-55 af1=0:-43 af0=0:-31 iode=0:0 crs=0:-5 dn=0:-43 m0=0:-31 cuc=0:-29 \
    e=0:-33 cus=0:-29 sqrta=0:-19 toe=0:4 fit=0:0 aodo=0:0 cic=0:-29 om0=0:-31 \
    cis=0:-29 i0=0:-31 crc=0:-5 w=0:-31 omdot=0:-43 iode3=0:0 idot=0:-43\n";

#[test]
fn clock_and_ephemeris_of_zeros() {
    let rt = HostRuntime;
    let told = SlotEvent {
        client: 1,
        slot: 0,
        time: 0,
        event: Event::Page(Report::Eph([0; 31])),
    };
    assert_text(&rt, &event_line(&told), EPH_OF_ZEROS);
}

// The lines of pages with alternating numbers.

static EPH: &[u8] = b"8 1099511627776 eph 3 wn=1:0 l2=-2:0 ura=3:0 health=-4:0 iodc=5:0 l2p=-6:0 \
    tgd=7:-31 toc=-8:4 af2=9:-55 af1=-10:-43 af0=11:-31 iode=-12:0 crs=13:-5 \
    dn=-14:-43 m0=15:-31 cuc=-16:-29 e=17:-33 cus=-18:-29 sqrta=19:-19 toe=-20:4 \
    fit=21:0 aodo=-22:0 cic=23:-29 om0=-24:-31 cis=25:-29 i0=-26:-31 crc=27:-5 \
    w=-28:-31 omdot=29:-43 iode3=-30:0 idot=31:-43\n";

static ALM: &[u8] =
    b"8 1099511627776 alm 3 data=1:0 sv=-2:0 e=3:-21 toa=-4:12 di=5:-19 omdot=-6:-38 \
    health=7:0 sqrta=-8:-11 om0=9:-23 w=-10:-23 m0=11:-23 af0=-12:-20 af1=13:-38\n";

static UTC: &[u8] = b"8 1099511627776 utc 3 data=1:0 sv=-2:0 al0=3:-30 al1=-4:-27 al2=5:-24 \
    al3=-6:-24 be0=7:11 be1=-8:14 be2=9:16 be3=-10:16 a1=11:-50 a0=-12:-30 \
    tot=13:12 wnt=-14:0 dtls=15:0 wnlsf=-16:0 dn=17:0 dtlsf=-18:0\n";

static HLT: &[u8] =
    b"8 1099511627776 hlt 3 data=1:0 sv=-2:0 toa=3:12 wna=-4:0 h1=5:0 h2=-6:0 h3=7:0 \
    h4=-8:0 h5=9:0 h6=-10:0 h7=11:0 h8=-12:0 h9=13:0 h10=-14:0 h11=15:0 h12=-16:0 \
    h13=17:0 h14=-18:0 h15=19:0 h16=-20:0 h17=21:0 h18=-22:0 h19=23:0 h20=-24:0 \
    h21=25:0 h22=-26:0 h23=27:0 h24=-28:0\n";

#[test]
fn each_kind_of_page() {
    let rt = HostRuntime;
    let rt = &rt;
    assert_event(rt, Event::Page(Report::Eph(alternating())), EPH);
    assert_event(rt, Event::Page(Report::Alm(alternating())), ALM);
    assert_event(rt, Event::Page(Report::Utc(alternating())), UTC);
    assert_event(rt, Event::Page(Report::Hlt(alternating())), HLT);
}

#[test]
fn the_longest_line() {
    let rt = HostRuntime;
    let line = event_line(&SlotEvent {
        client: 255,
        slot: 255,
        time: u64::MAX,
        event: Event::Page(Report::Eph([i64::MIN; 31])),
    });
    // 3 + 1 + 20 for client and time, 8 for kind and slot, 1 for the end; for each of 31 fields a
    // space, its name, `=`, 20, `:` and its exponent. The names have 97 letters, the exponents 67.
    let bytes: &[u8] = &line;
    assert_same(&rt, bytes.len(), 910);
}

static MESSAGE: &[u8] = b"8 1099511627776 msg 3 0001090a0f107f809fa0aff0ff4750532031617adebc\n";

#[test]
fn messages() {
    let rt = HostRuntime;
    let characters = [
        0x00, 0x01, 0x09, 0x0a, 0x0f, 0x10, 0x7f, 0x80, 0x9f, 0xa0, 0xaf, 0xf0, 0xff, b'G', b'P',
        b'S', b' ', b'1', b'a', b'z', 0xde, 0xbc,
    ];
    assert_event(&rt, Event::Page(Report::Msg(characters)), MESSAGE);
}

static HEALTHY: &[u8] =
    b"8 1099511627776 als 3 toa=5:12 0 0 0 0 0 0 0 0 0 0 0 0 0 0 0 0 0 0 0 0 0 0 0 0 \
    0 0 0 0 0 0 0 0\n";

static NUMBERED: &[u8] =
    b"8 1099511627776 als 3 toa=-9223372036854775808:12 1 -2 3 -4 5 -6 7 -8 9 -10 11 \
    -12 13 -14 15 -16 17 -18 19 -20 21 -22 23 -24 25 -26 27 -28 29 -30 31 -32\n";

#[test]
fn almanacs_of_all_satellites() {
    let rt = HostRuntime;
    let healthy = AlmanacSet {
        toa: 5,
        health: [0; 32],
    };
    assert_event(&rt, Event::Almanacs(healthy), HEALTHY);
    let numbered = AlmanacSet {
        toa: i64::MIN,
        health: alternating(),
    };
    assert_event(&rt, Event::Almanacs(numbered), NUMBERED);
}
