// Made by tools/rust of crates/satellite_tests/src/nav_message_tests/almanacs.rt: change that.
//! Almanacs of all satellites, each in a subframe of its own.

use crate::kit::std::HostRuntime;
use super::fixture::Pushed;
use crate::satellite_tests::almanacs::Almanac;
use crate::data_sets::AlmanacSet;
use crate::kit::std::process::Abort;

// The set comes with the last of the 32, where all are for one time, and again where a value of it
// has changed. Each almanac is reported, too.
#[test]
fn almanac_set() {
    let rt = HostRuntime;
    let rt = &rt;
    let mut pushed = Pushed::behind_two_zeros(rt);
    for satellite in 1..=32 {
        push_almanac(rt, &mut pushed, [satellite, 5, 0], satellite == 32);
    }
    push_almanac(rt, &mut pushed, [3, 6, 0], false);
    push_almanac(rt, &mut pushed, [3, 5, 0], false);
    push_almanac(rt, &mut pushed, [3, 5, 1], true);
}

/// Pushes the subframe of an almanac with this time of applicability and health, and asserts that
/// it is reported, and whether there is a set with it: that of time 5 and this health of satellite
/// 3, where that of the others is 0.
fn push_almanac(rt: &impl Abort, pushed: &mut Pushed, values: [u8; 3], is_set: bool) {
    let [satellite, toa, health] = values;
    let almanac = Almanac {
        satellite,
        toa,
        health,
    };
    let mut set = AlmanacSet {
        toa: 5,
        health: [0; 32],
    };
    set.health[2] = health.into();
    let news = pushed.push_words(rt, &almanac.words());
    almanac.assert_reported(rt, &news, is_set.then_some(set));
}
