// Made by tools/rust of crates/programs_tests/src/receiver_tests/shares.rt: change that.
//! Numbers of scripts, and shares, with which there is no run.

use crate::kit::std::HostRuntime;
use super::{FIRST_COUNT, plain_settings};
use crate::programs_tests::asserted::assert_same;
use crate::programs_tests::receiver_tests::cases::ALL;
use crate::programs_tests::receiver_tests::fakes::{Giving, Holding};
use crate::channel_slots::MOST_TIME;
use crate::receiver::{RunFault, run, run_shares};
use crate::kit::std::alloc::{Alloc, Global};
use crate::kit::std::process::Abort;

/// What a run of so many scripts answers, with these shares or with four slots each.
fn answer(
    rt: &(impl Abort + Alloc<A = Global>),
    clients: usize,
    shares: Option<&[u8]>,
    reader: &mut Giving,
    writer: &mut Holding,
) -> Result<u64, RunFault> {
    let (alloc, settings) = (rt.alloc(), plain_settings(rt));
    let scripts = &[FIRST_COUNT; 9][..clients.min(9)];
    match shares {
        Some(shares) => run_shares(alloc, settings, scripts, shares, MOST_TIME, reader, writer),
        None => run(alloc, settings, scripts, reader, writer),
    }
}

/// Numbers of scripts, shares, and how a run of them is refused.
static REFUSED: [(usize, Option<&[u8]>, RunFault); 11] = [
    (0, None, RunFault::Clients),
    (9, None, RunFault::Clients),
    (0, Some(&[]), RunFault::Clients),
    (0, Some(&[4]), RunFault::Clients),
    (9, Some(&[4; 9]), RunFault::Clients),
    (9, Some(&[4]), RunFault::Clients),
    (2, Some(&[4]), RunFault::Share),
    (1, Some(&[4, 4]), RunFault::Share),
    (1, Some(&[0]), RunFault::Share),
    (2, Some(&[8, 9]), RunFault::Share),
    (2, Some(&[4, 9]), RunFault::Share),
];

// The scripts are checked before the shares, and both before anything is read or written.
#[test]
fn share_faults() {
    let rt = HostRuntime;
    let rt = &rt;
    for &(clients, shares, fault) in &REFUSED {
        let mut reader = Giving::new(&[0], (ALL, ALL));
        let mut writer = Holding::new((ALL, ALL), false);
        let answer = answer(rt, clients, shares, &mut reader, &mut writer);
        let asked = (reader.reads, writer.writes, writer.flushes);
        assert_same(rt, (answer, asked), (Err(fault), (0, 0, 0)));
    }
}
