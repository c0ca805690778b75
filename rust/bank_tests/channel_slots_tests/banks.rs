// Made by tools/rust of crates/bank_tests/src/channel_slots_tests/banks.rt: change that.
//! The slots of several clients over one stream.

use crate::kit::std::HostRuntime;
use crate::kit::std::string::ToString;
use super::{hears, hold, new_bank, new_timeline, plain_settings, sums};
use crate::bank_tests::asserted::{assert_same, assert_same_at, assert_that};
use crate::bank_tests::commands;
use crate::channel_slots::{
    Answer, Bank, Command, Event, FeedFault, OpenFault, Refusal, SlotEvent, SlotNo,
};
use crate::sample_planes::{Format, PackedSamples};
use crate::kit::std::alloc::{Alloc, Global};
use crate::kit::std::process::Abort;

/// A bank of which one slot is to hold satellite 1, and to show its first dump.
fn bank_that_holds(rt: &(impl Abort + Alloc<A = Global>)) -> Bank {
    let mut bank = new_bank(rt, &[4]);
    bank.command(1, hold(rt, 2_045));
    let counts = commands::counts(0, 1).expect((rt, "no such number of dumps").1);
    bank.command(1, counts);
    bank
}

// Samples from the ninth of two bytes on are those of the second byte.
#[test]
fn a_feed_begins_anywhere() {
    let rt = HostRuntime;
    let rt = &rt;
    let run = PackedSamples::new(Format::Real1, &[255, 127]).part(8, 1);
    let count = SlotEvent {
        client: 1,
        slot: 0,
        time: 1,
        event: Event::Count(sums([-2, 1, 2, -1, 2, -1])),
    };
    hears(rt, &mut bank_that_holds(rt), &run, &[count]);
}

/// A format, bytes, what a bank answers to a run of them, and its time then.
type Run = (Format, &'static [u8], Result<(), FeedFault>, u64);

// The recording has one bit a sample, and a run at most 1,024 samples. One that is refused changes
// no time.
static RUNS: [Run; 7] = [
    (Format::Real2, &[0], Err(FeedFault::Packing), 0),
    (Format::Iq1, &[], Err(FeedFault::Packing), 0),
    (Format::Iq2, &[0; 129], Err(FeedFault::Packing), 0),
    (Format::Real1, &[0; 129], Err(FeedFault::TooLong), 0),
    (Format::Real1, &[0; 128], Ok(()), 1_024),
    (Format::Real1, &[], Ok(()), 1_024),
    (Format::Real1, &[0; 129], Err(FeedFault::TooLong), 1_024),
];

/// Sees that a bank does so.
fn feed(rt: &(impl Abort + Alloc<A = Global>), bank: &mut Bank, row: &Run) {
    let &(format, bytes, wanted, time) = row;
    assert_that(rt, bytes.len() <= 129);
    let run = PackedSamples::new(format, bytes);
    let found = (bank.try_feed(&run, &mut new_timeline(rt)), bank.time());
    assert_same_at(rt, (format, bytes.len()), found, (wanted, time));
}

#[test]
fn runs_that_do_not_fit_are_refused() {
    let rt = HostRuntime;
    let rt = &rt;
    let mut bank = new_bank(rt, &[1]);
    for row in &RUNS {
        feed(rt, &mut bank, row);
    }
}

/// Shares, and the time of a bank that has them, or why none has.
static SHARES: [(&[u8], Result<u64, OpenFault>); 12] = [
    (&[1], Ok(0)),
    (&[4; 8], Ok(0)),
    (&[8; 8], Ok(0)),
    (&[], Err(OpenFault::Clients)),
    (&[4; 9], Err(OpenFault::Clients)),
    (&[0; 9], Err(OpenFault::Clients)),
    (&[8; 255], Err(OpenFault::Clients)),
    (&[0], Err(OpenFault::Share)),
    (&[9], Err(OpenFault::Share)),
    (&[255], Err(OpenFault::Share)),
    (&[8, 1, 0], Err(OpenFault::Share)),
    (&[1, 2, 3, 4, 5, 6, 7, 9], Err(OpenFault::Share)),
];

#[test]
fn one_to_eight_clients_have_one_to_eight_slots() {
    let rt = HostRuntime;
    let rt = &rt;
    for &(shares, time) in &SHARES {
        let found = match Bank::open(rt.alloc(), plain_settings(rt), shares) {
            Ok(bank) => Ok(bank.time()),
            Err(fault) => Err(fault),
        };
        assert_same_at(rt, shares, found, time);
    }
}

// The clients have four slots and two.
static STOPS: [(u8, u8, Refusal); 8] = [
    (1, 3, Refusal::Idle),
    (2, 1, Refusal::Idle),
    (1, 4, Refusal::NoSuchSlot),
    (1, 5, Refusal::NoSuchSlot),
    (2, 2, Refusal::NoSuchSlot),
    (0, 0, Refusal::NoSuchSlot),
    (3, 0, Refusal::NoSuchSlot),
    (255, 7, Refusal::NoSuchSlot),
];

/// Sees that a bank refuses to stop a slot so.
fn refuses(rt: &impl Abort, bank: &mut Bank, &(client, number, refusal): &(u8, u8, Refusal)) {
    let slot = SlotNo::new(number).expect((rt, "no such slot").1);
    let answer = bank.command(client, Command::Stop { slot });
    assert_same_at(rt, (client, number), &answer, &Answer::Refused(refusal));
}

// By the list of all slots, what would be the first client's sixth is the second client's last,
// which stays idle.
#[test]
fn slots_of_nobody_and_of_others_are_refused() {
    let rt = HostRuntime;
    let rt = &rt;
    let mut bank = new_bank(rt, &[4, 2]);
    let hold = commands::hold(5, 1, 0, 2_045).expect((rt, "no such hold").1);
    let refused = Answer::Refused(Refusal::NoSuchSlot);
    assert_same(rt, &bank.command(1, hold), &refused);
    for row in &STOPS {
        refuses(rt, &mut bank, row);
    }
}

static TEXTS: [(OpenFault, &str); 3] = [
    (OpenFault::NoMemory, "no memory"),
    (OpenFault::Clients, "there are from 1 to 8 clients"),
    (OpenFault::Share, "a client's share is from 1 to 8 slots"),
];

#[test]
fn faults_have_texts() {
    let rt = HostRuntime;
    for &(fault, text) in &TEXTS {
        let shown = fault.to_string_in(rt.alloc()).expect((&rt, "no memory").1);
        assert_same(&rt, shown.as_str(), text);
    }
}
