// Made by tools/rust of crates/programs_tests/src/seldomplough_tests.rt: change that.
//! The crate that Rust programs begin with: samples in, events out, and values packed. All types
//! that are used here come from it.

use crate::kit::std::HostRuntime;
use crate::programs_tests::asserted::{assert_same, assert_shown, assert_that};
use crate::programs_tests::choices::{recipe_of, signs};
use crate::facade::units::{chips, from_65536ths, seconds, value};
use crate::facade::{
    Choice, ClockField, Doppler, Event, Field, Format, HalfChip, Packing, PackingFault, Plan, Prn,
    Receiver, Refusal, Settings, Signal, SlotNo, SlotState, TooManySamples, ValueKind,
};
use crate::kit::std::alloc::{Alloc, Global};
use crate::kit::std::process::Abort;

/// Samples of one bit, with 2,046 in a millisecond.
fn settings(rt: &impl Abort) -> Settings {
    Settings::new(2_046_000, 511_500, Format::Real1).expect((rt, "no such recording").1)
}

/// A receiver of two clients, with two slots and one.
fn opened(rt: &(impl Abort + Alloc<A = Global>)) -> Receiver {
    Receiver::open(rt.alloc(), settings(rt), &[2, 1]).expect((rt, "no receiver").1)
}

fn slot(rt: &impl Abort, number: u8) -> SlotNo {
    SlotNo::new(number).expect((rt, "no such slot").1)
}

fn satellite(rt: &impl Abort) -> Prn {
    Prn::new(7).expect((rt, "no such satellite").1)
}

fn half_chip(rt: &impl Abort, number: u16) -> HalfChip {
    HalfChip::new(number).expect((rt, "no such half chip").1)
}

/// A satellite's signal, without a shift, from the first chip of its code on.
fn signal(rt: &impl Abort) -> Signal {
    Signal {
        prn: satellite(rt),
        doppler: Doppler::new(0).expect((rt, "no such shift").1),
        half: half_chip(rt, 0),
    }
}

/// What a client asks of a slot: a dump, nothing more, or to follow the signal.
#[derive(Clone, Copy)]
enum Asked {
    Counts,
    Stop,
    Hold,
    Track,
}

/// What becomes of what a client asks of a slot.
fn ask(
    rt: &impl Abort,
    receiver: &mut Receiver,
    asked: Asked,
    client: u8,
    number: u8,
) -> Result<(), Refusal> {
    let (slot, signal) = (slot(rt, number), signal(rt));
    match asked {
        Asked::Counts => receiver.counts(client, slot, 1),
        Asked::Stop => receiver.stop(client, slot),
        Asked::Hold => receiver.hold(client, slot, signal),
        Asked::Track => receiver.track(client, slot, signal),
    }
}

/// Asserts what becomes of what clients ask of their slots.
fn assert_asked(
    rt: &impl Abort,
    receiver: &mut Receiver,
    rows: &[(Asked, u8, u8, Result<(), Refusal>)],
) {
    for &(asked, client, number, outcome) in rows {
        assert_same(rt, ask(rt, receiver, asked, client, number), outcome);
    }
}

/// Asserts how many bytes a receiver leaves, and whether it emits the one dump of client 2.
fn assert_taken(rt: &impl Abort, receiver: &mut Receiver, bytes: &[u8], left: usize, told: usize) {
    let rest = receiver.take(bytes).expect((rt, "too many samples").1);
    assert_same(rt, (rest.len(), receiver.events().len()), (left, told));
    for emitted in receiver.events() {
        let told = (emitted.client, emitted.slot, emitted.time);
        assert_same(rt, told, (2, 0, 2_046));
        assert_that(rt, matches!(emitted.event, Event::Count(_)));
    }
}

// Without a shift a code of 1,023 chips has 2,046 samples, so its first dump ends there. At most
// 128 bytes are taken at once.
#[test]
fn counts_come_at_the_end_of_a_code() {
    let rt = HostRuntime;
    let rt = &rt;
    let mut receiver = opened(rt);
    let rows = [(Asked::Hold, 2, 0, Ok(())), (Asked::Counts, 2, 0, Ok(()))];
    assert_asked(rt, &mut receiver, &rows);
    for (bytes, left, told) in [(300, 172, 0), (172, 44, 1), (44, 0, 0)] {
        assert_taken(rt, &mut receiver, &[0x5a; 300][..bytes], left, told);
    }
    assert_same(rt, receiver.time(), 2_400);
}

/// What clients 1 and 2, with two slots and one, ask of their slots, and what becomes of it.
static ASKED: [(Asked, u8, u8, Result<(), Refusal>); 6] = [
    (Asked::Counts, 1, 0, Err(Refusal::Idle)),
    (Asked::Stop, 1, 0, Err(Refusal::Idle)),
    (Asked::Track, 1, 0, Ok(())),
    (Asked::Hold, 1, 0, Err(Refusal::Busy)),
    (Asked::Track, 2, 1, Err(Refusal::NoSuchSlot)),
    (Asked::Track, 3, 0, Err(Refusal::NoSuchSlot)),
];

#[test]
fn commands_are_refused() {
    let rt = HostRuntime;
    let rt = &rt;
    let mut receiver = opened(rt);
    assert_asked(rt, &mut receiver, &ASKED);
    assert_asked(rt, &mut receiver, &[(Asked::Stop, 1, 0, Ok(()))]);
    let slot = slot(rt, 0);
    let prn = satellite(rt);
    let plan = Plan::new(prn, 0, 0, 1, 20).expect((rt, "no such search").1);
    let searching = SlotState::Acquire {
        prn,
        done: 0,
        cells: 2_046,
    };
    assert_same(rt, receiver.acquire(1, slot, plan), Ok(()));
    let states = (receiver.state(1, slot), receiver.state(2, slot));
    assert_same(rt, states, (Ok(searching), Ok(SlotState::Idle)));
}

/// Values of a recording, as a program has them.
enum Values {
    I8(&'static [i8]),
    F32(&'static [f32]),
    Bytes(&'static [u8]),
}

/// Why values aren't taken.
fn fault(packing: &mut Packing, values: &Values) -> Option<PackingFault> {
    match values {
        Values::I8(values) => packing.take_i8(values).err(),
        Values::F32(values) => packing.take_f32(values).err(),
        Values::Bytes(bytes) => packing.take(bytes).err(),
    }
}

/// Asserts what signs about 0 are packed with each values of a recording, or why they are refused.
fn assert_packed(
    rt: &(impl Abort + Alloc<A = Global>),
    kind: ValueKind,
    rows: &[(Values, Result<&[u8], PackingFault>)],
) {
    let choice: Choice = signs(kind, false, Format::Real1);
    let mut packing = Packing::open(rt.alloc(), recipe_of(rt, &choice)).expect((rt, "no memory").1);
    for &(ref values, expected) in rows {
        let found = match fault(&mut packing, values) {
            Some(fault) => Err(fault),
            None => Ok(packing.packed()),
        };
        assert_same(rt, found, expected);
    }
}

/// A sign is 0 for what isn't below 0, the earliest in a byte's top bit. Seven values fill no byte.
static SIGNED: [(Values, Result<&[u8], PackingFault>); 4] = [
    (Values::I8(&[1, -1, 5, -128, 127, 0, -3]), Ok(&[])),
    (Values::I8(&[-9, -1, -1]), Ok(&[0b0101_0011])),
    (Values::Bytes(&[255, 0, 128, 127, 0, 0]), Ok(&[0b1110_1000])),
    (Values::F32(&[1.0]), Err(PackingFault::OtherKind)),
];

/// The last bytes are those of eight floats, all of whose exponent is set.
static FLOATS: [(Values, Result<&[u8], PackingFault>); 4] = [
    (
        Values::F32(&[0.5, -0.5, 1e30, -1e-30, 0.0, -2.0, -3.0, 4.0]),
        Ok(&[0b0101_0110]),
    ),
    (Values::I8(&[1]), Err(PackingFault::OtherKind)),
    (Values::F32(&[1.0, f32::NAN]), Err(PackingFault::NotANumber)),
    (Values::Bytes(&[255; 32]), Err(PackingFault::NotANumber)),
];

#[test]
fn values_become_signs() {
    let rt = HostRuntime;
    assert_packed(&rt, ValueKind::I8, &SIGNED);
    assert_packed(&rt, ValueKind::F32, &FLOATS);
}

// The group delay is counted in 2^-31 s (IS-GPS-200, table 20-I).
#[test]
fn numbers_have_units() {
    let rt = HostRuntime;
    let rt = &rt;
    let settings = settings(rt);
    let numbers = [
        seconds(3_069_000, &settings),
        seconds(1 << 40, &settings),
        from_65536ths(-98_304),
        chips(half_chip(rt, 5)),
        value(-3, Field::Clock(ClockField::Tgd)),
    ];
    let expected = [
        1.5,
        1_099_511_627_776.0 / 2_046_000.0,
        -1.5,
        2.5,
        -3.0 / 2_147_483_648.0,
    ];
    assert_same(rt, numbers, expected);
}

static REFUSALS: [(Refusal, &str); 3] = [
    (Refusal::Busy, "the slot isn't idle"),
    (Refusal::Idle, "the slot is idle"),
    (Refusal::NoSuchSlot, "the client has no such slot"),
];

#[test]
fn faults_are_sentences() {
    let rt = HostRuntime;
    let rt = &rt;
    for &(refusal, text) in &REFUSALS {
        assert_shown(rt, refusal, text);
    }
    assert_shown(rt, TooManySamples, "a recording has at most 2^40 samples");
    let text = "the recording has values of another kind";
    assert_shown(rt, PackingFault::OtherKind, text);
}
