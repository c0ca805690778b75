//! The library sees to what its functions require, in each build: each call here breaks a premise,
//! and ends in a panic that names it.

use seldomplough::internals::channel_slots::{Bank, Timeline};
use seldomplough::internals::std::vec::Vec as KitVec;
use seldomplough::internals::tracking_loops::Loops;
use seldomplough::{
    BitSync, Choice, CodeBook, Counts, Format, Global, MAX_SAMPLES, MOST_TIME, Message,
    MessageNews, NumberedSamples, PackedSamples, Plan, Prn, Recipe, Search, SearchRoom, Settings,
    Subframe, ValueKind, check, encode,
};
use std::panic::{AssertUnwindSafe, catch_unwind};

/// A call that breaks a premise, and what the panic says then.
type Broken = (&'static str, fn());

/// The most that a sum or a push comes to.
const MOST_SUM: i32 = 1 << 18;

/// The most that a shift comes to.
const MOST_SHIFT: i64 = 1 << 30;

/// More bytes than a recipe takes at once.
const TOO_MANY_BYTES: usize = (1 << 20) + 1;

/// Takes what a call gives, which never comes here.
fn called<T>(_: T) {}

fn settings() -> Settings {
    Settings::new(2_046_000, 511_500, Format::Real1).expect("settings")
}

/// A bank over a recording of real samples of one bit.
fn bank() -> Bank {
    Bank::open(Global, settings(), &[4, 4]).expect("a bank")
}

/// A timeline without events.
fn timeline() -> Timeline {
    Timeline::new(Global).expect("a timeline")
}

/// The sums of a dump, all of one size.
fn sums(of_each: i32) -> Counts {
    Counts { ie: of_each, qe: of_each, ip: of_each, qp: of_each, il: of_each, ql: of_each }
}

/// 1,032 real samples, more than are taken at once.
fn samples() -> PackedSamples<'static> {
    PackedSamples::new(Format::Real1, &[0; 129])
}

/// A subframe with its first two words alone.
fn subframe() -> Subframe {
    let mut words = [None; 10];
    (words[0], words[1]) = (Some(0x8b_0000), Some(1 << 2));
    Subframe::from_words(words).expect("a subframe")
}

/// A recipe that keeps the signs of bytes.
fn recipe() -> Recipe {
    let choice = Choice {
        kind: ValueKind::I8,
        is_paired: false,
        format: Format::Real1,
        threshold: 0,
        centre: 0,
        centre_q: 0,
        is_swapped: false,
        is_conjugate: false,
        takes_quadrature: false,
    };
    choice.recipe().expect("a recipe")
}

/// A search from a time on.
fn search(start: u64) -> Search {
    let plan = Plan::new(Prn::new(5).expect("a satellite"), 0, 4, 4, 60).expect("a plan");
    Search::new(plan, &settings(), start, SearchRoom::new(Global).expect("a room"))
}

const RUNS: &[Broken] = &[
    ("PackedSamples::split_at requires n <= len()", || called(samples().split_at(1_033))),
    ("PackedSamples::part requires first + len <= len()", || called(samples().part(1_032, 1))),
    ("PackedSamples::part requires first + len <= len()", || called(samples().part(usize::MAX, 2))),
    ("PackedSamples::part requires first + len <= len()", || called(samples().part(2, usize::MAX))),
    ("PackedSamples::unpack requires len() <= MAX_SAMPLES", || called(samples().unpack())),
    ("PackedSamples::unpack_into requires len() <= MAX_SAMPLES", || {
        samples().unpack_into(&mut samples().part(0, 1).unpack());
    }),
    ("NumberedSamples::new requires first + samples.len() < 2^64", || {
        called(NumberedSamples::new(samples(), u64::MAX - 1_031));
    }),
    ("Planes::value requires i < len()", || called(samples().part(0, 8).unpack().value(8))),
    ("Planes::value_q requires i < len()", || called(samples().part(0, 8).unpack().value_q(8))),
    ("Planes::codes requires w < WORDS", || called(samples().part(0, 8).unpack().codes(16))),
    ("Planes::codes_q requires w < WORDS", || called(samples().part(0, 8).unpack().codes_q(16))),
    ("Format::put requires place < per_byte()", || called(Format::Iq2.put(0, 2, &[0], 0))),
    ("Recipe::pack requires bytes.len() <= MOST_BYTES", || {
        called(recipe().pack(&[0; TOO_MANY_BYTES], &mut KitVec::new(Global)));
    }),
    ("Recipe::measure requires bytes.len() <= MOST_BYTES", || {
        called(recipe().measure(&recipe().in_phase, 0, &[0; TOO_MANY_BYTES]));
    }),
    ("Bank::feed requires run.len() <= MAX_SAMPLES", || {
        bank().feed(&samples().part(0, 1_025), &mut timeline());
    }),
    ("Bank::feed requires a run in the format of its settings", || {
        bank().feed(&PackedSamples::new(Format::Iq2, &[0; 128]), &mut timeline());
    }),
];

const SEARCHES: &[Broken] = &[
    ("Settings::carrier_step requires |v| <= MOST_SHIFT", || {
        called(settings().carrier_step(MOST_SHIFT + 1));
    }),
    ("Settings::carrier_step requires |v| <= MOST_SHIFT", || {
        called(settings().carrier_step(i64::MIN));
    }),
    ("Settings::code_step requires |v| <= MOST_SHIFT and |w| <= MOST_CORRECTION", || {
        called(settings().code_step(-MOST_SHIFT - 1, 0));
    }),
    ("Settings::code_step requires |v| <= MOST_SHIFT and |w| <= MOST_CORRECTION", || {
        called(settings().code_step(0, (1 << 16) + 1));
    }),
    ("Search::new requires start <= MOST_TIME", || called(search(MOST_TIME + 1))),
    ("Search::advance requires a source that holds the dwell", || {
        let source = NumberedSamples::new(samples(), 0);
        search(0).advance(1, &source, &mut CodeBook::new());
    }),
    ("Search::advance requires a source that holds the dwell", || {
        let source = NumberedSamples::new(PackedSamples::new(Format::Real1, &[0; 10_000]), 1);
        search(0).advance(1, &source, &mut CodeBook::new());
    }),
    ("Loops::start requires |v| <= MOST_SHIFT", || called(Loops::start(-MOST_SHIFT - 1))),
    ("Loops::take requires sums of at most MOST_SUM in size", || {
        Loops::start(0).take(Counts { ql: MOST_SUM + 1, ..sums(0) });
    }),
];

const MESSAGES: &[Broken] = &[
    ("BitSync::push requires |ip| <= MOST_PUSH", || called(BitSync::new().push(MOST_SUM + 1))),
    ("BitSync::push requires |ip| <= MOST_PUSH", || called(BitSync::new().push(i32::MIN))),
    ("Message::push requires |ip| <= MOST_PUSH", || {
        Message::new().push(-MOST_SUM - 1, &mut MessageNews::Nothing);
    }),
    ("check requires word < WORD_LIMIT", || called(check(1 << 30, 0))),
    ("check requires prior < PRIOR_LIMIT", || called(check(0, 4))),
    ("encode requires data < DATA_LIMIT", || called(encode(1 << 24, 0))),
    ("encode requires prior < PRIOR_LIMIT", || called(encode(0, 4))),
    ("Subframe::word requires 1 <= i <= SUBFRAME_WORDS", || called(subframe().word(0))),
    ("Subframe::word requires 1 <= i <= SUBFRAME_WORDS", || called(subframe().word(11))),
];

/// Sees that each call ends in a panic with its words.
fn see(rows: &[Broken]) {
    for (number, (words, call)) in rows.iter().enumerate() {
        let ended = catch_unwind(AssertUnwindSafe(call)).expect_err(words);
        let said = ended.downcast_ref::<&str>().copied().map(str::to_owned);
        let said = said.or_else(|| ended.downcast_ref::<String>().cloned());
        assert_eq!(said.as_deref(), Some(*words), "row {number}");
    }
}

#[test]
fn runs_and_recordings() {
    see(RUNS);
}

#[test]
fn searches_and_loops() {
    see(SEARCHES);
}

#[test]
fn messages() {
    see(MESSAGES);
}

/// Rust checks these itself, where overflow checks are on.
#[cfg(debug_assertions)]
#[test]
fn sums_that_fit_in_no_number() {
    see(&[("attempt to add with overflow", || called(sums(i32::MAX).add(&sums(1))))]);
}

#[test]
fn as_much_as_may_be() {
    bank().feed(&PackedSamples::new(Format::Real1, &[0; 128]), &mut timeline());
    assert_eq!(samples().part(1_032, 0).len(), 0);
    assert_eq!(samples().part(0, MAX_SAMPLES).unpack().value(MAX_SAMPLES - 1), 1);
    let _ = NumberedSamples::new(samples(), u64::MAX - 1_032);
    Loops::start(MOST_SHIFT).take(sums(MOST_SUM));
    let _ = settings().code_step(-MOST_SHIFT, -(1 << 16));
    assert_eq!(search(MOST_TIME).start(), MOST_TIME);
    BitSync::new().push(-MOST_SUM);
    let _ = check((1 << 30) - 1, 3);
    assert_eq!(subframe().word(10), None);
}
