// Made by tools/rust of crates/bank_tests/src/printed_lines_tests.rt: change that.
//! A line of each kind, by the table of lines in docs/FORMATS.md.

use crate::kit::std::HostRuntime;

mod page_rows;
mod subframe_rows;

use crate::bank_tests::asserted::assert_same_at;
use crate::acquisition::Cell;
use crate::ca_codes::Prn;
use crate::lane_correlator::Counts;
use crate::oscillators::HalfChip;
use crate::printed_lines::*;
use crate::slot_protocol::{Answer, Event, Phase, Refusal, SlotEvent, SlotState};
use crate::kit::std::process::Abort;

/// The sums of the tests.
const SUMS: Counts = Counts {
    ie: 0,
    qe: -1,
    ip: 10,
    qp: -2_147_483_648,
    il: 2_147_483_647,
    ql: -99,
};

/// The latest time of a command.
const TIME: u64 = 1_099_511_627_776;

/// Asserts a line's bytes.
fn assert_text(rt: &impl Abort, line: &Line, text: &[u8]) {
    let bytes: &[u8] = line;
    assert_same_at(rt, text.escape_ascii(), bytes, text);
}

/// Asserts the line of an event of slot 3 of client 8 at the latest time.
fn assert_event(rt: &impl Abort, event: Event, text: &[u8]) {
    let told = SlotEvent {
        client: 8,
        slot: 3,
        time: TIME,
        event,
    };
    assert_text(rt, &event_line(&told), text);
}

#[test]
fn each_kind_of_event() {
    let rt = HostRuntime;
    let rt = &rt;
    assert_event(rt, Event::Lock, b"8 1099511627776 lock 3\n");
    assert_event(rt, Event::Unlock, b"8 1099511627776 unlock 3\n");
    assert_event(rt, Event::Lost, b"8 1099511627776 lost 3\n");
    assert_event(rt, Event::Bits, b"8 1099511627776 bits 3\n");
}

static SUMS_LINE: &[u8] = b"8 1099511627776 count 3 0 -1 10 -2147483648 2147483647 -99\n";

static GAP_LINE: &[u8] = b"8 1099511627776 gap 3 18446744073709551615\n";

#[test]
fn numbers_of_events() {
    let rt = HostRuntime;
    let rt = &rt;
    assert_event(rt, Event::Count(SUMS), SUMS_LINE);
    let none = b"8 1099511627776 count 3 0 0 0 0 0 0\n";
    assert_event(rt, Event::Count(Counts::NONE), none);
    assert_event(rt, Event::Gap(0), b"8 1099511627776 gap 3 0\n");
    assert_event(rt, Event::Gap(u64::MAX), GAP_LINE);
}

/// Asserts the line of a satellite's best cell, in slot 0 of client 1.
fn assert_acquired(rt: &impl Abort, time: u64, prn: u8, cell: Cell, text: &[u8]) {
    let prn = Prn::new(prn).expect((rt, "a satellite").1);
    let told = SlotEvent {
        client: 1,
        slot: 0,
        time,
        event: Event::Acquired { prn, cell },
    };
    assert_text(rt, &event_line(&told), text);
}

static FOUND: &[u8] = b"1 1099511627776 acq 0 32 found -40 2045 18446744073709551615\n";

#[test]
fn each_kind_of_acquisition() {
    let rt = HostRuntime;
    let rt = &rt;
    let found = Cell {
        bin: -40,
        half: HalfChip::new(2_045).expect((rt, "a half chip").1),
        power: 18_446_744_073_709_551_615,
        found: true,
    };
    assert_acquired(rt, TIME, 32, found, FOUND);
    let missed = Cell {
        bin: 40,
        half: HalfChip::new(1_022).expect((rt, "a half chip").1),
        power: 0,
        found: false,
    };
    assert_acquired(rt, 0, 7, missed, b"1 0 acq 0 7 none 40 1022 0\n");
}

/// The line of what a slot of a client answers at a time.
fn answer_line(client: u8, time: u64, slot: u8, answer: &Answer) -> Line {
    let mut line = Line::blank();
    line.make_answer(client, time, slot, answer);
    line
}

/// Asserts the line of an answer about slot 3 of client 8 at the latest time.
fn assert_answer(rt: &impl Abort, answer: Answer, text: &[u8]) {
    assert_text(rt, &answer_line(8, TIME, 3, &answer), text);
}

static HELD: &[u8] = b"8 1099511627776 state 3 hold 32 18446744073709551615\n";

#[test]
fn each_kind_of_answer() {
    let rt = HostRuntime;
    let rt = &rt;
    assert_answer(rt, Answer::Accepted, b"8 1099511627776 ok\n");
    let busy = Answer::Refused(Refusal::Busy);
    assert_answer(rt, busy, b"8 1099511627776 err 9\n");
    let idle = Answer::Refused(Refusal::Idle);
    assert_answer(rt, idle, b"8 1099511627776 err 10\n");
    let state = Answer::State(SlotState::Idle);
    assert_answer(rt, state, b"8 1099511627776 state 3 idle\n");
    let prn = Prn::new(32).expect((rt, "a satellite").1);
    let dumps = 18_446_744_073_709_551_615;
    assert_answer(rt, Answer::State(SlotState::Hold { prn, dumps }), HELD);
}

/// Asserts the line of the state of slot 0 of client 1, of which so many of these cells are done.
fn assert_searching(rt: &impl Abort, time: u64, prn: u8, (done, cells): (u64, u64), text: &[u8]) {
    let prn = Prn::new(prn).expect((rt, "a satellite").1);
    let shown = Answer::State(SlotState::Acquire { prn, done, cells });
    assert_text(rt, &answer_line(1, time, 0, &shown), text);
}

static LAST_CELL: &[u8] = b"1 1099511627776 state 0 acquire 32 165725 165726\n";

static MOST_CELLS: &[u8] = b"1 0 state 0 acquire 7 0 18446744073709551615\n";

// 81 bins of 2,046 cells have 165,726.
#[test]
fn each_state_of_acquiring() {
    let rt = HostRuntime;
    let rt = &rt;
    assert_searching(rt, TIME, 32, (165_725, 165_726), LAST_CELL);
    assert_searching(rt, 0, 7, (0, 18_446_744_073_709_551_615), MOST_CELLS);
}

/// Asserts the line of the state of slot 3 of client 8, which tracks satellite 7: how many dumps
/// there were, the two words of the loops, and the phase.
fn assert_tracking(rt: &impl Abort, dumps: u64, (v, w): (i64, i64), phase: Phase, text: &[u8]) {
    let prn = Prn::new(7).expect((rt, "a satellite").1);
    let shown = Answer::State(SlotState::Track {
        prn,
        dumps,
        v,
        w,
        phase,
    });
    assert_text(rt, &answer_line(8, 0, 3, &shown), text);
}

static FIRST: &[u8] = b"8 0 state 3 track 7 0 65536000 0 open\n";

static LOCKED: &[u8] = b"8 0 state 3 track 7 201 -1 2 lock\n";

static LONGEST: &[u8] =
    b"8 0 state 3 track 7 18446744073709551615 -9223372036854775808 9223372036854775807 bits\n";

static EDGED: &[u8] = b"8 0 state 3 track 7 1 5 -6 bits\n";

#[test]
fn each_state_of_tracking() {
    let rt = HostRuntime;
    let rt = &rt;
    assert_tracking(rt, 0, (65_536_000, 0), Phase::Unlocked, FIRST);
    assert_tracking(rt, 201, (-1, 2), Phase::Locked, LOCKED);
    let most = 18_446_744_073_709_551_615;
    let ends = (-9_223_372_036_854_775_808, 9_223_372_036_854_775_807);
    assert_tracking(rt, most, ends, Phase::Edged, LONGEST);
    assert_tracking(rt, 1, (5, -6), Phase::Edged, EDGED);
}

#[test]
fn refused_lines() {
    let rt = HostRuntime;
    let rt = &rt;
    let mut line = Line::blank();
    line.make_refusal(1, 0, 1);
    assert_text(rt, &line, b"1 0 err 1\n");
    // In the room of the line before.
    line.make_refusal(8, TIME, 8);
    assert_text(rt, &line, b"8 1099511627776 err 8\n");
}

#[test]
fn last_lines() {
    let rt = HostRuntime;
    assert_text(&rt, &end_line(1, 0), b"1 0 end\n");
    let last = end_line(255, 18_446_744_073_709_551_615);
    assert_text(&rt, &last, b"255 18446744073709551615 end\n");
}
