// Made by tools/rust of crates/bank_tests/src/client_commands_tests.rt: change that.
//! Lines of scripts, and the commands that they ask for. What is answered to whole scripts are rows
//! of `tools/runs-check`.

use crate::kit::std::HostRuntime;
use crate::bank_tests::asserted::assert_same_at;
use crate::bank_tests::commands::{acquire, counts, hold, state, stop, track};
use crate::client_commands::*;
use crate::slot_protocol::Command;
use crate::kit::std::process::Abort;

/// An entry: its time, and a command or the number of a refusal.
type Answer = (u64, Result<Command, u8>);

/// An entry as it is compared.
fn answer(timed: Timed) -> Answer {
    let Timed { time, what } = timed;
    match what {
        Ok(command) => (time, Ok(command)),
        Err(refusal) => (time, Err(refusal.number())),
    }
}

/// Asserts the first three entries of the script of a client with four slots.
fn assert_answers(rt: &impl Abort, text: &[u8], expected: [Option<Answer>; 3]) {
    let mut script = Script::new(text, 4);
    let mut found = [None; 3];
    for place in &mut found {
        if let Some(timed) = script.next() {
            *place = Some(answer(timed));
        }
    }
    assert_same_at(rt, text.escape_ascii(), &found, &expected);
}

/// Asserts that a line asks for a command at a time.
fn asks(rt: &impl Abort, line: &str, time: u64, command: Option<Command>) {
    let command = command.expect((rt, "no such command").1);
    assert_answers(rt, line.as_bytes(), [Some((time, Ok(command))), None, None]);
}

#[test]
fn a_line_asks_for_its_command() {
    let rt = HostRuntime;
    let rt = &rt;
    asks(rt, "0 state 0", 0, state(0));
    asks(rt, "0 state -0", 0, state(0));
    asks(rt, "0 state 00", 0, state(0));
    asks(rt, " 0   state  3 ", 0, state(3));
    asks(rt, "1099511627776 stop 3", 1_099_511_627_776, stop(3));
    asks(rt, "9 counts 0 0", 9, counts(0, 0));
    asks(rt, "9 counts 0 1000000", 9, counts(0, 1_000_000));
}

#[test]
fn a_line_asks_for_a_signal() {
    let rt = HostRuntime;
    let rt = &rt;
    let least = hold(1, 32, -16_000, 2_045);
    asks(rt, "0000000000007 hold 1 32 -16000 2045", 7, least);
    asks(rt, "8 hold 2 1 16000 0\n", 8, hold(2, 1, 16_000, 0));
    let least = track(0, 32, -16_000, 2_045);
    asks(rt, "0 track 0 32 -16000 2045", 0, least);
    asks(rt, " 8  track 3 01 16000 -0", 8, track(3, 1, 16_000, 0));
    asks(rt, "0 track 0 7 1000 100", 0, track(0, 7, 1_000, 100));
}

#[test]
fn a_line_asks_for_a_search() {
    let rt = HostRuntime;
    let rt = &rt;
    asks(rt, "0 acquire 0 1 0 0 1 20", 0, acquire(0, 1, 0, 0, 1, 20));
    let most = acquire(3, 32, 6_000, 40, 10, 1_000);
    asks(rt, "5 acquire 3 32 6000 40 10 1000", 5, most);
    let least = acquire(0, 1, -6_000, 0, 1, 1);
    asks(rt, "5  acquire 00 1 -6000 -0 01 1 ", 5, least);
    let some = acquire(2, 7, 1_000, 3, 4, 25);
    asks(rt, "0 acquire 2 7 1000 3 4 25\n", 0, some);
}

/// A line that is refused in each way but by its time, that time, and the number of the refusal.
static REFUSED: [(&str, u64, u8); 7] = [
    (
        "123456789 123456789 123456789 123456789 123456789 123456789 123456789 123456789 1",
        0,
        1,
    ),
    ("0 state 0\r", 0, 2),
    ("x", 0, 3),
    ("6 fly 0", 6, 5),
    ("6 stop", 6, 6),
    ("6 stop z", 6, 7),
    ("6 stop 4", 6, 8),
];

// A line that goes back in time stands at that of the line before.
#[test]
fn refusals_have_numbers() {
    let rt = HostRuntime;
    let rt = &rt;
    for &(line, time, number) in &REFUSED {
        let refused = Some((time, Err(number)));
        assert_answers(rt, line.as_bytes(), [refused, None, None]);
    }
    let refused = [Some((6, Err(5))), Some((6, Err(4))), None];
    assert_answers(rt, b"6 fly 0\n5 stop 0", refused);
}
