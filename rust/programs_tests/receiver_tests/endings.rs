// Made by tools/rust of crates/programs_tests/src/receiver_tests/endings.rt: change that.
//! Runs over zeros that end early: at a limit, or by a device that fails.

use crate::kit::std::HostRuntime;
use super::cases::{ALL, Case, follow};
use crate::receiver::RunFault;

/// States at sample 8, the first of the second byte, and at sample 9.
const STATES: &[u8] = b"8 state 0\n9 state 0\n";

/// States at the first two samples.
const FIRST_STATES: &[u8] = b"0 state 0\n1 state 0\n";

/// A run that takes one byte at most.
const ONE_BYTE: Case = Case {
    limit: 1,
    ..Case::PLAIN
};

/// States over one byte more than the run takes.
const PAST: Case = Case {
    script: STATES,
    reader: (2, ALL),
    answer: Err(RunFault::TooLong),
    text: b"1 8 state 0 idle\n",
    asked: (1, 1, 1),
    ..ONE_BYTE
};

/// States over just the byte that it takes.
const JUST: Case = Case {
    answer: Ok(8),
    text: b"1 8 state 0 idle\n1 8 end\n",
    asked: (2, 2, 1),
    ..PAST
};

/// A run with nothing to write, over more than the 512 bytes that it takes.
const ENDLESS: Case = Case {
    limit: 512,
    answer: Err(RunFault::TooLong),
    ..Case::PLAIN
};

/// A run with a line, whose writer takes three bytes of it and fails with the rest.
const BROKEN_OFF: Case = Case {
    reader: (1, ALL),
    writer: (ALL, 3),
    answer: Err(RunFault::Write),
    ..Case::PLAIN
};

/// Runs over so many bytes.
static ENDED: [(usize, Case); 18] = [
    // With no sample there is an end at once.
    (
        0,
        Case {
            text: b"1 0 end\n",
            asked: (1, 1, 1),
            ..Case::PLAIN
        },
    ),
    // Bytes that end at the limit need one more read: where it gives nothing, that is the end;
    // where it gives a byte, the run is too long. The line at 8 is written before that read.
    (
        2,
        Case {
            reader: (1, ALL),
            asked: (2, 1, 1),
            ..PAST
        },
    ),
    (2, PAST),
    (
        1,
        Case {
            reader: (1, ALL),
            ..JUST
        },
    ),
    (1, JUST),
    (
        2,
        Case {
            answer: Err(RunFault::TooLong),
            asked: (1, 0, 1),
            ..ONE_BYTE
        },
    ),
    (
        1,
        Case {
            answer: Ok(8),
            text: b"1 8 end\n",
            asked: (2, 1, 1),
            ..ONE_BYTE
        },
    ),
    // With no sample taken the time is 0, so the command at 1 is never answered.
    (
        1,
        Case {
            script: FIRST_STATES,
            limit: 0,
            answer: Err(RunFault::TooLong),
            text: b"1 0 state 0 idle\n",
            asked: (1, 1, 1),
            ..Case::PLAIN
        },
    ),
    (
        0,
        Case {
            script: FIRST_STATES,
            limit: 0,
            text: b"1 0 state 0 idle\n1 0 end\n",
            asked: (1, 2, 1),
            ..Case::PLAIN
        },
    ),
    // With one byte a read, the read after 512 bytes shows that there are more.
    (
        600,
        Case {
            reader: (1, ALL),
            asked: (513, 0, 1),
            ..ENDLESS
        },
    ),
    (
        600,
        Case {
            reader: (512, ALL),
            asked: (2, 0, 1),
            ..ENDLESS
        },
    ),
    (
        600,
        Case {
            reader: (513, ALL),
            asked: (1, 0, 1),
            ..ENDLESS
        },
    ),
    // The only flush fails, and the writer is at fault, whatever else is.
    (
        2,
        Case {
            script: STATES,
            flush_fails: true,
            answer: Err(RunFault::Write),
            text: b"1 8 state 0 idle\n",
            asked: (1, 1, 1),
            ..ONE_BYTE
        },
    ),
    // There is a flush with no line, too.
    (
        2,
        Case {
            flush_fails: true,
            answer: Err(RunFault::Write),
            asked: (1, 0, 1),
            ..ONE_BYTE
        },
    ),
    (
        1,
        Case {
            reader: (1, 0),
            flush_fails: true,
            answer: Err(RunFault::Write),
            asked: (1, 0, 1),
            ..Case::PLAIN
        },
    ),
    // A line at 0 comes before the first read, one at 8 with the first byte.
    (
        600,
        Case {
            script: b"0 state 0\n",
            text: b"1 0",
            asked: (0, 2, 0),
            ..BROKEN_OFF
        },
    ),
    (
        600,
        Case {
            script: b"8 state 0\n",
            text: b"1 8",
            asked: (1, 2, 0),
            ..BROKEN_OFF
        },
    ),
    // The reader fails, and what was held until then is written and flushed.
    (
        2,
        Case {
            script: STATES,
            reader: (1, 1),
            answer: Err(RunFault::Read),
            text: b"1 8 state 0 idle\n",
            asked: (2, 1, 1),
            ..Case::PLAIN
        },
    ),
];

#[test]
fn runs_end_early() {
    let rt = HostRuntime;
    let zeros = [0; 600];
    for &(bytes, ref case) in &ENDED {
        follow(&rt, &zeros[..bytes.min(600)], case);
    }
}
