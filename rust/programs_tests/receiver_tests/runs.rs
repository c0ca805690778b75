// Made by tools/rust of crates/programs_tests/src/receiver_tests/runs.rt: change that.
//! Runs over the file of a code, to its end or to a device that fails.

use crate::kit::std::HostRuntime;
use super::cases::{ALL, Case, follow};
use super::{FIRST_COUNT, FIRST_COUNT_LINES};
use crate::made_signals::code_file;
use crate::receiver::RunFault;

/// What the client of the first count gets before the first sample.
const ANSWERS: &[u8] = b"1 0 ok\n1 0 ok\n";

/// The first count. The last read is the one that gives nothing. There is a write before each of
/// the two reads, and one with the end.
const COUNTED: Case = Case {
    script: FIRST_COUNT,
    answer: Ok(2_048),
    text: FIRST_COUNT_LINES,
    asked: (2, 3, 1),
    ..Case::PLAIN
};

/// A run of the first count whose reader fails.
const UNREAD: Case = Case {
    answer: Err(RunFault::Read),
    text: ANSWERS,
    asked: (2, 1, 1),
    ..COUNTED
};

static RUNS: [Case; 11] = [
    COUNTED,
    Case {
        reader: (7, ALL),
        asked: (38, 3, 1),
        ..COUNTED
    },
    Case {
        reader: (1, ALL),
        asked: (257, 3, 1),
        ..COUNTED
    },
    // Of the 73 bytes of the lines each is a write.
    Case {
        writer: (1, ALL),
        asked: (2, 73, 1),
        ..COUNTED
    },
    Case {
        reader: (7, ALL),
        writer: (1, ALL),
        asked: (38, 73, 1),
        ..COUNTED
    },
    Case {
        reader: (1, ALL),
        writer: (1, ALL),
        asked: (257, 73, 1),
        ..COUNTED
    },
    // Three lines come before the first read, three with the last of 256 bytes, and the end after
    // the read that gives none.
    Case {
        script: b"x\n0 hold 0 1 0 0\n0 counts 0 1\n2046 state 0\n2047 stop 1\n",
        reader: (1, ALL),
        text: b"1 0 err 3\n\
            1 0 ok\n\
            1 0 ok\n\
            1 2046 count 0 2044 -1022 4092 -2046 2044 -1022\n\
            1 2046 state 0 hold 1 1\n\
            1 2047 err 10\n\
            1 2048 end\n",
        asked: (257, 3, 1),
        ..COUNTED
    },
    // With one byte a read there are 100 reads before the one that fails.
    Case {
        reader: (1, 100),
        asked: (101, 1, 1),
        ..UNREAD
    },
    // The dump comes with the last of the 256 bytes, which has sample 2,046.
    Case {
        reader: (ALL, 256),
        text: b"1 0 ok\n1 0 ok\n1 2046 count 0 2044 -1022 4092 -2046 2044 -1022\n",
        asked: (2, 2, 1),
        ..UNREAD
    },
    // The only flush fails, after the end, and after a read that failed.
    Case {
        flush_fails: true,
        answer: Err(RunFault::Write),
        ..COUNTED
    },
    Case {
        reader: (ALL, 100),
        flush_fails: true,
        answer: Err(RunFault::Write),
        ..UNREAD
    },
];

#[test]
fn runs_over_a_code() {
    let rt = HostRuntime;
    let code = code_file();
    for case in &RUNS {
        follow(&rt, &code, case);
    }
}

// The reader and the writer would go on after their fault, and aren't asked: the last call on them
// is the one that failed.
#[test]
fn readers_that_fail() {
    let rt = HostRuntime;
    let code = code_file();
    for until_fault in 0..256 {
        let case = Case {
            reader: (ALL, until_fault),
            asked: (if until_fault == 0 { 1 } else { 2 }, 1, 1),
            ..UNREAD
        };
        follow(&rt, &code, &case);
    }
}

// The writer takes a byte of each write. The answers are 14 bytes, and the end 11.
#[test]
fn writers_that_fail() {
    let rt = HostRuntime;
    let code = code_file();
    for until_fault in 0..FIRST_COUNT_LINES.len() {
        let reads = match until_fault {
            0..14 => 0,
            14..62 => 1,
            _ => 2,
        };
        let case = Case {
            writer: (1, until_fault),
            answer: Err(RunFault::Write),
            text: &FIRST_COUNT_LINES[..until_fault],
            asked: (reads, 1 + until_fault as u64, 0),
            ..COUNTED
        };
        follow(&rt, &code, &case);
    }
}
