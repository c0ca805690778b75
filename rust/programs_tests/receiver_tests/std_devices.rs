// Made by tools/rust of crates/programs_tests/src/receiver_tests/std_devices.rt: change that.
//! Readers and writers of std, each of which is asked once.

use crate::kit::std::HostRuntime;
use super::{FIRST_COUNT, FIRST_COUNT_LINES, plain_settings};
use crate::programs_tests::asserted::assert_same;
use crate::kit::arrayvec::ArrayVec;
use crate::made_signals::code_file;
use crate::receiver::{Plain, RunFault, run};
use crate::kit::std::alloc::{Alloc, Global};
use crate::kit::std::io::{self, Read, Write};
use crate::kit::std::process::Abort;

/// What goes wrong with the first call of its kind: it is interrupted, or takes nothing.
#[derive(Clone, Copy, PartialEq)]
enum Fault {
    Read,
    Write,
    Flush,
    TakesNothing,
}

/// Gives a byte and then its end, and takes all; but for the first call of a kind.
struct Device {
    fault: Fault,
    text: ArrayVec<u8, 64>,
    reads: u64,
    writes: u64,
    flushes: u64,
}

impl Device {
    fn new(fault: Fault) -> Self {
        Device {
            fault,
            text: ArrayVec::new(),
            reads: 0,
            writes: 0,
            flushes: 0,
        }
    }

    /// The error of a first call that is interrupted.
    fn interrupted(&self, call: Fault, number: u64) -> io::Result<()> {
        if self.fault == call && number == 1 {
            return Err(io::Error::from(io::ErrorKind::Interrupted));
        }
        Ok(())
    }
}

impl Read for Device {
    fn read(&mut self, buffer: &mut [u8]) -> io::Result<usize> {
        self.reads = self.reads.wrapping_add(1);
        self.interrupted(Fault::Read, self.reads)?;
        Ok(if self.reads == 1 {
            buffer.len().min(1)
        } else {
            0
        })
    }
}

impl Write for Device {
    fn write(&mut self, bytes: &[u8]) -> io::Result<usize> {
        self.writes = self.writes.wrapping_add(1);
        self.interrupted(Fault::Write, self.writes)?;
        if self.fault == Fault::TakesNothing && self.writes == 1 {
            return Ok(0);
        }
        match self.text.try_extend_from_slice(bytes) {
            Ok(()) => Ok(bytes.len()),
            Err(_) => Err(io::Error::from(io::ErrorKind::Other)),
        }
    }

    fn flush(&mut self) -> io::Result<()> {
        self.flushes = self.flushes.wrapping_add(1);
        self.interrupted(Fault::Flush, self.flushes)
    }
}

/// Faults, what a run of one script answers, what it writes, and how often it reads, writes and
/// flushes. The script has one line, which is written before the first read, and the end is written
/// after the second.
static FAULTS: [(Fault, RunFault, &[u8], (u64, u64, u64)); 4] = [
    (
        Fault::Read,
        RunFault::Read,
        b"1 0 state 0 idle\n",
        (1, 1, 1),
    ),
    (Fault::Write, RunFault::Write, b"", (0, 1, 0)),
    (
        Fault::Flush,
        RunFault::Write,
        b"1 0 state 0 idle\n1 8 end\n",
        (2, 2, 1),
    ),
    (Fault::TakesNothing, RunFault::Write, b"", (0, 1, 0)),
];

#[test]
fn calls_that_fail_once() {
    let rt = HostRuntime;
    let rt = &rt;
    for &(fault, run_fault, text, asked) in &FAULTS {
        let (mut giving, mut taking) = (Device::new(fault), Device::new(fault));
        let answer = run(
            rt.alloc(),
            plain_settings(rt),
            &[b"0 state 0"],
            &mut Plain::new(&mut giving),
            &mut Plain::new(&mut taking),
        );
        let found = (giving.reads, taking.writes, taking.flushes);
        assert_same(
            rt,
            (answer, taking.text.as_slice(), found),
            (Err(run_fault), text, asked),
        );
    }
}

/// What a run of the first count over slices answers.
fn run_into(
    rt: &(impl Abort + Alloc<A = Global>),
    mut code: &[u8],
    room: &mut [u8],
) -> Result<u64, RunFault> {
    run(
        rt.alloc(),
        plain_settings(rt),
        &[FIRST_COUNT],
        &mut Plain::new(&mut code),
        &mut Plain::new(room),
    )
}

/// The lengths of slices that lines are written to, what a run answers, and how many bytes it
/// writes.
static SLICES: [(usize, Result<u64, RunFault>, usize); 3] = [
    (100, Ok(2_048), 73),
    (10, Err(RunFault::Write), 10),
    (0, Err(RunFault::Write), 0),
];

// A slice that is full takes nothing.
#[test]
fn slices() {
    let rt = HostRuntime;
    let code = code_file();
    for &(len, expected, count) in &SLICES {
        let mut room = [b'?'; 101];
        let answer = run_into(&rt, &code, &mut room[..len.min(101)]);
        let written = (room.get(..count), room.get(count));
        let text = FIRST_COUNT_LINES.get(..count);
        assert_same(&rt, (answer, written), (expected, (text, Some(&b'?'))));
    }
}
