// Made by tools/rust of crates/programs_tests/src/receiver_tests/cases.rt: change that.
//! A run of one client, and what is seen of it.

use crate::kit::std::HostRuntime;
use crate::programs_tests::asserted::{assert_same, assert_shown};
use crate::programs_tests::receiver_tests::fakes::{Giving, Holding};
use crate::programs_tests::receiver_tests::plain_settings;
use crate::receiver::{DeviceFault, RunFault, run_to};
use crate::kit::std::alloc::{Alloc, Global};
use crate::kit::std::process::Abort;

/// As many bytes as there are.
pub const ALL: usize = usize::MAX;

/// A run, and what is seen of it.
#[derive(Clone, Copy)]
pub struct Case {
    pub script: &'static [u8],
    /// The most bytes of samples that it takes.
    pub limit: u16,
    /// How many bytes a read gives at most, and after how many it fails.
    pub reader: (usize, usize),
    /// How many bytes a write takes at most, and after how many it fails.
    pub writer: (usize, usize),
    pub flush_fails: bool,
    pub answer: Result<u64, RunFault>,
    pub text: &'static [u8],
    /// How often it reads, writes and flushes.
    pub asked: (u64, u64, u64),
}

impl Case {
    /// A run over devices that don't fail, and give and take all at once.
    pub const PLAIN: Case = Case {
        script: b"",
        limit: 1_000,
        reader: (ALL, ALL),
        writer: (ALL, ALL),
        flush_fails: false,
        answer: Ok(0),
        text: b"",
        asked: (0, 0, 0),
    };
}

/// Follows a run over so many samples. What was written is flushed, but where the writer fails.
pub fn follow(rt: &(impl Abort + Alloc<A = Global>), bytes: &[u8], case: &Case) {
    let mut reader = Giving::new(bytes, case.reader);
    let mut writer = Holding::new(case.writer, case.flush_fails);
    let answer = run_to(
        rt.alloc(),
        plain_settings(rt),
        &[case.script],
        8 * u64::from(case.limit),
        &mut reader,
        &mut writer,
    );
    assert_same(rt, (answer, writer.bytes()), (case.answer, case.text));
    let asked = (reader.reads, writer.writes, writer.flushes);
    let is_flushed = case.answer != Err(RunFault::Write);
    assert_same(rt, (asked, writer.is_flushed), (case.asked, is_flushed));
}

/// What a run says of each fault.
static TEXTS: [(RunFault, &str); 6] = [
    (RunFault::NoMemory, "no memory"),
    (RunFault::Clients, "there are from 1 to 8 scripts"),
    (RunFault::Read, "the samples couldn't be read"),
    (RunFault::Write, "the lines couldn't be written"),
    (RunFault::TooLong, "there are more samples than the limit"),
    (RunFault::Share, "each script has a share from 1 to 8 slots"),
];

#[test]
fn faults_have_texts() {
    let rt = HostRuntime;
    let rt = &rt;
    for &(fault, text) in &TEXTS {
        assert_shown(rt, fault, text);
    }
    assert_shown(rt, DeviceFault, "the device failed");
}
