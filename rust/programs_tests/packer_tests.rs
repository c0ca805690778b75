// Made by tools/rust of crates/programs_tests/src/packer_tests.rt: change that.
//! Runs over a writer that fails. `tools/pack-check` has the readers that do.

use crate::kit::std::HostRuntime;
use crate::programs_tests::asserted::assert_same;
use crate::programs_tests::choices::{packer_of, signs};
use crate::kit::arrayvec::ArrayVec;
use crate::packer::{Failure, Plain, run, status};
use crate::recordings::{Stretch, ValueKind};
use crate::sample_planes::Format;
use crate::kit::std::alloc::{Alloc, Global};
use crate::kit::std::io::{self, Write};
use crate::kit::std::process::Abort;

/// Takes one byte of each write, as long as it has room, and may fail to pass all on.
struct Narrow {
    bytes: ArrayVec<u8, 4>,
    room: usize,
    is_clogged: bool,
}

impl Write for Narrow {
    fn write(&mut self, bytes: &[u8]) -> io::Result<usize> {
        let (Some(byte), true) = (bytes.first(), self.bytes.len() < self.room) else {
            return Err(io::Error::from(io::ErrorKind::Other));
        };
        match self.bytes.try_push(*byte) {
            Ok(()) => Ok(1),
            Err(_) => Err(io::Error::from(io::ErrorKind::Other)),
        }
    }

    fn flush(&mut self) -> io::Result<()> {
        if self.is_clogged {
            return Err(io::Error::from(io::ErrorKind::Other));
        }
        Ok(())
    }
}

/// The writer's room, and whether it is clogged; how a run over 24 zeros ends, its status, and what
/// is written.
static ENDED: [(usize, bool, Result<(), Failure>, u8, &[u8]); 4] = [
    (0, false, Err(Failure::Output), 1, &[]),
    (2, false, Err(Failure::Output), 1, &[0, 0]),
    (3, true, Err(Failure::Output), 1, &[0, 0, 0]),
    (3, false, Ok(()), 0, &[0, 0, 0]),
];

/// How a run over 24 zeros ends, as signs of bytes.
fn ended(rt: &(impl Abort + Alloc<A = Global>), writer: &mut Plain<Narrow>) -> Result<(), Failure> {
    let mut packer = packer_of(rt, &signs(ValueKind::I8, false, Format::Real1));
    let mut reader = Plain::new(&[0; 24][..]);
    run(
        rt.alloc(),
        &mut packer,
        &mut Stretch::new(0, 100),
        &mut reader,
        writer,
    )
}

#[test]
fn writers_that_fail() {
    let rt = HostRuntime;
    let rt = &rt;
    for &(room, is_clogged, end, code, bytes) in &ENDED {
        let mut writer = Plain::new(Narrow {
            bytes: ArrayVec::new(),
            room,
            is_clogged,
        });
        let ended = ended(rt, &mut writer);
        let found = (ended, status(ended), writer.inner.bytes.as_slice());
        assert_same(rt, found, (end, code, bytes));
    }
    assert_same(rt, status(Err(Failure::Centre)), 2);
}
