// Made by tools/rust of crates/packer_cli/src/main.rt: change that.
//! Packs recordings as people have them into the packings that the receiver reads: standard input
//! to standard output. The crate `packer` is the program; this one has the standard devices. Its
//! stored run packs pairs of unsigned bytes.

use crate::kit::std::HostRuntime;
use crate::packer::{Plain, carry_out};
use crate::kit::std::io;
use crate::kit::std::process::ExitCode;

#[must_use]
pub fn main() -> ExitCode {
    let rt = HostRuntime;
    let (mut reader, mut writer) = (Plain::new(rt.reader()), Plain::new(io::writer(&rt)));
    carry_out(&rt, &mut reader, &mut writer)
}
