// Made by tools/rust of crates/programs_tests/src/receiver_tests.rt: change that.
//! Whole runs over readers and writers that count and fail: what they answer, what they write, and
//! how often they ask a device. `tools/runs-check` tries what needs no device of its own, over the
//! built program.

mod cases;
mod endings;
mod fakes;
mod runs;
mod shares;
mod std_devices;

use crate::oscillators::Settings;
use crate::sample_planes::Format;
use crate::kit::std::process::Abort;

/// Holds satellite 1 from the first sample on, and asks for one dump.
const FIRST_COUNT: &[u8] = b"0 hold 0 1 0 0\n0 counts 0 1\n";

/// What a client alone gets for it over the code file.
///
/// Each sample meets its own chip, so the prompt products are 2,046 times +1, and the carrier's
/// pair is 2 and 1 throughout. The early and the late chip are half a chip away: half of the
/// samples meet their own chip, the others a neighbouring one. The products of all neighbouring
/// chips of satellite 1 add up to -1, so 1,023 - 1 is left of these.
const FIRST_COUNT_LINES: &[u8] = b"1 0 ok\n\
    1 0 ok\n\
    1 2046 count 0 2044 -1022 4092 -2046 2044 -1022\n\
    1 2048 end\n";

/// One-bit samples at two samples a chip, with the carrier at 0 Hz.
fn plain_settings(rt: &impl Abort) -> Settings {
    Settings::new(2_046_000, 0, Format::Real1).expect((rt, "no such recording").1)
}
