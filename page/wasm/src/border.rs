//! All that is called from outside, and all that is called there. Rooms in memory are lent here
//! alone: the other side fills or reads one while it is lent, and keeps none.
#![allow(unsafe_code)]

use crate::numbers::{Ending, format};
use crate::packing::{Asked, bytes_of};
use crate::{measuring, running};
use std::cell::{Cell, RefCell};

mod page {
    #[link(wasm_import_module = "page")]
    unsafe extern "C" {
        /// Puts at most so many bytes of the recording into a room. Gives how many: 0 at the end
        /// only, and less than 0 where reading failed.
        pub safe fn read(room: *mut u8, most: usize) -> i32;

        /// Takes some of the bytes of a room, at least one. Gives how many, and less than 0 where
        /// none can be taken.
        pub safe fn write(room: *const u8, count: usize) -> i32;
    }
}

thread_local! {
    static SCRIPTS: RefCell<Vec<Vec<u8>>> = const { RefCell::new(Vec::new()) };
    static SHARES: RefCell<Vec<u8>> = const { RefCell::new(Vec::new()) };
    static GIVEN: Cell<Given> = const { Cell::new(Given::NONE) };
}

/// What the last run or measurement gave.
#[derive(Clone, Copy, Debug)]
pub struct Given {
    /// How many samples were run over or measured.
    pub samples: u64,
    /// How many samples at the end fill no byte, and so weren't run over.
    pub samples_left: u32,
    /// Whether the recording ends inside a sample.
    pub ends_inside: bool,
    /// Twice the centre that is suggested for the part in phase.
    pub centre2: f64,
    /// Twice the centre that is suggested for the part in quadrature.
    pub centre_q2: f64,
    /// Twice the threshold that is suggested.
    pub threshold2: f64,
}

impl Given {
    /// That of nothing.
    pub const NONE: Given = Given {
        samples: 0,
        samples_left: 0,
        ends_inside: false,
        centre2: 0.0,
        centre_q2: 0.0,
        threshold2: 0.0,
    };
}

/// Reads some bytes of the recording, and gives how many: 0 at the end only. None is a failure.
pub fn read_into(buffer: &mut [u8]) -> Option<usize> {
    let count = usize::try_from(page::read(buffer.as_mut_ptr(), buffer.len())).ok()?;
    (count <= buffer.len()).then_some(count)
}

/// Hands over some of the bytes, at least one of them, and gives how many. None is a failure.
pub fn write_from(bytes: &[u8]) -> Option<usize> {
    let count = usize::try_from(page::write(bytes.as_ptr(), bytes.len())).ok()?;
    (0 < count && count <= bytes.len()).then_some(count)
}

/// Lends a room of `len` bytes for the text of one more script, whose client has `share` slots. It
/// is filled before the next call. No room, 0, is lent where memory is refused.
#[unsafe(no_mangle)]
pub extern "C" fn script(len: usize, share: u32) -> *mut u8 {
    let mut text = Vec::new();
    if text.try_reserve_exact(len).is_err() {
        return std::ptr::null_mut();
    }
    text.resize(len, 0);
    let room = text.as_mut_ptr();
    SCRIPTS.with_borrow_mut(|all| all.push(text));
    // A share that is no byte isn't 1 to 8 either.
    SHARES.with_borrow_mut(|all| all.push(u8::try_from(share).unwrap_or(0)));
    room
}

/// Runs all scripts over the recording, at `rate` samples a second and with the carrier at `offset`
/// Hz. `kind`, `flags` and `format` are numbers of `numbers`. The threshold and the centres are
/// twice their values. Gives an `Ending`.
#[unsafe(no_mangle)]
pub extern "C" fn run(
    rate: u32,
    offset: i32,
    format: u32,
    kind: u32,
    flags: u32,
    threshold2: f64,
    centre2: f64,
    centre_q2: f64,
) -> u32 {
    let asked = Asked {
        format,
        kind,
        flags,
        threshold2,
        centre2,
        centre_q2,
    };
    let ended = SCRIPTS.with_borrow(|scripts| {
        let texts: Vec<&[u8]> = scripts.iter().map(Vec::as_slice).collect();
        SHARES.with_borrow(|shares| running::run(rate, offset, &asked, &texts, shares))
    });
    keep(ended)
}

/// Measures the beginning of a recording that isn't packed yet, as `pack --measure` does. Gives an
/// `Ending`.
#[unsafe(no_mangle)]
pub extern "C" fn measure(kind: u32, flags: u32) -> u32 {
    keep(measuring::measure(kind, flags))
}

/// How many bytes of the recording have so many samples, or -1 where these aren't whole bytes, or
/// `kind` or `format` is none.
#[unsafe(no_mangle)]
pub extern "C" fn bytes(samples: f64, format_number: u32, kind: u32, flags: u32) -> f64 {
    let bits = format(format_number).and_then(|format| bytes_of(samples, format, kind, flags));
    bits.unwrap_or(-1.0)
}

/// Keeps what a run or a measurement gave, and says how it ended.
fn keep(ended: Result<Given, Ending>) -> u32 {
    GIVEN.set(ended.unwrap_or(Given::NONE));
    ended.err().unwrap_or(Ending::Done) as u32
}

/// How many samples the last run or measurement had. It is 0 where it failed.
#[unsafe(no_mangle)]
pub extern "C" fn samples() -> f64 {
    GIVEN.get().samples as f64
}

/// How many samples at the end filled no byte.
#[unsafe(no_mangle)]
pub extern "C" fn samples_left() -> u32 {
    GIVEN.get().samples_left
}

/// 1 where the recording ended inside a sample, and else 0.
#[unsafe(no_mangle)]
pub extern "C" fn ends_inside() -> u32 {
    u32::from(GIVEN.get().ends_inside)
}

/// Twice the centre that the last measurement suggests for the part in phase, or for real values.
#[unsafe(no_mangle)]
pub extern "C" fn centre2() -> f64 {
    GIVEN.get().centre2
}

/// Twice the centre that the last measurement suggests for the part in quadrature.
#[unsafe(no_mangle)]
pub extern "C" fn centre_q2() -> f64 {
    GIVEN.get().centre_q2
}

/// Twice the threshold that the last measurement suggests.
#[unsafe(no_mangle)]
pub extern "C" fn threshold2() -> f64 {
    GIVEN.get().threshold2
}
