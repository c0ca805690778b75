// Made by tools/rust of crates/receiver/src/reading.rt: change that.
//! The samples of a run, read and taken piece by piece.

use crate::receiver::faults::Stop;
use crate::receiver::output::Output;
use crate::receiver::session::Session;
use crate::receiver::writing::{put_answers, put_events};
use crate::devices::{DeviceFault, Sink, Source};
use crate::sample_planes::{MAX_SAMPLES, MOST_TIME, PackedSamples};

/// The most bytes of a read.
const READ_BYTES: usize = 16_384;

/// Takes a run of samples, none of them past the next command's time, and puts the lines of each
/// time.
fn take_samples<W: Sink>(
    session: &mut Session,
    run: &PackedSamples,
    out: &mut Output<W>,
) -> Result<(), DeviceFault> {
    session.feed(run);
    put_events(session.events(), out)?;
    put_answers(session, out)
}

/// Takes a piece of any length, and puts the lines of each time.
fn take_piece<W: Sink>(
    session: &mut Session,
    piece: &PackedSamples,
    out: &mut Output<W>,
) -> Result<(), DeviceFault> {
    let count = piece.len();
    let mut first = 0;
    while first < count {
        let most = (count - first).min(MAX_SAMPLES) as u64;
        let len = most.min(session.until_next()) as usize;
        take_samples(session, &piece.part(first, len), out)?;
        first += len;
    }
    Ok(())
}

/// Takes those samples of the bytes that come before the limit, and puts the lines of each time. No
/// byte has samples on both sides of the limit. It answers whether there were samples past it.
fn take_bytes<W: Sink>(
    session: &mut Session,
    limit: u64,
    bytes: &[u8],
    out: &mut Output<W>,
) -> Result<bool, DeviceFault> {
    let format = session.format();
    let room = (limit - session.time()) / format.per_byte() as u64;
    let used = (bytes.len() as u64).min(room) as usize;
    let piece = PackedSamples::new(format, &bytes[..used]);
    take_piece(session, &piece, out)?;
    Ok(used < bytes.len())
}

/// Reads to the end, to a fault or past the limit, and puts the lines of each time up to there. All
/// that was put is written before each read.
pub fn read_all<R: Source, W: Sink>(
    session: &mut Session,
    limit: u64,
    reader: &mut R,
    out: &mut Output<W>,
) -> Result<Stop, DeviceFault> {
    assert!(limit <= MOST_TIME, "read_all requires limit <= MOST_TIME");
    assert!(limit % 8 == 0, "read_all requires a limit in whole bytes");
    let mut buffer = [0; READ_BYTES];
    loop {
        // Nothing is held back while the run waits for bytes.
        out.send()?;
        let Ok(count) = reader.read(&mut buffer) else {
            return Ok(Stop::ReadFailed);
        };
        if count == 0 {
            return Ok(Stop::AtEnd);
        }
        if take_bytes(session, limit, &buffer[..count], out)? {
            return Ok(Stop::PastLimit);
        }
    }
}
