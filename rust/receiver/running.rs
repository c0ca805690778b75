// Made by tools/rust of crates/receiver/src/running.rt: change that.
//! A whole run: what is written, and what it answers. `RunsTask` says what it promises.

use crate::receiver::faults::{RunFault, Stop};
use crate::receiver::output::Output;
use crate::receiver::reading::read_all;
use crate::receiver::session::Session;
use crate::receiver::writing::{finish, put_answers};
use crate::channel_slots::{MOST_CLIENTS, MOST_TIME};
use crate::devices::{DeviceFault, Sink, Source};
use crate::oscillators::Settings;
use crate::kit::std::alloc::Global;

/// Runs a session over a reader and a writer, from its first line to the flush.
fn run_session<R: Source, W: Sink>(
    session: &mut Session,
    limit: u64,
    reader: &mut R,
    writer: &mut W,
) -> Result<Stop, DeviceFault> {
    let mut out = Output::new(writer);
    put_answers(session, &mut out)?;
    let stop = read_all(session, limit, reader, &mut out)?;
    finish(session, stop, &mut out)?;
    Ok(stop)
}

/// The shares of clients that have four slots each.
const FOUR_EACH: [u8; MOST_CLIENTS] = [4; MOST_CLIENTS];

/// Runs one to eight scripts over all samples that a reader gives, at most `MOST_TIME` of them:
/// writes the lines of all clients, time by time, with an `end` for each after the last, and
/// answers the number of samples. However reads cut the bytes, and whatever the other clients ask,
/// each client's lines are those of a receiver with that client alone. Each count is the plain sum
/// over its samples, each acquisition names a greatest cell, and each data word that is shown
/// passes the parity of IS-GPS-200, section 20.3.5. Each client has four slots.
pub fn run<R: Source, W: Sink>(
    alloc: Global,
    settings: Settings,
    scripts: &[&[u8]],
    reader: &mut R,
    writer: &mut W,
) -> Result<u64, RunFault> {
    run_to(alloc, settings, scripts, MOST_TIME, reader, writer)
}

/// Runs scripts as `run` does, over at most `limit` samples, a multiple of 8 of at most
/// `MOST_TIME`.
pub fn run_to<R: Source, W: Sink>(
    alloc: Global,
    settings: Settings,
    scripts: &[&[u8]],
    limit: u64,
    reader: &mut R,
    writer: &mut W,
) -> Result<u64, RunFault> {
    assert!(limit <= MOST_TIME, "run_to requires limit <= MOST_TIME");
    assert!(limit % 8 == 0, "run_to requires a limit that 8 divides");
    // `run_shares` refuses more scripts before it looks at a share.
    let shares = &FOUR_EACH[..scripts.len().min(MOST_CLIENTS)];
    run_shares(alloc, settings, scripts, shares, limit, reader, writer)
}

/// Runs scripts as `run_to` does, for clients with these shares of the slots: one share for each
/// script, of 1 to `MOST_SLOTS` slots. The scripts are checked first, then the shares, and then
/// memory is taken.
pub fn run_shares<R: Source, W: Sink>(
    alloc: Global,
    settings: Settings,
    scripts: &[&[u8]],
    shares: &[u8],
    limit: u64,
    reader: &mut R,
    writer: &mut W,
) -> Result<u64, RunFault> {
    assert!(limit <= MOST_TIME, "run_shares requires limit <= MOST_TIME");
    assert!(limit % 8 == 0, "run_shares requires a limit that 8 divides");
    if scripts.is_empty() || MOST_CLIENTS < scripts.len() {
        return Err(RunFault::Clients);
    }
    if shares.len() != scripts.len() {
        return Err(RunFault::Share);
    }
    // It is large, so it stays where it was opened.
    match &mut Session::open(alloc, settings, scripts, shares) {
        Ok(session) => answer(run_session(session, limit, reader, writer), session.time()),
        Err(fault) => Err(RunFault::from(*fault)),
    }
}

/// What a run answers after so many samples, by how reading them ended.
fn answer(ended: Result<Stop, DeviceFault>, samples: u64) -> Result<u64, RunFault> {
    match ended {
        Ok(Stop::AtEnd) => Ok(samples),
        Ok(Stop::ReadFailed) => Err(RunFault::Read),
        Ok(Stop::PastLimit) => Err(RunFault::TooLong),
        Err(DeviceFault) => Err(RunFault::Write),
    }
}
