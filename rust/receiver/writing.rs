// Made by tools/rust of crates/receiver/src/writing.rt: change that.
//! The lines of a run, in their order. Each is put to an output.

use crate::receiver::due::Due;
use crate::receiver::faults::Stop;
use crate::receiver::output::Output;
use crate::receiver::session::Session;
use crate::devices::{DeviceFault, Sink};
use crate::printed_lines::{Line, end_line, event_line};
use crate::slot_protocol::SlotEvent;

/// Puts the lines of the slots' events.
pub fn put_events<W: Sink>(events: &[SlotEvent], out: &mut Output<W>) -> Result<(), DeviceFault> {
    for event in events {
        put_event(event, out)?;
    }
    Ok(())
}

/// Puts the line of an event. It stays a call, since most runs have no event, and the room for the
/// line is large.
#[inline(never)]
fn put_event<W: Sink>(event: &SlotEvent, out: &mut Output<W>) -> Result<(), DeviceFault> {
    out.put(&event_line(event))
}

/// Puts the answers that are left at this time.
pub fn put_answers<W: Sink>(session: &mut Session, out: &mut Output<W>) -> Result<(), DeviceFault> {
    while let Some(due) = session.next_due() {
        put_answer(session, due, out)?;
    }
    Ok(())
}

/// Answers an entry that was taken, and puts the line of the answer. It stays a call, since most
/// runs have no answer, and the room for the line is large.
#[inline(never)]
fn put_answer<W: Sink>(
    session: &mut Session,
    due: Due,
    out: &mut Output<W>,
) -> Result<(), DeviceFault> {
    let mut line = Line::blank();
    session.answer(due, &mut line);
    out.put(&line)
}

/// Puts `end` for each client, after all lines.
fn put_ends<W: Sink>(session: &Session, out: &mut Output<W>) -> Result<(), DeviceFault> {
    for client in 0..session.clients() {
        out.put(&end_line(client + 1, session.time()))?;
    }
    Ok(())
}

/// Puts what comes last for a stop: the ends, where all was read.
fn put_last<W: Sink>(session: &Session, stop: Stop, out: &mut Output<W>) -> Result<(), DeviceFault> {
    match stop {
        Stop::AtEnd => put_ends(session, out),
        Stop::ReadFailed | Stop::PastLimit => Ok(()),
    }
}

/// Puts what comes last for a stop, writes all that is held back, and flushes.
pub fn finish<W: Sink>(
    session: &Session,
    stop: Stop,
    out: &mut Output<W>,
) -> Result<(), DeviceFault> {
    put_last(session, stop, out)?;
    out.finish()
}
