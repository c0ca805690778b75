// Made by tools/rust of crates/printed_lines/src/events.rt: change that.
//! The words of the events that slots emit.

use crate::printed_lines::almanacs::put_almanacs;
use crate::printed_lines::pages::{PAGE_BYTES, put_report};
use crate::printed_lines::subframe_words::put_subframe;
use crate::printed_lines::words::{KIND_BYTES, Line, WORD_BYTES};
use crate::acquisition::Cell;
use crate::lane_correlator::Counts;
use crate::slot_protocol::Event;

/// The most bytes that the words of an event take up: those of a page.
pub const EVENT_BYTES: usize = PAGE_BYTES;

/// The most bytes that the words of what an acquisition names take up.
pub const ACQUIRED_BYTES: usize = KIND_BYTES + 5 * WORD_BYTES;

/// The most bytes that the words of a dump take up.
pub const COUNTS_BYTES: usize = KIND_BYTES + 6 * WORD_BYTES;

/// Adds the words of an event.
pub(crate) fn put_event(line: &mut Line, slot: u8, event: &Event) {
    match event {
        Event::Acquired { prn, cell } => put_acquired(line, slot, prn.get(), cell),
        Event::Count(counts) => put_counts(line, slot, *counts),
        Event::Lock => line.kind(b"lock", slot),
        Event::Unlock => line.kind(b"unlock", slot),
        Event::Lost => line.kind(b"lost", slot),
        Event::Bits => line.kind(b"bits", slot),
        Event::Gap(bits) => put_gap(line, slot, *bits),
        Event::Sub(subframe) => put_subframe(line, slot, subframe),
        Event::Page(report) => put_report(line, slot, report),
        Event::Almanacs(set) => put_almanacs(line, slot, set),
    }
}

/// Adds the words of what an acquisition names, for a satellite.
fn put_acquired(line: &mut Line, slot: u8, prn: u8, cell: &Cell) {
    line.kind(b"acq", slot);
    line.number(prn.into());
    line.word(word_of(cell.found));
    line.signed(cell.bin.into());
    line.number(cell.half.get().into());
    line.number(cell.power);
}

/// The word of whether a signal was found.
fn word_of(found: bool) -> &'static [u8] {
    if found { b"found" } else { b"none" }
}

/// Adds the words of a dump.
fn put_counts(line: &mut Line, slot: u8, counts: Counts) {
    line.kind(b"count", slot);
    line.signed(counts.ie.into());
    line.signed(counts.qe.into());
    line.signed(counts.ip.into());
    line.signed(counts.qp.into());
    line.signed(counts.il.into());
    line.signed(counts.ql.into());
}

/// Adds the words of a gap of so many bits.
fn put_gap(line: &mut Line, slot: u8, bits: u64) {
    line.kind(b"gap", slot);
    line.number(bits);
}
