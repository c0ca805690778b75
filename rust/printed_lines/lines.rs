// Made by tools/rust of crates/printed_lines/src/lines.rt: change that.
//! Whole lines, each with its end.

use crate::printed_lines::answers::{put_answer, put_refusal};
use crate::printed_lines::events::put_event;
use crate::printed_lines::words::Line;
use crate::slot_protocol::{Answer, SlotEvent};

/// The line of an event, with its end.
pub fn event_line(event: &SlotEvent) -> Line {
    let mut line = Line::new(event.client, event.time);
    put_event(&mut line, event.slot, &event.event);
    line.end();
    line
}

/// A client's last line, with its end.
pub fn end_line(client: u8, time: u64) -> Line {
    let mut line = Line::new(client, time);
    line.word(b"end");
    line.end();
    line
}

impl Line {
    /// Makes the line that of what a client's slot answers at a time, with its end.
    pub fn make_answer(&mut self, client: u8, time: u64, slot: u8, answer: &Answer) {
        self.begin(client, time);
        put_answer(self, slot, answer);
        self.end();
    }

    /// Makes the line one that refuses a line of a client's script at a time, with its end. The
    /// number is that of the refusal.
    pub fn make_refusal(&mut self, client: u8, time: u64, number: u8) {
        self.begin(client, time);
        put_refusal(self, number);
        self.end();
    }
}
