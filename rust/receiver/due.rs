// Made by tools/rust of crates/receiver/src/due.rt: change that.
//! An entry of a script whose time has come.

use crate::channel_slots::{Bank, Command};
use crate::client_commands::LineRefusal;
use crate::printed_lines::Line;

/// An entry of a client's script that is to be answered now.
pub struct Due {
    pub client: u8,
    pub what: Result<Command, LineRefusal>,
}

impl Due {
    /// Makes a line that of the answer, with its end. A refused line never reaches the bank.
    pub fn answer(self, bank: &mut Bank, line: &mut Line) {
        let Due { client, what } = self;
        let time = bank.time();
        match what {
            Ok(command) => {
                let slot = command.slot().get();
                let answer = bank.command(client, command);
                line.make_answer(client, time, slot, &answer);
            }
            Err(refusal) => line.make_refusal(client, time, refusal.number()),
        }
    }
}
