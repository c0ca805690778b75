// Made by tools/rust of crates/client_commands/src/verb.rt: change that.
//! The verbs, and the commands that they ask for with the words after them.

use crate::client_commands::plan::read_plan;
use crate::client_commands::refusal::LineRefusal;
use crate::client_commands::signal::read_signal;
use crate::client_commands::words::Words;
use crate::slot_protocol::Command;

/// A verb of a script's line: what a client asks of a slot.
#[derive(Clone, Copy)]
pub(crate) enum Verb {
    /// Follow a satellite at a fixed Doppler shift.
    Hold,
    /// Track a satellite from a Doppler shift on.
    Track,
    /// Search for a satellite, and track it where it is found.
    Acquire,
    /// Print the next dumps.
    Counts,
    /// Show the slot.
    State,
    /// Make the slot idle.
    Stop,
}

impl Verb {
    /// The verb with a name, if there is one.
    pub(crate) fn with_name(name: &[u8]) -> Option<Verb> {
        match name {
            b"hold" => Some(Verb::Hold),
            b"track" => Some(Verb::Track),
            b"acquire" => Some(Verb::Acquire),
            b"counts" => Some(Verb::Counts),
            b"state" => Some(Verb::State),
            b"stop" => Some(Verb::Stop),
            _ => None,
        }
    }

    /// How many words follow the verb.
    fn word_count(self) -> usize {
        match self {
            Verb::Hold | Verb::Track => 4,
            Verb::Acquire => 6,
            Verb::Counts => 2,
            Verb::State | Verb::Stop => 1,
        }
    }

    /// The command that the words after the verb ask for, of a client with a share of the slots.
    pub(crate) fn command(self, line: &[u8], share: u8) -> Result<Command, LineRefusal> {
        let mut words = Words::split(line, self.word_count())?;
        let slot = words.slot(share)?;
        match self {
            Verb::Hold => Ok(Command::Hold {
                slot,
                signal: read_signal(&mut words)?,
            }),
            Verb::Track => Ok(Command::Track {
                slot,
                signal: read_signal(&mut words)?,
            }),
            Verb::Acquire => Ok(Command::Acquire {
                slot,
                plan: read_plan(&mut words)?,
            }),
            Verb::Counts => Ok(Command::Counts {
                slot,
                n: words.dumps()?,
            }),
            Verb::State => Ok(Command::State { slot }),
            Verb::Stop => Ok(Command::Stop { slot }),
        }
    }
}
