// Made by tools/rust of crates/seldomplough/src/receiver.rt: change that.
//! A receiver over packed samples.

use crate::facade::too_many_samples::TooManySamples;
use crate::acquisition::{Plan, Signal};
use crate::channel_slots::{Bank, MOST_TIME, OpenFault, Timeline};
use crate::oscillators::Settings;
use crate::sample_planes::{Format, MAX_SAMPLES, PackedSamples};
use crate::slot_protocol::{Answer, Command, Refusal, SlotEvent, SlotNo, SlotState};
use crate::kit::std::alloc::Global;
use crate::kit::std::fmt::{self, Debug, Formatter};

/// The slots of one to eight clients over one recording, one to eight for each client, and the
/// events of the samples that came last.
pub struct Receiver {
    bank: Bank,
    timeline: Timeline,
}

impl Receiver {
    /// Idle slots for one to `MOST_CLIENTS` clients, which are numbered from 1 and have shares of 1
    /// to `MOST_SLOTS` slots. It takes all memory that the receiver needs.
    ///
    /// # Errors
    ///
    /// The number of clients is outside 1 to 8, a share is outside 1 to 8, or there is no memory.
    /// The number of clients is checked first, then the shares.
    pub fn open(alloc: Global, settings: Settings, shares: &[u8]) -> Result<Receiver, OpenFault> {
        let bank = Bank::open(alloc, settings, shares)?;
        let timeline = Timeline::new(alloc)?;
        Ok(Receiver { bank, timeline })
    }

    /// How the samples are packed that the receiver takes.
    #[must_use]
    pub fn format(&self) -> Format {
        self.bank.format()
    }

    /// The number of samples that the receiver has taken, at most `MOST_TIME`.
    #[must_use]
    pub fn time(&self) -> u64 {
        self.bank.time()
    }

    /// What the slots emit with the samples that `take` took last: by time, then by client, then by
    /// slot.
    #[must_use]
    pub fn events(&self) -> &[SlotEvent] {
        self.timeline.events()
    }

    /// Takes samples from the front of some bytes, and gives the bytes after them. It takes all of
    /// them, or as many as have `MAX_SAMPLES` samples, or as many as come to `MOST_TIME`. The
    /// events are those over these samples from then on, and nothing of before. Bytes may be cut
    /// anywhere, since each of them has whole samples.
    ///
    /// # Errors
    ///
    /// There are bytes, and the samples of the first would be more than `MOST_TIME` with those
    /// before. Then nothing is taken, and nothing has changed.
    pub fn take<'b>(&mut self, bytes: &'b [u8]) -> Result<&'b [u8], TooManySamples> {
        let count = self.fitting(bytes.len());
        // One byte at least, where there is any.
        if count < bytes.len().min(1) {
            return Err(TooManySamples);
        }
        let (front, rest) = bytes.split_at(count);
        let run = PackedSamples::new(self.bank.format(), front);
        self.bank.feed(&run, &mut self.timeline);
        Ok(rest)
    }

    /// How many bytes of as many as there are can be taken at once.
    fn fitting(&self, count: usize) -> usize {
        let per_byte = self.bank.format().per_byte();
        let room = (MOST_TIME - self.bank.time()) / per_byte as u64;
        let most = room.min((MAX_SAMPLES / per_byte) as u64);
        count.min(most as usize)
    }

    /// Does what a client asks of one of its slots, and answers it: a refused command changes
    /// nothing. One for a slot that the client doesn't have is refused.
    pub fn command(&mut self, client: u8, command: Command) -> Answer {
        self.bank.command(client, command)
    }

    /// Has a slot follow a satellite at a fixed Doppler shift, from a half chip of its code on.
    ///
    /// # Errors
    ///
    /// The slot isn't idle, or the client has no such slot. Then nothing has changed.
    pub fn hold(&mut self, client: u8, slot: SlotNo, signal: Signal) -> Result<(), Refusal> {
        outcome(self.command(client, Command::Hold { slot, signal }))
    }

    /// Has a slot track a satellite, from a Doppler shift and a half chip of its code on: its loops
    /// steer it, and its message is read.
    ///
    /// # Errors
    ///
    /// The slot isn't idle, or the client has no such slot. Then nothing has changed.
    pub fn track(&mut self, client: u8, slot: SlotNo, signal: Signal) -> Result<(), Refusal> {
        outcome(self.command(client, Command::Track { slot, signal }))
    }

    /// Has a slot search for a satellite, and track it where it is found.
    ///
    /// # Errors
    ///
    /// The slot isn't idle, or the client has no such slot. Then nothing has changed.
    pub fn acquire(&mut self, client: u8, slot: SlotNo, plan: Plan) -> Result<(), Refusal> {
        outcome(self.command(client, Command::Acquire { slot, plan }))
    }

    /// Has a slot emit its next `n` counts, in place of those asked for before; 0 ends them.
    ///
    /// # Errors
    ///
    /// The slot is idle, or the client has no such slot. Then nothing has changed.
    pub fn counts(&mut self, client: u8, slot: SlotNo, n: u32) -> Result<(), Refusal> {
        outcome(self.command(client, Command::Counts { slot, n }))
    }

    /// Makes a slot idle.
    ///
    /// # Errors
    ///
    /// The slot is idle, or the client has no such slot. Then nothing has changed.
    pub fn stop(&mut self, client: u8, slot: SlotNo) -> Result<(), Refusal> {
        outcome(self.command(client, Command::Stop { slot }))
    }

    /// What a slot shows of itself.
    ///
    /// # Errors
    ///
    /// The client has no such slot.
    pub fn state(&mut self, client: u8, slot: SlotNo) -> Result<SlotState, Refusal> {
        shown(self.command(client, Command::State { slot }))
    }
}

impl Debug for Receiver {
    /// How many samples it has taken.
    fn fmt(&self, f: &mut Formatter) -> fmt::Result {
        write!(f, "Receiver {{ time: {}, .. }}", self.time())
    }
}

/// What became of a command other than `state`.
fn outcome(answer: Answer) -> Result<(), Refusal> {
    match answer {
        Answer::Refused(refusal) => Err(refusal),
        Answer::Accepted | Answer::State(_) => Ok(()),
    }
}

/// What `state` shows. No slot accepts it without showing itself.
fn shown(answer: Answer) -> Result<SlotState, Refusal> {
    match answer {
        Answer::State(state) => Ok(state),
        Answer::Refused(refusal) => Err(refusal),
        Answer::Accepted => Ok(SlotState::Idle),
    }
}
