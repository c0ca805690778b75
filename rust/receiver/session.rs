// Made by tools/rust of crates/receiver/src/session.rt: change that.
//! The slots of all clients, with what is left of their scripts.

use crate::receiver::due::Due;
use crate::receiver::queue::Queue;
use crate::receiver::queues::{least_gap, queues_of, take_due};
use crate::kit::arrayvec::ArrayVec;
use crate::channel_slots::{Bank, MOST_CLIENTS, OpenFault, SlotEvent, Timeline};
use crate::oscillators::Settings;
use crate::printed_lines::Line;
use crate::sample_planes::{Format, PackedSamples};
use crate::kit::std::alloc::Global;

/// Room for the script of each client.
pub const QUEUES: usize = MOST_CLIENTS;

/// The slots of all clients, and beside them what is left of the clients' scripts.
pub struct Session<'a> {
    bank: Bank,
    queues: ArrayVec<Queue<'a>, QUEUES>,
    /// The slots' events over the last run of samples.
    timeline: Timeline,
}

impl<'a> Session<'a> {
    /// A session before the first sample. It takes the memory of the slots.
    pub fn open(
        alloc: Global,
        settings: Settings,
        scripts: &'a [&'a [u8]],
        shares: &[u8],
    ) -> Result<Session<'a>, OpenFault> {
        let bank = Bank::open(alloc, settings, shares)?;
        let timeline = Timeline::new(alloc)?;
        Ok(Session {
            bank,
            queues: queues_of(scripts, shares),
            timeline,
        })
    }

    /// The samples so far.
    pub fn time(&self) -> u64 {
        self.bank.time()
    }

    /// The number of clients.
    pub fn clients(&self) -> u8 {
        self.queues.len() as u8
    }

    /// The samples until the next command's time.
    pub fn until_next(&self) -> u64 {
        least_gap(&self.queues, self.bank.time())
    }

    /// How the samples are packed.
    pub fn format(&self) -> Format {
        self.bank.format()
    }

    /// The slots' events over the last run of samples.
    pub fn events(&self) -> &[SlotEvent] {
        self.timeline.events()
    }

    /// Takes a run of samples, none of them past the next command's time, and keeps the slots'
    /// events over it.
    pub fn feed(&mut self, run: &PackedSamples) {
        self.bank.feed(run, &mut self.timeline);
    }

    /// Takes the next entry that is to be answered at this time.
    pub fn next_due(&mut self) -> Option<Due> {
        let now = self.bank.time();
        take_due(&mut self.queues, now)
    }

    /// Answers an entry that was taken. Makes a line that of the answer, with its end.
    pub fn answer(&mut self, due: Due, line: &mut Line) {
        due.answer(&mut self.bank, line);
    }
}
