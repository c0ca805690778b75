// Made by tools/rust of crates/channels/src/window.rt: change that.
//! The samples that the satellites of a bank look at.

use crate::channels::dump::Dump;
use crate::lane_correlator::Counts;
use crate::sample_history::SampleHistory;
use crate::sample_planes::{Format, MAX_SAMPLES, NEAR_BYTES, PackedSamples, Planes, SampleSource};
use crate::kit::std::alloc::{AllocError, Global};

/// The last samples of a recording, of which at most `MAX_SAMPLES` are open: these are unpacked
/// once for all satellites that take them, and only where one does. A satellite may let the open
/// ones wait. Beside them is room for a dump.
pub struct Window {
    history: SampleHistory,
    /// The open samples, as far as they are unpacked. They are large, so that they are kept.
    planes: Planes,
    /// Room for the bytes that they are unpacked from.
    near: [u8; NEAR_BYTES],
    /// The number of the first open sample.
    first: u64,
    /// The number after that of the last one that is unpacked.
    unpacked: u64,
    /// The dump that came last. It is large, so that it is written here.
    pub(crate) dump: Dump,
}

impl Window {
    /// Before the first sample of a recording. It takes its memory at once, and will hold at least
    /// the last `room` samples, which are `MAX_SAMPLES` or more.
    pub fn new(alloc: Global, format: Format, room: usize) -> Result<Window, AllocError> {
        assert!(
            MAX_SAMPLES <= room,
            "Window::new requires MAX_SAMPLES <= room"
        );
        Ok(Window {
            history: SampleHistory::open(alloc, format, room)?,
            planes: Planes::new(),
            near: [0; NEAR_BYTES],
            first: 0,
            unpacked: 0,
            dump: Dump::plain(Counts::NONE),
        })
    }

    /// All samples that are held, by their numbers.
    pub fn history(&self) -> &SampleHistory {
        &self.history
    }

    /// The number after that of the last sample.
    pub fn end(&self) -> u64 {
        self.history.end()
    }

    /// The dump that came last, or one that is zero before the first.
    pub fn dump(&self) -> &Dump {
        &self.dump
    }

    /// Whether so many more samples can be open.
    pub fn has_room(&self, more: usize) -> bool {
        more <= MAX_SAMPLES - (self.end() - self.first) as usize
    }

    /// Closes the samples that are open.
    pub fn close(&mut self) {
        self.first = self.end();
        self.unpacked = self.first;
    }

    /// Opens the next samples of the recording, for which there is room.
    pub fn take(&mut self, run: &PackedSamples) {
        debug_assert!(self.history.end() - self.first <= (MAX_SAMPLES - run.len()) as u64);
        self.history.take(run);
    }

    /// Unpacks the open samples, where they aren't yet.
    pub fn unpack(&mut self) {
        if self.unpacked < self.end() {
            self.unpacked = self.end();
            let len = (self.unpacked - self.first) as usize;
            self.history
                .unpack_into(self.first, len, &mut self.near, &mut self.planes);
        }
    }

    /// The open samples, once they are unpacked.
    pub fn planes(&self) -> &Planes {
        &self.planes
    }

    /// The place of an open sample, by its number, among those that are unpacked.
    pub fn place(&self, number: u64) -> usize {
        (number - self.first) as usize
    }
}
