// Made by tools/rust of crates/channel_slots/src/timeline.rt: change that.
//! The events over a run of samples, in order of time.

use crate::kit::std::vec::Vec;
use crate::channel_slots::slot_news::SlotNews;
use crate::channels::Dump;
use crate::data_sets::Reports;
use crate::frame_sync::Found;
use crate::lane_correlator::Counts;
use crate::nav_message::MessageNews;
use crate::slot_protocol::{Event, SlotEvent};
use crate::kit::std::alloc::{AllocError, Global};
use crate::tracking_loops::News;

/// The most events of a run of samples: each slot has at most one dump in it, with all that comes
/// with it.
pub const RUN_EVENTS: usize = 512;

/// The most events that come with a subframe: a gap, the subframe, a page and a set of almanacs.
const FRAME_EVENTS: usize = 4;

/// The events over a run of samples: by time, then by client, then by slot. It is kept from run to
/// run. Its memory is reserved once, for `RUN_EVENTS` events.
#[derive(Debug)]
pub struct Timeline {
    events: Vec<SlotEvent>,
    /// Whose events are put, and when they come.
    client: u8,
    slot: u8,
    time: u64,
}

impl Timeline {
    /// One without events. It takes all memory that it needs.
    ///
    /// # Errors
    ///
    /// There is no memory.
    pub fn new(alloc: Global) -> Result<Timeline, AllocError> {
        Ok(Timeline {
            events: Vec::with_capacity(alloc, RUN_EVENTS)?,
            client: 0,
            slot: 0,
            time: 0,
        })
    }

    /// The events, in their order.
    pub fn events(&self) -> &[SlotEvent] {
        &self.events
    }

    /// Has no event any more.
    pub fn clear(&mut self) {
        self.events.clear();
    }

    /// Puts all that comes with a sample of a client's slot. Of most dumps nothing is emitted: then
    /// no event is made, since an event is large.
    pub(crate) fn put_news(&mut self, client: u8, slot: u8, news: SlotNews, dump: &Dump) {
        self.client = client;
        self.slot = slot;
        self.time = news.time();
        match news {
            SlotNews::Acquired { time: _, prn, cell } => self.put(Event::Acquired { prn, cell }),
            SlotNews::Dump { time: _, is_shown } => {
                if !is_silent(is_shown, dump) {
                    self.put_dump(is_shown, dump);
                }
            }
        }
    }

    /// Puts what is emitted with a dump. It stays a call, since most dumps bring nothing.
    #[inline(never)]
    fn put_dump(&mut self, is_shown: bool, dump: &Dump) {
        self.put_counts(is_shown, &dump.counts);
        self.put_lock(dump.lock);
        self.put_message(&dump.message);
    }

    /// Puts the sums of a dump, if they are to be printed.
    fn put_counts(&mut self, is_shown: bool, counts: &Counts) {
        if is_shown {
            self.put(Event::Count(*counts));
        }
    }

    /// Puts a change of the lock.
    fn put_lock(&mut self, lock: News) {
        match lock {
            News::Nothing => {}
            News::Lock => self.put(Event::Lock),
            News::Unlock => self.put(Event::Unlock),
            News::Lost => self.put(Event::Lost),
        }
    }

    /// Puts what the message reports.
    fn put_message(&mut self, message: &MessageNews) {
        match message {
            MessageNews::Nothing => {}
            MessageNews::Edge => self.put(Event::Bits),
            MessageNews::Frame { found, reports } => self.put_frame(found, reports),
        }
    }

    /// Puts a subframe, with the gap before it and what its page makes reported. It stays a call,
    /// as `put` does.
    #[inline(never)]
    fn put_frame(&mut self, found: &Found, reports: &Reports) {
        self.put_if_any(found.gap.map(Event::Gap));
        self.put(Event::Sub(found.subframe));
        self.put_if_any(reports.page.map(Event::Page));
        self.put_if_any(reports.set.map(Event::Almanacs));
    }

    /// Puts an event, if there is one.
    fn put_if_any(&mut self, event: Option<Event>) {
        if let Some(event) = event {
            self.put(event);
        }
    }

    /// Puts an event after all earlier ones that aren't later than it is. It stays a call, since
    /// events are large and most samples bring none.
    #[inline(never)]
    fn put(&mut self, event: Event) {
        let event = SlotEvent {
            client: self.client,
            slot: self.slot,
            time: self.time,
            event,
        };
        let at = place_of(&self.events, &event);
        let _fits = self.events.insert(at, event);
    }
}

/// Whether nothing is emitted with a dump.
fn is_silent(is_shown: bool, dump: &Dump) -> bool {
    let changes_lock = !matches!(dump.lock, News::Nothing);
    !is_shown && !changes_lock && matches!(dump.message, MessageNews::Nothing)
}

/// The number of events after which the next one is inserted.
fn place_of(events: &[SlotEvent], next: &SlotEvent) -> usize {
    let mut at = 0;
    while at < events.len() {
        if next.time < events[at].time {
            return at;
        }
        at += 1;
    }
    at
}
