// Made by tools/rust of crates/seldomplough/src/lib.rt: change that.

mod packing;
mod packing_fault;
mod receiver;
mod too_many_samples;
pub mod units;
mod values;

pub use crate::acquisition::{Cell, Plan, PlanFault, Search, SearchRoom, Signal};
pub use crate::bit_sync::{BitNews, BitSync};
pub use crate::ca_codes::{CodeBook, Prn, PrnFault};
pub use crate::channel_slots::{MOST_CLIENTS, MOST_TIME, OpenFault};
pub use crate::data_sets::{AlmanacSet, DataSets, Report, Reports};
pub use crate::frame_sync::{Found, FrameSync, Subframe};
pub use crate::lane_correlator::Counts;
pub use crate::nav_message::{Message, MessageNews};
pub use crate::nav_parity::{check, encode};
pub use crate::oscillators::{Doppler, HalfChip, Settings, SettingsFault};
pub use packing::Packing;
pub use packing_fault::PackingFault;
pub use receiver::Receiver;
pub use crate::recordings::{Choice, ChoiceFault, MOST_PIECE, Recipe, ValueKind};
pub use crate::sample_planes::{Format, MAX_SAMPLES, NumberedSamples, PackedSamples};
pub use crate::slot_protocol::{
    Answer, Command, Event, MOST_SLOTS, Phase, Refusal, SlotEvent, SlotNo, SlotState,
};
pub use crate::kit::std::alloc::Global;
pub use crate::subframes::{
    AlmanacField, ClockField, Eph2Field, Eph3Field, Field, HealthField, Page, UtcField, field,
};
pub use too_many_samples::TooManySamples;
