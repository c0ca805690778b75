// Made by tools/rust of crates/client_commands/src/plan.rt: change that.
//! The words with which a slot begins to search for a satellite.

use crate::client_commands::refusal::LineRefusal;
use crate::client_commands::words::Words;
use crate::acquisition::{MOST_DWELL, MOST_SIDE_BINS, MOST_THRESHOLD, Plan};

/// The plan of five words: satellite, centre, bins, dwell and threshold.
pub(crate) fn read_plan(words: &mut Words<'_>) -> Result<Plan, LineRefusal> {
    let prn = words.prn()?;
    let centre = words.centre()?;
    let bins = words.number_between(0, MOST_SIDE_BINS)?;
    let dwell = words.number_between(1, MOST_DWELL)?;
    let threshold = words.number_between(1, MOST_THRESHOLD)?;
    // Values that are each in their range are always a plan.
    Plan::new(prn, centre, bins, dwell, threshold).or(Err(LineRefusal::OutOfRange))
}
