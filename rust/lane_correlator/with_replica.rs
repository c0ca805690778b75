// Made by tools/rust of crates/lane_correlator/src/with_replica.rt: change that.
//! Sums with a replica that is made as it is needed, 64 samples at a time.

use crate::lane_correlator::counts::Counts;
use crate::lane_correlator::replica::{RunPart, WordReplica};
use crate::ca_codes::{CodeBook, Prn};
use crate::oscillators::{CarrierOsc, CodeOsc};
use crate::sample_planes::Planes;

/// The six sums over `count` samples of a run, from sample `from` on, in units of sample times
/// carrier. They are those with a satellite's replica whose oscillators stand at sample `from`. A
/// sum is at most `MOST_PRODUCT` times the number of samples in size. The book stands for the codes
/// as before.
pub fn replica_sums(
    samples: &Planes,
    from: usize,
    count: usize,
    carrier: &CarrierOsc,
    code: &CodeOsc,
    book: &mut CodeBook,
    prn: Prn,
) -> Counts {
    let to = samples.len().min(from + count);
    let before = (from % 64) as u32;
    let mut replica = WordReplica {
        prn,
        carrier: carrier.words(before),
        code: code.words(before),
    };
    let most = words_of_lanes(samples);
    let mut counts = Counts::NONE;
    let mut here = from;
    while here < to {
        let next = to.min(64 * (here / 64 + most));
        let part = RunPart {
            samples,
            from: here,
            to: next,
        };
        let more = replica.sums(&part, book);
        counts = counts.add(&more);
        here = next;
    }
    counts
}

/// How many words lanes have room for.
fn words_of_lanes(samples: &Planes) -> usize {
    // A lane takes two products of a word, each at most 3 in size or 9, and holds at most 127.
    if samples.has_sizes() { 7 } else { 21 }
}
