// Made by tools/rust of crates/lane_correlator/src/replica.rt: change that.
//! A satellite's replica in words of 64 samples, and the sums over words of a run with it.

use crate::lane_correlator::counts::Counts;
use crate::lane_correlator::tally::Tally;
use crate::lane_correlator::wiped::Wiped;
use crate::bit_planes::WORD_PLACES;
use crate::ca_codes::{CodeBook, Prn, TABLE};
use crate::oscillators::{CarrierWords, ChipLanes, CodeWords};
use crate::sample_planes::Planes;

/// The samples `from` to `to` - 1 of a run.
#[derive(Clone, Copy)]
pub(crate) struct RunPart<'a> {
    pub(crate) samples: &'a Planes,
    pub(crate) from: usize,
    pub(crate) to: usize,
}

/// A satellite's replica in words of 64 samples, the next one first.
pub(crate) struct WordReplica<'a> {
    pub(crate) prn: Prn,
    pub(crate) carrier: CarrierWords<'a>,
    pub(crate) code: CodeWords<'a>,
}

/// What is known of the words of a part.
#[derive(Clone, Copy, Debug, PartialEq, Eq)]
enum WordKind {
    /// The code has windows, and the samples are real.
    Real,
    /// The code has windows, and the samples may be complex.
    Complex,
    /// Nothing is known of the code or of the samples.
    Any,
}

impl RunPart<'_> {
    /// The codes in quadrature of word `w`.
    #[inline(always)]
    fn codes_q(&self, w: usize, words: WordKind) -> Option<[u8; WORD_PLACES]> {
        match words {
            WordKind::Real => None,
            WordKind::Complex | WordKind::Any => self.samples.codes_q(w),
        }
    }

    /// The products of word `w` at the samples of the part, and 0 at the others.
    #[inline(always)]
    fn within(&self, wiped: Wiped, w: usize) -> Wiped {
        // One comparison finds the words that lie in the part whole. They are most.
        let whole = (self.from + 63) / 64;
        let many = (self.to / 64).saturating_sub(whole);
        if w.wrapping_sub(whole) < many {
            return wiped;
        }
        wiped.within(
            self.from.max(64 * w) - 64 * w,
            self.to.min(64 * w + 64) - 64 * w,
        )
    }
}

impl<'a> WordReplica<'a> {
    /// The sums over a part of a run, of so few words that lanes have room for them. The replica
    /// stands at the first of them, and goes on by all.
    #[inline(always)]
    pub(crate) fn sums(&mut self, part: &RunPart<'_>, book: &mut CodeBook) -> Counts {
        // Each kind of words has a loop of its own, so that this has few branches.
        match (self.code.has_windows(), part.samples.is_complex()) {
            (true, false) => self.sums_of_words(part, book, WordKind::Real),
            (true, true) => self.sums_of_words(part, book, WordKind::Complex),
            (false, _) => self.sums_of_long_steps(part, book),
        }
    }

    /// The sums where sixteen samples may take more chips than a window has. No rate of a recording
    /// has such a step, so this isn't inlined.
    #[inline(always)]
    fn sums_of_long_steps(&mut self, part: &RunPart<'_>, book: &mut CodeBook) -> Counts {
        self.sums_of_words(part, book, WordKind::Any)
    }

    /// The sums over words of which this much is known.
    #[inline(always)]
    fn sums_of_words(&mut self, part: &RunPart<'_>, book: &mut CodeBook, words: WordKind) -> Counts {
        let table = book.table(self.prn);
        let mut tally = Tally::none();
        for w in part.from / 64..(part.to + 63) / 64 {
            let eighths = self.carrier.next_eighths();
            let wiped = Wiped::new(eighths, part.samples.codes(w), part.codes_q(w, words));
            let within = part.within(wiped, w);
            let chips = next_chips(&mut self.code, table, words);
            tally = tally.add(within, chips);
        }
        tally.counts()
    }
}

/// The chips of a code at the samples of the next word.
#[inline(always)]
fn next_chips(code: &mut CodeWords<'_>, table: &[u8; TABLE], words: WordKind) -> ChipLanes {
    match words {
        WordKind::Real | WordKind::Complex => code.next_lanes_by_windows(table),
        WordKind::Any => code.next_lanes(table),
    }
}
