// Made by tools/rust of crates/lane_correlator/src/counts.rt: change that.
//! The six sums that a correlator gives.

/// The six sums of a correlator: with the early, prompt and late chips, in phase (i) and in
/// quadrature (q).
#[derive(Clone, Copy, Debug, Default, PartialEq, Eq)]
pub struct Counts {
    /// With the early chips, half a chip ahead of the prompt ones, in phase.
    pub ie: i32,
    /// With the early chips, in quadrature.
    pub qe: i32,
    /// With the prompt chips, in phase. Where its sign counts, 0 is taken as above 0.
    pub ip: i32,
    /// With the prompt chips, in quadrature.
    pub qp: i32,
    /// With the late chips, half a chip behind the prompt ones, in phase.
    pub il: i32,
    /// With the late chips, in quadrature.
    pub ql: i32,
}

impl Counts {
    /// The sums over no samples.
    pub const NONE: Counts = Counts {
        ie: 0,
        qe: 0,
        ip: 0,
        qp: 0,
        il: 0,
        ql: 0,
    };

    /// Adds place by place. The caller sees to it that each sum fits in an `i32`.
    ///
    /// # Panics
    ///
    /// Plain Rust panics where a sum does not fit in an `i32`, if overflow is checked.
    #[must_use]
    pub fn add(&self, other: &Counts) -> Counts {
        Counts {
            ie: self.ie + other.ie,
            qe: self.qe + other.qe,
            ip: self.ip + other.ip,
            qp: self.qp + other.qp,
            il: self.il + other.il,
            ql: self.ql + other.ql,
        }
    }
}
