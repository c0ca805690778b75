// Made by tools/rust of crates/ca_codes/src/registers.rt: change that.
//! The shift registers that make a code (IS-GPS-200, section 3.3.2.3).

use crate::ca_codes::satellite::{Prn, SATELLITES};

/// The stages of a register (IS-GPS-200, section 3.3.2.3).
const REGISTER_STAGES: u8 = 10;

/// The two stages of G2 whose exclusive or is the satellite's own code phase, for satellites 1 to
/// 32 (IS-GPS-200, section 3.3.2.3, table 3-Ia).
const SELECTIONS: [(u8, u8); SATELLITES] = [
    (2, 6),
    (3, 7),
    (4, 8),
    (5, 9),
    (1, 9),
    (2, 10),
    (1, 8),
    (2, 9),
    (3, 10),
    (2, 3),
    (3, 4),
    (5, 6),
    (6, 7),
    (7, 8),
    (8, 9),
    (9, 10),
    (1, 4),
    (2, 5),
    (3, 6),
    (4, 7),
    (5, 8),
    (6, 9),
    (1, 3),
    (4, 6),
    (5, 7),
    (6, 8),
    (7, 9),
    (8, 10),
    (1, 6),
    (2, 7),
    (3, 8),
    (4, 9),
];

/// The registers G1 and G2 of ten stages each. Stage k is bit k - 1.
#[derive(Clone, Copy)]
pub(crate) struct Registers {
    g1: u16,
    g2: u16,
}

impl Registers {
    /// All ones, as each code begins.
    pub(crate) fn start() -> Registers {
        Registers {
            g1: 0x3ff,
            g2: 0x3ff,
        }
    }

    /// The chip that the satellite's code has now.
    fn chip(&self, prn: Prn) -> u64 {
        let (first, second) = selection(prn);
        (stage(self.g1, 10) ^ stage(self.g2, first) ^ stage(self.g2, second)) as u64
    }

    /// Shifts both registers once.
    fn shift(&mut self) {
        let g1_feedback = stage(self.g1, 3) ^ stage(self.g1, 10);
        let g2_feedback = stage(self.g2, 2)
            ^ stage(self.g2, 3)
            ^ stage(self.g2, 6)
            ^ stage(self.g2, 8)
            ^ stage(self.g2, 9)
            ^ stage(self.g2, 10);
        self.g1 = next_register(self.g1, g1_feedback);
        self.g2 = next_register(self.g2, g2_feedback);
    }

    /// The next 64 chips of the satellite's code, the first of them in the top bit.
    pub(crate) fn next_chips(&mut self, prn: Prn) -> u64 {
        let mut chips = 0;
        for _i in 0..u64::BITS {
            chips = (chips << 1) | self.chip(prn);
            self.shift();
        }
        chips
    }
}

/// The satellite's two stages of G2.
fn selection(prn: Prn) -> (u8, u8) {
    SELECTIONS[(prn.get() - 1) as usize]
}

/// A stage of a register, 0 or 1.
fn stage(register: u16, k: u8) -> u16 {
    (register >> (k - 1)) & 1
}

/// Each stage moves to the next higher one, and stage 1 takes the feedback.
fn next_register(register: u16, feedback: u16) -> u16 {
    ((register << 1) & 0x3ff) | feedback
}
