// Made by tools/rust of crates/made_signals/src/chip_signs.rt: change that.
//! The chips of a satellite's code, as signs (IS-GPS-200, section 3.3.2.3).

/// The code's cycle of 1,023 chips, in 2^-32 chip.
pub const CYCLE: u64 = 1023 << 32;

/// Half a chip, in 2^-32 chip.
pub const HALF_CHIP: u64 = 1 << 31;

/// The two stages of the second register whose exclusive or is a satellite's own, from satellite 1
/// on (IS-GPS-200, table 3-Ia).
const STAGES: [(u32, u32); 32] = [
    (2, 6),
    (3, 7),
    (4, 8),
    (5, 9),
    (1, 9),
    (2, 10),
    (1, 8),
    (2, 9),
    (3, 10),
    (2, 3),
    (3, 4),
    (5, 6),
    (6, 7),
    (7, 8),
    (8, 9),
    (9, 10),
    (1, 4),
    (2, 5),
    (3, 6),
    (4, 7),
    (5, 8),
    (6, 9),
    (1, 3),
    (4, 6),
    (5, 7),
    (6, 8),
    (7, 9),
    (8, 10),
    (1, 6),
    (2, 7),
    (3, 8),
    (4, 9),
];

/// The sign of each chip of a satellite: 1 for chip 0, -1 for chip 1.
#[derive(Clone, Copy)]
pub struct ChipSigns {
    signs: [i32; 1023],
}

impl ChipSigns {
    /// The signs of the chips of a satellite, 1 to 32, by two shift registers of ten stages that
    /// begin with ones.
    pub fn of(satellite: u8) -> Self {
        let place = usize::from(satellite).wrapping_sub(1);
        let stages = STAGES.get(place).copied().unwrap_or((1, 1));
        let mut first = 0x3ff;
        let mut second = 0x3ff;
        let mut signs = [1; 1023];
        for sign in signs.iter_mut() {
            if stage(first, 10) ^ stage(second, stages.0) ^ stage(second, stages.1) == 1 {
                *sign = -1;
            }
            first = next_register(first, stage(first, 3) ^ stage(first, 10));
            let lower = stage(second, 2) ^ stage(second, 3) ^ stage(second, 6);
            let upper = stage(second, 8) ^ stage(second, 9) ^ stage(second, 10);
            second = next_register(second, lower ^ upper);
        }
        ChipSigns { signs }
    }

    /// The sign of the chip at a phase of the code, in 2^-32 chip: +1 for a 0, -1 for a 1.
    pub fn at(&self, phase: u64) -> i32 {
        self.signs[(phase % CYCLE / (1 << 32)) as usize]
    }
}

/// Stage 1 to 10 of a register.
fn stage(register: u32, number: u32) -> u32 {
    register.wrapping_shr(number.wrapping_sub(1)) & 1
}

/// Each stage moves to the next higher one, and a bit comes into stage 1.
fn next_register(register: u32, bit: u32) -> u32 {
    (register << 1 | bit) & 0x3ff
}
