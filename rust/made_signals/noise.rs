// Made by tools/rust of crates/made_signals/src/noise.rt: change that.
//! Values without any signal.

/// Gives values that look like chance, the same ones each time.
#[derive(Clone, Copy)]
pub struct Noise {
    register: u32,
}

impl Noise {
    /// Noise from its first value on.
    pub fn new() -> Self {
        Noise {
            register: 0x2545_f491,
        }
    }

    /// The next value, 1, 3, -1 or -3, by a shift register of 32 bits that is folded onto itself
    /// three times.
    pub fn next_value(&mut self) -> i32 {
        self.register ^= self.register << 13;
        self.register ^= self.register >> 17;
        self.register ^= self.register << 5;
        match self.register >> 30 {
            0 => 1,
            1 => 3,
            2 => -1,
            _ => -3,
        }
    }
}
