//! White noise.

/// A generator of numbers that look drawn by chance, the same ones for the same seed (xorshift64*).
pub struct Chance {
    state: u64,
}

impl Chance {
    /// Seeds next to each other give streams that have nothing in common (splitmix64).
    pub fn new(seed: u64) -> Self {
        let mut z = seed.wrapping_add(1).wrapping_mul(0x9e37_79b9_7f4a_7c15);
        z = (z ^ (z >> 30)).wrapping_mul(0xbf58_476d_1ce4_e5b9);
        z = (z ^ (z >> 27)).wrapping_mul(0x94d0_49bb_1331_11eb);
        Chance {
            state: (z ^ (z >> 31)) | 1,
        }
    }

    /// The next 64 bits.
    pub fn bits(&mut self) -> u64 {
        self.state ^= self.state >> 12;
        self.state ^= self.state << 25;
        self.state ^= self.state >> 27;
        self.state.wrapping_mul(0x2545_f491_4f6c_dd1d)
    }

    /// Two normal deviates that don't depend on each other, by the polar method of Marsaglia.
    pub fn normal_pair(&mut self) -> (f32, f32) {
        loop {
            let bits = self.bits();
            let x = (bits >> 32) as f32 / 2147483648.0 - 1.0;
            let y = (bits as u32) as f32 / 2147483648.0 - 1.0;
            let square = x * x + y * y;
            if square > 0.0 && square < 1.0 {
                let size = (-2.0 * square.ln() / square).sqrt();
                return (x * size, y * size);
            }
        }
    }
}
