// Made by tools/rust of crates/satellite_tests/src/frame_sync_tests/mixture.rt: change that.
//! A made stream of bits: whole subframes, cut ones, damaged ones, bare and false headers, inverted
//! parts and noise, as a shift register chooses them.

use crate::kit::std::vec::Vec;
use crate::satellite_tests::sent::{TELEMETRY, ended};
use crate::nav_parity::encode;
use crate::kit::std::alloc::{Alloc, Global};
use crate::kit::std::process::Abort;

/// What is done to a subframe: the places, from its first bit, from where on it is inverted, that
/// is changed, and where it is cut.
#[derive(Clone, Copy)]
struct Damage {
    tail: u32,
    bit: u32,
    len: u32,
}

/// Damage after the subframe.
const NONE: Damage = Damage {
    tail: 300,
    bit: 300,
    len: 300,
};

pub struct Mixture {
    register: u64,
    bits: Vec<bool>,
}

impl Mixture {
    /// The first `len` bits of a mixture.
    pub fn of_length(rt: &(impl Abort + Alloc<A = Global>), len: usize) -> Vec<bool> {
        let mut mixture = Mixture {
            register: 0x9e37_79b9_7f4a_7c15,
            bits: Vec::new(rt.alloc()),
        };
        for _ in 0..len {
            if mixture.bits.len() < len {
                mixture.add_piece(rt);
            }
        }
        let Mixture {
            mut bits,
            register: _,
        } = mixture;
        bits.truncate(len);
        bits
    }

    /// The next choice below a number.
    fn below(&mut self, limit: u32) -> u32 {
        self.register ^= self.register << 13;
        self.register ^= self.register >> 7;
        self.register ^= self.register << 17;
        (self.register % u64::from(limit)) as u32
    }

    fn add_piece(&mut self, rt: &impl Abort) {
        let kind = self.below(12);
        let id = 1 + self.below(5);
        match kind {
            7 => self.add_bare_preamble(rt),
            11 => self.add_noise(rt, 300),
            _ => self.add_damaged(rt, kind, id),
        }
    }

    /// A subframe after two bits that the kind has, with its damage.
    fn add_damaged(&mut self, rt: &impl Abort, kind: u32, id: u32) {
        match kind {
            10 => {}
            1 | 5 | 9 => self.add_bits(rt, 3, 2),
            _ => self.add_bits(rt, 0, 2),
        }
        let damage = self.damage(kind);
        let id = if kind == 8 { self.false_id() } else { id };
        self.add_subframe(rt, id, damage);
        if kind == 6 {
            self.add_noise(rt, 200);
        }
    }

    /// An ID that no subframe has.
    fn false_id(&mut self) -> u32 {
        [0, 6, 7][self.below(3) as usize]
    }

    /// What is done to a subframe of a kind.
    fn damage(&mut self, kind: u32) -> Damage {
        let mut damage = NONE;
        match kind {
            1 => damage.tail = 0,
            2 => damage.tail = 150,
            3 => damage.bit = self.below(300),
            4 => damage.len = self.below(300),
            5 => {
                damage.tail = 0;
                damage.len = self.below(300);
            }
            6 => damage.len = 60,
            _ => {}
        }
        damage
    }

    /// Adds the low bits of a number, the highest of them first.
    fn add_bits(&mut self, rt: &impl Abort, number: u32, count: u32) {
        for behind in (0..count).rev() {
            let bit = number >> behind & 1 == 1;
            self.bits.push(bit).expect((rt, "no memory").1);
        }
    }

    /// Up to so many bits at random.
    fn add_noise(&mut self, rt: &impl Abort, limit: u32) {
        for _ in 0..self.below(limit) {
            let bit = self.below(2);
            self.add_bits(rt, bit, 1);
        }
    }

    fn add_bare_preamble(&mut self, rt: &impl Abort) {
        self.add_bits(rt, 0b00_1000_1011, 10);
        self.add_bits(rt, 0, 26);
        self.add_bits(rt, 0, 26);
    }

    /// A subframe of data at random, damaged so.
    fn add_subframe(&mut self, rt: &impl Abort, id: u32, damage: Damage) {
        let words = self.words(id);
        for place in 0..damage.len.min(300) {
            let sent = words[(place / 30) as usize] >> (29 - place % 30) & 1 == 1;
            let bit = sent ^ (place >= damage.tail) ^ (place == damage.bit);
            self.add_bits(rt, u32::from(bit), 1);
        }
    }

    /// The words of a subframe, of which words 2 and 10 end in 0, 0 (IS-GPS-200, section 20.3.3.2).
    fn words(&mut self, id: u32) -> [u32; 10] {
        let mut words = [TELEMETRY; 10];
        words[1] = ended(self.below(1 << 17) * 128 + id * 4, 2);
        for k in 2..9usize {
            words[k] = encode(self.below(1 << 24), (words[k - 1] % 4) as u8);
        }
        words[9] = ended(self.below(1 << 22) * 4, (words[8] % 4) as u8);
        words
    }
}
