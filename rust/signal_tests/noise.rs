// Made by tools/rust of crates/signal_tests/src/noise.rt: change that.
//! Bits that look like chance.

/// The next bit of a shift register of 16 bits.
pub fn next_bit(register: &mut u16) -> bool {
    *register = (*register >> 1) ^ if *register & 1 == 1 { 0xb400 } else { 0 };
    *register & 1 == 1
}

/// Bytes: what the register has every eight steps.
pub fn noise_bytes() -> [u8; 600] {
    let mut bytes = [0; 600];
    let mut register = 0xace1u16;
    for byte in bytes.iter_mut() {
        for _ in 0..8 {
            let _ = next_bit(&mut register);
        }
        *byte = (register % 256) as u8;
    }
    bytes
}
