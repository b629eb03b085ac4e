//! Checksums by a shift register, a bit at a time, highest power first.
use crate::bit;

/// The register of `width` bits after these bits: it moves up by one for each, and the generator is added whenever what leaves it differs from the bit.
fn register(start: u64, bits: impl Iterator<Item = bool>, generator: u64, width: u32) -> u64 {
    bits.fold(start, |register, b| {
        let leaves = register >> (width - 1) == 1;
        let moved = register << 1 & ((1 << width) - 1);
        if leaves != b {
            moved ^ generator
        } else {
            moved
        }
    })
}

/// CRC-10 of bits: what remains of them, times x^10, by x^10+x^9+x^5+x^4+x+1. Nothing is inverted.
pub fn crc10(bits: impl IntoIterator<Item = bool>) -> u16 {
    register(0, bits.into_iter(), 0b10_0011_0011, 10) as u16
}

/// CRC-32 of ITU-T H.222.0: polynomial 0x04C11DB7, register all ones at the start.
pub fn crc32(bytes: &[u8]) -> u32 {
    let bits = (0..8 * bytes.len()).map(|k| bit(bytes, k));
    register(0xFFFF_FFFF, bits, 0x04C1_1DB7, 32) as u32
}
