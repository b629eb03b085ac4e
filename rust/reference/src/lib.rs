//! A plain version of what the box computes, to compare the proved one with. It was written from document 01, by people who had read the Rattle, and
//! from document 02, e), a), j), d) and l) (damaged synchronising bits, the area safety edition, where a record came from, doubtful marks, and the
//! day's ledger), each by one who had not read the proved version: the two have no code in common, but what was read wrongly in the documents may be
//! wrong in both.
pub mod capture;
pub mod code;
pub mod crc;
pub mod follower;
pub mod frame;
pub mod header;
pub mod ledger;
pub mod listing;
pub mod place;

mod marked;
mod repair;

pub use marked::repair_marked;
pub use repair::{repair, Repaired};

/// The bytes of a frame.
pub const FRAME_BYTES: usize = 26;

/// Bit Bk of bytes: bit k counted from the most significant bit of byte 0.
pub fn bit(bytes: &[u8], k: usize) -> bool {
    bytes[k / 8] >> (7 - k % 8) & 1 == 1
}

/// Sets Bk to 1.
pub fn set_bit(bytes: &mut [u8], k: usize) {
    bytes[k / 8] |= 0x80 >> (k % 8);
}

/// Turns Bk over.
pub fn flip_bit(bytes: &mut [u8], k: usize) {
    bytes[k / 8] ^= 0x80 >> (k % 8);
}

/// The number that stands in these bits, most significant first.
pub fn get(bytes: &[u8], places: std::ops::RangeInclusive<usize>) -> u64 {
    places.fold(0, |value, k| value << 1 | u64::from(bit(bytes, k)))
}

/// Puts a number into these bits, most significant first.
pub fn put(bytes: &mut [u8], places: std::ops::RangeInclusive<usize>, mut value: u64) {
    for k in places.rev() {
        if bit(bytes, k) != (value & 1 == 1) {
            flip_bit(bytes, k);
        }
        value >>= 1;
    }
}
