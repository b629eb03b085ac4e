//! The CRC-32 of bytes of every length, by the proved version and by the plain one, which goes bit by bit.
mod common;
use common::{for_each_seed, hex};
use gvozdyana::crc32;
use reference::crc::crc32 as plain;
use reference::flip_bit;

/// Lengths that are tried: whole groups of eight bytes and every rest, far beyond a header's 184.
const LENGTHS: std::ops::RangeInclusive<usize> = 0..=400;

#[test]
fn every_length() {
    for_each_seed(71, 20, |random, case| {
        let bytes = random.bytes(*LENGTHS.end());
        for length in LENGTHS {
            let front = &bytes[..length];
            assert_eq!(crc32(front), plain(front), "{}, {case}", hex(front));
        }
    });
}

/// A part of a row has the CRC of its own bytes, wherever in memory it begins.
#[test]
fn every_beginning() {
    for_each_seed(72, 5, |random, case| {
        let bytes = random.bytes(200);
        for at in 0..bytes.len() {
            let part = &bytes[at..];
            assert_eq!(crc32(part), plain(part), "from {at}, {}, {case}", hex(part));
        }
    });
}

#[test]
fn bytes_that_are_alike() {
    for byte in [0x00, 0xFF, 0x01, 0x80] {
        for length in LENGTHS {
            let row = vec![byte; length];
            assert_eq!(crc32(&row), plain(&row), "{length} times {byte}");
        }
    }
}

/// Each place counts: every bit of a row, alone set and alone clear.
#[test]
fn every_bit() {
    for length in [1, 7, 8, 9, 23, 184] {
        for (byte, k) in [0x00, 0xFF]
            .into_iter()
            .flat_map(|byte| (0..8 * length).map(move |k| (byte, k)))
        {
            let mut row = vec![byte; length];
            flip_bit(&mut row, k);
            assert_eq!(
                crc32(&row),
                plain(&row),
                "{length} times {byte}, but bit {k}"
            );
        }
    }
}

/// Bytes followed by their own CRC, highest byte first, have the CRC 0.
#[test]
fn own_crc() {
    for_each_seed(73, 400, |random, case| {
        let length = random.below(*LENGTHS.end());
        let mut bytes = random.bytes(length);
        bytes.extend(crc32(&bytes).to_be_bytes());
        assert_eq!(crc32(&bytes), 0, "{}, {case}", hex(&bytes));
    });
}
