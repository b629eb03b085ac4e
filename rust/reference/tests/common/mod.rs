//! Frames, written as in the papers, and what both editions answer alike.
#![allow(dead_code)]
use reference::code::{encode, frame_of};
use reference::crc::crc10;
use reference::frame::{self, Edition, Record, Tuner, EDITIONS, REPAIRED, TUNER, TUNERS, VALUES};
use reference::{bit, flip_bit, get, put};
use std::fmt::Debug;

/// Document 01's example 11: pattern 0 with all else zero.
pub const ALL_AREAS: &str = "1af70000000000000000000000000000000000000000000000";

/// A frame from its digits, with zeros after them up to 26 bytes.
pub fn frame(digits: &str) -> [u8; 26] {
    let mut bytes = [0; 26];
    for (i, byte) in bytes.iter_mut().enumerate() {
        if let Some(pair) = digits.get(2 * i..2 * i + 2) {
            *byte = u8::from_str_radix(pair, 16).expect("a byte");
        }
    }
    bytes
}

pub fn hex(bytes: &[u8]) -> String {
    bytes.iter().map(|b| format!("{b:02x}")).collect()
}

/// A record with these fields and 0 elsewhere.
pub fn record(fields: &[(usize, u64)]) -> Record {
    let mut record = [0; VALUES];
    for &(field, value) in fields {
        record[field] = value;
    }
    record
}

/// The same in all fields but the two that say where it came from, which are these.
pub fn with_origin(record: &Record, tuner: u64, repaired: u64) -> Record {
    let mut record = *record;
    (record[TUNER], record[REPAIRED]) = (tuner, repaired);
    record
}

/// What a reader that is told no tuner answers: these fields with so many repaired places, and beside them so many bits that differed from the
/// pattern.
pub fn found(fields: Record, repaired: u8, differing: u8) -> (Record, u8) {
    (with_origin(&fields, 0, u64::from(repaired)), differing)
}

/// The frame with these bits turned over.
pub fn flipped(mut frame: [u8; 26], places: &[usize]) -> [u8; 26] {
    for &k in places {
        flip_bit(&mut frame, k);
    }
    frame
}

/// The frame with its CRC and parity made again.
pub fn sealed(mut frame: [u8; 26]) -> [u8; 26] {
    let crc = crc10((21..=111).map(|k| bit(&frame, k)));
    put(&mut frame, 112..=121, u64::from(crc));
    let word = encode(&std::array::from_fn(|i| bit(&frame, 17 + i)));
    let mut whole = frame_of(&word);
    put(&mut whole, 0..=16, get(&frame, 0..=16));
    whole
}

/// The frame of a record that is legal in this edition.
pub fn written_in(edition: Edition, record: &Record) -> [u8; 26] {
    let mut buffer = [0xFF; 26];
    assert_eq!(frame::write(edition, record, &mut buffer), 0);
    buffer
}

/// The answer, which is the same in both editions.
pub fn in_both<T: PartialEq + Debug>(answer: impl Fn(Edition) -> T) -> T {
    let [first, area_safety] = EDITIONS.map(answer);
    assert_eq!(first, area_safety, "the first edition and the other");
    first
}

/// The frame of a record that is legal in both editions.
pub fn written(record: &Record) -> [u8; 26] {
    in_both(|edition| written_in(edition, record))
}

/// What is read in this edition by a reader that is told no tuner; when told another one the answer is the same but for that tuner.
pub fn read_in(edition: Edition, frame: &[u8]) -> Result<(Record, u8), u8> {
    let none = frame::read(edition, Tuner::None, frame);
    for (number, tuner) in (0..).zip(TUNERS) {
        let told = |(record, differing): (Record, u8)| {
            let record = with_origin(&record, number, record[REPAIRED]);
            (record, differing)
        };
        assert_eq!(frame::read(edition, tuner, frame), none.map(told));
    }
    none
}

/// What both editions read.
pub fn read(frame: &[u8]) -> Result<(Record, u8), u8> {
    in_both(|edition| read_in(edition, frame))
}

pub fn judge(frame: &[u8]) -> Result<u8, u8> {
    in_both(|edition| frame::judge(edition, frame))
}

pub fn clean(frame: &[u8]) -> Result<[u8; 26], u8> {
    in_both(|edition| frame::clean(edition, frame))
}

pub fn record_refusal(record: &Record) -> u8 {
    in_both(|edition| frame::record_refusal(edition, record))
}

/// What both editions list.
pub fn listing(input: &[u8]) -> Vec<u8> {
    in_both(|edition| reference::listing::listing(edition, input))
}
