//! Frames of all sorts: legal in both editions or in one, damaged in the word or the pattern, with one fault, with several, noise, and of other
//! lengths.
use crate::records::{bodies, legal_record, with_origin, Body, BODIES};
use crate::Random;
use reference::code::{encode, frame_of};
use reference::crc::crc10;
use reference::frame::{
    write, Edition, Record, EDITIONS, IDENTIFICATION, PATTERN, REFERENCE, REGION, TIME, UPDATE,
    VALUES,
};
use reference::{bit, flip_bit, get, put, FRAME_BYTES};

/// The bodies that fix bits of the details.
const FIXING: [Body; 3] = [Body::Place, Body::Cancellation, Body::NoInformation];

/// What the frame's making says of its reading in an edition, without any repair. The reader is told no tuner.
#[derive(Clone, Copy, Debug, PartialEq, Eq)]
pub enum Expected {
    /// This record, and so many bits of B1 to B16 that differ from its pattern, three at most. Its tuner is 0, and its number of repaired places is
    /// that of the places hit, eight at most, which is always known here.
    Read(Record, u8),
    Refused(u8),
    /// More than nine places hit, or noise.
    Open,
}

pub struct Sample {
    pub bytes: Vec<u8>,
    /// In the order of `EDITIONS`.
    pub expected: [Expected; 2],
}

impl Sample {
    pub fn expected(&self, edition: Edition) -> Expected {
        self.expected[edition as usize]
    }
}

/// A frame of any sort.
pub fn frame(random: &mut Random) -> Sample {
    let edition = random.pick(&EDITIONS);
    match random.below(14) {
        0 => open(noise(false, random)),
        1 => open(noise(true, random)),
        2 => open(random_message(random)),
        3 => open(random_details(random)),
        4 => faulty(edition, &[1], random),
        5 => faulty(edition, &[4], random),
        6..=8 => faulty(edition, &[], random),
        9 | 10 => {
            let fault = 1 + random.below(9) as u8;
            faulty(edition, &[fault], random)
        }
        11 => {
            let record = legal_record(random.pick(&BODIES), random);
            let (flips, hits) = (random.below(17), random.below(11));
            let filler = random.below(8) == 0;
            damaged_pattern(&record, flips, hits, filler, random)
        }
        12 => {
            let record = legal_record(random.pick(&BODIES), random);
            headed(&record, random.number() % 128, random)
        }
        _ => {
            let faults: Vec<u8> = (1..=9).filter(|_| random.below(3) == 0).collect();
            faulty(edition, &faults, random)
        }
    }
}

/// Nothing is said of how it is read.
pub fn open(bytes: [u8; FRAME_BYTES]) -> Sample {
    Sample {
        bytes: bytes.to_vec(),
        expected: [Expected::Open; 2],
    }
}

/// A frame that in this edition is accepted, or refused with the first of these faults, which are refusals' numbers. What the other edition
/// makes of it is known too.
pub fn faulty(edition: Edition, faults: &[u8], random: &mut Random) -> Sample {
    let has = |fault: u8| faults.contains(&fault);
    let (mut frame, read) = sent(edition, faults, random);
    let hits = match (has(4), random.below(2)) {
        (true, _) => 9 + random.below(6),
        (_, 0) => 0,
        _ => random.below(9),
    };
    hit(&mut frame, hits, random);
    // Four to twelve differ in four or more from both patterns.
    let flips = match (has(3), random.below(2)) {
        (true, _) => 4 + random.below(9),
        (_, 0) => 0,
        _ => random.below(4),
    };
    flip_pattern(&mut frame, flips, random);
    if has(2) {
        put(&mut frame, 204..=207, 1 + random.up_to(14));
    }
    let mut bytes = frame.to_vec();
    if has(1) {
        let length = random.below(60);
        bytes.resize(length + usize::from(length == FRAME_BYTES), 0);
    }
    let expected = read.map(|read| match read {
        Ok(record) => expected_read(&record, hits, flips),
        Err(4) if hits > 9 => Expected::Open,
        Err(number) => Expected::Refused(number),
    });
    Sample { bytes, expected }
}

/// A frame as it is sent, which has those of these faults that stand in a code word, 5 to 9; and what each edition makes of it, if it has the others
/// too.
pub fn sent(
    edition: Edition,
    faults: &[u8],
    random: &mut Random,
) -> ([u8; FRAME_BYTES], [Result<Record, u8>; 2]) {
    let has = |fault: u8| faults.contains(&fault);
    let body = match (has(8), has(9)) {
        (_, true) => Body::Place,
        (true, _) => random.pick(&FIXING),
        _ => random.pick(bodies(edition)),
    };
    let record = legal_record(body, random);
    let mut frame = written(&record);
    if has(6) {
        put(&mut frame, 21..=23, undefined(edition, random));
    }
    if has(7) {
        let wrong = match record[IDENTIFICATION] {
            7 => random.up_to(14),
            _ => (1 + random.up_to(2)) << 2 | get(&frame, 19..=20),
        };
        put(&mut frame, 17..=20, wrong);
    }
    if has(8) {
        clear_fixed(body, &mut frame, random);
    }
    if has(9) {
        exceed_limits(&mut frame, random);
    }
    let read = EDITIONS.map(|edition| reading(edition, faults, &record, &frame));
    let crc_fault = if has(5) { 1 + random.up_to(1022) } else { 0 };
    (sealed(frame, crc_fault), read)
}

/// An identification that is undefined in this edition.
fn undefined(edition: Edition, random: &mut Random) -> u64 {
    match edition {
        Edition::First => 4 + random.up_to(2),
        Edition::AreaSafety => 4,
    }
}

/// What an edition makes of the frame of a legal record into which these faults were put. A frame of identification 5 or 6 has of the faults 6 to
/// 9 only what its own bits say: 6 in the first edition, and 7; the other body's details, if it came from one, are carried whole.
fn reading(edition: Edition, faults: &[u8], record: &Record, frame: &[u8]) -> Result<Record, u8> {
    let identification = get(frame, 21..=23);
    match (faults.iter().min(), edition, identification) {
        (Some(&fault @ 1..=5), _, _) => Err(fault),
        (_, _, 4) | (_, Edition::First, 5 | 6) => Err(6),
        (_, _, 5 | 6) if get(frame, 17..=18) != 0 => Err(7),
        (_, _, 5 | 6) => Ok(safety_record(frame)),
        (Some(&fault), _, _) => Err(fault),
        (None, _, _) => Ok(*record),
    }
}

/// The record of a whole frame of identification 5 or 6: B24 to B54 and B55 to B111 as they stand.
fn safety_record(frame: &[u8]) -> Record {
    let mut record = [0; VALUES];
    record[REFERENCE] = get(frame, 0..=0);
    record[PATTERN] = get(frame, 1..=1);
    record[UPDATE] = get(frame, 19..=20);
    record[IDENTIFICATION] = get(frame, 21..=23);
    record[TIME] = get(frame, 24..=54);
    record[REGION] = get(frame, 55..=111);
    record
}

/// Frames with everything that start/end, update and identification can be, each with the details of every body, and with some at the ends of what
/// area safety information carries; hit in up to eight places.
pub fn all_heads(random: &mut Random) -> Vec<Sample> {
    let mut samples = vec![];
    for head in 0..128 {
        for body in BODIES {
            let record = legal_record(body, random);
            samples.push(headed(&record, head, random));
        }
        for (time, region) in ENDS {
            let mut record = legal_record(Body::Safety, random);
            (record[TIME], record[REGION]) = (time, region);
            samples.push(headed(&record, head, random));
        }
    }
    samples
}

/// Times and regions: zeros, ones, the highest and lowest bit of each alone, and only the bits that would be page and kind set or left out.
pub const ENDS: [(u64, u64); 8] = [
    (0, 0),
    (0x7FFF_FFFF, 0x01FF_FFFF_FFFF_FFFF),
    (1 << 30, 0),
    (1, 0),
    (0, 1 << 56),
    (0, 1),
    (0, 1 << 56 | 1 << 44),
    (0x7FFF_FFFF, 0x01FF_FFFF_FFFF_FFFF ^ 1 << 56 ^ 1 << 44),
];

/// The frame of a legal record with this in B17 to B23, a good CRC and parity, and up to eight hits.
fn headed(record: &Record, head: u64, random: &mut Random) -> Sample {
    let mut frame = written(record);
    put(&mut frame, 17..=23, head);
    let read = EDITIONS.map(|edition| headed_reading(edition, record, &frame));
    let mut frame = sealed(frame, 0);
    let hits = random.below(9);
    hit(&mut frame, hits, random);
    let expected = read.map(|read| match read {
        Some(Ok(record)) => expected_read(&record, hits, 0),
        Some(Err(number)) => Expected::Refused(number),
        None => Expected::Open,
    });
    Sample {
        bytes: frame.to_vec(),
        expected,
    }
}

/// What an edition makes of the frame of a legal record with something else in B17 to B23. Nothing is said of 0 to 3 and 7 with details that are
/// another body's.
fn headed_reading(edition: Edition, record: &Record, frame: &[u8]) -> Option<Result<Record, u8>> {
    let (head, identification) = (get(frame, 17..=20), get(frame, 21..=23));
    let mut same = *record;
    match (identification, record[IDENTIFICATION]) {
        (4..=6, _) => return Some(reading(edition, &[], record, frame)),
        (7, _) if head != 15 => return Some(Err(7)),
        (0..=3, _) if head > 3 => return Some(Err(7)),
        (7, 7) => {}
        (0..=3, 0..=3) => same[UPDATE] = head,
        _ => return None,
    }
    same[IDENTIFICATION] = identification;
    Some(Ok(same))
}

/// Frames with every number of bits of B1 to B16 turned over, 0 to 16, and every number of places hit, 0 to 10: for each body of the details,
/// each pattern and each B0. After each number of bits comes one with a filler bit too.
pub fn damaged_patterns(random: &mut Random) -> Vec<Sample> {
    let mut samples = vec![];
    for body in BODIES {
        for (pattern, reference) in [(0, 0), (0, 1), (1, 0), (1, 1)] {
            for flips in 0..=16 {
                for hits in 0..=10 {
                    let record = legal_with(body, pattern, reference, random);
                    samples.push(damaged_pattern(&record, flips, hits, false, random));
                }
                let record = legal_with(body, pattern, reference, random);
                let hits = random.below(11);
                samples.push(damaged_pattern(&record, flips, hits, true, random));
            }
        }
    }
    samples
}

/// A legal record of this body with this pattern and B0.
fn legal_with(body: Body, pattern: u64, reference: u64, random: &mut Random) -> Record {
    let mut record = legal_record(body, random);
    record[PATTERN] = pattern;
    record[REFERENCE] = reference;
    record
}

/// The frame of a legal record with so many of B1 to B16 turned over, so many places hit, and, if asked, a filler bit that is 1.
pub fn damaged_pattern(
    record: &Record,
    flips: usize,
    hits: usize,
    filler: bool,
    random: &mut Random,
) -> Sample {
    let mut frame = written(record);
    flip_pattern(&mut frame, flips, random);
    hit(&mut frame, hits, random);
    if filler {
        flip_bit(&mut frame, 204 + random.below(4));
    }
    // Thirteen or more turned over are three or fewer away from the other pattern.
    let mut nearest = *record;
    let mut differing = flips;
    if flips >= 13 {
        nearest[PATTERN] = 1 - record[PATTERN];
        differing = 16 - flips;
    }
    let expected = EDITIONS.map(|edition| match (filler, differing, hits) {
        (true, _, _) => Expected::Refused(2),
        (_, 4.., _) => Expected::Refused(3),
        (_, _, 9) => Expected::Refused(4),
        (_, _, 10..) => Expected::Open,
        _ if edition == Edition::First && is_safety(record) => Expected::Refused(6),
        _ => expected_read(&nearest, hits, differing),
    });
    Sample {
        bytes: frame.to_vec(),
        expected,
    }
}

/// The first edition does not define its identification, but the other does.
fn is_safety(record: &Record) -> bool {
    matches!(record[IDENTIFICATION], 5 | 6)
}

/// What a reader that is told no tuner makes of this record's frame with so many hits, eight at most, and so many bits that differ from the pattern,
/// three at most. What the record itself held as tuner and repaired places is not written: "The writer ignores both."
fn expected_read(record: &Record, hits: usize, differing: usize) -> Expected {
    Expected::Read(with_origin(record, 0, hits as u64), differing as u8)
}

/// The frame of a record that is legal in some edition: all of them are legal in the area safety edition, and each edition writes them alike.
pub fn written(record: &Record) -> [u8; FRAME_BYTES] {
    let mut frame = [0; FRAME_BYTES];
    let number = write(Edition::AreaSafety, record, &mut frame);
    assert_eq!(number, 0, "a legal record");
    frame
}

/// Turns over this many of B17 to B203.
pub fn hit(frame: &mut [u8], count: usize, random: &mut Random) {
    let places: [usize; 187] = std::array::from_fn(|i| 17 + i);
    for k in random.choose(count, &places) {
        flip_bit(frame, k);
    }
}

/// Turns over this many of B1 to B16.
pub fn flip_pattern(frame: &mut [u8], count: usize, random: &mut Random) {
    let places: [usize; 16] = std::array::from_fn(|i| 1 + i);
    for k in random.choose(count, &places) {
        flip_bit(frame, k);
    }
}

/// The frame with the CRC of its bits, with these of it turned over, and then the parity of them all.
pub fn sealed(mut frame: [u8; FRAME_BYTES], crc_fault: u64) -> [u8; FRAME_BYTES] {
    let crc = u64::from(crc10((21..=111).map(|k| bit(&frame, k))));
    put(&mut frame, 112..=121, crc ^ crc_fault);
    let word = encode(&std::array::from_fn(|i| bit(&frame, 17 + i)));
    let mut whole = frame_of(&word);
    put(&mut whole, 0..=16, get(&frame, 0..=16));
    whole
}

/// Some of the details' bits that the body fixes at 1 become 0.
fn clear_fixed(body: Body, frame: &mut [u8], random: &mut Random) {
    let fixed: Vec<usize> = match body {
        Body::Areas | Body::Safety => return,
        Body::Place => vec![111],
        Body::Cancellation => (68..=111).collect(),
        Body::NoInformation => (24..=55).chain(67..=111).collect(),
    };
    let count = 1 + random.below(fixed.len().min(3));
    for k in random.choose(count, &fixed) {
        put(frame, k..=k, 0);
    }
}

/// The latitude, the longitude or both of a place are over their limits.
fn exceed_limits(frame: &mut [u8], random: &mut Random) {
    let which = random.below(3);
    if which != 0 {
        put(frame, 69..=78, 901 + random.up_to(1023 - 901));
    }
    if which != 1 {
        put(frame, 80..=90, 1801 + random.up_to(2047 - 1801));
    }
}

/// Any bytes, if asked with a pattern and the filler.
pub fn noise(framed: bool, random: &mut Random) -> [u8; FRAME_BYTES] {
    let mut frame = std::array::from_fn(|_| random.number() as u8);
    if framed {
        let legal = written(&legal_record(Body::Areas, random));
        put(&mut frame, 0..=16, get(&legal, 0..=16));
        put(&mut frame, 204..=207, 0);
    }
    frame
}

/// A code word of any message, hit in up to 14 places.
fn random_message(random: &mut Random) -> [u8; FRAME_BYTES] {
    let mut frame = noise(true, random);
    let word = encode(&std::array::from_fn(|i| bit(&frame, 17 + i)));
    let head = get(&frame, 0..=16);
    frame = frame_of(&word);
    put(&mut frame, 0..=16, head);
    let count = random.below(15);
    hit(&mut frame, count, random);
    frame
}

/// Any details behind a good CRC, with start and end as most identifications ask.
fn random_details(random: &mut Random) -> [u8; FRAME_BYTES] {
    let mut frame = noise(true, random);
    if random.below(8) != 0 {
        put(&mut frame, 17..=18, 0);
    }
    if random.below(2) == 0 {
        put(&mut frame, 111..=111, 1);
    }
    let mut frame = sealed(frame, 0);
    let count = random.below(9);
    hit(&mut frame, count, random);
    frame
}
