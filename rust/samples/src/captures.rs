//! Two captures and the number of a frame in them, with what a reader of both is to make of it.
use crate::frames::{self, damaged_pattern, faulty, hit, written};
use crate::records::{bodies, legal_record, with_origin, BODIES};
use crate::Random;
use reference::frame::{Edition, Record, Tuner, EDITIONS, REPAIRED};
use reference::FRAME_BYTES;

/// What one capture has as frame n, in the edition that it is made for.
#[derive(Clone, Copy, Debug, PartialEq, Eq)]
pub enum Side {
    /// No place hit, and up to three of B1 to B16 turned over.
    Accepted,
    /// One to eight places hit, and up to three of B1 to B16 turned over.
    Damaged,
    /// A frame with a refusal's number, 2 to 9; few are hit in more than nine places, and of these nothing is known.
    Refused,
    /// The 26 bytes do not all lie in the capture.
    Missing,
}

pub const SIDES: [Side; 4] = [Side::Accepted, Side::Damaged, Side::Refused, Side::Missing];

/// Numbers past any capture; with some, 26 times the number comes out small, or at a frame, in 32 or 64 bits.
pub const HUGE: [u64; 9] = [
    1 << 31,
    (1 << 31) + 1,
    1 << 32,
    u64::MAX / 26,
    u64::MAX / 26 + 1,
    1 << 63,
    (1 << 63) + 1,
    (1 << 63) + 2,
    u64::MAX,
];

/// What the captures' making says of frame n in an edition.
#[derive(Clone, Copy, Debug, PartialEq, Eq)]
pub enum Expected {
    /// This record, with the tuner that it is taken from and the number of places hit there; and so many differing bits of B1 to B16.
    Read(Record, u8),
    /// Both tuners' numbers, main first.
    Neither(u8, u8),
    /// A side was hit in more than nine places, and the answer hangs on what is made of that.
    Open,
}

#[derive(Clone, Debug, PartialEq, Eq)]
pub struct Captures {
    pub main: Vec<u8>,
    pub spare: Vec<u8>,
    pub n: u64,
    /// In the order of `EDITIONS`.
    pub expected: [Expected; 2],
}

impl Captures {
    pub fn expected(&self, edition: Edition) -> Expected {
        self.expected[edition as usize]
    }
}

/// Two captures with anything as frame n, made for either edition.
pub fn captures(random: &mut Random) -> Captures {
    let edition = random.pick(&EDITIONS);
    let (main, spare) = (random.pick(&SIDES), random.pick(&SIDES));
    captures_of(edition, main, spare, random)
}

/// Two captures with these as frame n in this edition. What the other edition makes of them is known too.
pub fn captures_of(edition: Edition, main: Side, spare: Side, random: &mut Random) -> Captures {
    let sides = [main, spare];
    // Only a frame that is in neither capture may have any number.
    let n = match sides {
        [Side::Missing, Side::Missing] if random.below(2) == 0 => random.pick(&HUGE),
        _ => random.up_to(4),
    };
    let frames = sides.map(|side| frame_of(edition, side, random));
    let [main, spare] = [0, 1].map(|i| capture(n, frames[i].as_ref(), random));
    let expected = EDITIONS.map(|edition| {
        let [main, spare] = [0, 1].map(|i| expected_of(edition, frames[i].as_ref()));
        taken(main, spare)
    });
    Captures {
        main,
        spare,
        n,
        expected,
    }
}

/// The frame of a side, if it has one.
fn frame_of(edition: Edition, side: Side, random: &mut Random) -> Option<frames::Sample> {
    let record = legal_record(random.pick(bodies(edition)), random);
    let (hits, flips) = (1 + random.below(8), random.below(4));
    let (fault, beyond) = (2 + random.below(8) as u8, random.pick(&[9, 9, 9, 10, 14]));
    Some(match (side, fault) {
        (Side::Accepted, _) => damaged_pattern(&record, flips, 0, false, random),
        (Side::Damaged, _) => damaged_pattern(&record, flips, hits, false, random),
        // Mostly nine hits, of which it is known that they are refused.
        (Side::Refused, 4) => damaged_pattern(&record, flips, beyond, false, random),
        (Side::Refused, _) => faulty(edition, &[fault], random),
        (Side::Missing, _) => return None,
    })
}

/// "A frame number whose 26 bytes do not all lie in a capture, however large, is 1 there."
fn expected_of(edition: Edition, frame: Option<&frames::Sample>) -> frames::Expected {
    frame.map_or(frames::Expected::Refused(1), |sample| {
        sample.expected(edition)
    })
}

/// "the main one if accepted there, otherwise the spare one if accepted there", else both numbers.
fn taken(main: frames::Expected, spare: frames::Expected) -> Expected {
    use frames::Expected::{Read, Refused};
    let from = |tuner: Tuner, record: &Record, differing| {
        Expected::Read(
            with_origin(record, tuner.number(), record[REPAIRED]),
            differing,
        )
    };
    match (main, spare) {
        (Read(record, differing), _) => from(Tuner::Main, &record, differing),
        (Refused(_), Read(record, differing)) => from(Tuner::Spare, &record, differing),
        (Refused(main), Refused(spare)) => Expected::Neither(main, spare),
        _ => Expected::Open,
    }
}

/// A capture with this as frame n, or none: other frames before it and after, and in the end a piece that is shorter than a frame, or nothing.
fn capture(n: u64, frame: Option<&frames::Sample>, random: &mut Random) -> Vec<u8> {
    // A capture that does not have frame n ends before it or, as often, within it.
    let most = n.min(4);
    let before = match (frame, random.below(2)) {
        (None, 0) => random.below(most as usize + 1),
        _ => most as usize,
    };
    let mut bytes: Vec<u8> = (0..before).flat_map(|_| other(random)).collect();
    if let Some(sample) = frame {
        bytes.extend(&sample.bytes);
        for _ in 0..random.below(3) {
            bytes.extend(other(random));
        }
    }
    let tail = random.pick(&[0, 0, 1, 12, FRAME_BYTES - 1]);
    bytes.extend(&other(random)[..tail]);
    bytes
}

/// Another frame of the capture, hit in up to nine places; most are accepted, so that one taken in place of frame n is told from it.
fn other(random: &mut Random) -> [u8; FRAME_BYTES] {
    let mut frame = written(&legal_record(random.pick(&BODIES), random));
    let count = random.below(10);
    hit(&mut frame, count, random);
    frame
}
