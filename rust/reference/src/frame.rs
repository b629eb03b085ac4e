//! The warning frame (document 01, "The frame, bit by bit" and "When the box says no"; document 02, "The area safety edition", "Doubtful marks",
//! "Damaged synchronising bits" and "The record must say where it came from").
use crate::code::{encode, frame_of};
use crate::crc::crc10;
use crate::{bit, get, put, repair, repair_marked, Repaired, FRAME_BYTES};
use std::ops::RangeInclusive;

/// "The caller names the edition wherever a frame or record is judged."
#[derive(Clone, Copy, Debug, PartialEq, Eq)]
pub enum Edition {
    /// "The signal identification table used is the one for chapter 3 and chapter 4 section 2 broadcasting (source document 000, schedule 1)."
    First,
    /// "A customer relays chapter 4 section 1 services. There schedule 4 of source document 000 applies".
    AreaSafety,
}

pub const EDITIONS: [Edition; 2] = [Edition::First, Edition::AreaSafety];

impl Edition {
    /// Document 01: "4, 5, 6 are undefined." Document 02: "identification 5 is area safety information, 6 its test; 4 stays undefined." No
    /// edition knows a number above 7.
    fn defines(self, identification: u64) -> bool {
        match identification {
            0..=3 | 7 => true,
            5 | 6 => self == Edition::AreaSafety,
            _ => false,
        }
    }
}

/// "the tuner that the reader is told (main, spare, or none, as in a desk record)".
#[derive(Clone, Copy, Debug, PartialEq, Eq)]
pub enum Tuner {
    None,
    Main,
    Spare,
}

/// In the order of their numbers.
pub const TUNERS: [Tuner; 3] = [Tuner::None, Tuner::Main, Tuner::Spare];

impl Tuner {
    /// Its number in a record.
    pub fn number(self) -> u64 {
        match self {
            Tuner::None => 0,
            Tuner::Main => 1,
            Tuner::Spare => 2,
        }
    }

    /// The tuner that a plain number names. Any number may be asked: one that is no tuner's names none.
    pub fn named(number: u64) -> Tuner {
        match number {
            1 => Tuner::Main,
            2 => Tuner::Spare,
            _ => Tuner::None,
        }
    }
}

/// How many values a record has, and how many of them, the first ones, stand in the frame; the others say where the record came from.
pub const VALUES: usize = 21;
pub const IN_FRAME: usize = 19;

/// "A record holds only B0, the pattern, the identification and the fields that these, page and kind leave free": these stand in the frame, 0
/// where a field is not free. "A frame record gains the tuner that the reader is told ... and the number of repaired places." The constants below
/// are their indices.
pub type Record = [u64; VALUES];

pub const REFERENCE: usize = 0;
pub const PATTERN: usize = 1;
pub const IDENTIFICATION: usize = 2;
pub const UPDATE: usize = 3;
pub const TIME: usize = 4;
pub const PAGE: usize = 5;
/// B56 to B111, B56 highest; 0 means warned.
pub const AREAS: usize = 6;
pub const TOTAL: usize = 7;
pub const ITEM: usize = 8;
pub const NUMBER: usize = 9;
pub const KIND: usize = 10;
pub const SOUTH: usize = 11;
pub const LATITUDE: usize = 12;
pub const WEST: usize = 13;
pub const LONGITUDE: usize = 14;
pub const DEPTH: usize = 15;
pub const OCCURRED: usize = 16;
pub const BROADCASTER: usize = 17;
/// B55 to B111 of area safety information and of its test, B55 highest (source document 000, schedule 5).
pub const REGION: usize = 18;
/// The number of the tuner that the reader was told; "The writer ignores both", this and the next, so any number may stand here.
pub const TUNER: usize = 19;
/// "the number of repaired places": those of B17 to B203, as document 02, e) says: "the repaired places ... do not change". With marks those that are
/// unmarked, as d) says: "The count reported is t."
pub const REPAIRED: usize = 20;

/// "B1..B16: 0011010111101110 (pattern 0) or its complement (pattern 1)."
const PATTERNS: [u64; 2] = [0b0011_0101_1110_1110, 0b1100_1010_0001_0001];

/// "Accept up to three differing bits from a pattern".
const MOST_DIFFERING: u8 = 3;

/// What was put right in an accepted frame.
struct Damage {
    /// How many places of B17 to B203 were repaired; with marks, how many unmarked ones.
    repaired: u8,
    /// How many bits of B1 to B16 differed from the pattern; they are not among the repaired places.
    differing: u8,
}

/// The places of the fields that stand in the frame; the pattern, one bit of the record, stands in 16.
const PLACES: [RangeInclusive<usize>; IN_FRAME] = [
    0..=0,
    1..=16,
    21..=23,
    19..=20,
    24..=54,
    55..=55,
    56..=111,
    56..=56,
    57..=57,
    58..=66,
    67..=67,
    68..=68,
    69..=78,
    79..=79,
    80..=90,
    91..=100,
    101..=110,
    56..=66,
    55..=111,
];

/// The width of a field in the record.
fn width(field: usize) -> usize {
    match field {
        PATTERN => 1,
        _ => PLACES[field].clone().count(),
    }
}

/// What stands in B24 to B111.
#[derive(Clone, Copy, PartialEq, Eq)]
enum Body {
    Areas,
    Place,
    Cancellation,
    NoInformation,
    Safety,
}

impl Body {
    /// The body of an identification that an edition defines. For 0 to 3 page 1 is a place or, with kind 1, a cancellation; the details of 5 and
    /// 6 have neither page nor kind.
    fn of(identification: u64, page: u64, kind: u64) -> Body {
        match (identification, page, kind) {
            (7, _, _) => Body::NoInformation,
            (5 | 6, _, _) => Body::Safety,
            (_, 0, _) => Body::Areas,
            (_, _, 0) => Body::Place,
            _ => Body::Cancellation,
        }
    }

    /// The fields that it leaves free.
    fn free(self) -> Vec<usize> {
        let mut fields = vec![REFERENCE, PATTERN, IDENTIFICATION];
        match self {
            Body::Areas => fields.extend([UPDATE, TIME, PAGE, AREAS]),
            Body::Place => {
                fields.extend([UPDATE, TIME, PAGE, TOTAL, ITEM, NUMBER, KIND]);
                fields.extend([SOUTH, LATITUDE, WEST, LONGITUDE, DEPTH, OCCURRED]);
            }
            Body::Cancellation => fields.extend([UPDATE, TIME, PAGE, TOTAL, ITEM, NUMBER, KIND]),
            Body::NoInformation => fields.push(BROADCASTER),
            // "their 88 detail bits are carried whole"
            Body::Safety => fields.extend([UPDATE, TIME, REGION]),
        }
        fields
    }

    /// The bits of the details that it fixes at 1.
    fn fixed(self) -> Vec<usize> {
        match self {
            Body::Areas | Body::Safety => vec![],
            Body::Place => vec![111],
            Body::Cancellation => (68..=111).collect(),
            Body::NoInformation => (24..=55).chain(67..=111).collect(),
        }
    }
}

/// "CRC: the 91 bits B21..B111".
fn crc_of(frame: &[u8]) -> u64 {
    u64::from(crc10((21..=111).map(|k| bit(frame, k))))
}

fn body_of(frame: &[u8]) -> Body {
    Body::of(
        get(frame, 21..=23),
        get(frame, 55..=55),
        get(frame, 67..=67),
    )
}

/// "House limits, for page 1 of kind 0 only: latitude at most 900, longitude at most 1800."
fn over_limit(body: Body, latitude: u64, longitude: u64) -> bool {
    body == Body::Place && (latitude > 900 || longitude > 1800)
}

/// "For 0 to 3 start/end is 00. For 7 start/end is 11 and update is 11." "Start/end is 00 for 5 and 6".
fn as_asked(identification: u64, start_end: u64, update: u64) -> bool {
    match identification {
        7 => start_end == 3 && update == 3,
        _ => start_end == 0,
    }
}

/// Tests 5 to 9, on the repaired frame: "Refusals 6 and 7 now read "by the edition named"".
fn repaired_refusal(edition: Edition, frame: &[u8]) -> u8 {
    let identification = get(frame, 21..=23);
    let (start_end, update) = (get(frame, 17..=18), get(frame, 19..=20));
    let body = body_of(frame);
    if crc_of(frame) != get(frame, 112..=121) {
        5
    } else if !edition.defines(identification) {
        6
    } else if !as_asked(identification, start_end, update) {
        7
    } else if body.fixed().iter().any(|&k| !bit(frame, k)) {
        8
    } else if over_limit(body, get(frame, 69..=78), get(frame, 80..=90)) {
        9
    } else {
        0
    }
}

/// In how many bits B1 to B16 differ from a pattern.
fn differing_bits(frame: &[u8], pattern: usize) -> u8 {
    (get(frame, 1..=16) ^ PATTERNS[pattern]).count_ones() as u8
}

/// "The pattern test now also says how many bits differed": the pattern's number and that count. "Refusal 3 is given from four up, for both
/// patterns." Which is tried first does not matter: "the patterns differ in all sixteen, so only one can fit".
fn pattern_of(frame: &[u8]) -> Result<(usize, u8), u8> {
    for pattern in [0, 1] {
        let differing = differing_bits(frame, pattern);
        if differing <= MOST_DIFFERING {
            return Ok((pattern, differing));
        }
    }
    Err(3)
}

/// A frame with its damage put right, and that damage; or the refusal's number.
type Accepted = Result<([u8; FRAME_BYTES], Damage), u8>;

/// An accepted frame, or the refusal's number, "tested 1 to 9 in that order"; the fourth test and the places are those of the repair that is named.
/// B0 is "carried as it stands"; "An accepted frame written again has the clean pattern."
fn accept_by(
    repair: impl Fn(&[u8]) -> Result<Repaired, u8>,
    edition: Edition,
    frame: &[u8],
) -> Accepted {
    if frame.len() != FRAME_BYTES {
        return Err(1);
    }
    if get(frame, 204..=207) != 0 {
        return Err(2);
    }
    let (pattern, differing) = pattern_of(frame)?;
    let repaired = repair(frame)?;
    let mut whole = repaired.word;
    put(&mut whole, 0..=0, get(frame, 0..=0));
    put(&mut whole, 1..=16, PATTERNS[pattern]);
    let damage = Damage {
        repaired: repaired.places,
        differing,
    };
    match repaired_refusal(edition, &whole) {
        0 => Ok((whole, damage)),
        number => Err(number),
    }
}

/// By the repair without marks.
fn accept(edition: Edition, frame: &[u8]) -> Accepted {
    accept_by(repair, edition, frame)
}

/// By the repair with marks: "the rule here stands in their place for it", that is in the place of document 01's refusal 4, so that 2 and 3 are
/// tested before it. "Marks other than 26 bytes are refusal 1", which is tested before all else.
fn accept_marked(edition: Edition, frame: &[u8], marks: &[u8]) -> Accepted {
    if marks.len() != FRAME_BYTES {
        return Err(1);
    }
    accept_by(|frame| repair_marked(frame, marks), edition, frame)
}

/// The number of repaired places, or the refusal's number: "the repaired places, the listing's layout and demand 3 do not change".
pub fn judge(edition: Edition, frame: &[u8]) -> Result<u8, u8> {
    accept(edition, frame).map(|(_, damage)| damage.repaired)
}

/// t, since "The count reported is t", and how many bits of B1 to B16 differed; or the refusal's number.
pub fn judge_marked(edition: Edition, frame: &[u8], marks: &[u8]) -> Result<(u8, u8), u8> {
    accept_marked(edition, frame, marks).map(|(_, damage)| (damage.repaired, damage.differing))
}

/// The frame with its damage put right, the pattern's included, or the refusal's number.
pub fn clean(edition: Edition, frame: &[u8]) -> Result<[u8; FRAME_BYTES], u8> {
    accept(edition, frame).map(|(whole, _)| whole)
}

/// As `clean`, with what was sent under the marks put right too.
pub fn clean_marked(edition: Edition, frame: &[u8], marks: &[u8]) -> Result<[u8; FRAME_BYTES], u8> {
    accept_marked(edition, frame, marks).map(|(whole, _)| whole)
}

/// The record and how many bits of B1 to B16 differed, or the refusal's number: "the frame reader passes that on beside the record". The tuner is
/// the one "that the reader is told"; it changes nothing else.
pub fn read(edition: Edition, tuner: Tuner, frame: &[u8]) -> Result<(Record, u8), u8> {
    accept(edition, frame).map(|(whole, damage)| record_of(tuner, &whole, &damage))
}

/// As `read`; the record's number of repaired places is t.
pub fn read_marked(
    edition: Edition,
    tuner: Tuner,
    frame: &[u8],
    marks: &[u8],
) -> Result<(Record, u8), u8> {
    accept_marked(edition, frame, marks).map(|(whole, damage)| record_of(tuner, &whole, &damage))
}

/// The record of an accepted frame, and its differing bits of B1 to B16.
fn record_of(tuner: Tuner, whole: &[u8], damage: &Damage) -> (Record, u8) {
    let mut record = [0; VALUES];
    for field in body_of(whole).free() {
        record[field] = get(whole, PLACES[field].clone());
    }
    record[PATTERN] = u64::from(record[PATTERN] == PATTERNS[1]);
    record[TUNER] = tuner.number();
    record[REPAIRED] = u64::from(damage.repaired);
    (record, damage.differing)
}

/// "The frame writer tests its buffer (1), then the identification (6), then 10, then 9": the last three, which do not look at a buffer. Only what
/// stands in the frame is tested: of the tuner and the number of repaired places "The writer ignores both", so neither is ever a 10.
pub fn record_refusal(edition: Edition, record: &Record) -> u8 {
    let identification = record[IDENTIFICATION];
    if !edition.defines(identification) {
        return 6;
    }
    let body = Body::of(identification, record[PAGE], record[KIND]);
    let free = body.free();
    let misplaced = |field| {
        record[field] >> width(field) != 0 || (record[field] != 0 && !free.contains(&field))
    };
    if (0..IN_FRAME).any(misplaced) {
        return 10;
    }
    if over_limit(body, record[LATITUDE], record[LONGITUDE]) {
        return 9;
    }
    0
}

/// Writes a record that is legal in the edition into a buffer of 26 bytes; a refusal leaves it.
pub fn write(edition: Edition, record: &Record, buffer: &mut [u8]) -> u8 {
    if buffer.len() != FRAME_BYTES {
        return 1;
    }
    let number = record_refusal(edition, record);
    if number == 0 {
        buffer.copy_from_slice(&written(record));
    }
    number
}

/// The frame of a record that is legal in some edition: "start/end, the update of identification 7, fixed bits, filler, CRC and parity are
/// derived".
fn written(record: &Record) -> [u8; FRAME_BYTES] {
    let body = Body::of(record[IDENTIFICATION], record[PAGE], record[KIND]);
    let mut frame = [0; FRAME_BYTES];
    for field in body.free() {
        put(&mut frame, PLACES[field].clone(), record[field]);
    }
    for k in body.fixed() {
        put(&mut frame, k..=k, 1);
    }
    if body == Body::NoInformation {
        put(&mut frame, 17..=20, 0b1111);
    }
    let crc = crc_of(&frame);
    put(&mut frame, 112..=121, crc);
    let mut whole = frame_of(&encode(&std::array::from_fn(|i| bit(&frame, 17 + i))));
    put(&mut whole, 0..=0, record[REFERENCE]);
    put(&mut whole, 1..=16, PATTERNS[record[PATTERN] as usize]);
    whole
}

/// "Details for 0 to 3 ... Page 0: B(56+k) belongs to area k, 0 to 55 ... 0 means warned." Any record may be asked, and any number.
pub fn warned(record: &Record, area: u64) -> bool {
    let body: [u8; 8] = (record[AREAS] << 8).to_be_bytes();
    let has_areas = record[IDENTIFICATION] <= 3 && record[PAGE] == 0;
    has_areas && area <= 55 && !bit(&body, area as usize)
}
