//! The cable multiplex frame header (document 01, "The cable header").
use crate::crc::crc32;
use crate::frame::{self, Edition};
use crate::{bit, get, put, FRAME_BYTES};
use std::ops::RangeInclusive;

pub const HEADER_BYTES: usize = 188;

/// The fields of a header in its order; "the fixed bits" and the CRC are derived.
pub type Record = [u64; FIELDS];

pub const PACKET: usize = 0;
pub const SYNC: usize = 1;
pub const CHANGE: usize = 2;
pub const METHOD: usize = 3;
pub const FORM: usize = 4;
/// "validity of streams 1 to 15"
pub const VALID: usize = 5;
/// "15 pairs, stream id then original network id"
pub const IDENTIFIERS: usize = 20;
/// "15 reception states"
pub const STATES: usize = 50;
pub const CARRIED: usize = 65;
pub const EMERGENCY: usize = 66;
/// "slots 2 to 53"
pub const SLOTS: usize = 67;
/// The 204 AC bits, as 25 bytes and then four bits.
pub const AC: usize = 119;
pub const FIELDS: usize = 145;

/// The bit after the validity of stream 15, fixed at 1.
const FIXED: usize = 71;
/// The AC bits, "first 204 bits" of the extension, and "the other 476 bits", which are fixed at 1.
const AC_BITS: RangeInclusive<usize> = 792..=995;
const EXTENSION_FIXED: RangeInclusive<usize> = 996..=1471;
const CRC: RangeInclusive<usize> = 1472..=1503;

/// How many bits a field has.
pub const fn width(field: usize) -> usize {
    match field {
        PACKET => 32,
        SYNC => 16,
        CHANGE => 3,
        METHOD => 1,
        FORM => 4,
        VALID..IDENTIFIERS => 1,
        IDENTIFIERS..STATES => 16,
        STATES..CARRIED => 2,
        CARRIED | EMERGENCY => 1,
        SLOTS..AC => 4,
        144 => 4,
        _ => 8,
    }
}

/// Where each field begins: after the widths before it, and after the fixed bit where that lies before it.
static STARTS: [usize; FIELDS] = starts();

const fn starts() -> [usize; FIELDS] {
    let mut starts = [0; FIELDS];
    let mut field = 1;
    while field < FIELDS {
        starts[field] = starts[field - 1] + width(field - 1);
        if field == IDENTIFIERS {
            starts[field] += 1;
        }
        field += 1;
    }
    starts
}

/// The places of a field.
pub fn places(field: usize) -> RangeInclusive<usize> {
    let first = STARTS[field];
    first..=first + width(field) - 1
}

fn reception_refused(states: &[u64]) -> bool {
    states.contains(&3)
}

fn fields_of(header: &[u8]) -> Record {
    std::array::from_fn(|field| get(header, places(field)))
}

/// The refusal's number of a header, or 0: "a header 1, 12, 13, 14, 15".
pub fn refusal(header: &[u8]) -> u8 {
    if header.len() != HEADER_BYTES {
        return 1;
    }
    let record = fields_of(header);
    let fixed_zero = |mut places: RangeInclusive<usize>| places.any(|k| !bit(header, k));
    if header[0] != 0x47 {
        12
    } else if crc32(&header[4..]) != 0 {
        13
    } else if record[FORM] != 1 {
        14
    } else if fixed_zero(FIXED..=FIXED)
        || fixed_zero(EXTENSION_FIXED)
        || reception_refused(&record[STATES..CARRIED])
    {
        15
    } else {
        0
    }
}

/// The fields of an accepted header, or the refusal's number.
pub fn read(header: &[u8]) -> Result<Record, u8> {
    match refusal(header) {
        0 => Ok(fields_of(header)),
        number => Err(number),
    }
}

/// "then 10, then 12, 14, 15 on the record".
pub fn record_refusal(record: &Record) -> u8 {
    if (0..FIELDS).any(|field| record[field] >> width(field) != 0) {
        10
    } else if record[PACKET] >> 24 != 0x47 {
        12
    } else if record[FORM] != 1 {
        14
    } else if reception_refused(&record[STATES..CARRIED]) {
        15
    } else {
        0
    }
}

/// Writes a legal record into a buffer of 188 bytes; a refusal leaves it.
pub fn write(record: &Record, buffer: &mut [u8]) -> u8 {
    if buffer.len() != HEADER_BYTES {
        return 1;
    }
    let number = record_refusal(record);
    if number != 0 {
        return number;
    }
    buffer.fill(0xFF);
    for (field, &value) in record.iter().enumerate() {
        put(buffer, places(field), value);
    }
    seal(buffer);
    0
}

/// "CRC: polynomial 0x04C11DB7, register all ones at the start, over the 184 bytes after the first four, must come out zero."
fn seal(header: &mut [u8]) {
    let crc = crc32(&header[4..184]);
    put(header, CRC, u64::from(crc));
}

/// "Laying in writes the repaired 204 bits into the part that starts at byte 99, then the CRC in bytes 184 to 187"; it "tests the header
/// fully, then the frame", which is judged by the edition named. The pattern laid in is the clean one (document 02, e): "Demand 2's repaired
/// frame and laying in include this".
pub fn lay_in(edition: Edition, header: &mut [u8], frame: &[u8]) -> u8 {
    lay_in_clean(header, || frame::clean(edition, frame))
}

/// As `lay_in`, with the frame judged and repaired by its marks (document 02, d).
pub fn lay_in_marked(edition: Edition, header: &mut [u8], frame: &[u8], marks: &[u8]) -> u8 {
    lay_in_clean(header, || frame::clean_marked(edition, frame, marks))
}

/// Lays in the clean frame, which is asked for only after the header was tested; a refusal of either leaves the header.
fn lay_in_clean(header: &mut [u8], clean: impl FnOnce() -> Result<[u8; FRAME_BYTES], u8>) -> u8 {
    let number = refusal(header);
    if number != 0 {
        return number;
    }
    let clean = match clean() {
        Ok(clean) => clean,
        Err(number) => return number,
    };
    for (k, place) in AC_BITS.enumerate() {
        put(header, place..=place, u64::from(bit(&clean, k)));
    }
    seal(header);
    0
}

/// "Taking out tests the header alone and writes 204 ones and the CRC instead."
pub fn take_out(header: &mut [u8]) -> u8 {
    let number = refusal(header);
    if number != 0 {
        return number;
    }
    for place in AC_BITS {
        put(header, place..=place, 1);
    }
    seal(header);
    0
}
