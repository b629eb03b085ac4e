//! Headers of all sorts, as bytes and as records.
use crate::Random;
use reference::crc::crc32;
use reference::flip_bit;
use reference::header::*;

pub struct Sample {
    pub bytes: Vec<u8>,
    /// What the header's making says: the refusal's number, 0 where it is accepted; none for noise.
    pub expected: Option<u8>,
}

/// A legal record: a field's lowest and greatest value are as likely as all others together.
pub fn legal_record(random: &mut Random) -> Record {
    let mut record = std::array::from_fn(|field| match field {
        STATES..CARRIED => random.up_to(2),
        _ => random.up_to((1 << width(field)) - 1),
    });
    record[PACKET] = 0x4700_0000 | record[PACKET] >> 8;
    record[FORM] = 1;
    if random.below(2) == 0 {
        record[AC..].fill(0xFF);
        record[FIELDS - 1] = 0xF;
    }
    record
}

/// A record for the writer: legal, with up to three fields changed, or of any numbers.
pub fn record(random: &mut Random) -> Record {
    if random.below(16) == 0 {
        return std::array::from_fn(|_| random.number() >> random.below(64));
    }
    let mut record = legal_record(random);
    for _ in 0..random.below(4) {
        let field = match random.below(4) {
            0 => PACKET,
            1 => FORM,
            2 => STATES + random.below(15),
            _ => random.below(FIELDS),
        };
        let past = 1u64 << width(field);
        let any = random.number();
        record[field] = random.pick(&[0, 3, past - 1, past, any % past, any % past, any]);
    }
    record
}

/// A header of any sort.
pub fn header(random: &mut Random) -> Sample {
    match random.below(10) {
        0 => noise(random),
        1..=4 => faulty(&[], random),
        5..=8 => {
            let fault = random.pick(&[1, 12, 13, 14, 15]);
            faulty(&[fault], random)
        }
        _ => {
            let mut faults = vec![1, 12, 13, 14, 15];
            faults.retain(|_| random.below(2) == 0);
            faulty(&faults, random)
        }
    }
}

/// A header that is accepted, or refused with the first of these faults, which are refusals' numbers.
pub fn faulty(faults: &[u8], random: &mut Random) -> Sample {
    let has = |fault: u8| faults.contains(&fault);
    let mut header = [0; HEADER_BYTES];
    assert_eq!(write(&legal_record(random), &mut header), 0);
    if has(14) {
        header[6] = header[6] & 0xF0 | random.pick(&[0, 2, 3, 5, 9, 14, 15]);
    }
    if has(15) {
        break_bits(&mut header, random);
    }
    seal(&mut header);
    if has(13) {
        // Up to three bits, which the CRC always tells, at this length.
        let count = 1 + random.below(3);
        let places: Vec<usize> = (0..1472).collect();
        for k in random.choose(count, &places) {
            flip_bit(&mut header[4..], k);
        }
    }
    if has(12) {
        header[0] ^= 1 + random.below(255) as u8;
    }
    let mut bytes = header.to_vec();
    if has(1) {
        let length = random.pick(&[0, 1, 4, 99, 184, 187, 189, 204, 376]);
        bytes.resize(length, 0xFF);
    }
    let number = faults.iter().min().copied().unwrap_or(0);
    Sample {
        bytes,
        expected: Some(number),
    }
}

/// A bit that is fixed at 1 becomes 0, or a reception state 11.
fn break_bits(header: &mut [u8], random: &mut Random) {
    match random.below(3) {
        0 => flip_bit(header, 71),
        1 => flip_bit(header, 996 + random.up_to(475) as usize),
        _ => {
            let k = 552 + 2 * random.below(15);
            header[k / 8] |= 0xC0 >> (k % 8);
        }
    }
}

/// Makes the CRC again.
pub fn seal(header: &mut [u8]) {
    let crc = crc32(&header[4..184]);
    header[184..].copy_from_slice(&crc.to_be_bytes());
}

/// Any bytes, some with 0x47 before them, some with a good CRC too.
fn noise(random: &mut Random) -> Sample {
    let mut bytes = random.bytes(HEADER_BYTES);
    let good = random.below(3);
    if good > 0 {
        bytes[0] = 0x47;
    }
    if good > 1 {
        seal(&mut bytes);
    }
    Sample {
        bytes,
        expected: None,
    }
}
