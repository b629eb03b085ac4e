//! The cable header: its places, refusals and their order, the way there and back, laying in and taking out.
mod common;
use common::{frame, hex, in_both, ALL_AREAS};
use reference::code::GENERATOR;
use reference::crc::crc32;
use reference::header::{
    places, read, record_refusal, refusal, take_out, width, write, Record, AC, CARRIED, CHANGE,
    EMERGENCY, FIELDS, FORM, IDENTIFIERS, METHOD, PACKET, SLOTS, STATES, SYNC, VALID,
};
use reference::{bit, flip_bit, header, put};

/// Byte 0 0x47, all zero but the validity, the fixed bits, identifiers (i, 1) for stream i, and AC bits that are all ones.
fn model() -> Record {
    let mut record = [0; FIELDS];
    record[PACKET] = 0x4700_0000;
    record[FORM] = 1;
    for i in 0..15 {
        record[VALID + i] = 1;
        record[IDENTIFIERS + 2 * i] = i as u64 + 1;
        record[IDENTIFIERS + 2 * i + 1] = 1;
    }
    record[AC..].fill(0xFF);
    record[FIELDS - 1] = 0xF;
    record
}

fn written(record: &Record) -> [u8; 188] {
    let mut buffer = [0; 188];
    assert_eq!(write(record, &mut buffer), 0);
    buffer
}

/// Lays in, which in both editions gives the same number and leaves the same header.
fn lay_in(header: &mut [u8], frame: &[u8]) -> u8 {
    let (number, after) = in_both(|edition| {
        let mut after = header.to_vec();
        (header::lay_in(edition, &mut after, frame), after)
    });
    header.copy_from_slice(&after);
    number
}

/// The header with these bits turned over, and its CRC made again.
fn flipped(header: [u8; 188], places: &[usize]) -> [u8; 188] {
    let mut header = header;
    for &k in places {
        flip_bit(&mut header, k);
    }
    let crc = crc32(&header[4..184]);
    header[184..].copy_from_slice(&crc.to_be_bytes());
    header
}

fn changed(field: usize, value: u64) -> u8 {
    let mut record = model();
    record[field] = value;
    record_refusal(&record)
}

#[test]
fn places_of_002() {
    for (field, first, last) in [
        (PACKET, 0, 31),
        (SYNC, 32, 47),
        (CHANGE, 48, 50),
        (METHOD, 51, 51),
        (FORM, 52, 55),
        (VALID, 56, 56),
        (VALID + 14, 70, 70),
        (IDENTIFIERS, 72, 87),
        (IDENTIFIERS + 29, 536, 551),
        (STATES, 552, 553),
        (STATES + 14, 580, 581),
        (CARRIED, 582, 582),
        (EMERGENCY, 583, 583),
        (SLOTS, 584, 587),
        (SLOTS + 51, 788, 791),
        (AC, 792, 799),
        (FIELDS - 1, 992, 995),
    ] {
        assert_eq!(places(field), first..=last, "field {field}");
    }
}

#[test]
fn the_model_header() {
    let header = written(&model());
    assert_eq!(hex(&header[184..]), "e760a571");
    assert_eq!(hex(&header[..17]), "47000000000001ffff0001000100020001");
    assert_eq!(read(&header), Ok(model()));
}

#[test]
fn numbering() {
    let mut record = model();
    record[VALID..IDENTIFIERS].fill(0);
    record[VALID] = 1;
    record[SLOTS] = 0xA;
    record[SLOTS + 51] = 0xB;
    let header = written(&record);
    assert_eq!(header[7..9], [0x80, 0x01]);
    assert_eq!((header[73], header[98]), (0xA0, 0x0B));
}

#[test]
fn each_refusal() {
    let header = written(&model());
    for length in [0, 187, 189] {
        assert_eq!(refusal(&vec![0x47; length]), 1);
    }
    assert_eq!(refusal(&flipped(header, &[7])), 12);
    for k in 32..1504 {
        let mut hit = header;
        flip_bit(&mut hit, k);
        assert_eq!(refusal(&hit), 13, "bit {k}");
    }
    let form_2 = flipped(header, &[54, 55]);
    assert_eq!(hex(&form_2[184..]), "a94b8658");
    assert_eq!(refusal(&form_2), 14);
    assert_eq!(refusal(&flipped(header, &[71])), 15);
    for k in 996..1472 {
        assert_eq!(refusal(&flipped(header, &[k])), 15, "bit {k}");
    }
    for stream in 0..15 {
        let state = [552 + 2 * stream, 553 + 2 * stream];
        assert_eq!(refusal(&flipped(header, &state)), 15);
        assert_eq!(refusal(&flipped(header, &state[..1])), 0);
        assert_eq!(refusal(&flipped(header, &state[1..])), 0);
        let invalid = [state[0], state[1], 56 + stream];
        assert_eq!(refusal(&flipped(header, &invalid)), 15);
    }
}

#[test]
fn several_at_once() {
    let header = written(&model());
    let mut both = header;
    both[0] = 0x46;
    both[187] ^= 1;
    assert_eq!(refusal(&both), 12);
    let mut both = flipped(header, &[54, 55]);
    both[187] ^= 1;
    assert_eq!(refusal(&both), 13);
    assert_eq!(refusal(&flipped(header, &[54, 71])), 14);
}

#[test]
fn the_writers_refusals() {
    for field in 0..FIELDS {
        let wide = 1u64 << width(field);
        assert_eq!(changed(field, wide), 10, "field {field}");
        assert_eq!(changed(field, u64::MAX), 10, "field {field}");
        let expected = match field {
            PACKET => 12,
            FORM => 14,
            STATES..CARRIED => 15,
            _ => 0,
        };
        assert_eq!(changed(field, wide - 1), expected, "field {field}");
    }
    assert_eq!(changed(STATES, 3), 15);
    assert_eq!(changed(STATES + 14, 4), 10);
    assert_eq!(changed(FORM, 16), 10);
    for form in (0..16).filter(|&form| form != 1) {
        assert_eq!(changed(FORM, form), 14);
    }
    let mut record = model();
    record[PACKET] = 0;
    record[FORM] = 2;
    record[STATES + 3] = 3;
    assert_eq!(record_refusal(&record), 12);
    record[SLOTS + 7] = 16;
    assert_eq!(record_refusal(&record), 10);
}

#[test]
fn the_writers_buffer() {
    let mut wrong = model();
    wrong[FORM] = 9;
    for (length, record, expected) in [
        (0, model(), 1),
        (187, model(), 1),
        (189, wrong, 1),
        (188, wrong, 14),
    ] {
        let mut buffer = vec![0xA5; length];
        assert_eq!(write(&record, &mut buffer), expected);
        assert_eq!(buffer, vec![0xA5; length]);
    }
}

#[test]
fn carried_bits_come_back() {
    let header = written(&model());
    let fixed = |k: usize| k < 8 || (52..56).contains(&k) || k == 71 || k >= 996;
    for k in (0..1472).filter(|&k| !fixed(k)) {
        let other = flipped(header, &[k]);
        assert_eq!(written(&read(&other).expect("accepted")), other, "bit {k}");
    }
    // The CRC does not reach bytes 1 to 3.
    assert_eq!(flipped(header, &[8, 31])[184..], header[184..]);
}

#[test]
fn laying_in_and_taking_out() {
    let before = written(&model());
    let all = frame(ALL_AREAS);
    let mut header = before;
    assert_eq!(lay_in(&mut header, &all), 0);
    assert_eq!(hex(&header[184..]), "b0ac5a53");
    assert_eq!(header[99..124], all[..25]);
    assert_eq!(header[124], 0x0F);
    assert_eq!(header[..99], before[..99]);
    assert_eq!(header[125..184], before[125..184]);
    let laid = header;
    assert_eq!(lay_in(&mut header, &all), 0);
    assert_eq!(header, laid, "laid in twice");
    assert_eq!(take_out(&mut header), 0);
    assert_eq!(header, before);
    assert_eq!(take_out(&mut header), 0);
    assert_eq!(header, before, "taken out twice");
    let mut hit = all;
    for power in &GENERATOR[..8] {
        flip_bit(&mut hit, 203 - power);
    }
    assert_eq!(lay_in(&mut header, &hit), 0);
    assert_eq!(header, laid, "a frame with eight hits");
    let mut hit = all;
    flip_bit(&mut hit, 203);
    assert_eq!(lay_in(&mut header, &hit), 0);
    assert!(!bit(&header, 995));
    let mut set = all;
    set[0] = 0x9a;
    assert_eq!(lay_in(&mut header, &set), 0);
    assert_eq!(header[99], 0x9a);
    assert_eq!(refusal(&header), 0);
}

/// Document 02, e): "laying in" carries the clean pattern, and B0 as it was received.
#[test]
fn laying_in_a_damaged_pattern() {
    let before = written(&model());
    let all = frame(ALL_AREAS);
    // B0 clear and set; B16 is the highest bit of the third byte.
    for (reference, pattern_0, pattern_1) in [(0, "1af700", "650880"), (1, "9af700", "e50880")] {
        for (turned, expected) in [
            (0, pattern_0),
            (1, pattern_0),
            (3, pattern_0),
            (13, pattern_1),
            (15, pattern_1),
            (16, pattern_1),
        ] {
            let mut received = all;
            put(&mut received, 0..=0, reference);
            // From B16 down, so that the third byte's bit is among them.
            for k in (1..=16).rev().take(turned) {
                flip_bit(&mut received, k);
            }
            for power in &GENERATOR[..8] {
                flip_bit(&mut received, 203 - power);
            }
            let mut header = before;
            assert_eq!(lay_in(&mut header, &received), 0, "{turned} bits");
            assert_eq!(hex(&header[99..102]), expected, "{turned} bits");
            assert_eq!(header[102..124], all[3..25]);
            assert_eq!(header[124], 0x0F);
            assert_eq!(header[..99], before[..99]);
            assert_eq!(header[125..184], before[125..184]);
            assert_eq!(refusal(&header), 0);
        }
    }
    for turned in 4..=12 {
        let mut received = all;
        for k in 1..=turned {
            flip_bit(&mut received, k);
        }
        let mut header = before;
        assert_eq!(lay_in(&mut header, &received), 3, "{turned} bits");
        assert_eq!(header, before);
    }
}

#[test]
fn refused_headers_and_frames_change_nothing() {
    let good = written(&model());
    let mut filler = frame(ALL_AREAS);
    filler[25] = 1;
    let mut broken = good;
    broken[187] ^= 1;
    let cases: [(&[u8], &[u8], u8); 5] = [
        (&good[..187], &[0; 26], 1),
        (&broken, &[], 13),
        (&good, &filler, 2),
        (&good, &[0; 26], 3),
        (&good, &[], 1),
    ];
    for (header, frame, expected) in cases {
        let mut after = header.to_vec();
        assert_eq!(lay_in(&mut after, frame), expected);
        assert_eq!(after, header);
    }
    for header in [&good[..187], &broken] {
        let mut after = header.to_vec();
        assert_eq!(take_out(&mut after), refusal(header));
        assert_ne!(refusal(header), 0);
        assert_eq!(after, header);
    }
}

#[test]
fn ac_bits_are_not_tested() {
    let mut header = written(&model());
    put(&mut header, 792..=855, 0x0123_4567_89AB_CDEF);
    let header = flipped(header, &[]);
    assert_eq!(refusal(&header), 0);
    assert_eq!(written(&read(&header).expect("accepted")), header);
    let mut after = header;
    assert_eq!(take_out(&mut after), 0);
    assert_eq!(after, written(&model()));
}
