//! Frames and records: document 01's worked examples, each refusal, their order, and the way there and back. What is read, judged and written is
//! the same in both editions.
mod common;
use common::{clean, found, frame, hex, judge, read, record, record_refusal, sealed, written};
use common::{flipped, ALL_AREAS};
use reference::code::GENERATOR;
use reference::frame::{
    warned, write, Record, AREAS, BROADCASTER, DEPTH, EDITIONS, IDENTIFICATION, KIND, LATITUDE,
    LONGITUDE, NUMBER, OCCURRED, PAGE, PATTERN, REFERENCE, SOUTH, TIME, TOTAL, UPDATE, VALUES,
    WEST,
};
use reference::{flip_bit, put};

/// The refusal's number, or 0.
fn number(frame: &[u8]) -> u8 {
    judge(frame).err().unwrap_or(0)
}

fn place() -> Record {
    record(&[
        (UPDATE, 1),
        (TIME, 5),
        (PAGE, 1),
        (TOTAL, 1),
        (NUMBER, 300),
        (SOUTH, 1),
        (LATITUDE, 356),
        (WEST, 1),
        (LONGITUDE, 1397),
        (DEPTH, 40),
        (OCCURRED, 900),
    ])
}

fn with(base: &Record, changes: &[(usize, u64)]) -> Record {
    let mut record = *base;
    for &(field, value) in changes {
        record[field] = value;
    }
    record
}

#[test]
fn pattern_0_with_all_else_zero() {
    let all = frame(ALL_AREAS);
    let (read, differing) = read(&all).expect("accepted");
    assert_eq!((read, differing), ([0; VALUES], 0));
    assert!((0..56).all(|area| warned(&read, area)));
    for area in [56, 63, 64, 1 << 32, u64::MAX] {
        assert!(!warned(&read, area), "area {area}");
    }
    assert_eq!(written(&read), all);
}

#[test]
fn tokyo_is_area_15() {
    let mut only = frame(ALL_AREAS);
    put(&mut only, 56..=111, (1 << 56) - 1);
    flip_bit(&mut only, 71);
    let tokyo = record(&[(AREAS, (1 << 56) - 1 - (1 << 40))]);
    let sent = written(&tokyo);
    assert_eq!(sent[..14], only[..14]);
    assert!((0..56).all(|area| warned(&tokyo, area) == (area == 15)));
    assert!((0..56).all(|area| !warned(&place(), area)));
    let nothing = record(&[(IDENTIFICATION, 7)]);
    assert!((0..56).all(|area| !warned(&nothing, area)));
}

#[test]
fn first_refusals() {
    assert_eq!(number(&[]), 1);
    assert_eq!(number(&[0; 25]), 1);
    assert_eq!(number(&[0; 27]), 1);
    assert_eq!(number(&[0; 26]), 3);
    let mut filler = [0; 26];
    filler[25] = 1;
    assert_eq!(number(&filler), 2, "2 before 3");
    let mut complement = frame(ALL_AREAS);
    put(&mut complement, 1..=16, 0b1100_1010_0001_0001);
    assert_eq!(number(&complement), 0);
    assert_eq!(read(&complement).map(|r| r.0[PATTERN]), Ok(1));
}

#[test]
fn frames_with_several_faults() {
    for (digits, expected) in [
        // Nine hits, behind a pattern with four differing bits and with one.
        ("62f7000000000000000000000000004308c01110000000000000", 3),
        ("5af7000000000000000000000000004308c01110000000000000", 4),
        ("1af7040000000000000000000000dd3571e5e0074536075add60", 5),
        ("1af7640000000000000000000000dd6ba7e8239c630ae7c28140", 6),
        ("1af7077fffffff805fffffffffffcd3b0241c13d6f14b3b28d70", 7),
        ("1af7000000000100070a0000000071fee4dcd9339873b730f150", 8),
        ("1af777ffffffff00bfffffffffff3e583d134b51523b875a54e0", 7),
    ] {
        assert_eq!(number(&frame(digits)), expected, "{digits}");
    }
}

#[test]
fn the_crc_is_tested_in_the_repaired_word() {
    let hit = frame("1af7000000000000000000000000000000000000000000000010");
    assert_eq!(judge(&hit), Ok(1));
    let wrong = frame("1af7000000000000000000000000004308c01110114014404110");
    assert_eq!(reference::repair(&wrong).map(|r| r.places), Ok(0));
    assert_eq!(number(&wrong), 5);
    // B112 flipped is repaired before the CRC is looked at.
    let mut hit = frame(ALL_AREAS);
    flip_bit(&mut hit, 112);
    assert_eq!(judge(&hit), Ok(1));
    assert_eq!(clean(&hit), Ok(frame(ALL_AREAS)));
}

#[test]
fn repaired_places_are_counted_from_b17_to_b203() {
    for k in 17..204 {
        let mut hit = frame(ALL_AREAS);
        flip_bit(&mut hit, k);
        assert_eq!(judge(&hit), Ok(1), "B{k}");
        assert_eq!(clean(&hit), Ok(frame(ALL_AREAS)), "B{k}");
    }
}

#[test]
fn eight_nine_and_ten_hits() {
    let hit = |n: usize| {
        let mut hit = frame(ALL_AREAS);
        for power in &GENERATOR[..n] {
            flip_bit(&mut hit, 203 - power);
        }
        hit
    };
    assert_eq!(judge(&hit(8)), Ok(8));
    assert_eq!(clean(&hit(8)), Ok(frame(ALL_AREAS)));
    assert_eq!(number(&hit(9)), 4);
    // The generator's code word: its CRC bits are 0000000001, those of zeros are zeros.
    assert_eq!(number(&hit(10)), 5);
    let mut ten = frame(ALL_AREAS);
    put(&mut ten, 17..=26, 0b11_1111_1111);
    assert_eq!(number(&ten), 4);
}

#[test]
fn the_repair_alone_looks_at_b17_to_b203() {
    let noise = |power_count: usize| {
        let mut frame = [0; 26];
        put(&mut frame, 0..=16, 0x1FFFF);
        put(&mut frame, 204..=207, 15);
        for power in &GENERATOR[..power_count] {
            flip_bit(&mut frame, 203 - power);
        }
        frame
    };
    assert_eq!(reference::repair(&noise(0)), reference::repair(&[0; 26]));
    assert_eq!(reference::repair(&[0; 27]), Err(1));
    let eight = reference::repair(&noise(8)).expect("repaired");
    assert_eq!((eight.word, eight.places), ([0; 26], 8));
    assert_eq!(reference::repair(&noise(9)), Err(4));
    let ten = reference::repair(&noise(10)).expect("repaired");
    let mut generator = noise(18);
    put(&mut generator, 0..=16, 0);
    put(&mut generator, 204..=207, 0);
    assert_eq!((ten.word, ten.places), (generator, 8));
}

#[test]
fn the_reference_bit_is_carried() {
    let mut set = frame(ALL_AREAS);
    set[0] = 0x9a;
    let (read, differing) = read(&set).expect("accepted");
    let expected = found(record(&[(REFERENCE, 1)]), 0, 0);
    assert_eq!((read, differing), expected);
    assert_eq!(written(&read), set);
}

#[test]
fn no_information() {
    let digits = "1af77fffffffffffffffffffffff698fbee80b006e0824cd3d10";
    let expected = record(&[(IDENTIFICATION, 7), (BROADCASTER, 2047)]);
    assert_eq!(read(&frame(digits)), Ok(found(expected, 0, 0)));
    assert_eq!(hex(&written(&expected)), digits);
}

#[test]
fn a_cancellation() {
    let digits = "1af70000000001001fffffffffffe43d0ff2f235a3cbf9db1c70";
    let expected = record(&[(PAGE, 1), (KIND, 1)]);
    assert_eq!(read(&frame(digits)), Ok(found(expected, 0, 0)));
    assert_eq!(hex(&written(&expected)), digits);
}

#[test]
fn fixed_bits() {
    // Each bit of the details turned over in turn, with CRC and parity made again.
    let again = |k: usize, frame: [u8; 26]| sealed(flipped(frame, &[k]));
    let cancelled = written(&record(&[(PAGE, 1), (KIND, 1)]));
    let nothing = written(&record(&[(IDENTIFICATION, 7), (BROADCASTER, 5)]));
    let located = written(&place());
    for k in 24..112 {
        let expected = if (68..=111).contains(&k) { 8 } else { 0 };
        if k != 55 && k != 67 {
            assert_eq!(number(&again(k, cancelled)), expected, "cancellation, B{k}");
        }
        let expected = if (56..=66).contains(&k) { 0 } else { 8 };
        assert_eq!(number(&again(k, nothing)), expected, "no information, B{k}");
        if !(67..=90).contains(&k) && k != 55 {
            let expected = if k == 111 { 8 } else { 0 };
            assert_eq!(number(&again(k, located)), expected, "place, B{k}");
        }
        if k != 55 {
            assert_eq!(number(&again(k, frame(ALL_AREAS))), 0, "areas, B{k}");
        }
    }
    for k in 17..21 {
        let expected = if k < 19 { 7 } else { 0 };
        assert_eq!(number(&again(k, located)), expected, "place, B{k}");
        assert_eq!(number(&again(k, nothing)), 7, "no information, B{k}");
    }
}

#[test]
fn house_limits() {
    let limit = |field, value| record_refusal(&with(&place(), &[(field, value)]));
    assert_eq!(limit(LATITUDE, 900), 0);
    assert_eq!(limit(LATITUDE, 901), 9);
    assert_eq!(limit(LATITUDE, 1023), 9);
    assert_eq!(limit(LATITUDE, 1024), 10);
    assert_eq!(limit(LONGITUDE, 1800), 0);
    assert_eq!(limit(LONGITUDE, 1801), 9);
    assert_eq!(limit(LONGITUDE, 2047), 9);
    assert_eq!(limit(LONGITUDE, 2048), 10);
}

#[test]
fn the_writers_order() {
    let refusal = |changes: &[(usize, u64)]| record_refusal(&with(&place(), changes));
    assert_eq!(refusal(&[(IDENTIFICATION, 8), (PAGE, 2)]), 6);
    assert_eq!(refusal(&[(IDENTIFICATION, 4), (LATITUDE, 5000)]), 6);
    assert_eq!(refusal(&[(IDENTIFICATION, u64::MAX)]), 6);
    assert_eq!(refusal(&[(LATITUDE, 901), (LONGITUDE, 2048)]), 10);
    assert_eq!(refusal(&[(LATITUDE, 901), (AREAS, 1)]), 10);
    assert_eq!(refusal(&[(KIND, 1), (LATITUDE, 901)]), 10);
    assert_eq!(refusal(&[(PAGE, 2)]), 10);
    assert_eq!(refusal(&[(KIND, 2)]), 10);
    assert_eq!(record_refusal(&record(&[(LATITUDE, 5)])), 10);
    assert_eq!(record_refusal(&record(&[(KIND, 1)])), 10);
    let nothing = record(&[(IDENTIFICATION, 7)]);
    assert_eq!(record_refusal(&nothing), 0);
    for field in [UPDATE, TIME, PAGE, AREAS, KIND] {
        assert_eq!(record_refusal(&with(&nothing, &[(field, 1)])), 10);
    }
    assert_eq!(record_refusal(&with(&place(), &[(BROADCASTER, 1)])), 10);
}

#[test]
fn the_writers_buffer() {
    for (length, fields, expected) in [
        (25, with(&place(), &[(IDENTIFICATION, 4)]), 1),
        (27, place(), 1),
        (0, place(), 1),
        (26, with(&place(), &[(IDENTIFICATION, 4)]), 6),
        (26, with(&place(), &[(PAGE, 2)]), 10),
        (26, with(&place(), &[(LATITUDE, 901)]), 9),
    ] {
        for edition in EDITIONS {
            let mut buffer = vec![0xA5; length];
            assert_eq!(write(edition, &fields, &mut buffer), expected);
            assert_eq!(buffer, vec![0xA5; length]);
        }
    }
}

#[test]
fn an_area_warning_without_area_is_accepted() {
    let without = record(&[(IDENTIFICATION, 1), (UPDATE, 3)]);
    assert_eq!(read(&written(&without)), Ok(found(without, 0, 0)));
}

#[test]
fn there_and_back_with_hits() {
    for base in [
        place(),
        record(&[
            (REFERENCE, 1),
            (PATTERN, 1),
            (IDENTIFICATION, 3),
            (AREAS, 12345),
        ]),
        record(&[(IDENTIFICATION, 2), (UPDATE, 3), (PAGE, 1), (KIND, 1)]),
        record(&[(IDENTIFICATION, 7), (BROADCASTER, 1000)]),
    ] {
        let sent = written(&base);
        for hits in 0..=9 {
            let mut frame = sent;
            for i in 0..hits {
                flip_bit(&mut frame, 17 + 23 * i);
            }
            let expected = if hits < 9 {
                Ok(found(base, hits as u8, 0))
            } else {
                Err(4)
            };
            assert_eq!(read(&frame), expected);
        }
    }
}
