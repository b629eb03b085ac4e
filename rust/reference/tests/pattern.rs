//! Damaged synchronising bits (document 02, e): how many may differ, from which pattern, and what is told, written and tested after them, in both
//! editions.
mod common;
use common::ALL_AREAS;
use common::{clean, flipped, found, frame, hex, judge, listing, read, record, written};
use reference::code::GENERATOR;
use reference::frame::{
    Record, AREAS, BROADCASTER, DEPTH, IDENTIFICATION, KIND, LATITUDE, LONGITUDE, NUMBER, PAGE,
    PATTERN, REFERENCE, TIME, UPDATE, VALUES,
};
use reference::put;

/// Document 01's patterns, B1 first.
const PATTERN_0: &str = "0011010111101110";
const PATTERN_1: &str = "1100101000010001";

/// Example 11's frame with the first n of B1 to B16 turned over.
fn first_turned(n: usize) -> [u8; 26] {
    let places: Vec<usize> = (1..=n).collect();
    flipped(frame(ALL_AREAS), &places)
}

/// Example 11's frame with this in B1 to B16.
fn holding(synchronising: u64) -> [u8; 26] {
    let mut all = frame(ALL_AREAS);
    put(&mut all, 1..=16, synchronising);
    all
}

/// In how many of the 16 places a number's bits differ from a pattern.
fn count(synchronising: u64, pattern: &str) -> u8 {
    let digits = format!("{synchronising:016b}");
    digits
        .chars()
        .zip(pattern.chars())
        .filter(|(received, sent)| received != sent)
        .count() as u8
}

/// Every choice of up to three of B1 to B16.
fn choices() -> Vec<Vec<usize>> {
    let mut choices = vec![vec![]];
    for a in 1..=16 {
        choices.push(vec![a]);
        for b in a + 1..=16 {
            choices.push(vec![a, b]);
            choices.extend((b + 1..=16).map(|c| vec![a, b, c]));
        }
    }
    choices
}

/// A record of each kind.
fn records() -> [Record; 4] {
    [
        record(&[(IDENTIFICATION, 2), (UPDATE, 2), (TIME, 77), (AREAS, 12345)]),
        record(&[
            (REFERENCE, 1),
            (PAGE, 1),
            (NUMBER, 300),
            (LATITUDE, 356),
            (LONGITUDE, 1397),
            (DEPTH, 40),
        ]),
        record(&[(IDENTIFICATION, 3), (UPDATE, 1), (PAGE, 1), (KIND, 1)]),
        record(&[(REFERENCE, 1), (IDENTIFICATION, 7), (BROADCASTER, 1000)]),
    ]
}

#[test]
fn the_edges_of_example_11() {
    // The bytes that hold B0 to B16, so that the frames below are known: 1af7 with 3, 4, 12, 13 and 16 of its bits turned over.
    for (n, digits, expected) in [
        (0, "1af700", Ok(found([0; VALUES], 0, 0))),
        (3, "6af700", Ok(found([0; VALUES], 0, 3))),
        (4, "62f700", Err(3)),
        (12, "650f00", Err(3)),
        (13, "650b00", Ok(found(record(&[(PATTERN, 1)]), 0, 3))),
        (16, "650880", Ok(found(record(&[(PATTERN, 1)]), 0, 0))),
    ] {
        let frame = first_turned(n);
        assert_eq!(hex(&frame[..3]), digits, "{n} bits");
        assert_eq!(read(&frame), expected, "{n} bits");
    }
}

#[test]
fn every_choice_of_up_to_three_bits() {
    let choices = choices();
    assert_eq!(choices.len(), 1 + 16 + 120 + 560);
    for pattern in 0..2 {
        for reference in 0..2 {
            let sent = record(&[(REFERENCE, reference), (PATTERN, pattern)]);
            let whole = written(&sent);
            for places in &choices {
                let received = flipped(whole, places);
                let expected = found(sent, 0, places.len() as u8);
                assert_eq!(read(&received), Ok(expected), "{places:?}");
                assert_eq!(clean(&received), Ok(whole), "{places:?}");
                assert_eq!(judge(&received), Ok(0), "{places:?}");
            }
        }
    }
}

#[test]
fn every_value_of_b1_to_b16() {
    let mut accepted = 0;
    for synchronising in 0..65536 {
        let (from_0, from_1) = (
            count(synchronising, PATTERN_0),
            count(synchronising, PATTERN_1),
        );
        assert_eq!(from_0 + from_1, 16, "they differ in all sixteen");
        let expected = match (from_0, from_1) {
            (0..=3, _) => Ok(found([0; VALUES], 0, from_0)),
            (_, 0..=3) => Ok(found(record(&[(PATTERN, 1)]), 0, from_1)),
            _ => Err(3),
        };
        accepted += u32::from(expected.is_ok());
        let frame = holding(synchronising);
        assert_eq!(read(&frame), expected, "{synchronising:016b}");
    }
    assert_eq!(accepted, 2 * (1 + 16 + 120 + 560));
}

#[test]
fn zeros_and_ones_are_neither_pattern() {
    assert_eq!(judge(&[0; 26]), Err(3));
    assert_eq!((count(0, PATTERN_0), count(0, PATTERN_1)), (10, 6));
    assert_eq!(judge(&holding(0xFFFF)), Err(3));
}

#[test]
fn three_differing_bits_and_eight_hits() {
    let hits: Vec<usize> = GENERATOR[..8].iter().map(|power| 203 - power).collect();
    let received = flipped(first_turned(3), &hits);
    assert_eq!(read(&received), Ok(found([0; VALUES], 8, 3)));
    assert_eq!(judge(&received), Ok(8));
    assert_eq!(clean(&received), Ok(frame(ALL_AREAS)));
    assert_eq!(listing(&received), b"1 0 8\nend 1\n");
    let text = listing(&[first_turned(3), first_turned(4), received].concat());
    assert_eq!(text, b"1 0 0\n2 3 -\n3 0 8\nend 3\n");
}

#[test]
fn the_order_of_2_3_and_4() {
    let nine: Vec<usize> = GENERATOR[..9].iter().map(|power| 203 - power).collect();
    for turned in 0..=16 {
        let pattern_fits = !(4..=12).contains(&turned);
        let clear = first_turned(turned);
        let hit = flipped(clear, &nine);
        assert_eq!(judge(&clear), if pattern_fits { Ok(0) } else { Err(3) });
        assert_eq!(judge(&hit), Err(if pattern_fits { 4 } else { 3 }));
        for filler in 204..208 {
            assert_eq!(judge(&flipped(clear, &[filler])), Err(2));
            assert_eq!(judge(&flipped(hit, &[filler])), Err(2));
        }
        for length in [0, 25] {
            assert_eq!(judge(&clear[..length]), Err(1));
        }
        assert_eq!(judge(&[&clear[..], &[0]].concat()), Err(1));
    }
}

#[test]
fn later_tests_do_not_look_at_the_pattern() {
    for (digits, expected) in [
        ("1af7040000000000000000000000dd3571e5e0074536075add60", 5),
        ("1af7640000000000000000000000dd6ba7e8239c630ae7c28140", 6),
        ("1af7077fffffff805fffffffffffcd3b0241c13d6f14b3b28d70", 7),
        ("1af7000000000100070a0000000071fee4dcd9339873b730f150", 8),
    ] {
        for places in [vec![], vec![1], vec![16], vec![2, 9, 15]] {
            let frame = flipped(frame(digits), &places);
            assert_eq!(judge(&frame), Err(expected), "{digits} {places:?}");
        }
        let four = flipped(frame(digits), &[2, 9, 15, 16]);
        assert_eq!(judge(&four), Err(3), "{digits}");
    }
}

#[test]
fn written_again_with_the_clean_pattern() {
    for base in records() {
        for pattern in 0..2 {
            let mut sent = base;
            sent[PATTERN] = pattern;
            let whole = written(&sent);
            for differing in 0..=3 {
                for hits in 0..=8 {
                    // B4, B9 and B14, and every 23rd bit from B17.
                    let mut places: Vec<usize> = (0..differing).map(|i| 4 + 5 * i).collect();
                    places.extend((0..hits).map(|i| 17 + 23 * i));
                    let received = flipped(whole, &places);
                    let (record, other_bits) = read(&received).expect("accepted");
                    let expected = found(sent, hits as u8, differing as u8);
                    assert_eq!((record, other_bits), expected);
                    assert_eq!(clean(&received), Ok(whole));
                    assert_eq!(written(&record), whole);
                    assert_eq!(read(&whole), Ok(found(sent, 0, 0)));
                }
            }
        }
    }
}

#[test]
fn b0_is_not_counted() {
    for turned in 0..=16 {
        let clear = first_turned(turned);
        let set = flipped(clear, &[0]);
        let with_b0 = |(mut record, differing): (Record, u8)| {
            record[REFERENCE] = 1;
            (record, differing)
        };
        assert_eq!(read(&set), read(&clear).map(with_b0));
        let whole = clean(&clear).map(|frame| flipped(frame, &[0]));
        assert_eq!(clean(&set), whole);
    }
}

#[test]
fn the_repair_alone_does_not_look_at_the_pattern() {
    for turned in 0..=16 {
        let repaired = reference::repair(&first_turned(turned)).expect("repaired");
        assert_eq!((repaired.word, repaired.places), ([0; 26], 0));
    }
}
