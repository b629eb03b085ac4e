//! Every function with empty slices, one after another and all at once: refusal 1, or what documents 01 and 02 say, and nothing written elsewhere;
//! whatever the edition and the tuner.
use gvozdyana::frame::{write, Record, FRAME_VALUES};
use gvozdyana::header::{self, Header};
use gvozdyana::ledger::{Ledger, LEDGER_VALUES};
use gvozdyana::{calls, Edition};

/// Refusal 1.
const WRONG_LENGTH: u32 = 1;

/// The editions' numbers, and one that no edition has.
const EDITIONS: [u32; 3] = [0, 1, u32::MAX];

/// The tuners' numbers, and two that no tuner has.
const TUNERS: [u32; 5] = [0, 1, 2, 3, u32::MAX];

#[test]
fn of_frames() {
    let frame = write(Edition::First, &Record::no_information(5)).expect("legal");
    let record = Record::no_information(5).values();
    for repair in [calls::repair, calls::repair_register] {
        let mut word = [7; 26];
        assert_eq!(repair(&[], &mut word), WRONG_LENGTH);
        assert_eq!(word, [7; 26]);
        assert_eq!(repair(&frame, &mut []), WRONG_LENGTH);
        assert_eq!(repair(&[], &mut []), WRONG_LENGTH);
    }
    for edition in EDITIONS {
        for tuner in TUNERS {
            let read =
                |frame: &[u8], left: &mut [u64]| calls::frame_read(edition, tuner, frame, left);
            let mut left = [7; FRAME_VALUES];
            assert_eq!(read(&[], &mut left), WRONG_LENGTH);
            assert_eq!(left, [7; FRAME_VALUES]);
            assert_eq!(read(&frame, &mut []), WRONG_LENGTH);
            assert_eq!(read(&[], &mut []), WRONG_LENGTH);
        }
        let mut left = [7; 26];
        assert_eq!(calls::frame_write(edition, &[], &mut left), WRONG_LENGTH);
        assert_eq!(left, [7; 26]);
        assert_eq!(calls::frame_write(edition, &record, &mut []), WRONG_LENGTH);
        assert_eq!(calls::frame_write(edition, &[], &mut []), WRONG_LENGTH);
        // The event is 6, refused, and the state, safety with update 1, stays.
        let refused = WRONG_LENGTH + 256 * 6 + 65536 * 13;
        assert_eq!(calls::follow(edition, 13, &[]), refused);
    }
    assert_eq!(calls::warned(&[], 15), WRONG_LENGTH);
}

/// The frame, its marks and the buffer, each of them empty, two of them, and all.
#[test]
fn of_marked_frames() {
    let frame = write(Edition::First, &Record::no_information(5)).expect("legal");
    let marks = [0; 26];
    for (frame, marks) in [(&frame[..], &[][..]), (&[], &marks), (&[], &[])] {
        let mut word = [7; 26];
        assert_eq!(calls::repair_marked(frame, marks, &mut word), WRONG_LENGTH);
        assert_eq!(word, [7; 26]);
        assert_eq!(calls::repair_marked(frame, marks, &mut []), WRONG_LENGTH);
        assert_eq!(calls::frame_judge_marked(frame, marks), WRONG_LENGTH);
        for (edition, tuner) in EDITIONS.into_iter().flat_map(|e| TUNERS.map(|t| (e, t))) {
            let read =
                |left: &mut [u64]| calls::frame_read_marked(edition, tuner, frame, marks, left);
            let mut left = [7; FRAME_VALUES];
            assert_eq!(read(&mut left), WRONG_LENGTH);
            assert_eq!(left, [7; FRAME_VALUES]);
            assert_eq!(read(&mut []), WRONG_LENGTH);
        }
    }
    let none = calls::repair_marked(&frame, &marks, &mut []);
    assert_eq!(none, WRONG_LENGTH);
    for (edition, tuner) in EDITIONS.into_iter().flat_map(|e| TUNERS.map(|t| (e, t))) {
        let none = calls::frame_read_marked(edition, tuner, &frame, &marks, &mut []);
        assert_eq!(none, WRONG_LENGTH);
    }
}

#[test]
fn of_places() {
    let record = Record::no_information(5).values();
    for edition in EDITIONS {
        let mut left = [7.0; 3];
        assert_eq!(calls::report(edition, &[], &mut left), WRONG_LENGTH);
        assert_eq!(left, [7.0; 3]);
        assert_eq!(calls::report(edition, &record, &mut []), WRONG_LENGTH);
        assert_eq!(calls::report(edition, &[], &mut []), WRONG_LENGTH);
    }
    assert_eq!(calls::desk(35.6, 139.7, 40.0, &mut []), WRONG_LENGTH);
}

#[test]
fn of_captures() {
    let frame = write(Edition::First, &Record::no_information(5)).expect("legal");
    for edition in EDITIONS {
        for n in [0, 1, u64::MAX] {
            assert_eq!(calls::capture_source(edition, &[], &[], n), 0);
            let both = WRONG_LENGTH + 256 * WRONG_LENGTH;
            assert_eq!(calls::capture_numbers(edition, &[], &[], n), both);
        }
        assert_eq!(calls::capture_source(edition, &frame, &[], 0), 1);
        assert_eq!(calls::capture_source(edition, &[], &frame, 0), 2);
        let numbers = |main: &[u8], spare: &[u8]| calls::capture_numbers(edition, main, spare, 0);
        assert_eq!(numbers(&[], &frame), WRONG_LENGTH);
        assert_eq!(numbers(&frame, &[]), 256 * WRONG_LENGTH);
    }
}

/// No frame is counted as one refused with 1; no buffer is of another size than the report, and no text is a report.
#[test]
fn of_ledgers() {
    let frame = write(Edition::First, &Record::no_information(5)).expect("legal");
    let fresh = Ledger::new().values();
    for edition in EDITIONS {
        let mut left = fresh;
        assert_eq!(calls::ledger_count(edition, &mut left, &[]), 0);
        assert_eq!(left, [1, 1, 0, 0, 0, 0, 0, 0, 0, 0, 0, 0]);
        let none = calls::ledger_count(edition, &mut [], &frame);
        assert_eq!(none, WRONG_LENGTH);
        assert_eq!(calls::ledger_count(edition, &mut [], &[]), WRONG_LENGTH);
    }
    assert_eq!(calls::ledger_length(&[]), WRONG_LENGTH);
    let report = Ledger::new().report().expect("possible").into_bytes();
    let mut left = vec![7; report.len()];
    assert_eq!(calls::ledger_print(&[], &mut left), WRONG_LENGTH);
    assert_eq!(left, vec![7; report.len()]);
    assert_eq!(calls::ledger_print(&fresh, &mut []), 27);
    assert_eq!(calls::ledger_print(&[7; LEDGER_VALUES], &mut []), 18);
    assert_eq!(calls::ledger_print(&[], &mut []), WRONG_LENGTH);
    let mut left = [7; LEDGER_VALUES];
    assert_eq!(calls::ledger_parse(&[], &mut left), 18);
    assert_eq!(left, [7; LEDGER_VALUES]);
    assert_eq!(calls::ledger_parse(&report, &mut []), WRONG_LENGTH);
    assert_eq!(calls::ledger_parse(&[], &mut []), WRONG_LENGTH);
}

#[test]
fn of_headers() {
    let frame = write(Edition::First, &Record::no_information(5)).expect("legal");
    let record = Header::default();
    let legal = header::write(&record).expect("legal");
    let mut left = [7; 145];
    assert_eq!(calls::header_read(&[], &mut left), WRONG_LENGTH);
    assert_eq!(left, [7; 145]);
    assert_eq!(calls::header_read(&legal, &mut []), WRONG_LENGTH);
    assert_eq!(calls::header_read(&[], &mut []), WRONG_LENGTH);
    let mut left = [7; 188];
    assert_eq!(calls::header_write(&[], &mut left), WRONG_LENGTH);
    assert_eq!(left, [7; 188]);
    let values = record.values();
    assert_eq!(calls::header_write(&values, &mut []), WRONG_LENGTH);
    assert_eq!(calls::header_write(&[], &mut []), WRONG_LENGTH);
    for edition in EDITIONS {
        let mut laid = legal;
        assert_eq!(calls::lay_in(edition, &mut laid, &[]), WRONG_LENGTH);
        assert_eq!(laid, legal);
        assert_eq!(calls::lay_in(edition, &mut [], &frame), WRONG_LENGTH);
        assert_eq!(calls::lay_in(edition, &mut [], &[]), WRONG_LENGTH);
        let marks = [0; 26];
        for (frame, marks) in [(&frame[..], &[][..]), (&[], &marks), (&[], &[])] {
            let lay = |header: &mut [u8]| calls::lay_in_marked(edition, header, frame, marks);
            assert_eq!(lay(&mut laid), WRONG_LENGTH);
            assert_eq!(laid, legal);
            assert_eq!(lay(&mut []), WRONG_LENGTH);
        }
        let none = calls::lay_in_marked(edition, &mut [], &frame, &marks);
        assert_eq!(none, WRONG_LENGTH);
    }
    assert_eq!(calls::take_out(&mut []), WRONG_LENGTH);
    assert_eq!(calls::crc32(&[]), 0xFFFF_FFFF);
}
