//! The names and numbers here are those of the C header, include/gvozdyana.h, which is read as text.
use gvozdyana::capture::source;
use gvozdyana::follower::{State, Update};
use gvozdyana::frame::{
    read, write, Identification, Record, Safety, SafetyIdentification, Warning,
};
use gvozdyana::frame::{AREAS, FRAME_VALUES};
use gvozdyana::header::{Header, HEADER_VALUES};
use gvozdyana::ledger::{Ledger, LEDGER_VALUES, MOST_FRAMES};
use gvozdyana::place::{fields, report, Fields, Place};
use gvozdyana::{calls, Edition, Refusal, Tuner, FRAME_BYTES, HEADER_BYTES};
use std::fmt::Debug;

const HEADER_FILE: &str = include_str!("../../../include/gvozdyana.h");

/// What an enum of the header file declares, names without the prefix.
fn declared(name: &str, prefix: &str) -> Vec<(String, u64)> {
    let first = format!("enum {name} {{");
    let lines = HEADER_FILE.lines().skip_while(|line| *line != first);
    let declarations = lines.take_while(|line| !line.starts_with('}'));
    let numbers = declarations.filter_map(|line| {
        let (name, rest) = line.trim().strip_prefix(prefix)?.split_once(" = ")?;
        let number = rest.split([',', ' ']).next()?;
        Some((name.to_string(), number.parse().expect("a number")))
    });
    numbers.collect()
}

/// The text of a `#define`.
fn defined(name: &str) -> &'static str {
    let mut lines = HEADER_FILE.lines();
    let text = lines.find_map(|line| line.strip_prefix(&format!("#define {name} ")));
    text.unwrap_or_else(|| panic!("{name} is not defined"))
}

/// `WrongLength` or `latitude` as C writes it, `WRONG_LENGTH` or `LATITUDE`; what a case carries is left out.
fn c_name(name: &str) -> String {
    let mut text = String::new();
    let letters = name.chars().take_while(|c| c.is_alphabetic() || *c == '_');
    for (i, letter) in letters.enumerate() {
        if letter.is_uppercase() && i > 0 {
            text.push('_');
        }
        text.push(letter.to_ascii_uppercase());
    }
    text
}

/// The fields of a struct and the first word of each, as `{:?}` writes them.
fn words(value: impl Debug) -> Vec<(String, String)> {
    let text = format!("{value:?}");
    let words: Vec<&str> = text.split([' ', ',', '[', ']']).collect();
    let words: Vec<&str> = words.into_iter().filter(|word| !word.is_empty()).collect();
    let pairs = words.windows(2).filter_map(|pair| {
        let name = pair[0].strip_suffix(':')?;
        Some((c_name(name), pair[1].to_string()))
    });
    pairs.collect()
}

/// The same where each first word is a number.
fn shown(value: impl Debug) -> Vec<(String, u64)> {
    let number = |(name, word): (String, String)| (name, word.parse().expect("a number"));
    words(value).into_iter().map(number).collect()
}

fn warning() -> Warning {
    Warning {
        identification: Identification::WarningWithArea,
        update: Update::new(1).expect("0 to 3"),
        time: 1000,
    }
}

/// The edition that has all there is.
const EDITION: Edition = Edition::AreaSafety;

fn safety(identification: SafetyIdentification) -> Record {
    let safety = Safety {
        identification,
        update: warning().update,
        time: 1000,
    };
    Record::area_safety(safety, 5)
}

const PLACE: Place = Place {
    latitude: -35.6,
    longitude: 139.7,
    depth: 40.0,
};

#[test]
fn the_version() {
    let version = env!("CARGO_PKG_VERSION");
    assert_eq!(defined("GVZ_VERSION"), format!("{version:?}"));
    let parts = ["MAJOR", "MINOR", "PATCH"].map(|part| defined(&format!("GVZ_VERSION_{part}")));
    assert_eq!(parts.join("."), version);
}

#[test]
fn the_sizes() {
    for (name, number) in [
        ("GVZ_FRAME_BYTES", FRAME_BYTES),
        ("GVZ_FRAME_VALUES", FRAME_VALUES),
        ("GVZ_AREAS", AREAS as usize),
        ("GVZ_CABLE_BYTES", HEADER_BYTES),
        ("GVZ_CABLE_VALUES", HEADER_VALUES),
        ("GVZ_LEDGER_VALUES", LEDGER_VALUES),
        ("GVZ_LEDGER_MOST_FRAMES", MOST_FRAMES as usize),
        ("GVZ_LEDGER_REPORT_MOST", 203),
        ("GVZ_PLACE_VALUES", 3),
        ("GVZ_DESK_VALUES", 5),
    ] {
        assert_eq!(defined(name), number.to_string(), "{name}");
    }
}

/// Every function that is declared there is called here, and no other.
#[test]
fn the_functions() {
    let names = |text: &'static str, start: &str| {
        let lines = text.lines().map(str::trim);
        let declared = lines.filter_map(|line| line.strip_prefix(start));
        let mut names: Vec<&str> = declared.filter_map(|rest| rest.split('(').next()).collect();
        names.sort();
        names
    };
    let called = names(include_str!("../src/calls.rs"), "pub fn gvz_");
    assert_eq!(names(HEADER_FILE, "uint32_t gvz_"), called);
    assert_eq!(called.len(), 23);
}

/// Document 01's refusals, and of document 02's those that there are.
fn numbers_of_refusals() -> Vec<u8> {
    (1..=15).chain([18, 19, 27]).collect()
}

#[test]
fn the_refusals() {
    let numbers = numbers_of_refusals();
    for number in 0..=255 {
        assert_eq!(
            Refusal::from_number(number).map(Refusal::number),
            numbers.contains(&number).then_some(number)
        );
    }
    let mut expected = vec![("NONE".to_string(), 0)];
    expected.extend(numbers.into_iter().map(|number| {
        let refusal = Refusal::from_number(number).expect("one of them");
        (c_name(&format!("{refusal:?}")), number.into())
    }));
    assert_eq!(declared("gvz_refusal", "GVZ_REFUSAL_"), expected);
}

#[test]
fn the_editions() {
    let editions = [Edition::First, Edition::AreaSafety];
    let expected = editions.map(|edition| told(edition, edition.number()));
    assert_eq!(declared("gvz_edition", "GVZ_EDITION_"), expected);
}

/// Each value is one field's, also the tuner's, which is no number here.
#[test]
fn the_fields_of_a_record() {
    let zeros = words(Record::from_values([0; FRAME_VALUES]));
    let fields: Vec<(String, u64)> = (0..FRAME_VALUES)
        .map(|i| {
            let mut values = [0; FRAME_VALUES];
            values[i] = 1;
            let ones = words(Record::from_values(values));
            let mut differing = ones.into_iter().filter(|field| !zeros.contains(field));
            let (name, _) = differing.next().expect("a field");
            assert_eq!(differing.next(), None, "{name}");
            (name, i as u64)
        })
        .collect();
    assert_eq!(declared("gvz_record_index", "GVZ_RECORD_"), fields);
    assert_eq!(zeros.len(), FRAME_VALUES);
}

/// The identifiers, which are in turn, are two fields here.
#[test]
fn the_fields_of_a_header() {
    let header = Header::from_values(std::array::from_fn(|i| i as u64));
    let mut fields = shown(header);
    let at = fields.iter().position(|(name, _)| name == "STREAMS");
    let at = at.expect("the stream ids");
    fields[at].0 = "IDENTIFIERS".to_string();
    let networks = fields.remove(at + 1);
    assert_eq!(networks, ("NETWORKS".to_string(), fields[at].1 + 1));
    assert_eq!(fields, declared("gvz_header_index", "GVZ_HEADER_"));
}

#[test]
fn the_identifications() {
    use Identification::*;
    let warnings = [
        WarningWithArea,
        WarningWithoutArea,
        TestWithArea,
        TestWithoutArea,
    ];
    let named = |of: Identification| (c_name(&format!("{of:?}")), of.number());
    let mut expected = Vec::from(warnings.map(named));
    use SafetyIdentification::*;
    expected.extend([AreaSafety, AreaSafetyTest].map(|of| {
        assert_eq!(safety(of).identification, of.number());
        (c_name(&format!("{of:?}")), of.number())
    }));
    let no_information = Record::no_information(5).identification;
    expected.push(("NO_INFORMATION".to_string(), no_information));
    let numbers = declared("gvz_identification", "GVZ_IDENTIFICATION_");
    assert_eq!(numbers, expected);
}

/// The name of what is told with types, beside the number that the archive tells.
fn told(typed: impl Debug, number: u32) -> (String, u64) {
    (c_name(&format!("{typed:?}")), number.into())
}

#[test]
fn the_events_and_states() {
    let with_update = |number| {
        let update = Update::new(number).expect("0 to 3");
        let warning = Warning {
            update,
            ..warning()
        };
        write(EDITION, &Record::cancellation(warning, 7)).expect("legal")
    };
    let quiet = write(EDITION, &Record::no_information(5)).expect("legal");
    let real = State::Real(warning().update);
    let events = [
        (State::Quiet, &quiet),
        (real, &quiet),
        (State::Quiet, &with_update(1)),
        (real, &with_update(1)),
        (real, &with_update(2)),
        (real, &with_update(3)),
        (real, &[0; 26]),
    ]
    .map(|(state, frame)| {
        let number = calls::follow(EDITION.number(), state.number(), frame) >> 8 & 255;
        told(state.follow(EDITION, frame).1, number)
    });
    assert_eq!(declared("gvz_event", "GVZ_EVENT_"), events);
    assert_eq!(defined("GVZ_STATE_QUIET"), "0u");
    assert_eq!(defined("GVZ_STATE_REAL(u)"), "(4u + (u))");
    assert_eq!(defined("GVZ_STATE_TEST(u)"), "(8u + (u))");
    assert_eq!(defined("GVZ_STATE_SAFETY(u)"), "(12u + (u))");
    assert_eq!(defined("GVZ_STATE_SAFETY_TEST(u)"), "(16u + (u))");
    let update = warning().update;
    let states = [
        real,
        State::Test(update),
        State::Safety(update),
        State::SafetyTest(update),
        State::Quiet,
    ];
    assert_eq!(states.map(State::number), [5, 9, 13, 17, 0]);
    assert_eq!(
        states.map(|state| State::from_number(state.number())),
        states
    );
}

#[test]
fn the_reports() {
    let fields = fields(PLACE).expect("an image");
    let cases = [
        Record::no_information(5),
        Record::at_place(warning(), 7, fields, 990),
        Record::cancellation(warning(), 7),
        Record::for_areas(warning(), [15]).expect("0 to 55"),
        safety(SafetyIdentification::AreaSafety),
    ]
    .map(|record| {
        let status = calls::report(EDITION.number(), &record.values(), &mut [0.0; 3]);
        told(report(EDITION, &record).expect("legal"), status >> 8)
    });
    assert_eq!(declared("gvz_report_case", "GVZ_REPORT_"), cases);
}

#[test]
fn the_tuners() {
    let frame = write(EDITION, &Record::no_information(5)).expect("legal");
    let captures: [(&[u8], &[u8]); 3] = [(&[], &[]), (&frame, &[]), (&[], &frame)];
    let sources = captures.map(|(main, spare)| source(EDITION, main, spare, 0));
    assert_eq!(sources, [Tuner::None, Tuner::Main, Tuner::Spare]);
    let tuners = captures.map(|(main, spare)| {
        let number = calls::capture_source(EDITION.number(), main, spare, 0);
        let tuner = source(EDITION, main, spare, 0);
        assert_eq!(tuner.number(), number);
        told(tuner, number)
    });
    assert_eq!(declared("gvz_tuner", "GVZ_TUNER_"), tuners);
    // The reader is told the same numbers, and a record holds them.
    let held = sources.map(|tuner| {
        let record = read(EDITION, tuner, &frame).expect("accepted").record;
        assert_eq!(record.tuner, tuner);
        let number = calls::frame_read(EDITION.number(), tuner.number(), &frame, &mut [0; 21]);
        assert_eq!(number, 0);
        told(record.tuner, record.values()[19] as u32)
    });
    assert_eq!(held, tuners);
}

/// The parts of a status are where the macros take them from.
#[test]
fn the_parts_of_a_status() {
    let mut frame = write(EDITION, &Record::no_information(5)).expect("legal");
    // One of B1 to B16, and B202 and B203.
    frame[0] ^= 0x10;
    frame[25] ^= 0x30;
    assert_eq!(defined("GVZ_REFUSAL(status)"), "((status) & 255u)");
    assert_eq!(defined("GVZ_REPAIRED(status)"), "((status) >> 8 & 255u)");
    assert_eq!(defined("GVZ_SYNC_BITS(status)"), "((status) >> 16 & 255u)");
    assert_eq!(calls::repair(&frame, &mut [0; 26]), 2 << 8);
    assert_eq!(calls::repair_register(&frame, &mut [0; 26]), 2 << 8);
    let mut values = [0; FRAME_VALUES];
    let status = calls::frame_read(EDITION.number(), 1, &frame, &mut values);
    assert_eq!((status, values[19], values[20]), (1 << 16, 1, 2));
    // B201 to B203 doubtful, and B200 hit: the one that is not marked is told.
    let mut marks = [0; FRAME_BYTES];
    marks[25] = 0x70;
    frame[25] ^= 0x80;
    assert_eq!(calls::repair_marked(&frame, &marks, &mut [0; 26]), 1 << 8);
    let judged = calls::frame_judge_marked(&frame, &marks);
    assert_eq!(judged, 1 << 16 | 1 << 8);
    let read =
        |values: &mut [u64]| calls::frame_read_marked(EDITION.number(), 2, &frame, &marks, values);
    assert_eq!(read(&mut values), 1 << 16);
    assert_eq!((values[19], values[20]), (2, 1));
}

/// A place's doubles and the desk's field values stand where the header file says.
#[test]
fn the_places() {
    let expected = Fields {
        south: 1,
        latitude: 356,
        west: 0,
        longitude: 1397,
        depth: 40,
    };
    let mut values = [0; 5];
    assert_eq!(calls::desk(-35.6, 139.7, 40.0, &mut values), 0);
    let desk = declared("gvz_desk_index", "GVZ_DESK_");
    let named = desk
        .iter()
        .map(|(name, i)| (name.clone(), values[*i as usize]));
    assert_eq!(shown(expected), named.collect::<Vec<_>>());
    let record = Record::at_place(warning(), 7, expected, 990);
    let mut doubles = [0.0; 3];
    let status = calls::report(EDITION.number(), &record.values(), &mut doubles);
    assert_eq!(status, 256);
    let place = declared("gvz_place_index", "GVZ_PLACE_");
    let at = |name: &str| {
        let (_, i) = place
            .iter()
            .find(|(declared, _)| declared == name)
            .expect("declared");
        doubles[*i as usize]
    };
    assert_eq!(place.len(), 3);
    assert_eq!(at("LATITUDE"), PLACE.latitude);
    assert_eq!(at("LONGITUDE"), PLACE.longitude);
    assert_eq!(at("DEPTH"), PLACE.depth);
}

/// A ledger's numbers stand where the header file says, and the length of its report is where the macro takes it from.
#[test]
fn the_ledger() {
    let ledger = Ledger::from_values(std::array::from_fn(|i| 100 + i as u64));
    assert_eq!(
        declared("gvz_ledger_index", "GVZ_LEDGER_"),
        [
            ("SEEN", ledger.seen()),
            ("ACCEPTED", ledger.accepted()),
            ("REPAIRED", ledger.repaired())
        ]
        .map(|(name, value)| (name.to_string(), value - 100))
    );
    assert_eq!(defined("GVZ_LEDGER_REFUSED(number)"), "(number)");
    for number in 1..=9 {
        assert_eq!(ledger.refused(number), 100 + u64::from(number));
    }
    assert_eq!(defined("GVZ_LEDGER_LENGTH(status)"), "((status) >> 8)");
    let report = Ledger::new().report().expect("possible");
    let status = calls::ledger_length(&Ledger::new().values());
    assert_eq!(status, 256 * report.len() as u32);
}
