//! Records made of what is meant: what they hold, that the writer takes them exactly where the numbers fit, and what is read of them, in both
//! editions.
mod common;
use common::{for_each_seed, EDITIONS, TUNERS};
use gvozdyana::follower::{Event, State, Update};
use gvozdyana::frame::{
    read, write, Identification, Record, Safety, SafetyIdentification, Warning, AREAS,
};
use gvozdyana::place::{self, Fields, Report};
use gvozdyana::{Edition, Refusal, Tuner};
use reference::frame as plain;
use samples::Random;

const IDENTIFICATIONS: [Identification; 4] = [
    Identification::WarningWithArea,
    Identification::WarningWithoutArea,
    Identification::TestWithArea,
    Identification::TestWithoutArea,
];

fn warning(random: &mut Random) -> Warning {
    Warning {
        identification: random.pick(&IDENTIFICATIONS),
        update: Update::new(random.below(4) as u8).expect("0 to 3"),
        time: random.up_to((1 << 31) - 1),
    }
}

fn place(random: &mut Random) -> Fields {
    Fields {
        south: random.up_to(1),
        latitude: random.up_to(900),
        west: random.up_to(1),
        longitude: random.up_to(1800),
        depth: random.up_to(1023),
    }
}

/// The record has these values and 0 elsewhere, is written as the plain version writes it, and is read back, as the tuner's that is told; then the
/// event of its frame.
fn expect_by(
    (edition, plain_edition): (Edition, plain::Edition),
    record: Record,
    fields: &[(usize, u64)],
) -> (State, Event) {
    assert_eq!((record.tuner, record.repaired), (Tuner::None, 0));
    let mut values = [0; plain::VALUES];
    for &(field, value) in fields {
        values[field] = value;
    }
    assert_eq!(record.values(), values);
    let mut expected = [0; 26];
    let number = plain::write(plain_edition, &values, &mut expected);
    assert_eq!(number, 0, "{record:?}");
    assert_eq!(write(edition, &record), Ok(expected));
    for (tuner, _) in TUNERS {
        let again = read(edition, tuner, &expected).map(|reading| reading.record);
        assert_eq!(again, Ok(Record { tuner, ..record }));
    }
    State::Quiet.follow(edition, &expected)
}

/// The same in both editions, which say the same.
fn expect(record: Record, fields: &[(usize, u64)]) -> (State, Event) {
    let [first, safety] = EDITIONS.map(|editions| expect_by(editions, record, fields));
    assert_eq!(first, safety, "{record:?}");
    first
}

/// Both editions report the same.
fn report(record: &Record) -> Result<Report, Refusal> {
    let [first, safety] = EDITIONS.map(|(edition, _)| place::report(edition, record));
    assert_eq!(first, safety, "{record:?}");
    first
}

/// Both editions refuse to write it for the same.
fn refused(record: &Record) -> Option<Refusal> {
    let [first, safety] = EDITIONS.map(|(edition, _)| write(edition, record).err());
    assert_eq!(first, safety, "{record:?}");
    first
}

/// The fields that every warning has, on this page.
fn head(warning: Warning, page: u64) -> [(usize, u64); 4] {
    [
        (plain::IDENTIFICATION, warning.identification as u64),
        (plain::UPDATE, warning.update.number().into()),
        (plain::TIME, warning.time),
        (plain::PAGE, page),
    ]
}

/// What a warning or a test makes of quiet.
fn begun(warning: Warning) -> (State, Event) {
    let state = match warning.identification as u8 {
        0 | 1 => State::Real(warning.update),
        _ => State::Test(warning.update),
    };
    (state, Event::Begins)
}

#[test]
fn no_information() {
    for broadcaster in 0..=2047 {
        let record = Record::no_information(broadcaster);
        let fields = [
            (plain::IDENTIFICATION, 7),
            (plain::BROADCASTER, broadcaster),
        ];
        assert_eq!(expect(record, &fields), (State::Quiet, Event::Quiet));
        assert_eq!(report(&record), Ok(Report::Nothing));
        assert_eq!(record.warned_areas().count(), 0);
    }
    for broadcaster in [2048, u64::MAX] {
        let record = Record::no_information(broadcaster);
        assert_eq!(refused(&record), Some(Refusal::Field));
    }
}

#[test]
fn areas() {
    for_each_seed(61, 5000, |random, case| {
        let warning = warning(random);
        let chosen = random.number() & random.number() | random.number();
        let areas = || (0..AREAS).filter(move |area| chosen >> area & 1 == 1);
        let record = Record::for_areas(warning, areas()).expect("0 to 55");
        assert!(record.warned_areas().eq(areas()), "{record:?}, {case}");
        let mut fields = head(warning, 0).to_vec();
        fields.push((plain::AREAS, record.areas));
        assert_eq!(expect(record, &fields), begun(warning), "{case}");
        assert_eq!(report(&record), Ok(Report::AreasOnly), "{case}");
        // Their order does not count, and nor does naming one twice.
        let again = Vec::from_iter(areas().chain(areas())).into_iter().rev();
        assert_eq!(Record::for_areas(warning, again), Some(record), "{case}");
        let past = random.pick(&[56, 57, 63, 64, 119, 1 << 32, u64::MAX]);
        let with_past = areas().chain([past]);
        assert_eq!(Record::for_areas(warning, with_past), None, "{case}");
    });
}

#[test]
fn every_area_and_none() {
    for_each_seed(62, 20, |random, _| {
        let warning = warning(random);
        let all = Record::for_areas(warning, 0..AREAS).expect("0 to 55");
        assert_eq!((all.areas, all.warned_areas().count()), (0, 56));
        let none = Record::for_areas(warning, []).expect("no area");
        assert_eq!(
            (none.areas, none.warned_areas().count()),
            ((1 << 56) - 1, 0)
        );
    });
}

#[test]
fn places() {
    for_each_seed(63, 5000, |random, case| {
        let (warning, place) = (warning(random), place(random));
        let (number, occurred) = (random.up_to(511), random.up_to(1023));
        let record = Record::at_place(warning, number, place, occurred);
        let mut fields = head(warning, 1).to_vec();
        fields.extend([
            (plain::NUMBER, number),
            (plain::SOUTH, place.south),
            (plain::LATITUDE, place.latitude),
            (plain::WEST, place.west),
            (plain::LONGITUDE, place.longitude),
            (plain::DEPTH, place.depth),
            (plain::OCCURRED, occurred),
        ]);
        assert_eq!(expect(record, &fields), begun(warning), "{case}");
        assert!(
            matches!(report(&record), Ok(Report::Place(_))),
            "{record:?}"
        );
        assert_eq!(record.warned_areas().count(), 0, "{case}");
        let mut over = place;
        over.latitude = 901;
        let record = Record::at_place(warning, number, over, occurred);
        assert_eq!(refused(&record), Some(Refusal::OverLimit), "{case}");
    });
}

#[test]
fn cancellations() {
    for_each_seed(64, 5000, |random, case| {
        let (warning, number) = (warning(random), random.up_to(511));
        let record = Record::cancellation(warning, number);
        let mut fields = head(warning, 1).to_vec();
        fields.extend([(plain::NUMBER, number), (plain::KIND, 1)]);
        assert_eq!(expect(record, &fields), begun(warning), "{case}");
        assert_eq!(report(&record), Ok(Report::Cancellation), "{case}");
        assert_eq!(record.warned_areas().count(), 0, "{case}");
        let wide = Record::cancellation(warning, 512);
        assert_eq!(refused(&wide), Some(Refusal::Field), "{case}");
        let late = Warning {
            time: 1 << 31,
            ..warning
        };
        let record = Record::cancellation(late, number);
        assert_eq!(refused(&record), Some(Refusal::Field), "{case}");
    });
}

/// Area safety information and its test, which the first edition does not have.
#[test]
fn area_safety() {
    use SafetyIdentification::{AreaSafety, AreaSafetyTest};
    let [(first, _), editions] = EDITIONS;
    for_each_seed(65, 5000, |random, case| {
        let safety = Safety {
            identification: random.pick(&[AreaSafety, AreaSafetyTest]),
            update: Update::new(random.below(4) as u8).expect("0 to 3"),
            time: random.up_to((1 << 31) - 1),
        };
        let region = random.up_to((1 << 57) - 1);
        let record = Record::area_safety(safety, region);
        let fields = [
            (plain::IDENTIFICATION, safety.identification as u64),
            (plain::UPDATE, safety.update.number().into()),
            (plain::TIME, safety.time),
            (plain::REGION, region),
        ];
        let state = match safety.identification {
            AreaSafety => State::Safety(safety.update),
            AreaSafetyTest => State::SafetyTest(safety.update),
        };
        let followed = expect_by(editions, record, &fields);
        assert_eq!(followed, (state, Event::Begins), "{case}");
        let report = |edition, record| place::report(edition, record);
        assert_eq!(
            report(editions.0, &record),
            Ok(Report::AreaSafety),
            "{case}"
        );
        let undefined = Refusal::Identification;
        assert_eq!(report(first, &record), Err(undefined), "{case}");
        assert_eq!(write(first, &record), Err(undefined), "{case}");
        assert_eq!(record.warned_areas().count(), 0, "{case}");
        for wide in [
            Record::area_safety(safety, region | 1 << 57),
            Record {
                time: 1 << 31,
                ..record
            },
        ] {
            assert_eq!(write(editions.0, &wide), Err(Refusal::Field), "{case}");
            assert_eq!(write(first, &wide), Err(undefined), "{case}");
        }
    });
}
