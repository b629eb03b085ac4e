//! What the making of a desk's warning and place says of its record in each edition, held to the plain version; and that every case is reached.
use reference::frame::Edition::{AreaSafety, First};
use reference::frame::{record_refusal, Edition, Record, EDITIONS, REPAIRED, TUNER};
use reference::place::{desk_record, fields_of, report, DeskWarning, Place, Report};
use samples::desks::{desk, desks, Desk, Expected, GIVEN, PLACE};
use samples::records::WIDTHS;
use samples::Random;

/// The plain version answers as the making says, where it says anything.
fn agree(sample: &Desk) {
    for edition in EDITIONS {
        let answer = desk_record(edition, sample.warning, sample.place);
        let expected = match sample.expected(edition) {
            Expected::Made(record) => Ok(record),
            Expected::Refused(number) => Err(number),
            Expected::Open => continue,
        };
        assert_eq!(answer, expected, "{edition:?} {sample:?}");
        if let Ok(record) = expected {
            is_desk_record(edition, &record, sample.place);
        }
    }
}

fn bits(place: Place) -> [u64; 3] {
    [place.latitude, place.longitude, place.depth].map(f64::to_bits)
}

/// A legal record of no tuner and without repaired places, whose report is the place.
fn is_desk_record(edition: Edition, record: &Record, place: Place) {
    assert_eq!(record_refusal(edition, record), 0);
    assert_eq!((record[TUNER], record[REPAIRED]), (0, 0));
    match report(edition, record) {
        Ok(Report::Place(reported)) => assert_eq!(bits(reported), bits(place)),
        other => panic!("{other:?}"),
    }
}

/// The given fields, in the order of `GIVEN`.
fn given(warning: &DeskWarning) -> [u64; 7] {
    let DeskWarning {
        identification,
        update,
        time,
        total,
        item,
        number,
        occurred,
    } = *warning;
    [identification, update, time, total, item, number, occurred]
}

/// The refusal's number, 0 for a record; none where nothing is said.
fn number(sample: &Desk, edition: Edition) -> Option<u8> {
    match sample.expected(edition) {
        Expected::Made(_) => Some(0),
        Expected::Refused(number) => Some(number),
        Expected::Open => None,
    }
}

/// In how many of the samples the editions give these numbers.
fn count(samples: &[Desk], first: u8, area_safety: u8, which: &dyn Fn(&Desk) -> bool) -> usize {
    let same = |sample: &&Desk| {
        number(sample, First) == Some(first)
            && number(sample, AreaSafety) == Some(area_safety)
            && which(sample)
    };
    samples.iter().filter(same).count()
}

fn many(seed: u64) -> Vec<Desk> {
    let mut random = Random::new(seed);
    (0..5_000).map(|_| desk(&mut random)).collect()
}

#[test]
fn desks_of_all_sorts() {
    many(1).iter().for_each(agree);
    desks(&mut Random::new(2)).iter().for_each(agree);
}

/// All pairs of numbers that the editions can give are among both, and no others.
#[test]
fn every_pair_of_numbers() {
    for samples in [many(3), desks(&mut Random::new(4))] {
        for first in 0..=11 {
            for area_safety in 0..=11 {
                let pairs = [(0, 0), (6, 6), (6, 10), (10, 10), (11, 11)];
                let possible = pairs.contains(&(first, area_safety));
                let found = count(&samples, first, area_safety, &|_| true);
                assert_eq!(found >= 20, possible, "{first} and {area_safety}");
                assert!(possible || found == 0);
            }
        }
    }
}

/// Each given field at 0 and at its greatest value in a record that is made, and one above it in one that is refused.
#[test]
fn the_ends_of_each_given_field() {
    for samples in [many(5), desks(&mut Random::new(6))] {
        for (i, field) in GIVEN.into_iter().enumerate() {
            let past = 1u64 << WIDTHS[field];
            let holds = |value| move |sample: &Desk| given(&sample.warning)[i] == value;
            // Identification 3 is the greatest with a place; 8 is no identification.
            let last = if i == 0 { 3 } else { past - 1 };
            let refused = if i == 0 { 6 } else { 10 };
            assert!(count(&samples, 0, 0, &holds(0)) >= 4, "field {field}");
            assert!(count(&samples, 0, 0, &holds(last)) >= 4, "field {field}");
            assert!(
                count(&samples, refused, refused, &holds(past)) >= 4,
                "field {field}"
            );
            assert!(
                count(&samples, refused, refused, &holds(u64::MAX)) >= 1,
                "field {field}"
            );
            // 11 comes before either.
            assert!(count(&samples, 11, 11, &holds(past)) >= 4, "field {field}");
        }
        for (identification, first, area_safety) in
            [(4, 6, 6), (5, 6, 10), (6, 6, 10), (7, 10, 10), (8, 6, 6)]
        {
            let same = |sample: &Desk| sample.warning.identification == identification;
            assert!(count(&samples, first, area_safety, &same) >= 10);
            assert!(count(&samples, 11, 11, &same) >= 10);
        }
    }
}

/// The fields of a place at their ends in records that are made, minus zero among them.
#[test]
fn the_ends_of_each_field_of_the_place() {
    for samples in [many(7), desks(&mut Random::new(8))] {
        for (field, last) in PLACE {
            for value in [0, last] {
                let same = |sample: &Desk| matches!(sample.expected(First), Expected::Made(record) if record[field] == value);
                assert!(count(&samples, 0, 0, &same) >= 4, "field {field}");
            }
        }
        for zero in [0.0f64, -0.0] {
            let latitude = |sample: &Desk| sample.place.latitude.to_bits() == zero.to_bits();
            let longitude = |sample: &Desk| sample.place.longitude.to_bits() == zero.to_bits();
            assert!(count(&samples, 0, 0, &latitude) >= 2);
            assert!(count(&samples, 0, 0, &longitude) >= 2);
        }
    }
}

/// Doubles that are no image, in each of the three: beyond the limit, beside an image, infinite and NaN; and a depth of minus zero.
#[test]
fn every_double_that_is_no_image() {
    for samples in [many(9), desks(&mut Random::new(10))] {
        let has = |which: &dyn Fn(&Place) -> bool| {
            count(&samples, 11, 11, &|sample| which(&sample.place)) > 0
        };
        assert!(has(&|p| p.latitude == 90.1) && has(&|p| p.latitude == -90.1));
        assert!(has(&|p| p.longitude == 180.1) && has(&|p| p.longitude == -180.1));
        assert!(has(&|p| p.depth == 1024.0) && has(&|p| p.depth.to_bits() == (-0.0f64).to_bits()));
        for double in [
            |p: &Place| p.latitude,
            |p: &Place| p.longitude,
            |p: &Place| p.depth,
        ] {
            assert!(has(&|p| double(p).is_nan()));
            assert!(has(&|p| double(p).is_infinite()));
            assert!(has(&|p| double(p).is_finite()
                && double(p).abs() < 1e-300
                && double(p) != 0.0));
        }
    }
}

/// Places of any doubles, of which nothing is said, are both images and not.
#[test]
fn places_of_any_doubles() {
    let samples = many(11);
    let open: Vec<&Desk> = samples
        .iter()
        .filter(|sample| number(sample, First).is_none())
        .collect();
    let images = open
        .iter()
        .filter(|sample| fields_of(sample.place).is_ok())
        .count();
    assert!(images > 20 && open.len() > images + 200);
}
