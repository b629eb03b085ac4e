//! Reports of records, in both editions, and the desk's places, by the proved version and by the plain one; doubles are compared by their bits.
mod common;
use common::{edition_number, edition_of, for_each_seed, frames, length, numbers, EDITIONS};
use gvozdyana::calls;
use gvozdyana::frame::Record;
use gvozdyana::place::{fields, report, Fields, Place, Report};
use gvozdyana::Refusal;
use reference::frame::VALUES;
use reference::place as plain;
use samples::doubles::{depth, double, SPECIAL};
use samples::records::{legal_record, record, Body, BODIES};

/// The proved desk's status and buffer, of `fields_len` values that hold 7, are the plain version's; then its number.
fn desk(place: [f64; 3], fields_len: usize) -> u8 {
    let [latitude, longitude, depth] = place;
    let what = || format!("{:x?}, fields of {fields_len}", place.map(f64::to_bits));
    let mut left = vec![7; fields_len];
    let mut expected = left.clone();
    let status = calls::desk(latitude, longitude, depth, &mut left);
    let answer = match fields_len {
        5 => plain::fields_of(plain::Place {
            latitude,
            longitude,
            depth,
        }),
        _ => Err(1),
    };
    if let Ok(f) = answer {
        expected = vec![f.south, f.latitude, f.west, f.longitude, f.depth];
    }
    let number = answer.err().unwrap_or(0);
    assert_eq!(status, u32::from(number), "{}", what());
    assert_eq!(left, expected, "{}", what());
    number
}

/// The double in each of the three places, with zeros beside it.
fn in_each_place(x: f64) -> [u8; 3] {
    [[x, 0.0, 0.0], [0.0, x, 0.0], [0.0, 0.0, x]].map(|place| desk(place, 5))
}

#[test]
fn every_image_and_the_doubles_beside_it() {
    let (mut latitudes, mut longitudes) = (0, 0);
    for (flag, tenths) in (0..=1).flat_map(|flag| (0..=2100).map(move |tenths| (flag, tenths))) {
        let image = plain::degrees(flag, tenths);
        for distance in -2..=2 {
            let bits = image.to_bits().wrapping_add_signed(distance);
            let [latitude, longitude, _] = in_each_place(f64::from_bits(bits));
            latitudes += u32::from(latitude == 0);
            longitudes += u32::from(longitude == 0);
            if distance == 0 {
                assert_eq!(latitude == 0, tenths <= 900, "{flag} {tenths}");
                assert_eq!(longitude == 0, tenths <= 1800, "{flag} {tenths}");
            }
        }
    }
    // No double beside an image is one.
    assert_eq!((latitudes, longitudes), (2 * 901, 2 * 1801));
}

#[test]
fn every_depth_and_the_doubles_beside_it() {
    for kilometres in 0..=1100 {
        let image = kilometres as f64;
        for distance in -2..=2 {
            let bits = image.to_bits().wrapping_add_signed(distance);
            let number = desk([0.0, 0.0, f64::from_bits(bits)], 5);
            let taken = distance == 0 && kilometres <= 1023;
            assert_eq!(number == 0, taken, "{kilometres} {distance}");
        }
    }
}

#[test]
fn special_doubles() {
    for bits in SPECIAL {
        in_each_place(f64::from_bits(bits));
    }
}

#[test]
fn nan_of_every_sort_is_refused() {
    for_each_seed(21, 20_000, |random, case| {
        let payload = (random.number() >> random.below(64)).max(1) & 0x000F_FFFF_FFFF_FFFF;
        let sign = random.up_to(1) << 63;
        let x = f64::from_bits(sign | 0x7FF0_0000_0000_0000 | payload.max(1));
        assert!(x.is_nan());
        assert_eq!(in_each_place(x), [11; 3], "{case}");
    });
}

#[test]
fn places_of_all_sorts() {
    let mut seen = [0; 16];
    for_each_seed(22, frames() / 5, |random, _| {
        let place = [double(random), double(random), depth(random)];
        let fields_len = length(5, random);
        seen[usize::from(desk(place, fields_len))] += 1;
    });
    println!("converted and refused 1, 11: {seen:?}");
    for number in 0..16 {
        let occurs = [0, 1, 11].contains(&number);
        assert_eq!(seen[number] > 0, occurs, "{number}: {seen:?}");
    }
}

#[test]
fn reports_of_all_sorts() {
    let mut seen = [[0; 16]; 2];
    for_each_seed(23, frames() / 2, |random, case| {
        let edition = edition_number(random);
        let (typed_edition, plain_edition) = edition_of(edition);
        let values = record(random);
        let (record_len, place_len) = (length(VALUES, random), length(3, random));
        let mut given = values.to_vec();
        given.resize(2 * VALUES + 2, 0);
        let before: Vec<f64> = numbers(place_len, random)
            .into_iter()
            .map(f64::from_bits)
            .collect();
        let mut left = before.clone();
        let status = calls::report(edition, &given[..record_len], &mut left);
        let answer = match (record_len, place_len) {
            (VALUES, 3) => plain::report(plain_edition, &values),
            _ => Err(1),
        };
        let mut expected = before;
        let expected_status = match answer {
            Ok(plain::Report::Nothing) => 0,
            Ok(plain::Report::Place(place)) => {
                expected = vec![place.latitude, place.longitude, place.depth];
                256
            }
            Ok(plain::Report::Cancellation) => 512,
            Ok(plain::Report::AreasOnly) => 768,
            Ok(plain::Report::AreaSafety) => 1024,
            Err(number) => u32::from(number),
        };
        let what = || {
            format!("edition {edition}, record {values:?} of {record_len}, place of {place_len}, {case}")
        };
        assert_eq!(status, expected_status, "{}", what());
        let bits = |doubles: &[f64]| doubles.iter().map(|x| x.to_bits()).collect::<Vec<u64>>();
        assert_eq!(bits(&left), bits(&expected), "{}", what());
        seen[typed_edition as usize][(status & 255) as usize] += 1;
    });
    println!("reported and refused 1, 6, 9, 10: {seen:?}");
    for (seen, number) in seen.iter().flat_map(|seen| (0..16).map(move |n| (seen, n))) {
        let occurs = [0, 1, 6, 9, 10].contains(&number);
        assert_eq!(seen[number] > 0, occurs, "{number}: {seen:?}");
    }
}

#[test]
fn places_come_back() {
    for_each_seed(24, frames() / 5, |random, case| {
        let record = Record::from_values(legal_record(Body::Place, random));
        let (edition, _) = random.pick(&EDITIONS);
        let Ok(Report::Place(place)) = report(edition, &record) else {
            panic!("{record:?}, {case}");
        };
        let expected = Fields {
            south: record.south,
            latitude: record.latitude,
            west: record.west,
            longitude: record.longitude,
            depth: record.depth,
        };
        assert_eq!(fields(place), Ok(expected), "{case}");
        let other = Place {
            depth: place.depth + 0.5,
            ..place
        };
        assert_eq!(fields(other), Err(Refusal::NoImage), "{case}");
    });
}

/// The case with types is the plain version's, in both editions.
#[test]
fn reports_of_every_body() {
    for_each_seed(27, frames() / 50, |random, case| {
        let values = legal_record(random.pick(&BODIES), random);
        let record = Record::from_values(values);
        for (edition, plain_edition) in EDITIONS {
            let place = |p: plain::Place| Place {
                latitude: p.latitude,
                longitude: p.longitude,
                depth: p.depth,
            };
            let expected = plain::report(plain_edition, &values).map(|report| match report {
                plain::Report::Nothing => Report::Nothing,
                plain::Report::Place(p) => Report::Place(place(p)),
                plain::Report::Cancellation => Report::Cancellation,
                plain::Report::AreasOnly => Report::AreasOnly,
                plain::Report::AreaSafety => Report::AreaSafety,
            });
            let answer = report(edition, &record).map_err(Refusal::number);
            assert_eq!(answer, expected, "{edition:?}, {record:?}, {case}");
        }
    });
}
