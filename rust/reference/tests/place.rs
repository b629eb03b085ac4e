//! Degrees, the desk's place and the report.
mod common;
use common::{in_both, record};
use reference::frame::{
    Record, DEPTH, IDENTIFICATION, KIND, LATITUDE, LONGITUDE, PAGE, SOUTH, UPDATE,
};
use reference::place::{self, degrees, fields_of, kilometres, Place, PlaceFields, Report};

/// What both editions report.
fn report(record: &Record) -> Result<Report, u8> {
    in_both(|edition| place::report(edition, record))
}

fn desk(latitude: f64, longitude: f64, depth: f64) -> Result<PlaceFields, u8> {
    fields_of(Place {
        latitude,
        longitude,
        depth,
    })
}

#[test]
fn degrees_are_rounded_once() {
    assert_eq!(degrees(0, 3).to_bits(), 0x3fd3_3333_3333_3333);
    assert_eq!(degrees(1, 0).to_bits(), 0x8000_0000_0000_0000);
    assert_eq!(degrees(0, 0).to_bits(), 0);
    assert_eq!(degrees(1, 3).to_bits(), 0xbfd3_3333_3333_3333);
    for n in 0..=1800 {
        assert_eq!(degrees(0, n) * 10.0, n as f64);
    }
    assert_eq!(
        (0..=1800)
            .filter(|&n| degrees(0, n) != n as f64 * 0.1)
            .count(),
        621
    );
}

#[test]
fn every_image_comes_back() {
    for flag in 0..=1 {
        for n in 0..=1800 {
            let fields = desk(degrees(flag, n.min(900)), degrees(flag, n), 5.0).expect("an image");
            assert_eq!((fields.south, fields.latitude), (flag, n.min(900)));
            assert_eq!((fields.west, fields.longitude), (flag, n));
        }
    }
    for depth in 0..=1023 {
        assert_eq!(
            desk(0.0, 0.0, kilometres(depth)).map(|f| f.depth),
            Ok(depth)
        );
    }
}

#[test]
fn what_is_no_image() {
    let beside = f64::from_bits(0x3fec_cccc_cccc_cccc);
    assert_eq!(beside * 10.0, 9.0);
    for x in [
        beside,
        f64::NAN,
        f64::INFINITY,
        f64::NEG_INFINITY,
        1e308,
        5e-324,
        180.1,
        -180.1,
        0.05,
    ] {
        assert_eq!(desk(x, 0.0, 0.0), Err(11), "latitude {x}");
        assert_eq!(desk(0.0, x, 0.0), Err(11), "longitude {x}");
        assert_eq!(desk(0.0, 0.0, x), Err(11), "depth {x}");
    }
    assert_eq!(desk(90.1, 0.0, 0.0), Err(11));
    assert_eq!(desk(0.0, 90.1, 0.0).map(|f| f.longitude), Ok(901));
    assert_eq!(desk(90.0, 181.0, 10.0), Err(11));
    for depth in [-0.0, 1024.0, 0.5, -1.0] {
        assert_eq!(desk(0.0, 0.0, depth), Err(11), "depth {depth}");
    }
    assert_eq!(desk(0.0, 0.0, 1023.0).map(|f| f.depth), Ok(1023));
}

#[test]
fn signs_are_kept() {
    assert_eq!(desk(-0.0, 0.0, 0.0).map(|f| (f.south, f.west)), Ok((1, 0)));
    assert_eq!(desk(0.0, -0.0, 0.0).map(|f| (f.south, f.west)), Ok((0, 1)));
}

#[test]
fn reports() {
    let place = [
        (PAGE, 1),
        (SOUTH, 1),
        (LATITUDE, 3),
        (LONGITUDE, 1397),
        (DEPTH, 40),
    ];
    match report(&record(&place)) {
        Ok(Report::Place(p)) => {
            assert_eq!(p.latitude.to_bits(), 0xbfd3_3333_3333_3333);
            assert_eq!(p.longitude.to_bits(), 139.7f64.to_bits());
            assert_eq!(p.depth.to_bits(), 40f64.to_bits());
            assert_eq!(
                fields_of(p),
                Ok(PlaceFields {
                    south: 1,
                    latitude: 3,
                    west: 0,
                    longitude: 1397,
                    depth: 40
                })
            );
        }
        other => panic!("{other:?}"),
    }
    let cases: [(&[(usize, u64)], _); 8] = [
        (&[(IDENTIFICATION, 7)], Ok(Report::Nothing)),
        (&[(PAGE, 1), (KIND, 1)], Ok(Report::Cancellation)),
        (&[], Ok(Report::AreasOnly)),
        (&[(IDENTIFICATION, 1)], Ok(Report::AreasOnly)),
        (&[(IDENTIFICATION, 7), (UPDATE, 1)], Err(10)),
        (&[(PAGE, 1), (LATITUDE, 901)], Err(9)),
        (&[(IDENTIFICATION, 4)], Err(6)),
        (&[(LATITUDE, 901)], Err(10)),
    ];
    for (fields, expected) in cases {
        assert_eq!(report(&record(fields)), expected, "{fields:?}");
    }
}
