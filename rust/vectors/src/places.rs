//! Reports and places.
use crate::frames::{lending, origins, record, record_of};
use crate::{apart, because, by_both, numbers, rows, status, Call, Case, Operation};
use reference::frame::{Edition, Record, DEPTH, IDENTIFICATION, SOUTH, VALUES};
use reference::place::{self, Place, Report};

pub(crate) const OPERATIONS: [Operation; 5] = [
    lending("report", reported),
    lending("desk", |call| {
        let [latitude, longitude, depth] = call.numbers.map(f64::from_bits);
        let place = Place {
            latitude,
            longitude,
            depth,
        };
        match place::fields_of(place) {
            _ if call.values.len() != 5 => status(1, 0),
            Ok(f) => {
                call.values = vec![f.south, f.latitude, f.west, f.longitude, f.depth];
                status(0, 0)
            }
            Err(number) => status(number, 0),
        }
    }),
    lending("degrees", |call| {
        bits_of(place::degrees(call.numbers[0], call.numbers[1]))
    }),
    lending("kilometres", |call| {
        bits_of(place::kilometres(call.numbers[0]))
    }),
    lending("longitudes", longitudes),
];

/// A double's bits, those of one NaN for any.
fn bits_of(x: f64) -> u64 {
    if x.is_nan() {
        0x7ff8_0000_0000_0000
    } else {
        x.to_bits()
    }
}

/// So many of four doubles are lent, and all four are told.
fn reported(call: &mut Call) -> u64 {
    let [before, lent, _] = call.numbers;
    let mut place = [f64::from_bits(before); 4];
    let (status, doubles) = match record_of(&call.fields) {
        Some(record) if lent == 3 => report_status(call.edition(), &record),
        _ => (status(1, 0), vec![]),
    };
    place[..doubles.len()].copy_from_slice(&doubles);
    call.told = place.map(bits_of).to_vec();
    status
}

fn report_status(edition: Edition, record: &Record) -> (u64, Vec<f64>) {
    match place::report(edition, record) {
        Ok(Report::Place(p)) => (status(0, 1), vec![p.latitude, p.longitude, p.depth]),
        Ok(Report::Cancellation) => (status(0, 2), vec![]),
        Ok(Report::AreasOnly) => (status(0, 3), vec![]),
        Ok(Report::Nothing) => (status(0, 0), vec![]),
        Ok(Report::AreaSafety) => (status(0, 4), vec![]),
        Err(number) => (status(number, 0), vec![]),
    }
}

/// The desk's longitudes for the images of tenths with some bits turned over, 2048 for west, 4096 for a refusal; the status is the sum of the images' bits.
fn longitudes(call: &mut Call) -> u64 {
    let [flag, first, turned] = call.numbers;
    let mut sum = 0u64;
    for (i, value) in call.values.iter_mut().enumerate() {
        let image = bits_of(place::degrees(flag, first + i as u64));
        let longitude = f64::from_bits(image ^ turned);
        *value = match place::fields_of(Place {
            latitude: 0.0,
            longitude,
            depth: 0.0,
        }) {
            Ok(f) => f.west << 11 | f.longitude,
            Err(number) => 4096 | u64::from(number),
        };
        sum = sum.wrapping_add(image);
    }
    sum
}

pub(crate) fn cases() -> Vec<Case> {
    [
        because(
            "each case of a report, the limits, and each refusal of a record",
            by_both(&reports()),
        ),
        because(
            "area safety information: a report of its own, its limits, and that any other number is the first edition",
            safety_reports(),
        ),
        because(
            "doubles about every limit, zeros, infinities and NaNs in each of the desk's three; images of numbers",
            places(),
        ),
        because(
            "every longitude's image comes back, and no double beside one is taken",
            sweeps(),
        ),
    ]
    .concat()
}

// ---- reports

/// A place page: identification, south, latitude, west, longitude, depth.
const PLACES: &str = "
a place | 0 0 356 0 1397 40
south and west | 1 1 356 1 1397 40
minus zero twice | 2 1 0 1 0 0
the limits | 3 0 900 0 1800 1023
0.3 and 0.9 degrees | 0 0 3 0 9 1
latitude 901 | 0 0 901 0 1800 1023
longitude 1801 | 0 0 900 0 1801 1023
latitude too wide | 0 0 1024 0 1801 1023
longitude too wide | 0 0 901 0 2048 1023
south 2 | 0 2 0 0 0 0
depth too wide | 0 0 0 0 0 1024
identification 5, before all else | 5 0 901 0 2048 1024
identification 8 | 8 0 0 0 0 0
identification 7 with the fields of a place | 7 0 0 0 0 0
";

fn place_page(text: &str) -> Record {
    let [identification, place @ ..] = &numbers(text)[..] else {
        panic!("no place");
    };
    let mut record = record("0 0 0 3 5 1 0 1 0 300 0 0 0 0 0 0 900 0*2");
    record[IDENTIFICATION] = *identification;
    record[SOUTH..=DEPTH].copy_from_slice(place);
    record
}

/// Other records.
const RECORDS: &str = "
identification 7 with an update | 0 0 7 1 0*15
a cancellation with a latitude | 0 0 0 1 0 1 0*4 1 0 901 0*6
page 2 | 0 0 0 1 0 2 0*13
all areas | 1 1 0 3 5 0*14
one area | 0 0 1 3 5 0 0xfffeffffffffff 0*12
a cancellation | 0 0 3 2 5 1 0 1 1 300 1 0*8
no information | 0 0 7 0*14 2047 0
";

/// Records, and the last digits of the report in the first edition and in that of area safety: those of a status follow the four doubles, which stay.
const SAFETY_RECORDS: &str = "
area safety | 0 0 5 2 1234567890 0*13 0x123456789abcdef | .. 6 | .. 400
area safety test | 1 1 6 1 5 0*13 1 | .. 6 | .. 400
identification 5, all else zero | 0*2 5 0*16 | .. 6 | .. 400
identification 5, region 2^57 - 1 | 0*2 5 0*15 0x1ffffffffffffff | .. 6 | .. 400
identification 5, region 2^57 | 0*2 5 0*15 0x200000000000000 | .. 6 | .. a
identification 5 with page 1 | 0*2 5 0*2 1 0*13 | .. 6 | .. a
identification 6 with kind 1 | 0*2 6 0*7 1 0*8 | .. 6 | .. a
identification 0 with region 1 | 0*18 1 | .. a | .. a
identification 7 with region 1 | 0*2 7 0*15 1 | .. a | .. a
identification 4 | 0*2 4 0*16 | .. 6 | .. 6
";

/// So many doubles that hold a number are lent.
fn report(what: &str, fields: &[u64], before: f64, n: u64) -> Case {
    let numbers = [before.to_bits(), n];
    Case::new("report", what).fields(fields).numbers(&numbers)
}

fn safety_reports() -> Vec<Case> {
    let each = |[what, fields, first, safety]: [&'static str; 4]| {
        apart(report(what, &record(fields), 12.5, 3), first, safety)
    };
    rows(SAFETY_RECORDS).flat_map(each).collect()
}

fn reports() -> Vec<Case> {
    let case = |what: &str, fields: &[u64]| report(what, fields, 12.5, 3);
    let pages = rows(PLACES).map(|[what, page]| case(what, &place_page(page)));
    let others = rows(RECORDS).map(|[what, fields]| case(what, &record(fields)));
    let mut cases: Vec<Case> = pages.chain(others).collect();
    let place = place_page("0 0 356 0 1397 40");
    for n in [0, 2, 4] {
        cases.push(report(&format!("a place of {n} doubles"), &place, 12.5, n));
    }
    for n in [0, 19, 20, 22] {
        cases.push(case(&format!("a record of {n} numbers"), &vec![0; n]));
    }
    // where a record came from does not matter
    cases.extend(origins(&place).map(|(what, record)| case(&format!("a place{what}"), &record)));
    cases.push(report(
        "all areas: a lent NaN stays one",
        &[0; VALUES],
        f64::NAN,
        3,
    ));
    cases
}

// ---- places

/// Zeros, subnormals, the largest, infinities, NaNs; images, their neighbours and numbers near the limits.
const PATTERNS: &str = "
0x0000000000000000 0x8000000000000000 0x0000000000000001 0x8000000000000001 0x0010000000000000
0x7fe1ccf385ebc8a0 0xffe1ccf385ebc8a0 0x7fefffffffffffff 0x7ff0000000000000 0xfff0000000000000
0x7ff8000000000000 0x7ff0000000000001 0x7fffffffffffffff 0xfff8000000000000 0xfff4000000000000
0xffffffffffffffff 0x3fb999999999999a 0xbfb999999999999a 0x3fd3333333333333 0x3fd3333333333334
0x3feccccccccccccc 0x3feccccccccccccd 0xbfeccccccccccccc 0x3fe0000000000000 0xbfe0000000000000
0x3fa999999999999a 0x3fc3333333333333 0x3ff0000000000000 0xbff0000000000000 0x4041cccccccccccd
0x4061766666666666 0x4056800000000000 0xc056800000000000 0x4056866666666666 0xc056866666666666
0x4066800000000000 0xc066800000000000 0x4066833333333333 0xc066833333333333 0x4056800000000001
0x40667fffffffffff 0x408c200000000000 0x408ff80000000000 0x408ffc0000000000 0x4090000000000000
0xc08ff80000000000 0x409c200000000000 0x43f0000000000000 0xc3f0000000000000 0x40b9998000000000
0x40efffe000000000
";

/// Tenths, with the flag 0 and with the flag 1.
const TENTHS: [&str; 2] = [
    "0 1 3 9 356 1397 900 901 1800 1801 18446744073709551615",
    "0 1 3 900 1800",
];

const KILOMETRES: [u64; 7] = [0, 1, 40, 1023, 1024, 9007199254740993, u64::MAX];

fn places() -> Vec<Case> {
    let mut cases = vec![];
    for bits in numbers(PATTERNS) {
        let x = f64::from_bits(bits);
        for (i, name) in ["latitude", "longitude", "depth"].into_iter().enumerate() {
            let mut numbers = [0; 3];
            numbers[i] = bits;
            cases.push(
                Case::new("desk", format!("{name} {bits:016x}, {x:e}"))
                    .numbers(&numbers)
                    .values(5),
            );
        }
    }
    for n in [0, 4, 6] {
        cases.push(Case::new("desk", format!("{n} fields")).values(n));
    }
    let image = |flag: u64, tenths: u64| {
        Case::new("degrees", format!("flag {flag}, {tenths} tenths")).numbers(&[flag, tenths])
    };
    for (flag, tenths) in (0..).zip(TENTHS) {
        cases.extend(numbers(tenths).into_iter().map(|n| image(flag, n)));
    }
    cases.push(image(2, 5));
    cases.push(image(0, 3).known("0.3 rounded once", "3fd3333333333333"));
    cases.push(image(1, 0).known("document 01: minus zero", "8000000000000000"));
    cases.extend(KILOMETRES.map(|km| Case::new("kilometres", format!("{km}")).numbers(&[km])));
    cases
}

/// Every longitude and the double beside it, with each flag.
fn sweeps() -> Vec<Case> {
    let mut cases = vec![];
    for (turned, what) in [
        (0, "the images of"),
        (1, "the doubles beside the images of"),
    ] {
        for flag in [0, 1] {
            for first in (0..1801).step_by(500) {
                let n = (1801 - first).min(500);
                let what = format!("{what} {first} to {} tenths, flag {flag}", first + n - 1);
                cases.push(
                    Case::new("longitudes", what)
                        .numbers(&[flag, first, turned])
                        .lent(&vec![0; 8 * n as usize]),
                );
            }
        }
    }
    cases
}
