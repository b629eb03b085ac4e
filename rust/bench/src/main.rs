//! Times the proved version and the plain one on the same inputs, in one run: nanoseconds per call, and how many times as fast the proved
//! one is. The functions that take doubtful marks are also timed beside those without marks, and the program that prints a ledger beside the listing
//! program. Frames are judged by the first edition. The first argument is the number of frames of each sort; of headers there are a tenth, and
//! programs have ten times as many frames. A second argument, `marked` or `ledger`, asks for the rows with marks or those of the ledger alone.
mod ledger;
mod listing;
mod marked;
mod programs;

use gvozdyana::frame::Record;
use gvozdyana::header::Header;
use gvozdyana::{frame, header, place, Edition, Tuner};
use plain::frame::{Edition as PlainEdition, Tuner as PlainTuner};
use reference as plain;
use samples::records::{bodies, Body};
use samples::{doubles, frames, headers, records, sent_and_hit, Random};
use std::hint::black_box;
use std::time::Instant;

/// Calls timed at a stretch. The two versions take turns, and the middle stretch of each counts, so that what else the machine does
/// falls on neither.
const STRETCH: usize = 500;

/// With fewer stretches than this, which slow functions would have, they are shorter.
const STRETCHES: usize = 20;

fn nanoseconds_per_call<T>(inputs: &[T], call: &impl Fn(&T)) -> f64 {
    let start = Instant::now();
    for input in inputs {
        call(black_box(input));
    }
    start.elapsed().as_nanos() as f64 / inputs.len() as f64
}

fn middle(mut times: Vec<f64>) -> f64 {
    times.sort_by(f64::total_cmp);
    times[times.len() / 2]
}

/// The times of two functions on the same inputs, which are made from the row's name.
fn times<T>(
    name: &str,
    count: usize,
    make: impl Fn(&mut Random) -> T,
    first: impl Fn(&T),
    second: impl Fn(&T),
) -> (f64, f64) {
    let mut random = Random::new(name.bytes().map(u64::from).sum());
    let inputs: Vec<T> = (0..count.max(STRETCH)).map(|_| make(&mut random)).collect();
    let (mut first_times, mut second_times) = (Vec::new(), Vec::new());
    for stretch in inputs.chunks_exact(STRETCH.min(inputs.len() / STRETCHES)) {
        first_times.push(nanoseconds_per_call(stretch, &first));
        second_times.push(nanoseconds_per_call(stretch, &second));
    }
    (middle(first_times), middle(second_times))
}

/// Prints the row of a function.
fn row<T>(
    name: &str,
    count: usize,
    make: impl Fn(&mut Random) -> T,
    proved: impl Fn(&T),
    plain: impl Fn(&T),
) {
    let (proved, plain) = times(name, count, make, proved, plain);
    println!(
        "{name:<28} {proved:>12.0} {plain:>12.0} {:>8.2}",
        plain / proved
    );
}

/// A legal record of any body of the first edition.
fn legal_record(random: &mut Random) -> plain::frame::Record {
    records::legal_record(random.pick(bodies(PlainEdition::First)), random)
}

/// The frame of one, hit in so many places.
fn legal_frame(hits: usize, random: &mut Random) -> [u8; 26] {
    let mut frame = frames::written(&legal_record(random));
    frames::hit(&mut frame, hits, random);
    frame
}

fn repair_rows(count: usize) {
    for (name, hits) in [
        ("repair, no hit", 0),
        ("repair, 1 hit", 1),
        ("repair, 4 hits", 4),
        ("repair, 8 hits", 8),
        ("repair, beyond (9)", 9),
    ] {
        row(
            name,
            count,
            |random| sent_and_hit(hits, random).1,
            |frame| {
                black_box(gvozdyana::repair(frame)).ok();
            },
            |frame| {
                black_box(plain::repair(frame)).ok();
            },
        );
    }
}

fn frame_rows(count: usize) {
    for (name, hits) in [("frame read, no hit", 0), ("frame read, 4 hits", 4)] {
        row(
            name,
            count,
            |random| legal_frame(hits, random),
            |bytes| {
                black_box(frame::read(Edition::First, Tuner::Main, bytes)).ok();
            },
            |bytes| {
                black_box(plain::frame::read(
                    PlainEdition::First,
                    PlainTuner::Main,
                    bytes,
                ))
                .ok();
            },
        );
    }
    row(
        "frame write",
        count,
        legal_record,
        |&record| {
            black_box(frame::write(Edition::First, &Record::from_values(record))).ok();
        },
        |record| {
            let mut buffer = [0; 26];
            plain::frame::write(PlainEdition::First, record, &mut buffer);
            black_box(buffer);
        },
    );
}

fn place_rows(count: usize) {
    row(
        "report",
        count,
        |random| records::legal_record(Body::Place, random),
        |&record| {
            black_box(place::report(Edition::First, &Record::from_values(record))).ok();
        },
        |record| {
            black_box(plain::place::report(PlainEdition::First, record)).ok();
        },
    );
    row(
        "desk",
        count,
        |random| {
            [
                doubles::double(random),
                doubles::double(random),
                doubles::depth(random),
            ]
        },
        |&[latitude, longitude, depth]| {
            let place = place::Place {
                latitude,
                longitude,
                depth,
            };
            black_box(place::fields(place)).ok();
        },
        |&[latitude, longitude, depth]| {
            let place = plain::place::Place {
                latitude,
                longitude,
                depth,
            };
            black_box(plain::place::fields_of(place)).ok();
        },
    );
}

fn header_rows(count: usize) {
    let legal = |random: &mut Random| headers::faulty(&[], random).bytes;
    row(
        "header read",
        count,
        legal,
        |bytes| {
            black_box(header::read(bytes)).ok();
        },
        |bytes| {
            black_box(plain::header::read(bytes)).ok();
        },
    );
    row(
        "header write",
        count,
        headers::legal_record,
        |&record| {
            black_box(header::write(&Header::from_values(record))).ok();
        },
        |record| {
            let mut buffer = [0; 188];
            plain::header::write(record, &mut buffer);
            black_box(buffer);
        },
    );
    for (name, hits) in [("lay in, no hit", 0), ("lay in, 4 hits", 4)] {
        row(
            name,
            count,
            |random| (legal(random), legal_frame(hits, random)),
            |(bytes, frame)| {
                let mut bytes = bytes.clone();
                header::lay_in(Edition::First, &mut bytes, frame).ok();
                black_box(bytes);
            },
            |(bytes, frame)| {
                let mut bytes = bytes.clone();
                plain::header::lay_in(PlainEdition::First, &mut bytes, frame);
                black_box(bytes);
            },
        );
    }
    row(
        "take out",
        count,
        legal,
        |bytes| {
            let mut bytes = bytes.clone();
            header::take_out(&mut bytes).ok();
            black_box(bytes);
        },
        |bytes| {
            let mut bytes = bytes.clone();
            plain::header::take_out(&mut bytes);
            black_box(bytes);
        },
    );
}

fn all_rows(count: usize) {
    println!(
        "{:<28} {:>12} {:>12} {:>8}",
        "ns per call", "proved", "plain", "ratio"
    );
    repair_rows(count);
    frame_rows(count);
    place_rows(count);
    header_rows(count / 10);
    listing::rows(10 * count, |random| legal_frame(0, random));
    marked::rows(count);
    ledger::rows(count);
}

fn main() {
    let mut arguments = std::env::args().skip(1);
    let count: usize = arguments.next().map_or(100_000, |n| {
        n.parse().expect("the number of frames of each sort")
    });
    match arguments.next().as_deref() {
        Some("marked") => marked::rows(count),
        Some("ledger") => ledger::rows(count),
        _ => all_rows(count),
    }
}
