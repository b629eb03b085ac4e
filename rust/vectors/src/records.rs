//! Records that two captures and the desk give.
use crate::frames::{frame, lending};
use crate::receiver::{cut_captures, damaged, hits, pairs};
use crate::{because, by_both, bytes_of, numbers, rows, status, Case, Operation};
use reference::capture;
use reference::frame::VALUES;
use reference::place::{self, DeskWarning, Place};

pub(crate) const OPERATIONS: [Operation; 2] = [
    lending("capture_read", |call| {
        let (main, spare) = call.input.split_at(call.numbers[0] as usize);
        match capture::read(call.edition(), main, spare, call.numbers[1]) {
            Ok((record, differing)) => {
                call.values = record.to_vec();
                65536 * u64::from(differing)
            }
            Err((main, spare)) => status(main, spare),
        }
    }),
    lending("desk_record", |call| {
        let given: [u64; 10] = call.fields[..].try_into().expect("ten numbers");
        let [identification, update, time, total, item, number, occurred, place @ ..] = given;
        let warning = DeskWarning {
            identification,
            update,
            time,
            total,
            item,
            number,
            occurred,
        };
        let [latitude, longitude, depth] = place.map(f64::from_bits);
        let place = Place {
            latitude,
            longitude,
            depth,
        };
        match place::desk_record(call.edition(), warning, place) {
            Ok(record) => {
                call.values = record.to_vec();
                0
            }
            Err(number) => status(number, 0),
        }
    }),
];

pub(crate) fn cases() -> Vec<Case> {
    [
        because(
            "main before spare, captures cut at every part of a frame, frame numbers past them: the record with its tuner, or both numbers",
            by_both(&captures()),
        ),
        because(
            "the record has the repaired places of the frame that was taken, main's with up to eight hits, spare's where main has nine",
            by_both(&repaired()),
        ),
        because(
            "a place page made at the desk: each field at its ends and beyond, each identification, places that are no images",
            by_both(&desks()),
        ),
    ]
    .concat()
}

// ---- captures

fn read(what: impl Into<String>, main: &[u8], spare: &[u8], n: u64) -> Case {
    Case::new("capture_read", what)
        .numbers(&[main.len() as u64, n])
        .input(&[main, spare].concat())
        .values(VALUES)
}

fn captures() -> Vec<Case> {
    let cut = cut_captures().into_iter().map(|(main, spare, n)| {
        let what = format!(
            "captures of {} and {} bytes, frame {n}",
            main.len(),
            spare.len()
        );
        read(what, &main, &spare, n)
    });
    let pair = |(main, spare, what): ([u8; 26], [u8; 26], String)| read(what, &main, &spare, 0);
    cut.chain(pairs().into_iter().chain(damaged()).map(pair))
        .collect()
}

/// So many hits in main's frame, and in spare's alone.
fn repaired() -> Vec<Case> {
    let sent = frame("all areas:");
    let mut cases = vec![];
    for n in 0..=9 {
        let hit = hits(&sent, n);
        let clean = hits(&sent, 0);
        let main = read(format!("main's frame with {n} hits"), &hit, &clean, 0);
        cases.push(match n {
            0 => main.known("document 02, j)", "0 0*19 1 0"),
            8 => main.known("document 02, j)", "0 0*19 1 8"),
            9 => main.known("document 02, j)", "0 0*19 2 0"),
            _ => main,
        });
        let spare = read(format!("spare's frame with {n} hits"), &[0; 26], &hit, 0);
        cases.push(match n {
            8 => spare.known("document 02, j)", "0 0*19 2 8"),
            9 => spare.known("document 02, j)", "403 .."),
            _ => spare,
        });
    }
    cases
}

// ---- the desk

/// What the desk gives beside the place, a place in tenths and kilometres, and what is made of it, `-` where none is on record.
const DESKS: &str = "
a place | 0 1 5 1 0 300 900 | 356 1397 40 | 0 0*3 1 5 1 0 1 0 12c 0*2 164 0 575 28 384 0*4
south and west | 1 2 5 0 1 300 900 | -356 -1397 40 | -
the limits | 3 3 0x7fffffff 1 1 511 1023 | 900 1800 1023 | -
all zero | 0 0 0 0 0 0 0 | 0 0 0 | 0 0*5 1 0*15
update 4 | 0 4 5 0 0 300 900 | 356 1397 40 | a ..
time 2^31 | 0 1 0x80000000 0 0 300 900 | 356 1397 40 | a ..
total 2 | 0 1 5 2 0 300 900 | 356 1397 40 | a ..
item 2 | 0 1 5 0 2 300 900 | 356 1397 40 | a ..
number 512 | 0 1 5 0 0 512 900 | 356 1397 40 | a ..
occurred 1024 | 0 1 5 0 0 300 1024 | 356 1397 40 | a ..
identification 4 | 4 1 5 0 0 300 900 | 356 1397 40 | 6 ..
identification 5 | 5 1 5 0 0 300 900 | 356 1397 40 | -
identification 6 | 6 1 5 0 0 300 900 | 356 1397 40 | -
identification 7 | 7 1 5 0 0 300 900 | 356 1397 40 | a ..
identification 8 | 8 1 5 0 0 300 900 | 356 1397 40 | 6 ..
identification 8 and update 4: 6 before 10 | 8 4 5 0 0 300 900 | 356 1397 40 | 6 ..
latitude 901 | 0 1 5 0 0 300 900 | 901 1397 40 | b ..
longitude 1801 | 0 1 5 0 0 300 900 | 356 1801 40 | b ..
depth 1024 | 0 1 5 0 0 300 900 | 356 1397 1024 | b ..
latitude 901, identification 8, update 4: 11 before 6 and 10 | 8 4 5 0 0 300 900 | 901 1397 40 | b ..
the greatest numbers | 3 0xffffffffffffffff*6 | 356 1397 40 | a ..
";

/// A place's doubles, by their bits: tenths of a degree, negative for south and west, and kilometres.
fn doubles(text: &str) -> Vec<u64> {
    let numbers: Vec<f64> = text
        .split_whitespace()
        .map(|n| n.parse().expect("a number"))
        .collect();
    let [latitude, longitude, depth] = numbers[..] else {
        panic!("no place");
    };
    [latitude / 10.0, longitude / 10.0, depth]
        .map(f64::to_bits)
        .to_vec()
}

fn desk(what: &str, warning: &[u64], place: &[u64]) -> Case {
    Case::new("desk_record", what)
        .input(&bytes_of(&[warning, place].concat()))
        .values(VALUES)
}

fn desks() -> Vec<Case> {
    let warning = [0, 1, 5, 1, 0, 300, 900];
    let table = rows(DESKS).map(|[what, given, place, answer]| {
        let case = desk(what, &numbers(given), &doubles(place));
        match answer {
            "-" => case,
            _ => case.known("document 02, j)", answer),
        }
    });
    // zeros with their signs, doubles beside images, infinities and NaNs, in each of the three
    let odd = [
        (-0.0f64).to_bits(),
        0x3fec_cccc_cccc_cccc,
        0x7ff0_0000_0000_0000,
        0xfff0_0000_0000_0000,
        0x7ff8_0000_0000_0000,
        0xffff_ffff_ffff_ffff,
    ];
    let places = odd.into_iter().flat_map(|bits| {
        (0..3).map(move |i| {
            let mut place = doubles("356 1397 40");
            place[i] = bits;
            desk(&format!("double {i} is {bits:016x}"), &warning, &place)
        })
    });
    table.chain(places).collect()
}
