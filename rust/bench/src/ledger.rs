//! The day's ledger: the program that prints it beside the listing program on the same input, and its functions beside the plain version.
use crate::programs::{is_built, Input};
use crate::{legal_frame, middle, row};
use gvozdyana::ledger::Ledger;
use gvozdyana::Edition;
use reference::frame::Edition as PlainEdition;
use reference::ledger as plain;
use samples::ledgers::{form, possible_ledger, Numbers};
use samples::{frames, Random};
use std::hint::black_box;

/// The two programs; the second stops after frame 999,999.
const PROGRAMS: [&str; 2] = ["print_ledger", "list_frames"];

/// How often each is run. They take turns, each first in every other one. Of the times the middle run of each counts, and of the ratios that of the
/// middle turn: what else the machine does lasts longer than a turn, and so falls on both runs of it.
const TURNS: usize = 31;

/// Makes the frames of a row.
type Make = fn(&mut Random) -> [u8; 26];

/// A legal frame with 0 to 12 hits, or 26 bytes of any sort of frame.
fn mixed(random: &mut Random) -> [u8; 26] {
    if random.below(2) == 0 {
        return legal_frame(random.below(13), random);
    }
    let mut bytes = frames::frame(random).bytes;
    bytes.resize(26, 0);
    bytes.try_into().expect("26 bytes")
}

const SORTS: [(&str, Make); 3] = [
    ("no hit", |random| legal_frame(0, random)),
    ("4 hits", |random| legal_frame(4, random)),
    ("a mix", mixed),
];

/// A turn: the nanoseconds of both programs.
fn run_both(input: &Input, turn: usize) -> [f64; 2] {
    let mut times = [0.0; 2];
    for which in [turn % 2, 1 - turn % 2] {
        times[which] = input.nanoseconds(PROGRAMS[which]);
    }
    times
}

/// The two programs on an input of so many frames: nanoseconds a frame, and how many times as long the first takes.
fn program_rows(count: usize) {
    println!("a ledger's report beside a listing, of {count} frames");
    let [first, second] = PROGRAMS;
    println!(
        "{:<28} {first:>12} {second:>12} {:>8}",
        "ns a frame", "ratio"
    );
    for (name, make) in SORTS {
        let mut random = Random::new(10);
        let frames: Vec<u8> = (0..count).flat_map(|_| make(&mut random)).collect();
        let input = Input::new(&frames);
        let turns: Vec<[f64; 2]> = (0..TURNS).map(|turn| run_both(&input, turn)).collect();
        let of_turns = |what: &dyn Fn(&[f64; 2]) -> f64| middle(turns.iter().map(what).collect());
        let [ledger, listing] = [0, 1].map(|which| of_turns(&|times| times[which] / count as f64));
        let ratio = of_turns(&|times| times[0] / times[1]);
        println!("{name:<28} {ledger:>12.1} {listing:>12.1} {ratio:>8.3}");
    }
}

fn count_rows(count: usize) {
    for (name, hits) in [("ledger count, no hit", 0), ("ledger count, 4 hits", 4)] {
        row(
            name,
            count,
            |random| (possible_ledger(random), legal_frame(hits, random)),
            |(numbers, bytes)| {
                let mut ledger = Ledger::from_values(*numbers);
                ledger.count(Edition::First, bytes).ok();
                black_box(ledger);
            },
            |(numbers, bytes)| {
                let ledger = plain::Ledger::from_numbers(*numbers);
                black_box(plain::count(PlainEdition::First, ledger, bytes)).ok();
            },
        );
    }
}

fn report_rows(count: usize) {
    row(
        "ledger report",
        count,
        possible_ledger,
        |&numbers: &Numbers| {
            black_box(Ledger::from_values(numbers).report()).ok();
        },
        |&numbers| {
            black_box(plain::report(plain::Ledger::from_numbers(numbers))).ok();
        },
    );
    row(
        "ledger parse",
        count,
        |random| form(&possible_ledger(random)),
        |text| {
            black_box(Ledger::parse(text)).ok();
        },
        |text| {
            black_box(plain::parse(text)).ok();
        },
    );
}

/// The rows of so many frames a function, and ten times as many a program.
pub fn rows(count: usize) {
    println!("\nthe day's ledger, beside the plain version");
    println!(
        "{:<28} {:>12} {:>12} {:>8}",
        "ns per call", "proved", "plain", "ratio"
    );
    count_rows(count);
    report_rows(count);
    if PROGRAMS.into_iter().all(is_built) {
        println!();
        program_rows(10 * count);
    }
}
