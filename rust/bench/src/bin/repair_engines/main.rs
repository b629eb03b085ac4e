//! Times the repair of a million damaged words and of a million clean ones, in one run: straightforward in Rust, the best known in Rust, the one that was best
//! known before, and by the two proved engines. All are compared on every word before; then each round goes through all words with each version, a block of
//! them at a time. The only argument is the number of words.
mod bit_sliced;
mod looped;
mod straightforward;

use gvozdyana::{Refusal, Repaired, FRAME_BYTES};
use reference::code::{encode, frame_of, protected, LENGTH, MESSAGE};
use samples::{hit, Random};
use std::collections::HashSet;
use std::hint::black_box;
use std::time::Instant;

type Frame = [u8; FRAME_BYTES];
/// The number of places, with the word in the 26 bytes lent for it, which a refusal leaves as they were.
type Repair = fn(&[u8], &mut Frame) -> Result<u8, Refusal>;

const ROUNDS: usize = 3;
const MOST_HITS: usize = 12;

const VERSIONS: [(&str, Repair); 5] = [
    ("straightforward, Rust", straightforward::repair_into),
    ("best known, Rust", bit_sliced::repair_into),
    ("best known before, Rust", looped::repair_into),
    ("register, proved", |frame, word| {
        let repaired = gvozdyana::repair_by_register(frame)?;
        *word = repaired.word;
        Ok(repaired.places)
    }),
    ("shipped, proved", |frame, word| {
        gvozdyana::repair_into(frame, word)
    }),
];

/// Frames with a code word of a random message in each; what was sent, and in how many places it was hit.
#[derive(Default)]
struct Words {
    frames: Vec<Frame>,
    sent: Vec<Frame>,
    hits: Vec<usize>,
}

/// So many words, each hit in up to so many places: how many is random, and so is where.
fn words(count: usize, most_hits: usize, random: &mut Random) -> Words {
    let everywhere: [usize; LENGTH] = std::array::from_fn(|place| place);
    let mut words = Words::default();
    for _ in 0..count {
        let message: [bool; MESSAGE] = std::array::from_fn(|_| random.number() & 1 == 1);
        let sent = encode(&message);
        let hits = random.below(most_hits + 1);
        let places = random.choose(hits, &everywhere);
        words.frames.push(hit(&sent, &places, random));
        words.sent.push(frame_of(&sent));
        words.hits.push(hits);
    }
    words
}

fn answer(repair: Repair, frame: &[u8]) -> Result<Repaired, Refusal> {
    let mut word = [0; FRAME_BYTES];
    let places = repair(frame, &mut word)?;
    Ok(Repaired { word, places })
}

/// How many words have each number of hits, and how many of those are accepted.
#[derive(Clone, Copy, Default)]
struct Counted {
    words: usize,
    accepted: usize,
}

/// Compares the versions on every word, and with what was sent.
fn compare(words: &Words) -> [Counted; MOST_HITS + 1] {
    let mut counted = [Counted::default(); MOST_HITS + 1];
    for ((frame, &sent), &hits) in words.frames.iter().zip(&words.sent).zip(&words.hits) {
        let first = answer(VERSIONS[0].1, frame);
        for &(name, repair) in &VERSIONS[1..] {
            assert_eq!(answer(repair, frame), first, "{name}, {frame:02x?}");
        }
        let right = match first {
            Ok(repaired) if hits <= 8 => {
                repaired.word == sent && usize::from(repaired.places) == hits
            }
            Ok(repaired) => repaired.word != sent && usize::from(repaired.places) + hits >= 18,
            Err(refusal) => refusal == Refusal::BeyondRepair && hits > 8,
        };
        assert!(right, "{hits} hits, {frame:02x?}: {first:?}");
        assert!(hits != 9 || first.is_err(), "{frame:02x?}");
        counted[hits].words += 1;
        counted[hits].accepted += usize::from(first.is_ok());
    }
    counted
}

/// How many words each version goes through before the next one has its turn: what else the machine does then falls on all alike.
const BLOCK: usize = 1000;

/// The words accepted, and nanoseconds.
fn time(frames: &[Frame], repair: Repair) -> (usize, f64) {
    let mut word = [0; FRAME_BYTES];
    let start = Instant::now();
    let accepted = frames
        .iter()
        .filter(|&frame| {
            let told = repair(frame, &mut word);
            black_box(&mut word);
            black_box(told).is_ok()
        })
        .count();
    (accepted, start.elapsed().as_nanos() as f64)
}

/// The words that each version accepts, and nanoseconds for each word.
fn round(frames: &[Frame]) -> [(usize, f64); VERSIONS.len()] {
    let mut total = [(0, 0.0); VERSIONS.len()];
    for block in frames.chunks(BLOCK) {
        for (total, (_, repair)) in total.iter_mut().zip(VERSIONS) {
            let (accepted, time) = time(block, black_box(repair));
            *total = (total.0 + accepted, total.1 + time);
        }
    }
    total.map(|(accepted, time)| (accepted, time / frames.len() as f64))
}

/// Three digits or so of each number.
fn row(numbers: impl Iterator<Item = f64>) -> String {
    let short = |number: f64| {
        let digits = match number {
            100.0.. => 0,
            10.0.. => 1,
            1.0.. => 2,
            _ => 4,
        };
        format!("{number:.digits$}")
    };
    numbers.map(short).collect::<Vec<_>>().join(" ")
}

/// Says what the words are, compares the versions on them, and times them.
fn report(sort: &str, words: &Words) {
    let count = words.frames.len();
    let protected_parts = words.frames.iter().map(|frame| frame_of(&protected(frame)));
    let different = protected_parts.collect::<HashSet<_>>().len();
    println!("{count} {sort} words, {different} of them different");
    println!("{:>6} {:>9} {:>9}", "hits", "words", "accepted");
    for (hits, counted) in compare(words).iter().enumerate() {
        if counted.words > 0 {
            println!("{hits:>6} {:>9} {:>9}", counted.words, counted.accepted);
        }
    }
    println!(
        "the {} versions compared on all {count}: the same answers; up to 8 hits the word sent and their number, at 9 refusal 4",
        VERSIONS.len()
    );

    let rounds: Vec<_> = (0..ROUNDS).map(|_| round(&words.frames)).collect();
    println!(
        "{:<28} {:>9} {:>27} {:>27} {:>27}",
        format!("repair, {sort}"),
        "accepted",
        "ns a word",
        "of straightforward's time",
        "of best known's time"
    );
    for (version, (name, _)) in VERSIONS.iter().enumerate() {
        let accepted = rounds[0][version].0;
        assert!(rounds.iter().all(|round| round[version].0 == accepted));
        let times = rounds.iter().map(|round| round[version].1);
        let of = |other: usize| {
            rounds
                .iter()
                .map(move |round| round[version].1 / round[other].1)
        };
        println!(
            "{name:<28} {accepted:>9} {:>27} {:>27} {:>27}",
            row(times),
            row(of(0)),
            row(of(1))
        );
    }
}

fn main() {
    let count: usize = std::env::args()
        .nth(1)
        .map_or(1_000_000, |n| n.parse().expect("the number of words"));
    let mut random = Random::new(14);
    report("damaged", &words(count, MOST_HITS, &mut random));
    println!();
    report("clean", &words(count, 0, &mut random));
}

#[cfg(test)]
mod tests {
    use super::*;

    fn agree(frame: &[u8]) {
        let plain = reference::repair(frame).map(|r| (r.word, r.places));
        for (name, repair) in VERSIONS {
            let told = answer(repair, frame)
                .map(|r| (r.word, r.places))
                .map_err(Refusal::number);
            assert_eq!(told, plain, "{name}, {frame:02x?}");
        }
    }

    #[test]
    fn the_versions_agree() {
        let mut random = Random::new(1);
        for hits in 0..=17 {
            for _ in 0..200 {
                agree(&samples::sent_and_hit(hits, &mut random).1);
            }
        }
        for length in 0..=60 {
            agree(&random.bytes(length));
            agree(&random.bytes(FRAME_BYTES));
        }
    }

    /// The zero word with some of the generator's 18 places set: up to eight lead back to it, and from ten on to the generator.
    #[test]
    fn the_versions_agree_towards_another_word() {
        let mut random = Random::new(2);
        for shift in 0..105 {
            let places = reference::code::GENERATOR.map(|power| power + shift);
            for hits in 0..=18 {
                let chosen = random.choose(hits, &places);
                agree(&hit(&[0; LENGTH], &chosen, &mut random));
            }
        }
    }

    #[test]
    fn the_versions_answer_what_was_sent() {
        let mut random = Random::new(3);
        for (hits, counted) in compare(&words(2000, MOST_HITS, &mut random))
            .iter()
            .enumerate()
        {
            assert!(counted.words > 0, "{hits} hits");
            assert!(hits > 8 || counted.accepted == counted.words, "{hits} hits");
        }
        assert_eq!(compare(&words(100, 0, &mut random))[0].accepted, 100);
    }
}
