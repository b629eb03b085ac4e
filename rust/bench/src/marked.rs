//! The functions that take doubtful marks: the repair beside the shipped one without marks, on the same words, and all of them beside the plain version.
use crate::{legal_frame, row, times};
use gvozdyana::{frame, header, Edition, Refusal, Tuner};
use plain::frame::{Edition as PlainEdition, Tuner as PlainTuner};
use reference as plain;
use reference::code::{encode, GENERATOR, LENGTH};
use reference::set_bit;
use samples::marked::{of_body, of_word, pairs, split, Damage, Sample, Under};
use samples::records::bodies;
use samples::{code_word, headers, hit, sent_and_hit, Random};
use std::hint::black_box;

/// A frame and its marks.
type Marked = ([u8; 26], [u8; 26]);

fn bytes(sample: &Sample) -> Marked {
    let bytes = |bytes: &[u8]| bytes.try_into().expect("26 bytes");
    (bytes(&sample.frame), bytes(&sample.marks))
}

/// A code word hit in so many places, without a mark.
fn unmarked(hits: usize, random: &mut Random) -> Marked {
    (sent_and_hit(hits, random).1, [0; 26])
}

/// Four hits and nine marks, seven of them on places that hold 1 or on places that hold 0. The repair fills the marked places with zeros first, which
/// leaves eleven hits or six, and then with ones.
fn filled(ones_first: bool, random: &mut Random) -> Marked {
    let (ones, zeros) = if ones_first { (7, 2) } else { (2, 7) };
    bytes(&split(4, ones, zeros, random))
}

/// A code word with t hits and s marks.
fn damaged(pair: (usize, usize), random: &mut Random) -> Marked {
    let damage = Damage::any(pair, random);
    bytes(&of_word(&code_word(random), &damage, random))
}

/// Seven hits, and four marks on places that hold 0, which are received 1. Filled with zeros the word that was sent is within eight places, but 2t+s
/// is 18; filled with ones, and as received, nothing is.
fn near_one_filling(random: &mut Random) -> Marked {
    let word = code_word(random);
    let zeros: Vec<usize> = (0..LENGTH).filter(|&place| word[place] == 0).collect();
    let mut hits = random.choose(11, &zeros);
    let marked = hits.split_off(7);
    let damage = Damage {
        hits,
        marked,
        under: Under::Ones,
        flips: 0,
        filler: false,
    };
    refused(bytes(&of_word(&word, &damage, random)))
}

/// Of the 18 places in which two code words differ six are marked, in which one of them holds ones and the other zeros, and of the rest half are hit.
/// Four other marks stand where both hold the same, two ones and two zeros, and are received wrongly. So either word is within eight places of one
/// filling, with a 2t+s of 22, and 13 places away from what is received. It is the longest way to a 4 beside the shortest.
fn near_both_fillings(random: &mut Random) -> Marked {
    let word = encode(&std::array::from_fn(|_| random.number() & 1 == 1));
    let shift = random.below(LENGTH - GENERATOR[0]);
    let apart = GENERATOR.map(|power| power + shift);
    let holding = |value, places: &[usize]| -> Vec<usize> {
        let holds = |&&place: &&usize| word[place] == value;
        places.iter().filter(holds).copied().collect()
    };
    let alike: Vec<usize> = (0..LENGTH).filter(|place| !apart.contains(place)).collect();
    let [zeros, ones] = [0, 1].map(|value| holding(value, &apart));
    let more = if ones.len() > zeros.len() {
        ones
    } else {
        zeros
    };
    let mut marked = random.choose(6, &more);
    let sure: Vec<usize> = apart.into_iter().filter(|k| !marked.contains(k)).collect();
    let mut hits = random.choose(6, &sure);
    hits.extend(&marked[..3]);
    let wrong = [0, 1].map(|value| random.choose(2, &holding(value, &alike)));
    hits.extend(wrong.iter().flatten());
    marked.extend(wrong.iter().flatten());
    let mut marks = [0; 26];
    for place in marked {
        set_bit(&mut marks, 203 - place);
    }
    refused((hit(&word, &hits, random), marks))
}

/// The same, once both repairs refuse it.
fn refused((frame, marks): Marked) -> Marked {
    let answers = (
        gvozdyana::repair(&frame),
        gvozdyana::repair_marked(&frame, &marks),
    );
    let beyond = Refusal::BeyondRepair;
    assert_eq!(answers, (Err(beyond), Err(beyond)));
    (frame, marks)
}

/// Makes the words of a row.
type Make = fn(&mut Random) -> Marked;

/// Words by what the repair has to do for them.
const SORTS: [(&str, Make); 11] = [
    ("2t+s of 0 to 20", any_pair),
    ("no hit, no mark", |random| unmarked(0, random)),
    ("4 hits, no mark", |random| unmarked(4, random)),
    ("8 hits, no mark", |random| unmarked(8, random)),
    ("beyond (9), no mark", |random| unmarked(9, random)),
    ("found by the first filling", |random| filled(false, random)),
    ("half by the second", |random| {
        let second = random.below(2) == 0;
        filled(second, random)
    }),
    ("found by the second", |random| filled(true, random)),
    ("beyond (9), 3 marks", |random| damaged((9, 3), random)),
    ("beyond, near one filling", near_one_filling),
    ("beyond, near both fillings", near_both_fillings),
];

/// Any t and s with a 2t+s of up to 20.
fn any_pair(random: &mut Random) -> Marked {
    let pairs = pairs(0..=20);
    let pair = random.pick(&pairs);
    damaged(pair, random)
}

fn head(beside: &str) {
    println!(
        "{:<28} {:>12} {beside:>12} {:>8}",
        "ns per call", "marked", "ratio"
    );
}

fn ratio_row(name: &str, (marked, beside): (f64, f64)) {
    let ratio = marked / beside;
    println!("{name:<28} {marked:>12.1} {beside:>12.1} {ratio:>8.2}");
}

/// The repair with marks and the one without, which does not look at them, on the same words: how many times as long the first takes.
fn repair_rows(count: usize) {
    head("repair");
    for (name, make) in SORTS {
        let both = times(
            name,
            count,
            make,
            |(frame, marks)| {
                black_box(gvozdyana::repair_marked(frame, marks)).ok();
            },
            |(frame, _)| {
                black_box(gvozdyana::repair(frame)).ok();
            },
        );
        ratio_row(name, both);
    }
}

/// The frame with the bits under its marks all 0, and all 1.
fn fillings((frame, marks): &Marked) -> [[u8; 26]; 2] {
    [
        std::array::from_fn(|i| frame[i] & !marks[i]),
        std::array::from_fn(|i| frame[i] | marks[i]),
    ]
}

/// The same beside the repair of the words that it may have to repair, those with 0 and with 1 under the marks: the time of one of them, in the middle.
fn filling_rows(count: usize) {
    head("a filling");
    for (name, make) in SORTS {
        let (marked, twice) = times(
            name,
            count,
            |random| {
                let marked = make(random);
                (marked, fillings(&marked))
            },
            |((frame, marks), _)| {
                black_box(gvozdyana::repair_marked(frame, marks)).ok();
            },
            |(_, fillings)| {
                for filling in fillings {
                    black_box(gvozdyana::repair(filling)).ok();
                }
            },
        );
        ratio_row(name, (marked, twice / 2.0));
    }
}

/// A legal frame with t hits and s marks.
fn damaged_frame(pair: (usize, usize), random: &mut Random) -> Marked {
    let body = random.pick(bodies(PlainEdition::First));
    bytes(&of_body(body, &Damage::any(pair, random), random))
}

/// How many hits and marks the rows beside the plain version have: with eight marks or more it goes another way.
const PAIRS: [(&str, (usize, usize)); 3] = [
    ("clean", (0, 0)),
    ("5 hits, 7 marks", (5, 7)),
    ("4 hits, 9 marks", (4, 9)),
];

fn frame_rows(count: usize) {
    for (name, pair) in PAIRS {
        row(
            &format!("repair, {name}"),
            count,
            |random| damaged_frame(pair, random),
            |(frame, marks)| {
                black_box(gvozdyana::repair_marked(frame, marks)).ok();
            },
            |(frame, marks)| {
                black_box(plain::repair_marked(frame, marks)).ok();
            },
        );
    }
    for (name, pair) in PAIRS {
        row(
            &format!("frame read, {name}"),
            count,
            |random| damaged_frame(pair, random),
            |(bytes, marks)| {
                let read = frame::read_marked(Edition::First, Tuner::Main, bytes, marks);
                black_box(read).ok();
            },
            |(bytes, marks)| {
                let (edition, tuner) = (PlainEdition::First, PlainTuner::Main);
                black_box(plain::frame::read_marked(edition, tuner, bytes, marks)).ok();
            },
        );
    }
}

fn judge_rows(count: usize) {
    for (name, pair) in PAIRS {
        row(
            &format!("frame judge, {name}"),
            count,
            |random| damaged_frame(pair, random),
            |(bytes, marks)| {
                black_box(frame::judge_marked(bytes, marks)).ok();
            },
            |(bytes, marks)| {
                let judged = plain::frame::judge_marked(PlainEdition::First, bytes, marks);
                black_box(judged).ok();
            },
        );
    }
}

fn header_rows(count: usize) {
    for (name, pair) in PAIRS {
        row(
            &format!("lay in, {name}"),
            count,
            |random| {
                let header = headers::faulty(&[], random).bytes;
                (header, damaged_frame(pair, random))
            },
            |(bytes, (frame, marks))| {
                let mut bytes = bytes.clone();
                header::lay_in_marked(Edition::First, &mut bytes, frame, marks).ok();
                black_box(bytes);
            },
            |(bytes, (frame, marks))| {
                let mut bytes = bytes.clone();
                plain::header::lay_in_marked(PlainEdition::First, &mut bytes, frame, marks);
                black_box(bytes);
            },
        );
    }
}

/// The reader with marks beside the one without, on the same frames.
fn reader_rows(count: usize) {
    head("read");
    for (name, hits) in [
        ("frame read, no hit, no mark", 0),
        ("frame read, 4 hits", 4),
    ] {
        let both = times(
            name,
            count,
            |random| (legal_frame(hits, random), [0; 26]),
            |(bytes, marks)| {
                let read = frame::read_marked(Edition::First, Tuner::Main, bytes, marks);
                black_box(read).ok();
            },
            |(bytes, _)| {
                black_box(frame::read(Edition::First, Tuner::Main, bytes)).ok();
            },
        );
        ratio_row(name, both);
    }
}

pub fn rows(count: usize) {
    println!("\nwith doubtful marks, beside the same without marks: how many times as long");
    repair_rows(count);
    println!();
    filling_rows(count);
    println!();
    reader_rows(count);
    println!("\nwith doubtful marks, beside the plain version");
    println!(
        "{:<28} {:>12} {:>12} {:>8}",
        "ns per call", "proved", "plain", "ratio"
    );
    // A tenth of a millisecond and more for a call of the plain version.
    frame_rows(count / 50);
    judge_rows(count / 50);
    header_rows(count / 50);
}
