//! What the making of a frame and its marks says of them, held to the plain version; and that every case is reached.
use reference::code::{is_code_word, protected};
use reference::frame::Edition::{AreaSafety, First};
use reference::frame::{
    clean_marked, judge_marked, read_marked, Edition, Record, EDITIONS, PATTERN, REPAIRED, TUNERS,
};
use reference::header::{lay_in, lay_in_marked, write, HEADER_BYTES};
use reference::listing::marked_listing;
use reference::{bit, flip_bit, repair_marked, FRAME_BYTES};
use samples::frames::{written, Expected};
use samples::headers::legal_record;
use samples::marked::{
    every_fault, every_generator, every_length, every_pair, every_pattern, every_split, faulty,
    marked, pairs, systematic, Sample,
};
use samples::records::with_origin;
use samples::Random;

/// The plain version answers as the making says, where it says anything; where it does not, a word that it gives is one that may be given.
fn agree(sample: &Sample) {
    let (frame, marks) = (&sample.frame, &sample.marks);
    let answer = repair_marked(frame, marks);
    if let Some(expected) = sample.repaired {
        assert_eq!(answer, expected, "{frame:02x?} {marks:02x?}");
    }
    if let Ok(repaired) = answer {
        assert!(is_code_word(&protected(&repaired.word)));
        let differs = |&k: &usize| !bit(marks, k) && bit(frame, k) != bit(&repaired.word, k);
        let t = (17..=203).filter(differs).count();
        assert_eq!(usize::from(repaired.places), t);
        assert!(2 * t + sample.marks_set() <= 17);
    }
    for edition in EDITIONS {
        let expected = match sample.expected(edition) {
            Expected::Read(record, differing) => Ok((record, differing)),
            Expected::Refused(number) => Err(number),
            Expected::Open => continue,
        };
        agree_in(edition, sample, expected);
    }
}

/// Read as expected and, told another tuner, but for that; judged, put right and laid in alike.
fn agree_in(edition: Edition, sample: &Sample, expected: Result<(Record, u8), u8>) {
    let (frame, marks) = (&sample.frame, &sample.marks);
    // One of the tuners, another one for another frame.
    let number = frame.iter().fold(0, |sum, &byte| sum + usize::from(byte)) % 3;
    let read = read_marked(edition, TUNERS[number], frame, marks);
    let told = expected.map(|(record, differing)| {
        let record = with_origin(&record, number as u64, record[REPAIRED]);
        (record, differing)
    });
    assert_eq!(read, told, "{edition:?} {frame:02x?} {marks:02x?}");
    let judged = expected.map(|(record, differing)| (record[REPAIRED] as u8, differing));
    assert_eq!(judge_marked(edition, frame, marks), judged);
    let clean = expected.map(|(record, _)| written(&record));
    assert_eq!(clean_marked(edition, frame, marks), clean);
    let mut header = [0; HEADER_BYTES];
    assert_eq!(write(&legal_record(&mut Random::new(0)), &mut header), 0);
    let mut after = header;
    let number = lay_in_marked(edition, &mut after, frame, marks);
    assert_eq!(number, expected.err().unwrap_or(0));
    if let Ok(clean) = clean {
        assert_eq!(lay_in(edition, &mut header, &clean), 0);
    }
    assert_eq!(after, header);
}

fn many(count: usize, seed: u64) -> Vec<Sample> {
    let mut random = Random::new(seed);
    (0..count).map(|_| marked(&mut random)).collect()
}

/// The refusal's number, 0 for a record; none where nothing is said.
fn number(sample: &Sample, edition: Edition) -> Option<u8> {
    match sample.expected(edition) {
        Expected::Read(..) => Some(0),
        Expected::Refused(number) => Some(number),
        Expected::Open => None,
    }
}

/// In how many of the samples this holds.
fn count(samples: &[Sample], which: impl Fn(&Sample) -> bool) -> usize {
    samples.iter().filter(|sample| which(sample)).count()
}

/// A sample of 26 bytes with so many marks.
fn has_marks(sample: &Sample, s: usize) -> bool {
    sample.piece().is_some() && sample.marks_set() == s
}

#[test]
fn samples_of_all_sorts() {
    many(8_000, 1).iter().for_each(agree);
}

#[test]
fn the_systematic_list() {
    systematic(&mut Random::new(2)).iter().for_each(agree);
}

#[test]
fn the_same_seed_gives_the_same_samples() {
    assert!(many(200, 3) == many(200, 3));
    assert!(many(200, 3) != many(200, 4));
    let all = |seed| systematic(&mut Random::new(seed));
    assert!(all(3) == all(3) && all(3) != all(4));
}

/// How many samples each list has, and how many of them say nothing of the repair.
#[test]
fn the_lengths_of_the_lists() {
    let mut random = Random::new(5);
    let lists = [
        (every_pair(&mut random), (121 + 80) * 10),
        (every_generator(&mut random), 190 * 5),
        (every_split(&mut random), 81 + 90 + 100),
        (every_pattern(&mut random), 17 * 2 * 3 * 5),
        (every_fault(&mut random), 2 * 45),
        (every_length(&mut random), 24 * 3),
    ];
    let open = lists.each_ref().map(|(list, expected)| {
        assert_eq!(list.len(), *expected);
        count(list, |sample| sample.repaired.is_none())
    });
    // 2t+s of 19 and 20 with 17 marks at most: nine pairs each, ten samples of each pair.
    assert_eq!(open[..4], [(9 + 9) * 10, 0, 0, 0]);
    assert_eq!(open[5], 0);
    let sum: usize = lists.iter().map(|(list, _)| list.len()).sum();
    assert_eq!(systematic(&mut random).len(), sum);
}

/// Every t and s up to 17 is found, of every sort, and every s with 2t+s of 18, and every s above 17, is refused.
#[test]
fn every_pair_is_known() {
    let samples = every_pair(&mut Random::new(6));
    let found = |t: usize, s: usize| {
        let same =
            |sample: &Sample| matches!(sample.repaired, Some(Ok(r)) if usize::from(r.places) == t);
        count(&samples, |sample| has_marks(sample, s) && same(sample))
    };
    let refused = |s: usize| {
        let four = |sample: &Sample| sample.repaired == Some(Err(4));
        count(&samples, |sample| has_marks(sample, s) && four(sample))
    };
    for (t, s) in pairs(0..=17) {
        assert_eq!(found(t, s), 10, "{t} and {s}");
    }
    for s in 0..=40 {
        let expected = match s {
            // Once where 18-s is even; 18 and 19 and 20 with all t that they have, the others with four.
            0..=17 => 10 * (1 - s % 2),
            18 | 20 => 10 * (1 + (20 - s) / 2),
            19 => 10,
            _ => 40,
        };
        assert_eq!(refused(s), expected, "{s} marks");
    }
}

/// Among samples of all sorts both editions give every number, and every pair of numbers that they can give.
#[test]
fn every_pair_of_numbers() {
    let samples = many(20_000, 7);
    for first in 0..=9 {
        for area_safety in 0..=9 {
            let both = |sample: &Sample| {
                (number(sample, First), number(sample, AreaSafety))
                    == (Some(first), Some(area_safety))
            };
            let possible = first == area_safety || (first == 6 && [0, 7].contains(&area_safety));
            let found = count(&samples, both) >= 20;
            assert_eq!(found, possible, "{first} and {area_safety}");
        }
    }
}

/// Among them are every t and s up to 17 in accepted frames, every number of differing bits and both patterns.
#[test]
fn every_damage_that_is_put_right() {
    let samples = many(20_000, 8);
    let read = |which: &dyn Fn(&Record, u8) -> bool, s: Option<usize>| {
        count(&samples, |sample| {
            let right =
                matches!(sample.expected(First), Expected::Read(record, of) if which(&record, of));
            right && s.is_none_or(|s| has_marks(sample, s))
        })
    };
    for (t, s) in pairs(0..=17) {
        let same = |record: &Record, _| record[REPAIRED] == t as u64;
        assert!(read(&same, Some(s)) >= 5, "{t} and {s}");
    }
    for differing in 0..=3 {
        for pattern in [0, 1] {
            let same = |record: &Record, of| (record[PATTERN], of) == (pattern, differing);
            assert!(read(&same, None) >= 100, "{pattern} and {differing}");
        }
    }
}

/// A single fault is the one that the edition named gives.
#[test]
fn one_fault_in_the_edition_named() {
    let mut random = Random::new(9);
    for edition in EDITIONS {
        for fault in 1..=9 {
            for _ in 0..40 {
                let sample = faulty(edition, &[fault], &mut random);
                agree(&sample);
                let open = sample.expected(edition) == Expected::Open && fault == 4;
                assert!(open || number(&sample, edition) == Some(fault));
            }
        }
        for _ in 0..40 {
            let sample = faulty(edition, &[], &mut random);
            assert_eq!(number(&sample, edition), Some(0));
        }
    }
}

/// In a sample of 26 bytes any bits under marks turned over, and any marks outside B17 to B203, change neither the repair nor the reading.
#[test]
fn what_does_not_matter() {
    let mut random = Random::new(10);
    for sample in many(1_500, 11) {
        if sample.piece().is_none() {
            continue;
        }
        let (mut frame, mut marks) = (sample.frame.clone(), sample.marks.clone());
        for k in (17..=203).filter(|&k| bit(&sample.marks, k)) {
            if random.below(2) == 0 {
                flip_bit(&mut frame, k);
            }
        }
        for k in (0..17).chain(204..208) {
            if random.below(2) == 0 {
                flip_bit(&mut marks, k);
            }
        }
        let before = repair_marked(&sample.frame, &sample.marks);
        assert_eq!(repair_marked(&frame, &marks), before);
        let judged = |frame: &[u8], marks: &[u8]| judge_marked(First, frame, marks);
        let before = judged(&sample.frame, &sample.marks);
        assert_eq!(judged(&frame, &marks), before);
    }
}

/// The listing of all samples of 26 bytes has the lines that their making says; in the end it has a short piece.
#[test]
fn the_listing() {
    let mut samples = many(1_000, 12);
    samples.retain(|sample| sample.piece().is_some());
    let mut input: Vec<u8> = samples.iter().filter_map(Sample::piece).flatten().collect();
    input.extend([0; FRAME_BYTES + 1]);
    let text = String::from_utf8(marked_listing(&input)).expect("text");
    let lines: Vec<&str> = text.lines().collect();
    assert_eq!(lines.len(), samples.len() + 2);
    for (i, sample) in samples.iter().enumerate() {
        let expected = match sample.expected(First) {
            Expected::Read(record, _) => format!("{} 0 {}", i + 1, record[REPAIRED]),
            Expected::Refused(number) => format!("{} {number} -", i + 1),
            Expected::Open => continue,
        };
        assert_eq!(lines[i], expected);
    }
    let end = samples.len() + 1;
    assert_eq!(
        lines[end - 1..],
        [format!("{end} 1 -"), format!("end {end}")]
    );
}
