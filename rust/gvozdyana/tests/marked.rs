//! The functions that take doubtful marks, by the proved version and by the plain one, in both editions and as every tuner's: what they answer and
//! what they leave in the buffers they are lent. Where the making of a frame and its marks says what is answered, they are held to that too.
mod common;
use common::{
    edition_number, edition_of, for_each_seed, frames, hex, length, numbers, tuner_numbers,
    tuner_of, Case, EDITIONS,
};
use gvozdyana::frame::{judge_marked, read, read_marked, Judgment, Record};
use gvozdyana::header::{self, lay_in, lay_in_marked, Header};
use gvozdyana::{calls, repair, repair_marked, Edition, Refusal, Repaired, Tuner, FRAME_BYTES};
use reference::frame::{REPAIRED, VALUES};
use reference::{bit, flip_bit, frame as plain, header as plain_header};
use samples::frames::{frame, written, Expected};
use samples::marked::{marked, systematic, Sample};
use samples::records::with_origin;
use samples::{headers, Random};

/// What a mismatch tells.
fn text(sample: &Sample, case: Case) -> String {
    let (frame, marks) = (hex(&sample.frame), hex(&sample.marks));
    format!("frame {frame}, marks {marks}, {case}")
}

/// The repair's status and buffer are the plain version's, its answer with types too, and what the sample's making says.
fn repair_compared(sample: &Sample, word_len: usize, random: &mut Random, case: Case) {
    let what = || format!("{}, a word of {word_len}", text(sample, case));
    let (frame, marks) = (&sample.frame, &sample.marks);
    let answer = reference::repair_marked(frame, marks);
    if let Some(known) = sample.repaired {
        assert_eq!(answer, known, "{}", what());
    }
    let typed = repair_marked(frame, marks).map_err(Refusal::number);
    let typed = typed.map(|r| (r.word, r.places));
    assert_eq!(typed, answer.map(|r| (r.word, r.places)), "{}", what());
    let before = random.bytes(word_len);
    let mut left = before.clone();
    let status = calls::repair_marked(frame, marks, &mut left);
    let (told, expected) = match answer {
        Ok(r) if word_len == FRAME_BYTES => (256 * u32::from(r.places), r.word.to_vec()),
        Err(number) if word_len == FRAME_BYTES => (number.into(), before),
        _ => (1, before),
    };
    assert_eq!(status, told, "{}", what());
    assert_eq!(hex(&left), hex(&expected), "{}", what());
}

/// The judgment is the plain version's by the first edition, with types too, and what the sample's making says.
fn judgment_compared(sample: &Sample, case: Case) {
    let (frame, marks) = (&sample.frame, &sample.marks);
    let answer = plain::judge_marked(plain::Edition::First, frame, marks);
    let told = match answer {
        Ok((t, differing)) => 256 * u32::from(t) + 65536 * u32::from(differing),
        Err(number) => number.into(),
    };
    let status = calls::frame_judge_marked(frame, marks);
    assert_eq!(status, told, "{}", text(sample, case));
    let typed = judge_marked(frame, marks).map_err(Refusal::number);
    let judgment = |(repaired, differing)| Judgment {
        repaired,
        differing,
    };
    assert_eq!(typed, answer.map(judgment), "{}", text(sample, case));
    match sample.expected(plain::Edition::First) {
        Expected::Read(record, differing) => {
            let known = (record[REPAIRED] as u8, differing);
            assert_eq!(answer, Ok(known), "{}", text(sample, case));
        }
        Expected::Refused(number) => assert_eq!(answer, Err(number), "{}", text(sample, case)),
        Expected::Open => {}
    }
}

/// The reader's status and record by this number of an edition are the plain version's, whichever tuner is told; then the refusal's number.
fn reading_compared(
    edition: u32,
    sample: &Sample,
    record_len: usize,
    random: &mut Random,
    case: Case,
) -> usize {
    let what = || format!("edition {edition}, {}", text(sample, case));
    let (frame, marks) = (&sample.frame, &sample.marks);
    let (_, named) = edition_of(edition);
    let answer = plain::read_marked(named, plain::Tuner::None, frame, marks);
    match sample.expected(named) {
        Expected::Read(record, differing) => {
            assert_eq!(answer, Ok((record, differing)), "{}", what())
        }
        Expected::Refused(number) => assert_eq!(answer, Err(number), "{}", what()),
        Expected::Open => {}
    }
    let before = numbers(record_len, random);
    for tuner in tuner_numbers(random) {
        let mut left = before.clone();
        let status = calls::frame_read_marked(edition, tuner, frame, marks, &mut left);
        let (told, expected) = match answer {
            _ if record_len != VALUES => (1, before.clone()),
            Ok((record, differing)) => {
                let number = tuner_of(tuner).1.number();
                let record = with_origin(&record, number, record[REPAIRED]);
                (65536 * u32::from(differing), record.to_vec())
            }
            Err(number) => (number.into(), before.clone()),
        };
        assert_eq!(status, told, "tuner {tuner}, {}", what());
        assert_eq!(left, expected, "tuner {tuner}, {}", what());
    }
    answer.err().unwrap_or(0).into()
}

/// The answer with types is that of the numbers.
fn types_compared(edition: Edition, tuner: Tuner, sample: &Sample, case: Case) {
    let (frame, marks) = (&sample.frame, &sample.marks);
    let mut values = [0; VALUES];
    let numbers = (edition.number(), tuner.number());
    let status = calls::frame_read_marked(numbers.0, numbers.1, frame, marks, &mut values);
    match read_marked(edition, tuner, frame, marks) {
        Ok(reading) => {
            let differing = u32::from(reading.differing);
            assert_eq!(status, 65536 * differing, "{}", text(sample, case));
            let record = Record::from_values(values);
            assert_eq!(reading.record, record, "{}", text(sample, case));
            assert_eq!(reading.record.tuner, tuner, "{}", text(sample, case));
        }
        Err(refusal) => assert_eq!(status, refusal.number().into(), "{}", text(sample, case)),
    }
}

/// Laid into a header by this number of an edition, it leaves what the plain version leaves; then the refusal's number. A frame that was accepted is
/// laid in as the one that was sent.
fn laying_compared(edition: u32, before: &[u8], sample: &Sample, case: Case) -> usize {
    let what = || {
        let header = hex(before);
        format!("edition {edition}, header {header}, {}", text(sample, case))
    };
    let (frame, marks) = (&sample.frame, &sample.marks);
    let (named, plain_named) = edition_of(edition);
    let (mut left, mut expected) = (before.to_vec(), before.to_vec());
    let status = calls::lay_in_marked(edition, &mut left, frame, marks);
    let number = plain_header::lay_in_marked(plain_named, &mut expected, frame, marks);
    assert_eq!(status, u32::from(number), "{}", what());
    assert_eq!(hex(&left), hex(&expected), "{}", what());
    let mut typed = before.to_vec();
    let refused = lay_in_marked(named, &mut typed, frame, marks).err();
    assert_eq!(refused.map_or(0, Refusal::number), number, "{}", what());
    assert_eq!(hex(&typed), hex(&expected), "{}", what());
    if let Expected::Read(record, _) = sample.expected(plain_named) {
        let mut sent = before.to_vec();
        lay_in(named, &mut sent, &written(&record)).ok();
        assert_eq!(hex(&left), hex(&sent), "{}", what());
    }
    number.into()
}

/// How often each number was answered, in each edition.
type Seen = [[u64; 16]; 2];

fn expect_seen(seen: &Seen, expected: &[usize]) {
    println!("accepted and refused, by number: {seen:?}");
    for (seen, number) in seen.iter().flat_map(|seen| (0..16).map(move |n| (seen, n))) {
        let occurs = expected.contains(&number);
        assert_eq!(seen[number] > 0, occurs, "{number}: {seen:?}");
    }
}

/// All of it but the laying in, read by these numbers of editions.
fn compared(editions: &[u32], sample: &Sample, seen: &mut Seen, random: &mut Random, case: Case) {
    repair_compared(sample, length(FRAME_BYTES, random), random, case);
    judgment_compared(sample, case);
    for &number in editions {
        let (edition, named) = edition_of(number);
        let refusal = reading_compared(number, sample, length(VALUES, random), random, case);
        seen[named as usize][refusal] += 1;
        let tuner = random.pick(&[Tuner::None, Tuner::Main, Tuner::Spare]);
        types_compared(edition, tuner, sample, case);
    }
}

#[test]
fn the_systematic_list() {
    let mut seen = Seen::default();
    for_each_seed(80, 1, |random, case| {
        let samples = systematic(random);
        println!("{} frames with marks", samples.len());
        for sample in &samples {
            compared(&[0, 1], sample, &mut seen, random, case);
        }
    });
    expect_seen(&seen, &[0, 1, 2, 3, 4, 5, 6, 7, 8, 9]);
}

/// The plain version takes long, so that these are fewer than elsewhere, and each is read by one edition.
#[test]
fn frames_and_marks_of_all_sorts() {
    let mut seen = Seen::default();
    for_each_seed(81, frames() / 25, |random, case| {
        let sample = marked(random);
        compared(&[edition_number(random)], &sample, &mut seen, random, case);
    });
    expect_seen(&seen, &[0, 1, 2, 3, 4, 5, 6, 7, 8, 9]);
}

/// Into headers that are accepted, and into any; by numbers that no edition has too.
#[test]
fn frames_with_marks_laid_in() {
    let mut seen = Seen::default();
    for_each_seed(82, frames() / 50, |random, case| {
        let header = match random.below(4) {
            0 => headers::header(random).bytes,
            _ => headers::faulty(&[], random).bytes,
        };
        let edition = edition_number(random);
        let named = edition_of(edition).1 as usize;
        let number = laying_compared(edition, &header, &marked(random), case);
        seen[named][number] += 1;
    });
    let all: Vec<usize> = (0..=9).chain(12..=15).collect();
    expect_seen(&seen, &all);
}

/// The systematic list once more into one header, by both editions.
#[test]
fn the_systematic_list_laid_in() {
    let header = header::write(&Header::default()).expect("legal");
    let mut seen = Seen::default();
    for_each_seed(83, 1, |random, case| {
        for sample in &systematic(random) {
            for edition in [0, 1] {
                seen[edition as usize][laying_compared(edition, &header, sample, case)] += 1;
            }
        }
    });
    expect_seen(&seen, &[0, 1, 2, 3, 4, 5, 6, 7, 8, 9]);
}

/// What the repair answers where its making says so; then the number of repaired places of an accepted one.
fn known_compared(sample: &Sample, case: Case) -> Option<u8> {
    let typed = repair_marked(&sample.frame, &sample.marks).map_err(Refusal::number);
    let known = sample.repaired?.map(|r| (r.word, r.places));
    let told = typed.map(|r| (r.word, r.places));
    assert_eq!(told, known, "{}", text(sample, case));
    known.ok().map(|(_, places)| places)
}

/// The answers that are known without the plain version, of many more samples: every t with the most marks that it leaves is among them.
#[test]
fn what_is_known_of_the_samples() {
    let mut seen = [[0; 18]; 9];
    for_each_seed(84, frames() / 2, |random, case| {
        let sample = marked(random);
        if let Some(t) = known_compared(&sample, case) {
            seen[usize::from(t)][sample.marks_set()] += 1;
        }
        for (edition, named) in EDITIONS {
            let answer = read_marked(edition, Tuner::None, &sample.frame, &sample.marks);
            let told = answer.map(|reading| (reading.record.values(), reading.differing));
            let told = told.map_err(Refusal::number);
            match sample.expected(named) {
                Expected::Read(record, differing) => {
                    assert_eq!(told, Ok((record, differing)), "{}", text(&sample, case))
                }
                Expected::Refused(number) => {
                    assert_eq!(told, Err(number), "{}", text(&sample, case))
                }
                Expected::Open => {}
            }
        }
    });
    for (t, seen) in seen.iter().enumerate() {
        println!("t = {t}, by the number of marks: {seen:?}");
        let allowed = |s: usize| 2 * t + s <= 17;
        assert!((0..18).all(|s| (seen[s] > 0) == allowed(s)), "{t}");
    }
}

/// Marks of 26 bytes of which none counts.
fn outside(random: &mut Random) -> [u8; FRAME_BYTES] {
    let mut marks = [0; FRAME_BYTES];
    for k in (0..17).chain(204..208) {
        if random.below(2) == 0 {
            flip_bit(&mut marks, k);
        }
    }
    marks
}

/// With no mark within B17 to B203 each function answers as the one without marks.
#[test]
fn without_marks() {
    let empty = header::write(&Header::default()).expect("legal");
    for_each_seed(85, frames() / 5, |random, case| {
        let (bytes, marks) = (frame(random).bytes, outside(random));
        let what = || format!("frame {}, marks {}, {case}", hex(&bytes), hex(&marks));
        assert_eq!(repair_marked(&bytes, &marks), repair(&bytes), "{}", what());
        for (edition, _) in EDITIONS {
            let reading = read(edition, Tuner::Spare, &bytes);
            let with_marks = read_marked(edition, Tuner::Spare, &bytes, &marks);
            assert_eq!(with_marks, reading, "{}", what());
            let (mut left, mut expected) = (empty, empty);
            let laid = lay_in_marked(edition, &mut left, &bytes, &marks);
            let expected_answer = lay_in(edition, &mut expected, &bytes);
            assert_eq!((laid, left), (expected_answer, expected), "{}", what());
            if edition == Edition::First {
                let judged = judge_marked(&bytes, &marks);
                let judgment = reading.map(|reading| Judgment {
                    repaired: reading.record.repaired as u8,
                    differing: reading.differing,
                });
                assert_eq!(judged, judgment, "{}", what());
            }
        }
    });
}

/// What is received under the marks of B17 to B203 changes no answer.
#[test]
fn bits_under_the_marks() {
    let mut repaired = 0;
    for_each_seed(86, frames() / 5, |random, case| {
        let sample = marked(random);
        let Some(piece) = sample.piece() else {
            return;
        };
        let marks = &piece[FRAME_BYTES..];
        let mut other = sample.frame.clone();
        for k in 17..=203 {
            if bit(marks, k) && random.below(2) == 0 {
                flip_bit(&mut other, k);
            }
        }
        let answers = |frame: &[u8]| {
            let read = EDITIONS.map(|(edition, _)| read_marked(edition, Tuner::Main, frame, marks));
            (
                repair_marked(frame, marks),
                judge_marked(frame, marks),
                read,
            )
        };
        repaired += u64::from(repair_marked(&other, marks).is_ok());
        assert_eq!(
            answers(&other),
            answers(&sample.frame),
            "{}",
            text(&sample, case)
        );
    });
    println!("{repaired} of {} are repaired", frames() / 5);
    assert!(repaired > 0);
}

/// The generator's cases: 15 to 18 of its 18 places marked, and x^82 received 0 or 1.
#[test]
fn marks_among_the_generators_places() {
    let places = reference::code::GENERATOR.map(|power| 203 - power);
    let generator: [u8; FRAME_BYTES] = set(&places);
    let answer = |word, places| Ok(Repaired { word, places });
    for (marked, received, expected) in [
        (1..18, 0, answer([0; FRAME_BYTES], 0)),
        (1..18, 1, answer(generator, 0)),
        (0..18, 0, Err(Refusal::BeyondRepair)),
        (0..18, 1, Err(Refusal::BeyondRepair)),
        (2..18, 0, answer([0; FRAME_BYTES], 0)),
        (2..18, 1, Err(Refusal::BeyondRepair)),
        (2..18, 2, answer(generator, 0)),
        (3..18, 1, answer([0; FRAME_BYTES], 1)),
        (3..18, 2, answer(generator, 1)),
    ] {
        let (frame, marks) = (set(&places[..received]), set(&places[marked.clone()]));
        let told = repair_marked(&frame, &marks);
        assert_eq!(told, expected, "{marked:?}, {received}");
    }
}

/// Bytes in which only these bits are set.
fn set(places: &[usize]) -> [u8; FRAME_BYTES] {
    let mut bytes = [0; FRAME_BYTES];
    places.iter().for_each(|&k| flip_bit(&mut bytes, k));
    bytes
}
