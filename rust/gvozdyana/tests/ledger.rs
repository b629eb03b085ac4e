//! The day's ledger by the proved version and by the plain one, in both editions: what is counted, printed and read, and what is left in the buffers
//! that are lent. Where the making of a ledger, of a list or of a text says what is answered, they are held to that too.
mod common;
use common::{
    edition_number, edition_of, for_each_seed, frames, length, number, numbers, Case, EDITIONS,
};
use gvozdyana::ledger::{Ledger, LEDGER_VALUES, MOST_FRAMES};
use gvozdyana::{calls, Edition, Refusal};
use reference::frame as plain_frame;
use reference::ledger::{self as plain, MOST, NUMBERS};
use samples::ledgers::{self, every_judgment, frame_judged, Numbers, Sample, Text, TWO_PIECES};
use samples::Random;
use std::collections::BTreeSet;

/// How often each number was answered.
type Seen = [u64; 28];

fn expect_seen(seen: &Seen, expected: &[usize]) {
    println!("accepted and refused, by number: {seen:?}");
    for (number, &count) in seen.iter().enumerate() {
        let occurs = expected.contains(&number);
        assert_eq!(count > 0, occurs, "{number}: {seen:?}");
    }
}

/// The ledger of the plain version; another count of numbers is 1.
fn plain_ledger(values: &[u64]) -> Result<plain::Ledger, u8> {
    let numbers = values.try_into().map_err(|_| 1)?;
    Ok(plain::Ledger::from_numbers(numbers))
}

/// The wrapper's ledger, of twelve numbers alone.
fn typed(values: &[u64]) -> Option<Ledger> {
    Some(Ledger::from_values(values.try_into().ok()?))
}

/// The edition as the wrapper names it.
fn typed_edition(edition: plain_frame::Edition) -> Edition {
    EDITIONS[edition as usize].0
}

/// The numbers of a sample, most often all of them, else fewer or more.
fn lent(ledger: &Numbers, random: &mut Random) -> Vec<u64> {
    let mut values = ledger.to_vec();
    values.resize_with(length(NUMBERS, random), || random.number());
    values
}

/// One frame more, counted by this number of an edition, leaves what the plain version says, with types too; then the refusal's number.
fn count_compared(edition: u32, before: &[u64], frame: &[u8], case: Case) -> usize {
    let what = || format!("edition {edition}, ledger {before:?}, frame {frame:02x?}, {case}");
    let (named, plain_named) = edition_of(edition);
    let answer = plain_ledger(before).and_then(|ledger| plain::count(plain_named, ledger, frame));
    let expected = answer.map_or(before.to_vec(), |ledger| ledger.numbers().to_vec());
    let refusal = answer.err().unwrap_or(0);
    let mut left = before.to_vec();
    let status = calls::ledger_count(edition, &mut left, frame);
    assert_eq!((status, &left), (refusal.into(), &expected), "{}", what());
    if let Some(mut ledger) = typed(before) {
        let told = number(ledger.count(named, frame));
        assert_eq!(told, refusal, "{}", what());
        assert_eq!(ledger.values().to_vec(), expected, "{}", what());
    }
    refusal.into()
}

/// The length of the report, and the report with types, are the plain version's; then the refusal's number.
fn length_compared(values: &[u64], case: Case) -> usize {
    let what = || format!("ledger {values:?}, {case}");
    let answer = plain_ledger(values).and_then(plain::report);
    let told = match &answer {
        Ok(text) => 256 * text.len() as u32,
        Err(number) => u32::from(*number),
    };
    assert_eq!(calls::ledger_length(values), told, "{}", what());
    if let Some(ledger) = typed(values) {
        let report = ledger.report().map_err(Refusal::number);
        assert_eq!(report.map(String::into_bytes), answer, "{}", what());
        let length = ledger.report_length().map_err(Refusal::number);
        assert_eq!(length, answer.map(|text| text.len()), "{}", what());
    }
    (told & 255) as usize
}

/// What is left in a buffer of this size is what the plain version leaves, with types too; then the refusal's number.
fn printing_compared(values: &[u64], size: usize, random: &mut Random, case: Case) -> usize {
    let what = || format!("{size} bytes, ledger {values:?}, {case}");
    let before = random.bytes(size);
    let (mut left, mut expected) = (before.clone(), before.clone());
    let refusal = match plain_ledger(values) {
        Ok(ledger) => plain::print(ledger, &mut expected),
        Err(number) => number,
    };
    let status = calls::ledger_print(values, &mut left);
    assert_eq!((status, &left), (refusal.into(), &expected), "{}", what());
    if let Some(ledger) = typed(values) {
        let mut left = before;
        let told = number(ledger.report_into(&mut left));
        assert_eq!((told, left), (refusal, expected), "{}", what());
    }
    refusal.into()
}

/// Both, into buffers of these sizes, of the report's and of a byte less and more; then the numbers that were answered.
fn report_compared(values: &[u64], sizes: &[usize], random: &mut Random, case: Case) -> Vec<usize> {
    let mut refusals = vec![length_compared(values, case)];
    let report = plain_ledger(values).and_then(plain::report);
    let own = report
        .iter()
        .flat_map(|text| [0, 1, 2].map(|more| text.len() - 1 + more));
    for size in sizes.iter().copied().chain(own) {
        refusals.push(printing_compared(values, size, random, case));
    }
    refusals
}

/// Sizes of a buffer: the longest report's and the shortest's, those beside them, and any.
fn sizes(random: &mut Random) -> Vec<usize> {
    let mut sizes = vec![0, 1, 136, 137, 138, 202, 203, 204];
    sizes.push(random.below(220));
    sizes
}

/// What the reader answers, and the ledger that it leaves, are the plain version's; then the refusal's number.
fn reading_compared(text: &Text, ledger_len: usize, random: &mut Random, case: Case) -> usize {
    let what = || {
        let shown = String::from_utf8_lossy(&text.bytes);
        format!("a ledger of {ledger_len}, text {shown:?}, {case}")
    };
    let answer = plain::parse(&text.bytes).map(plain::Ledger::numbers);
    if let Some(known) = text.expected {
        assert_eq!(answer, known, "{}", what());
    }
    let told = Ledger::parse(&text.bytes).map_err(Refusal::number);
    assert_eq!(told.map(|ledger| ledger.values()), answer, "{}", what());
    if let Ok(text) = std::str::from_utf8(&text.bytes) {
        let told = text.parse::<Ledger>().map_err(Refusal::number);
        assert_eq!(told.map(|ledger| ledger.values()), answer, "{}", what());
    }
    let before = numbers(ledger_len, random);
    let mut left = before.clone();
    let status = calls::ledger_parse(&text.bytes, &mut left);
    let (refusal, expected) = match answer {
        _ if ledger_len != NUMBERS => (1, before),
        Ok(numbers) => (0, numbers.to_vec()),
        Err(number) => (number, before),
    };
    assert_eq!((status, left), (refusal.into(), expected), "{}", what());
    refusal.into()
}

/// What the ledger's making says of it is what the plain version says.
fn expect_known(sample: &Sample, case: Case) {
    let possible = plain::Ledger::from_numbers(sample.numbers).possible();
    if let Some(known) = sample.possible {
        assert_eq!(possible, known, "{sample:?}, {case}");
    }
}

/// A frame of each judgment, for each edition, and one of no bytes.
fn judged_frames(random: &mut Random) -> Vec<(u32, Vec<u8>)> {
    let mut frames = vec![];
    for (edition, plain_edition) in EDITIONS {
        for judged in every_judgment() {
            let frame = frame_judged(plain_edition, judged, random);
            frames.push((edition.number(), frame));
        }
        frames.push((edition.number(), vec![]));
    }
    frames
}

/// Every ledger of the systematic list with a frame of each judgment, and its report into buffers of many sizes.
#[test]
fn the_systematic_list() {
    let mut seen = Seen::default();
    for_each_seed(90, 1, |random, case| {
        let samples = ledgers::systematic(random);
        println!("{} ledgers", samples.len());
        for sample in &samples {
            expect_known(sample, case);
            for (edition, frame) in judged_frames(random) {
                seen[count_compared(edition, &sample.numbers, &frame, case)] += 1;
            }
            for refusal in report_compared(&sample.numbers, &sizes(random), random, case) {
                seen[refusal] += 1;
            }
        }
    });
    expect_seen(&seen, &[0, 18, 19, 27]);
}

/// By numbers that no edition has too, with any frame, and with fewer numbers or more.
#[test]
fn ledgers_of_all_sorts() {
    let mut seen = Seen::default();
    for_each_seed(91, frames() / 5, |random, case| {
        let sample = ledgers::ledger(random);
        expect_known(&sample, case);
        let values = lent(&sample.numbers, random);
        let frame = samples::frames::frame(random).bytes;
        seen[count_compared(edition_number(random), &values, &frame, case)] += 1;
        let size = random.below(220);
        for refusal in report_compared(&values, &[size], random, case) {
            seen[refusal] += 1;
        }
    });
    expect_seen(&seen, &[0, 1, 18, 19, 27]);
}

/// Each other count of numbers is 1, whatever they are, and whatever else is handed over.
#[test]
fn other_counts_of_numbers() {
    let report = plain::report(plain::Ledger::default()).expect("possible");
    let texts = [report, vec![], b"seen 0\n".to_vec()];
    for_each_seed(92, 1, |random, case| {
        let ledgers = [[0; NUMBERS], TWO_PIECES, [u64::MAX; NUMBERS], [1; NUMBERS]];
        for (ledger, n) in ledgers.iter().flat_map(|l| (0..40).map(move |n| (l, n))) {
            if n == NUMBERS {
                continue;
            }
            let values: Vec<u64> = ledger.iter().copied().cycle().take(n).collect();
            for (edition, frame) in judged_frames(random) {
                assert_eq!(count_compared(edition, &values, &frame, case), 1);
            }
            let refusals = report_compared(&values, &sizes(random), random, case);
            assert_eq!(refusals, vec![1; refusals.len()]);
            for bytes in texts.clone() {
                let expected = None;
                let text = Text { bytes, expected };
                assert_eq!(reading_compared(&text, n, random, case), 1);
            }
        }
    });
}

/// Counted one by one from a fresh ledger, a list gives what the list itself says, and what its making says.
#[test]
fn lists_of_frames() {
    for_each_seed(93, frames() / 2_500, |random, case| {
        let length = random.below(200);
        let list = ledgers::list(length, random);
        let mut ledger = Ledger::new();
        let mut values = [0; LEDGER_VALUES];
        for (edition, frame) in &list.frames {
            let edition = typed_edition(*edition);
            assert_eq!(ledger.count(edition, frame), Ok(()), "{case}");
            let status = calls::ledger_count(edition.number(), &mut values, frame);
            assert_eq!(status, 0, "{case}");
        }
        let said = plain::of_list(&list.frames).numbers();
        assert_eq!((ledger.values(), values), (said, said), "{case}");
        assert_eq!(said, list.numbers, "{case}");
        let report = ledger.report().expect("possible");
        assert_eq!(report.into_bytes(), ledgers::form(&list.numbers), "{case}");
    });
}

/// The last frames that are counted, and 19 for all that follow, which leave the ledger.
#[test]
fn lists_that_fill_the_ledger() {
    for_each_seed(94, frames() / 2_500, |random, case| {
        let left = random.below(20);
        let list = ledgers::list(40, random);
        let before = ledgers::of_size(MOST - left as u64, random);
        let mut ledger = Ledger::from_values(before);
        let mut expected = plain::Ledger::from_numbers(before);
        for (i, (edition, frame)) in list.frames.iter().enumerate() {
            let told = ledger.count(typed_edition(*edition), frame);
            if i < left {
                assert_eq!(told, Ok(()), "{case}");
                expected = plain::count(*edition, expected, frame).expect("counted");
            } else {
                assert_eq!(told, Err(Refusal::LedgerFull), "{case}");
            }
            assert_eq!(ledger.values(), expected.numbers(), "{case}");
        }
        assert_eq!(ledger.seen(), MOST_FRAMES, "{case}");
    });
}

#[test]
fn the_systematic_texts() {
    let mut seen = Seen::default();
    for_each_seed(95, 1, |random, case| {
        let texts = ledgers::systematic_texts(random);
        println!("{} texts", texts.len());
        for text in &texts {
            seen[reading_compared(text, NUMBERS, random, case)] += 1;
        }
    });
    expect_seen(&seen, &[0, 18]);
}

/// Each is one of a list that is made anew, which takes long, so that these are fewer than elsewhere.
#[test]
fn texts_of_all_sorts() {
    let mut seen = Seen::default();
    for_each_seed(96, frames() / 100, |random, case| {
        let text = ledgers::text(random);
        let ledger_len = length(NUMBERS, random);
        seen[reading_compared(&text, ledger_len, random, case)] += 1;
    });
    expect_seen(&seen, &[0, 1, 18]);
}

/// What was printed of a possible ledger is read as the same one; then the length of the report.
fn read_again(values: Numbers) -> usize {
    let ledger = Ledger::from_values(values);
    let report = ledger.report().expect("possible");
    assert_eq!(report.parse(), Ok(ledger));
    report.len()
}

/// Every length from 137 bytes to 203 is that of some report, and no other.
#[test]
fn printed_and_read_again() {
    let every_length = ledgers::every_length().into_iter();
    let mut lengths: BTreeSet<usize> = every_length.map(read_again).collect();
    for_each_seed(97, frames() / 5, |random, _| {
        lengths.insert(read_again(ledgers::possible_ledger(random)));
    });
    assert!(lengths.into_iter().eq(137..=203));
}

/// The numbers of a ledger by their names.
#[test]
fn numbers_by_name() {
    for_each_seed(98, 100, |random, case| {
        let values: Numbers = std::array::from_fn(|_| random.number());
        let ledger = Ledger::from_values(values);
        let plain = plain::Ledger::from_numbers(values);
        assert_eq!(ledger.values(), values, "{case}");
        assert_eq!(ledger.seen(), plain.seen, "{case}");
        assert_eq!(ledger.accepted(), plain.accepted, "{case}");
        assert_eq!(ledger.repaired(), plain.repaired, "{case}");
        for number in 0..=255u8 {
            let at = usize::from(number).wrapping_sub(1);
            let refused = plain.refused.get(at).copied().unwrap_or(0);
            assert_eq!(ledger.refused(number), refused, "{number}, {case}");
        }
    });
    assert_eq!(Ledger::new().values(), [0; NUMBERS]);
    assert_eq!((LEDGER_VALUES, MOST_FRAMES), (NUMBERS, MOST));
}
