//! What the making of ledgers, lists and texts says of them, held to the plain version; and that every boundary is reached.
use reference::frame::{judge, EDITIONS};
use reference::ledger::{count, of_list, parse, print, report, Ledger, MOST, NUMBERS};
use samples::ledgers::{
    all_alike, each_byte, each_cut, each_line, each_number, edits, every_judgment, every_length,
    every_possible, form, frame_judged, ledger, list, of_size, one_moved, possible_ledger,
    systematic, systematic_texts, text, Numbers, Sample, Text, ACCEPTED, REPAIRED, SEEN, SIZES,
    SORTS, TWO_PIECES,
};
use samples::Random;
use std::collections::HashSet;

fn is_possible(numbers: &Numbers) -> bool {
    Ledger::from_numbers(*numbers).possible()
}

/// Whether the sorts sum up to the frames seen, and whether they do when cut to 64 bits.
fn summed(numbers: &Numbers) -> (bool, bool) {
    let sorts = SORTS.map(|sort| numbers[sort]);
    let sum: u128 = sorts.iter().map(|&number| u128::from(number)).sum();
    (
        sum == u128::from(numbers[SEEN]),
        sum as u64 == numbers[SEEN],
    )
}

/// The plain version answers as the making says: 18, 19 or counted, 18, 27 or printed, and the report read again.
fn agree(sample: &Sample) {
    let ledger = Ledger::from_numbers(sample.numbers);
    let possible = sample.possible.unwrap_or(ledger.possible());
    assert_eq!(ledger.possible(), possible, "{sample:?}");
    assert_eq!(ledger.numbers(), sample.numbers);
    let expected = match (possible, sample.numbers[SEEN]) {
        (false, _) => Err(18),
        (true, MOST) => Err(19),
        _ => {
            let mut numbers = sample.numbers;
            numbers[SEEN] += 1;
            numbers[1] += 1;
            Ok(Ledger::from_numbers(numbers))
        }
    };
    for edition in EDITIONS {
        assert_eq!(count(edition, ledger, &[]), expected);
    }
    let text = form(&sample.numbers);
    let mut buffer = vec![0xA5; text.len()];
    let number = print(ledger, &mut buffer);
    if possible {
        assert_eq!(report(ledger), Ok(text.clone()));
        assert_eq!((number, &buffer), (0, &text));
        assert_eq!(parse(&text), Ok(ledger));
        assert_eq!(print(ledger, &mut buffer[1..]), 27);
    } else {
        assert_eq!(report(ledger), Err(18));
        assert_eq!((number, &buffer), (18, &vec![0xA5; text.len()]));
        assert_eq!(parse(&text), Err(18));
        assert_eq!(print(ledger, &mut []), 18);
    }
}

/// Read as the making says; where it says nothing, what is read is what was printed.
fn agree_text(text: &Text) {
    let read = parse(&text.bytes).map(Ledger::numbers);
    if let Some(expected) = text.expected {
        let shown = String::from_utf8_lossy(&text.bytes);
        assert_eq!(read, expected, "{shown:?}");
    }
    match read {
        Ok(numbers) => assert_eq!(form(&numbers), text.bytes),
        Err(number) => assert_eq!(number, 18),
    }
}

fn many(count: usize, seed: u64) -> Vec<Sample> {
    let mut random = Random::new(seed);
    (0..count).map(|_| ledger(&mut random)).collect()
}

fn many_texts(count: usize, seed: u64) -> Vec<Text> {
    let mut random = Random::new(seed);
    (0..count).map(|_| text(&mut random)).collect()
}

/// In how many of these this holds.
fn count_of<T>(samples: &[T], which: impl Fn(&T) -> bool) -> usize {
    samples.iter().filter(|sample| which(sample)).count()
}

#[test]
fn ledgers_of_all_sorts() {
    many(20_000, 1).iter().for_each(agree);
}

#[test]
fn the_systematic_list() {
    systematic(&mut Random::new(2)).iter().for_each(agree);
}

#[test]
fn texts_of_all_sorts() {
    many_texts(5_000, 3).iter().for_each(agree_text);
}

#[test]
fn the_systematic_texts() {
    let texts = systematic_texts(&mut Random::new(4));
    texts.iter().for_each(agree_text);
}

#[test]
fn the_same_seed_gives_the_same_samples() {
    assert!(many(300, 5) == many(300, 5) && many(300, 5) != many(300, 6));
    assert!(many_texts(100, 5) == many_texts(100, 5));
    assert!(many_texts(100, 5) != many_texts(100, 6));
    let list = |seed| list(20, &mut Random::new(seed));
    assert!(list(5) == list(5) && list(5) != list(6));
    let all = |seed| systematic(&mut Random::new(seed));
    assert!(all(5) == all(5) && all(5) != all(6));
}

/// What the lists give on their own.
#[test]
fn what_each_list_says() {
    let mut random = Random::new(7);
    for numbers in every_possible(&mut random) {
        assert!(is_possible(&numbers), "{numbers:?}");
    }
    for _ in 0..300 {
        let base = possible_ledger(&mut random);
        assert!(is_possible(&base));
        for numbers in edits(&base) {
            assert!(!is_possible(&numbers), "{numbers:?}");
        }
        one_moved(&base).iter().for_each(agree);
    }
    assert!(all_alike().iter().all(|numbers| !is_possible(numbers)));
    assert!(is_possible(&TWO_PIECES));
    for seen in SIZES {
        assert_eq!(of_size(seen, &mut random)[SEEN], seen);
    }
}

/// Both ends of the frames seen, of each sort and of the repaired places, among samples of all sorts and in the systematic list.
#[test]
fn the_ends_of_possible_ledgers() {
    for samples in [many(20_000, 8), systematic(&mut Random::new(9))] {
        let possible: Vec<Numbers> = samples
            .iter()
            .filter(|sample| sample.possible == Some(true))
            .map(|sample| sample.numbers)
            .collect();
        for seen in SIZES {
            assert!(count_of(&possible, |n| n[SEEN] == seen) >= 10, "{seen}");
        }
        for sort in SORTS {
            assert!(count_of(&possible, |n| n[sort] == MOST) >= 1, "{sort}");
            let alone = |n: &Numbers| n[sort] > 0 && n[sort] == n[SEEN];
            assert!(count_of(&possible, alone) >= 10, "{sort}");
            let beside = |n: &Numbers| n[sort] > 0 && n[sort] < n[SEEN];
            assert!(count_of(&possible, beside) >= 10, "{sort}");
        }
        let accepted = |n: &Numbers| n[ACCEPTED] > 0;
        let of_all = |n: &Numbers| accepted(n) && n[REPAIRED] == 8 * n[ACCEPTED];
        let of_none = |n: &Numbers| accepted(n) && n[REPAIRED] == 0;
        let between = |n: &Numbers| n[REPAIRED] > 0 && n[REPAIRED] < 8 * n[ACCEPTED];
        assert!(count_of(&possible, of_all) >= 20);
        assert!(count_of(&possible, of_none) >= 20);
        assert!(count_of(&possible, between) >= 20);
        assert!(count_of(&possible, |n| n[REPAIRED] == 8 * MOST) >= 1);
    }
}

/// Every reason to be impossible alone, among samples of all sorts and in the systematic list.
#[test]
fn every_reason_alone() {
    let right = |n: &Numbers| n[SEEN] <= MOST && summed(n).0;
    for samples in [many(20_000, 10), systematic(&mut Random::new(11))] {
        let samples: Vec<Numbers> = samples
            .iter()
            .filter(|sample| sample.possible == Some(false))
            .map(|sample| sample.numbers)
            .collect();
        let reached = |which: &dyn Fn(&Numbers) -> bool| count_of(&samples, which) >= 5;
        // The repaired places alone: one too many, and any number too many.
        let one_more = |n: &Numbers| n[REPAIRED] == 8 * n[ACCEPTED] + 1;
        assert!(reached(&|n| right(n) && one_more(n)));
        assert!(reached(&|n| right(n) && n[REPAIRED] == u64::MAX));
        let full = |n: &Numbers| right(n) && n[SEEN] == MOST && one_more(n);
        assert!(count_of(&samples, full) >= 1);
        // The frames seen alone: one more than the most, and the greatest number.
        let repaired = |n: &Numbers| u128::from(n[REPAIRED]) <= 8 * u128::from(n[ACCEPTED]);
        for seen in [MOST + 1, 1 << 32, u64::MAX] {
            assert!(reached(&|n| n[SEEN] == seen && summed(n).0 && repaired(n)));
        }
        // The sum alone: one off either way, and right only when cut to 64 bits.
        let other_sum = |n: &Numbers| n[SEEN] <= MOST && repaired(n) && !summed(n).0;
        let off = |n: &Numbers, by: i128| {
            let sum: i128 = SORTS.iter().map(|&sort| i128::from(n[sort])).sum();
            other_sum(n) && sum == i128::from(n[SEEN]) + by
        };
        assert!(reached(&|n| off(n, 1)) && reached(&|n| off(n, -1)));
        assert!(reached(&|n| other_sum(n) && summed(n).1));
        for sort in SORTS {
            let greatest = |n: &Numbers| n[sort] == u64::MAX;
            assert!(reached(&|n| other_sum(n) && summed(n).1 && greatest(n)));
        }
        // The product too is right only when cut to 64 bits.
        let product = |n: &Numbers| n[ACCEPTED] >> 61 != 0 && n[REPAIRED] <= 8 * MOST;
        assert!(reached(&|n| other_sum(n) && summed(n).1 && product(n)));
        for place in 0..NUMBERS {
            assert!(reached(&|n| n[place] == u64::MAX), "{place}");
            assert!(reached(&|n| n[place] == u64::from(u32::MAX)), "{place}");
        }
    }
}

/// Samples of which nothing is said are of both kinds.
#[test]
fn both_kinds_among_the_rest() {
    let open = |sample: &&Sample| sample.possible.is_none();
    let samples = many(20_000, 12);
    let (possible, impossible): (Vec<&Sample>, Vec<&Sample>) = samples
        .iter()
        .filter(open)
        .partition(|sample| is_possible(&sample.numbers));
    assert!(possible.len() >= 100 && impossible.len() >= 100);
}

/// Reports of every length, from 137 bytes to 203, and of no other.
#[test]
fn reports_of_every_length() {
    let lengths: HashSet<usize> = every_length().iter().map(|n| form(n).len()).collect();
    assert_eq!(lengths, (137..=203).collect());
    let mut random = Random::new(13);
    for _ in 0..20_000 {
        let length = form(&possible_ledger(&mut random)).len();
        assert!((137..=203).contains(&length));
    }
}

/// A frame for everything that one can be judged, in each edition; and lists give what their making says, counted frame by frame and as a whole.
#[test]
fn lists_of_frames() {
    let mut random = Random::new(14);
    for edition in EDITIONS {
        for judged in every_judgment() {
            for _ in 0..20 {
                let frame = frame_judged(edition, judged, &mut random);
                assert_eq!(judge(edition, &frame), judged);
            }
        }
    }
    for length in [0, 1, 2, 10, 100, 1_000] {
        let list = list(length, &mut random);
        assert_eq!(of_list(&list.frames).numbers(), list.numbers);
        let mut ledger = Ledger::default();
        for (edition, frame) in &list.frames {
            ledger = count(*edition, ledger, frame).expect("counted");
        }
        assert_eq!(ledger.numbers(), list.numbers);
        assert!(length < 1_000 || list.numbers.iter().all(|&number| number > 0));
    }
}

/// Each list of texts has what it should: nothing is said only of the digits of the repaired places, and some of these are read and some not.
#[test]
fn what_the_lists_of_texts_say() {
    let mut random = Random::new(15);
    let base = loop {
        let base = of_size(1_000, &mut random);
        if (100..=999).contains(&base[REPAIRED]) && base[ACCEPTED] < 100 {
            break base;
        }
    };
    let length = form(&base).len();
    let texts = each_byte(&base);
    let open: Vec<&Text> = texts
        .iter()
        .filter(|text| text.expected.is_none())
        .collect();
    let read = open.iter().filter(|text| parse(&text.bytes).is_ok());
    let read = read.count();
    assert!(read >= 5 && open.len() - read >= 5);
    assert!(texts.len() > 30 * length);
    let lengths: HashSet<usize> = texts.iter().map(|text| text.bytes.len()).collect();
    assert_eq!(lengths, HashSet::from([length - 1, length, length + 1]));
    assert_eq!(each_cut(&base).len(), 2 * length - 1);
    for list in [each_cut, each_number, each_line] {
        let texts = list(&base);
        assert!(texts.iter().all(|text| text.expected == Some(Err(18))));
        assert!(texts.iter().all(|text| text.bytes != form(&base)));
    }
}

/// Every single edit of the two pieces' report that the document's words forbid is among the texts.
#[test]
fn named_edits() {
    let texts: HashSet<Vec<u8>> = [each_byte, each_cut, each_number, each_line]
        .iter()
        .flat_map(|list| list(&TWO_PIECES))
        .map(|text| text.bytes)
        .collect();
    let report = String::from_utf8(form(&TWO_PIECES)).expect("text");
    for (from, to) in [
        ("seen 2", "seen 02"),
        ("seen 2", "seen +2"),
        ("seen 2", "seen -2"),
        ("seen 2", "seen  2"),
        ("seen 2", "seen"),
        ("seen 2", "seen "),
        ("seen 2", "Seen 2"),
        ("seen 2", "SEEN 2"),
        ("seen 2", "seen 3"),
        ("seen 2", "seen 18446744073709551618"),
        ("seen 2", "seen 4294967298"),
        ("seen 2\n", "seen 2\r\n"),
        ("repaired 0\n", "repaired 0"),
        ("repaired 0\n", "repaired 0\n\n"),
        ("repaired 0\n", "repaired 0\n\0"),
        ("repaired 0\n", "repaired 18446744073709551616\n"),
        ("refused 2 0\nrefused 3 0\n", "refused 3 0\nrefused 2 0\n"),
        ("refused 9 0\n", ""),
        ("refused 9 0\n", "refused 9 0\nrefused 9 0\n"),
        ("accepted 1", "accepted1"),
        ("accepted 1", "accepted\t1"),
    ] {
        let edited = report.replacen(from, to, 1);
        assert!(texts.contains(edited.as_bytes()), "{from:?} {to:?}");
    }
    assert!(texts.contains(report.replace('\n', "\r\n").as_bytes()));
    assert!(texts.contains(&vec![]));
}

/// Among texts of all sorts are reports of possible ledgers, refused ones, and some of which nothing is said.
#[test]
fn every_answer_of_the_reader() {
    let texts = many_texts(5_000, 16);
    let of_a_ledger = |text: &Text| matches!(text.expected, Some(Ok(_)));
    let refused = |text: &Text| matches!(text.expected, Some(Err(_)));
    assert!(count_of(&texts, of_a_ledger) >= 500);
    assert!(count_of(&texts, refused) >= 500);
    assert!(count_of(&texts, |text| text.expected.is_none()) >= 200);
    let read = |text: &Text| text.expected.is_none() && parse(&text.bytes).is_ok();
    assert!(count_of(&texts, read) >= 5);
}
