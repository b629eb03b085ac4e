//! The day's ledger (document 02, l): the counting frame by frame against the whole list, where it stops, which ledgers are possible, the printed
//! report and its reader.
mod common;
use common::{flipped, frame, judge, record, sealed, written, written_in, ALL_AREAS};
use reference::flip_bit;
use reference::frame::Edition::{AreaSafety, First};
use reference::frame::{self, Edition, EDITIONS, IDENTIFICATION, PAGE, REGION, TIME};
use reference::ledger::{
    count, ledger_report_of_input, of_judged, of_list, parse, print, report, Ledger, MOST, NUMBERS,
};
use reference::put;
use std::collections::HashSet;

/// The two pieces of document 01's listing: "`seen 2`, `refused 1 1`, `refused 2 0` and so on to `refused 9 0`, `accepted 1`, `repaired 0`".
const TWO_PIECES: &str = "\
seen 2\n\
refused 1 1\n\
refused 2 0\n\
refused 3 0\n\
refused 4 0\n\
refused 5 0\n\
refused 6 0\n\
refused 7 0\n\
refused 8 0\n\
refused 9 0\n\
accepted 1\n\
repaired 0\n";

/// The fresh ledger's.
const EMPTY: &str = "\
seen 0\n\
refused 1 0\n\
refused 2 0\n\
refused 3 0\n\
refused 4 0\n\
refused 5 0\n\
refused 6 0\n\
refused 7 0\n\
refused 8 0\n\
refused 9 0\n\
accepted 0\n\
repaired 0\n";

fn ledger(seen: u64, refused: [u64; 9], accepted: u64, repaired: u64) -> Ledger {
    Ledger {
        seen,
        refused,
        accepted,
        repaired,
    }
}

/// A ledger whose frames were all refused with 1 or accepted.
fn short_ledger(refused: u64, accepted: u64, repaired: u64) -> Ledger {
    let seen = refused + accepted;
    ledger(seen, [refused, 0, 0, 0, 0, 0, 0, 0, 0], accepted, repaired)
}

/// The ledger with another number in one place.
fn with(ledger: Ledger, place: usize, number: u64) -> Ledger {
    let mut numbers = ledger.numbers();
    numbers[place] = number;
    Ledger::from_numbers(numbers)
}

fn text(ledger: Ledger) -> String {
    String::from_utf8(report(ledger).expect("a possible ledger")).expect("text")
}

/// A ledger with numbers of many lengths.
fn sample() -> Ledger {
    let refused = [1, 20, 300, 4_000, 50_000, 0, 1_000_000, 7, 90];
    ledger(1_054_418 + 1_250_000, refused, 1_250_000, 10_000_000)
}

// ---- frames

/// A frame that is refused with this number in both editions.
fn refused_with(number: u8) -> Vec<u8> {
    let all_areas = frame(ALL_AREAS);
    let mut made = written(&record(&[(PAGE, 1)]));
    let bytes = match number {
        1 => return all_areas[..25].to_vec(),
        2 => flipped(all_areas, &[207]),
        3 => [0; 26],
        4 => flipped(all_areas, &[17, 20, 40, 60, 80, 100, 120, 140, 160]),
        5 => frame("1af7000000000000000000000000004308c01110114014404110"),
        6 => {
            put(&mut made, 21..=23, 4);
            sealed(made)
        }
        7 => {
            put(&mut made, 17..=18, 1);
            sealed(made)
        }
        8 => {
            put(&mut made, 111..=111, 0);
            sealed(made)
        }
        _ => {
            put(&mut made, 69..=78, 901);
            sealed(made)
        }
    };
    bytes.to_vec()
}

/// A frame that is accepted with so many repaired places in both editions.
fn accepted_with(places: u8) -> Vec<u8> {
    let mut bytes = written(&record(&[(IDENTIFICATION, 2), (TIME, 77)]));
    (0..usize::from(places)).for_each(|i| flip_bit(&mut bytes, 20 + 23 * i));
    bytes.to_vec()
}

/// Everything that a frame can be judged, and such a frame.
fn every_frame() -> Vec<(Result<u8, u8>, Vec<u8>)> {
    let refused = (1..=9).map(|number| (Err(number), refused_with(number)));
    let accepted = (0..=8).map(|places| (Ok(places), accepted_with(places)));
    refused.chain(accepted).collect()
}

/// Area safety information: accepted in its own edition with three repaired places, refused with 6 in the first.
fn safety() -> Vec<u8> {
    let fields = [(IDENTIFICATION, 5), (TIME, 9), (REGION, 3)];
    let whole = written_in(AreaSafety, &record(&fields));
    flipped(whole, &[30, 90, 203]).to_vec()
}

/// The ledger after each of these, from a fresh one.
fn counted(frames: &[(Edition, Vec<u8>)]) -> Ledger {
    frames
        .iter()
        .fold(Ledger::default(), |ledger, (edition, frame)| {
            count(*edition, ledger, frame).expect("counted")
        })
}

/// Pseudorandom numbers (SplitMix64).
struct Random(u64);

impl Random {
    fn below(&mut self, n: u64) -> u64 {
        self.0 = self.0.wrapping_add(0x9E37_79B9_7F4A_7C15);
        let mut z = self.0;
        z = (z ^ z >> 30).wrapping_mul(0xBF58_476D_1CE4_E5B9);
        z = (z ^ z >> 27).wrapping_mul(0x94D0_49BB_1331_11EB);
        (z ^ z >> 31) % n
    }
}

// ---- counting

#[test]
fn the_two_pieces_of_the_listing() {
    let all_areas = frame(ALL_AREAS).to_vec();
    let pieces = [(First, all_areas.clone()), (First, vec![0; 5])];
    let expected = ledger(2, [1, 0, 0, 0, 0, 0, 0, 0, 0], 1, 0);
    assert_eq!(of_list(&pieces), expected);
    assert_eq!(counted(&pieces), expected);
    assert_eq!(text(expected), TWO_PIECES);
    assert_eq!(parse(TWO_PIECES.as_bytes()), Ok(expected));
    let input = [&all_areas[..], &[0; 5]].concat();
    assert_eq!(ledger_report_of_input(&input), TWO_PIECES.as_bytes());
}

#[test]
fn the_empty_list() {
    let none: [(Edition, Vec<u8>); 0] = [];
    assert_eq!(of_list(&none), Ledger::default());
    assert_eq!(Ledger::default().numbers(), [0; NUMBERS]);
    assert!(Ledger::default().possible());
    assert_eq!(text(Ledger::default()), EMPTY);
    assert_eq!(parse(EMPTY.as_bytes()), Ok(Ledger::default()));
    assert_eq!(ledger_report_of_input(&[]), EMPTY.as_bytes());
}

/// Each refusal and each number of repaired places, from ledgers of all sizes.
#[test]
fn one_frame_of_each_sort() {
    for (judged, bytes) in every_frame() {
        assert_eq!(judge(&bytes), judged);
        for before in [Ledger::default(), sample(), short_ledger(0, MOST - 1, 0)] {
            let mut expected = before;
            expected.seen += 1;
            match judged {
                Ok(places) => {
                    expected.accepted += 1;
                    expected.repaired += u64::from(places);
                }
                Err(number) => expected.refused[usize::from(number) - 1] += 1,
            }
            for edition in EDITIONS {
                assert_eq!(count(edition, before, &bytes), Ok(expected), "{judged:?}");
            }
        }
    }
}

/// Bytes of any length are a frame, which is counted as refused with 1.
#[test]
fn frames_of_other_lengths() {
    for length in (0..60).chain([188, 4_064, 100_000]) {
        let after = count(First, Ledger::default(), &vec![0; length]).expect("counted");
        let number = if length == 26 { 3 } else { 1 };
        assert_eq!((after.seen, after.refused[number - 1]), (1, 1), "{length}");
    }
}

/// One ledger takes frames of both editions.
#[test]
fn the_edition_named() {
    let list = [(First, safety()), (AreaSafety, safety()), (First, safety())];
    let expected = ledger(3, [0, 0, 0, 0, 0, 2, 0, 0, 0], 1, 3);
    assert_eq!(of_list(&list), expected);
    assert_eq!(counted(&list), expected);
    assert_eq!(of_list(&list[..1]).refused[5], 1);
    assert_eq!(of_list(&list[1..2]), short_ledger(0, 1, 3));
}

/// Differing bits of the pattern are no repaired places: "the repaired places ... do not change" (document 02, e).
#[test]
fn damaged_patterns() {
    let bytes = flipped(frame(ALL_AREAS), &[1, 2, 3, 100]);
    let after = count(First, Ledger::default(), &bytes);
    assert_eq!(after, Ok(short_ledger(0, 1, 1)));
}

/// What is counted frame by frame is what the list says, for lists of all lengths up to 200 and after each of their frames.
#[test]
fn lists_of_frames() {
    let mut sorts: Vec<Vec<u8>> = every_frame().into_iter().map(|(_, bytes)| bytes).collect();
    sorts.push(safety());
    let mut random = Random(1);
    let frames: Vec<(Edition, Vec<u8>)> = (0..200)
        .map(|_| {
            let edition = EDITIONS[random.below(2) as usize];
            (
                edition,
                sorts[random.below(sorts.len() as u64) as usize].clone(),
            )
        })
        .collect();
    let mut ledger = Ledger::default();
    for (n, (edition, frame)) in frames.iter().enumerate() {
        assert_eq!(ledger, of_list(&frames[..n]));
        ledger = count(*edition, ledger, frame).expect("counted");
        assert!(ledger.possible());
    }
    assert_eq!(ledger, of_list(&frames));
    assert!(ledger.numbers().iter().all(|&number| number > 0));
}

#[test]
fn it_stops_at_4000000() {
    let clean = frame(ALL_AREAS);
    for (refused, accepted) in [(MOST - 1, 0), (0, MOST - 1), (1_999_999, 2_000_000)] {
        for repaired in [0, 8 * accepted] {
            let before = short_ledger(refused, accepted, repaired);
            for edition in EDITIONS {
                let last = count(edition, before, &clean).expect("the last one");
                assert_eq!(last, short_ledger(refused, accepted + 1, repaired));
                assert_eq!(last.seen, 4_000_000);
                for next in [&clean[..], &[], &[0; 26]] {
                    assert_eq!(count(edition, last, next), Err(19));
                }
            }
        }
    }
}

/// "18 too, before 19", whatever the frame is.
#[test]
fn impossible_ledgers_are_not_counted() {
    let full = short_ledger(0, MOST, 8 * MOST);
    assert_eq!(count(First, full, &[]), Err(19));
    for place in 0..NUMBERS {
        let number = full.numbers()[place].wrapping_add(1);
        for number in [number, u64::MAX] {
            let impossible = with(full, place, number);
            for bytes in [&frame(ALL_AREAS)[..], &[]] {
                assert_eq!(count(First, impossible, bytes), Err(18), "{place}");
            }
        }
    }
    assert_eq!(count(First, short_ledger(0, MOST + 1, 0), &[]), Err(18));
}

// ---- which ledgers are possible

/// All ledgers that lists of up to n frames give.
fn given_by_lists(n: usize) -> HashSet<[u64; NUMBERS]> {
    let sorts: Vec<Result<u8, u8>> = every_frame().iter().map(|(judged, _)| *judged).collect();
    let mut lists: Vec<Vec<Result<u8, u8>>> = vec![vec![]];
    let mut given = HashSet::from([[0; NUMBERS]]);
    for _ in 0..n {
        let longer = |list: &Vec<_>| {
            let one_more = |&judged| [&list[..], &[judged]].concat();
            sorts.iter().map(one_more).collect::<Vec<_>>()
        };
        lists = lists.iter().flat_map(longer).collect();
        given.extend(lists.iter().map(|list| of_judged(list).numbers()));
    }
    given
}

/// All rows of so many numbers up to the greatest.
fn rows_of(count: usize, most: u64) -> Vec<Vec<u64>> {
    let mut rows = vec![vec![]];
    for _ in 0..count {
        let longer = |row: &Vec<u64>| {
            (0..=most)
                .map(|next| [&row[..], &[next]].concat())
                .collect()
        };
        rows = rows.iter().flat_map::<Vec<_>, _>(longer).collect();
    }
    rows
}

/// Every ledger of small numbers, with up to two frames seen: the possible ones are those that lists give, and all that lists give are among them.
#[test]
fn the_possible_ones_are_those_that_lists_give() {
    let given = given_by_lists(2);
    let mut possible = 0;
    for refused in rows_of(9, 2) {
        for (seen, accepted) in (0..=2).flat_map(|seen| (0..=3).map(move |n| (seen, n))) {
            for repaired in 0..=25 {
                let refused: [u64; 9] = refused[..].try_into().expect("nine");
                let ledger = ledger(seen, refused, accepted, repaired);
                assert_eq!(ledger.possible(), given.contains(&ledger.numbers()));
                possible += usize::from(ledger.possible());
            }
        }
    }
    assert_eq!(possible, given.len());
}

/// Up to four frames: what lists give is possible, and it is as many ledgers as are possible. With a accepted ones and r refused ones there are
/// 8a+1 totals and as many ways as r frames fall under nine numbers.
#[test]
fn as_many_as_lists_give() {
    let given = given_by_lists(4);
    let possible = |numbers: &[u64; NUMBERS]| Ledger::from_numbers(*numbers).possible();
    assert!(given.iter().all(possible));
    // 1, 9, 45, 165 and 495 ways.
    let ways = |r: usize| (1..=8).fold(1, |ways, i| ways * (r + i) / i);
    let sum: usize = (0..=4)
        .flat_map(|seen| (0..=seen).map(move |a| (8 * a + 1) * ways(seen - a)))
        .sum();
    assert_eq!(given.len(), sum);
}

/// A list that gives this ledger, as the comment of `possible` makes it.
fn list_of(ledger: Ledger) -> Vec<Result<u8, u8>> {
    let mut list = vec![];
    for (number, count) in (1..).zip(ledger.refused) {
        list.extend(vec![Err(number); count as usize]);
    }
    let mut left = ledger.repaired;
    for _ in 0..ledger.accepted {
        let places = left.min(8);
        list.push(Ok(places as u8));
        left -= places;
    }
    list
}

/// Ledgers of all sizes, up to the fullest: a list of so many frames gives each.
#[test]
fn a_list_for_each() {
    let mut ledgers = vec![
        Ledger::default(),
        sample(),
        short_ledger(0, MOST, 8 * MOST),
        short_ledger(0, MOST, 8 * MOST - 1),
        short_ledger(MOST, 0, 0),
        short_ledger(1, MOST - 1, 1),
    ];
    let mut random = Random(2);
    for _ in 0..300 {
        let refused = std::array::from_fn(|_| random.below(30));
        let accepted = random.below(30);
        let repaired = random.below(8 * accepted + 1);
        let seen = refused.iter().sum::<u64>() + accepted;
        ledgers.push(ledger(seen, refused, accepted, repaired));
    }
    for ledger in ledgers {
        assert!(ledger.possible());
        let list = list_of(ledger);
        assert!(list.len() as u64 <= MOST);
        assert_eq!(of_judged(&list), ledger);
    }
}

#[test]
fn the_limits_of_each_number() {
    for (accepted, repaired, possible) in [
        (0, 0, true),
        (0, 1, false),
        (1, 8, true),
        (1, 9, false),
        (2, 16, true),
        (2, 17, false),
        (MOST, 8 * MOST, true),
        (MOST, 8 * MOST + 1, false),
        (MOST + 1, 0, false),
    ] {
        let ledger = short_ledger(0, accepted, repaired);
        assert_eq!(ledger.possible(), possible, "{accepted} {repaired}");
    }
    for base in [Ledger::default(), sample()] {
        for place in 0..=10 {
            let number = base.numbers()[place];
            for other in [number.wrapping_add(1), number.wrapping_sub(1)] {
                assert!(!with(base, place, other).possible(), "{place} {other}");
            }
        }
    }
    // Each sort alone, and one more than 4,000,000 of it.
    for place in 1..=10 {
        for (seen, possible) in [(MOST - 1, true), (MOST, true), (MOST + 1, false)] {
            let ledger = with(with(Ledger::default(), 0, seen), place, seen);
            assert_eq!(ledger.possible(), possible, "{place} {seen}");
        }
    }
}

/// Numbers up to the greatest, sums that are right only when cut to 64 bits or to 32, and products too.
#[test]
fn numbers_of_any_size() {
    let (whole, half, eighth) = (1 << 32, 1 << 63, 1 << 61);
    for base in [Ledger::default(), sample()] {
        let numbers = base.numbers();
        for (place, number) in numbers.into_iter().enumerate() {
            for other in [u64::MAX, u64::from(u32::MAX), number + whole, number + half] {
                assert!(!with(base, place, other).possible(), "{place} {other}");
            }
        }
        for (i, j) in (1..=10).flat_map(|j| (1..j).map(move |i| (i, j))) {
            let wrapped = with(with(base, i, numbers[i] + half), j, numbers[j] + half);
            assert!(!wrapped.possible(), "2^63 in {i} and {j}");
            let more = numbers[j] + 1;
            let wrapped = with(
                with(base, i, numbers[i] + more),
                j,
                numbers[j].wrapping_sub(more),
            );
            assert!(!wrapped.possible(), "2^64-1 in {j}");
        }
        for i in 1..=9 {
            let wrapped = with(
                with(base, 10, numbers[10] + eighth),
                i,
                numbers[i] + 7 * eighth,
            );
            assert!(!wrapped.possible(), "2^61 accepted, the rest in {i}");
            assert!(!with(wrapped, 11, u64::MAX).possible());
        }
    }
    for number in [1, u64::from(u32::MAX), whole, half, u64::MAX] {
        assert!(!Ledger::from_numbers([number; NUMBERS]).possible());
    }
    // Sums and products that are right, but for the limit: past 4,000,000, past 32 bits, and as many as there are.
    for seen in [MOST + 1, whole, whole + MOST, half, u64::MAX] {
        assert!(!ledger(seen, [0; 9], seen, 0).possible());
        assert!(!short_ledger(seen, 0, 0).possible());
    }
}

#[test]
fn to_numbers_and_back() {
    let numbers = std::array::from_fn(|i| 100 + i as u64);
    let made = Ledger::from_numbers(numbers);
    assert_eq!(made.numbers(), numbers);
    let refused = [101, 102, 103, 104, 105, 106, 107, 108, 109];
    assert_eq!(made, ledger(100, refused, 110, 111));
}

// ---- the report

/// From 137 bytes, a digit for each number, to 203: seven digits of the frames seen, of three sorts and of no more, six of the other seven sorts,
/// eight of the repaired places. Every length between them.
#[test]
fn the_lengths_of_reports() {
    assert_eq!(text(Ledger::default()).len(), 137);
    let longest = ledger(
        3_950_000,
        [
            1_000_000, 1_000_000, 100_000, 100_000, 100_000, 100_000, 100_000, 100_000, 100_000,
        ],
        1_250_000,
        10_000_000,
    );
    assert_eq!(text(longest).len(), 203);
    let mut lengths = HashSet::from([203]);
    // Each number of the longest is cut digit by digit, the repaired places first, the frames seen being the sum.
    let mut shorter = longest;
    for place in (1..NUMBERS).rev() {
        while shorter.numbers()[place] > 0 {
            shorter = with(shorter, place, shorter.numbers()[place] / 10);
            shorter.seen = shorter.refused.iter().sum::<u64>() + shorter.accepted;
            lengths.insert(text(shorter).len());
        }
    }
    // With two sorts, whose sum has one digit more, and with one.
    for power in (0..=5).map(|i| 10u64.pow(i)) {
        lengths.insert(text(short_ledger(5 * power, 5 * power, 0)).len());
        lengths.insert(text(short_ledger(0, power, 0)).len());
        lengths.insert(text(short_ledger(0, power, power)).len());
    }
    for (half, repaired) in [(50, 10), (5_000, 10)] {
        lengths.insert(text(short_ledger(half, half, repaired)).len());
    }
    assert_eq!(lengths, (137..=203).collect());
}

/// No report is longer: four sorts of seven digits leave at most six single ones, and that is less.
#[test]
fn no_longer_report() {
    let mut longest = 0;
    // How many of the ten sorts have each number of digits, at their least; the rest is 0.
    for row in rows_of(6, 10) {
        let counts: [u64; 6] = row.try_into().expect("six");
        let sum: u64 = (1..).zip(counts).map(|(i, n)| n * 10u64.pow(i)).sum();
        if counts.iter().sum::<u64>() <= 10 && sum <= MOST {
            let digits: u64 = (1..).zip(counts).map(|(i, n): (u64, u64)| i * n).sum();
            longest = longest.max(digits);
        }
    }
    // Seven digits of the frames seen and eight of the repaired places at most.
    assert_eq!(137 + longest + 6 + 7, 203);
    assert_eq!((8 * MOST).to_string().len(), 8);
}

#[test]
fn a_report_of_each_is_read_again() {
    for ledger in [
        Ledger::default(),
        sample(),
        short_ledger(0, MOST, 8 * MOST),
        short_ledger(MOST, 0, 0),
        short_ledger(1, 9, 10),
    ] {
        let text = text(ledger);
        assert_eq!(parse(text.as_bytes()), Ok(ledger));
        assert_eq!(text.lines().count(), 12);
        let numbers = text
            .lines()
            .map(|line| line.rsplit(' ').next().expect("a word").parse());
        let numbers: Vec<u64> = numbers.map(|number| number.expect("a number")).collect();
        assert_eq!(numbers, ledger.numbers());
    }
    let full = short_ledger(0, MOST, 8 * MOST);
    assert!(text(full).ends_with("\naccepted 4000000\nrepaired 32000000\n"));
}

/// "18 ... before 27", and both leave the buffer.
#[test]
fn printing_into_a_buffer() {
    for ledger in [
        Ledger::default(),
        sample(),
        short_ledger(MOST, 0, 0),
        short_ledger(0, MOST + 1, 0),
        with(sample(), 3, u64::MAX),
    ] {
        let text = report(ledger);
        let length = text.as_ref().map_or(137, Vec::len);
        for size in [0, 1, length - 1, length, length + 1, 203, 4_000] {
            let mut buffer = vec![0xA5; size];
            let number = print(ledger, &mut buffer);
            match &text {
                Ok(text) if size == length => assert_eq!((number, &buffer), (0, text)),
                Ok(_) => assert_eq!((number, buffer), (27, vec![0xA5; size])),
                Err(_) => assert_eq!((number, buffer), (18, vec![0xA5; size])),
            }
        }
    }
    assert_eq!(report(short_ledger(0, MOST + 1, 0)), Err(18));
}

// ---- the reader

fn refused(text: &str) {
    assert_eq!(parse(text.as_bytes()), Err(18), "{text:?}");
}

/// The report with something else instead of what stands there once.
fn edited(text: &str, from: &str, to: &str) {
    assert_eq!(text.matches(from).count(), 1, "{from:?}");
    refused(&text.replace(from, to));
}

#[test]
fn texts_that_are_no_report() {
    for text in [
        "", "\n", "seen 0", "seen 0\n", "0\n", "end 0\n", "seen", "\0",
    ] {
        refused(text);
    }
    refused(&"\n".repeat(12));
    refused(&"0\n".repeat(12));
    assert_eq!(parse(&[0xFF; 137]), Err(18));
    assert_eq!(parse(&[0; 137]), Err(18));
    assert_eq!(parse(&[b'0'; 4_000]), Err(18));
}

#[test]
fn numbers_that_are_not_plain() {
    let base = TWO_PIECES;
    for number in [
        "", "02", "002", "+2", "-2", "-0", " 2", "2 ", "\t2", "2\r", "2.0", "2,0", "2e0", "0x2",
        "two", "2\0", "\x002", "²", "２", "2_", "2u64", "1", "3",
    ] {
        edited(base, "seen 2", &format!("seen {number}"));
    }
    for (line, number) in [
        ("refused 1 1", 1),
        ("refused 5 0", 0),
        ("accepted 1", 1),
        ("repaired 0", 0),
    ] {
        let label = &line[..line.len() - 1];
        for before in ["0", "00", "+", "-", " ", "\t", "'"] {
            edited(base, line, &format!("{label}{before}{number}"));
        }
        for after in [" ", "\r", "\0", ".", ".0", "\n"] {
            edited(base, line, &format!("{label}{number}{after}"));
        }
        edited(base, line, label);
        edited(base, line, label.trim_end());
    }
    edited(base, "repaired 0", "repaired -1");
    edited(base, "repaired 0", "repaired 9");
    let eight = base.replace("repaired 0", "repaired 8");
    assert_eq!(parse(eight.as_bytes()), Ok(short_ledger(1, 1, 8)));
}

/// Numbers that are right only when cut to 64 bits or to 32.
#[test]
fn numbers_past_all_bounds() {
    let (word, half_word) = (1u128 << 64, 1u128 << 32);
    for (line, number) in [
        ("seen 2", 2),
        ("refused 1 1", 1),
        ("refused 9 0", 0),
        ("accepted 1", 1),
        ("repaired 0", 0),
    ] {
        let label = &line[..line.len() - 1];
        for number in [
            word + number,
            10 * word + number,
            half_word + number,
            word - 1,
            word,
            10_000_000_000_000_000_000,
            99_999_999_999_999_999_999,
            u128::MAX,
        ] {
            edited(TWO_PIECES, line, &format!("{label}{number}"));
        }
        // 2^4096 and the like, and the number itself behind very many zeros.
        edited(TWO_PIECES, line, &format!("{label}{}", "9".repeat(3_000)));
        edited(
            TWO_PIECES,
            line,
            &format!("{label}{}{number}", "0".repeat(3_000)),
        );
    }
    refused(&TWO_PIECES.replace(" 0\n", " 18446744073709551616\n"));
}

#[test]
fn other_lines() {
    let base = TWO_PIECES;
    let lines: Vec<&str> = base.split_inclusive('\n').collect();
    for i in 0..NUMBERS {
        let (before, after) = (lines[..i].concat(), lines[i + 1..].concat());
        let line = lines[i];
        refused(&format!("{before}{after}"));
        refused(&format!("{before}{line}{line}{after}"));
        refused(&format!("{before}\n{line}{after}"));
        refused(&format!("{before} {line}{after}"));
        refused(&format!("{before}{}{after}", line.to_uppercase()));
        refused(&format!("{before}{}\r\n{after}", line.trim_end()));
        refused(&format!("{before}{}{after}", line.trim_end()));
        refused(&format!("{before}{}{after}", line.replace(' ', "  ")));
        refused(&format!("{before}{}{after}", line.replace(' ', "\t")));
        refused(&format!("{before}{}{after}", line.replace(' ', "")));
        refused(&format!("{before}{}{after}", line.replace(' ', ": ")));
        for j in 0..i {
            let mut swapped = lines.clone();
            swapped.swap(i, j);
            refused(&swapped.concat());
        }
    }
    let mut turned = lines.clone();
    turned.reverse();
    refused(&turned.concat());
    edited(base, "seen", "Seen");
    edited(base, "accepted", "ACCEPTED");
    edited(base, "repaired 0\n", "repaired 0\nrefused 10 0\n");
    edited(base, "refused 1 ", "refused 0 0\nrefused 1 ");
    edited(base, "refused 9 0", "refused 10 0");
    edited(base, "refused 2 0", "refused 02 0");
}

#[test]
fn what_stands_before_and_behind() {
    let base = TWO_PIECES;
    for other in ["\n", " ", "\0", "\r", "\u{feff}", "0", "seen 2\n", base] {
        refused(&format!("{base}{other}"));
        refused(&format!("{other}{base}"));
    }
    refused(&base.replace('\n', "\r\n"));
    refused(&base.replace('\n', "\r"));
    refused(base.trim_end());
    for length in 0..base.len() {
        assert_eq!(parse(&base.as_bytes()[..length]), Err(18), "{length}");
        assert_eq!(parse(&base.as_bytes()[length + 1..]), Err(18), "{length}");
    }
}

/// Each byte changed to every other: all are refused but other numbers of repaired places that one accepted frame can have.
#[test]
fn every_byte_changed() {
    let base = TWO_PIECES.as_bytes();
    let mut accepted = vec![];
    for at in 0..base.len() {
        for byte in (0..=255).filter(|&byte| byte != base[at]) {
            let mut text = base.to_vec();
            text[at] = byte;
            if let Ok(ledger) = parse(&text) {
                assert_eq!(report(ledger), Ok(text));
                accepted.push(ledger.repaired);
            }
        }
    }
    assert_eq!(accepted, [1, 2, 3, 4, 5, 6, 7, 8]);
}

/// Reports in their form, of ledgers that are impossible.
#[test]
fn reports_of_impossible_ledgers() {
    let form = |numbers: [u64; NUMBERS]| {
        let mut text = format!("seen {}\n", numbers[0]);
        for (k, number) in (1..).zip(&numbers[1..=9]) {
            text += &format!("refused {k} {number}\n");
        }
        text + &format!("accepted {}\nrepaired {}\n", numbers[10], numbers[11])
    };
    let base = sample();
    assert_eq!(parse(form(base.numbers()).as_bytes()), Ok(base));
    assert_eq!(form(base.numbers()), text(base));
    for place in 0..=10 {
        refused(&form(
            with(base, place, base.numbers()[place] + 1).numbers(),
        ));
        refused(&form(with(base, place, u64::MAX).numbers()));
    }
    refused(&form(with(base, 11, 8 * base.accepted + 1).numbers()));
    refused(&form(short_ledger(0, MOST + 1, 0).numbers()));
    let half = 1 << 63;
    refused(&form(
        ledger(0, [half, half, 0, 0, 0, 0, 0, 0, 0], 0, 0).numbers(),
    ));
    refused(&form([u64::MAX; NUMBERS]));
}

// ---- the program

/// A line of each sort of frame, and short last pieces.
#[test]
fn the_report_of_an_input() {
    let whole = |(_, bytes): &(_, Vec<u8>)| bytes.len() == 26;
    let mut frames = every_frame();
    frames.push((Err(6), safety()));
    frames.retain(whole);
    let input: Vec<u8> = frames.iter().flat_map(|(_, bytes)| bytes.clone()).collect();
    let refused = [0, 1, 1, 1, 1, 2, 1, 1, 1];
    let expected = ledger(18, refused, 9, 36);
    assert_eq!(ledger_report_of_input(&input), text(expected).into_bytes());
    for length in 1..26 {
        let all = [&input[..], &accepted_with(0)[..length]].concat();
        let mut expected = expected;
        (expected.seen, expected.refused[0]) = (19, 1);
        assert_eq!(ledger_report_of_input(&all), text(expected).into_bytes());
    }
    let one = frame::judge(First, &input[..26]);
    assert_eq!(one, Err(2));
}

/// "At 4,000,000 frames the next is refused": the program stops reading.
#[test]
fn the_program_stops_after_4000000() {
    let mut input = vec![0; 26 * 4_000_000];
    let full = ledger(MOST, [0, 0, MOST, 0, 0, 0, 0, 0, 0], 0, 0);
    assert_eq!(ledger_report_of_input(&input), text(full).into_bytes());
    let short = ledger(MOST, [1, 0, MOST - 1, 0, 0, 0, 0, 0, 0], 0, 0);
    let all_but_one = &input[..input.len() - 1];
    assert_eq!(
        ledger_report_of_input(all_but_one),
        text(short).into_bytes()
    );
    for more in [1, 26, 27] {
        input.resize(26 * 4_000_000 + more, 0xFF);
        assert_eq!(ledger_report_of_input(&input), text(full).into_bytes());
    }
}
