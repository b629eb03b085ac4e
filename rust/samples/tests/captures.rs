//! What the making of two captures says of frame n in each edition, held to the plain version; and that every case is reached.
use reference::capture::{frame_at, numbers, read};
use reference::frame::Edition::{AreaSafety, First};
use reference::frame::{EDITIONS, IDENTIFICATION, REPAIRED, TUNER};
use reference::FRAME_BYTES;
use samples::captures::{captures, captures_of, Captures, Expected, Side, HUGE, SIDES};
use samples::Random;

/// The plain version answers as the making says, where it says anything.
fn agree(sample: &Captures) {
    let (main, spare, n) = (&sample.main, &sample.spare, sample.n);
    for edition in EDITIONS {
        let expected = match sample.expected(edition) {
            Expected::Read(record, differing) => Ok((record, differing)),
            Expected::Neither(main, spare) => Err((main, spare)),
            Expected::Open => continue,
        };
        assert_eq!(read(edition, main, spare, n), expected, "{edition:?} {n}");
        match expected {
            Ok(_) => assert_eq!(frame_at(edition, main, spare, n).len(), FRAME_BYTES),
            Err(both) => assert_eq!(numbers(edition, main, spare, n), both),
        }
    }
}

fn many(count: usize, seed: u64) -> Vec<Captures> {
    let mut random = Random::new(seed);
    (0..count).map(|_| captures(&mut random)).collect()
}

#[test]
fn captures_of_all_sorts() {
    many(4_000, 1).iter().for_each(agree);
}

#[test]
fn the_same_seed_gives_the_same_samples() {
    assert!(many(200, 2) == many(200, 2));
    assert!(many(200, 2) != many(200, 3));
}

/// Each pair of sides gives what it says in the edition that it is made for.
#[test]
fn every_pair_of_sides() {
    let mut random = Random::new(4);
    for edition in EDITIONS {
        for main in SIDES {
            for spare in SIDES {
                let mut open = 0;
                for _ in 0..100 {
                    let sample = captures_of(edition, main, spare, &mut random);
                    agree(&sample);
                    open += u32::from(!is_of(main, spare, sample.expected(edition)));
                }
                // Only a side that is hit in more than nine places may leave the answer open.
                let may = main == Side::Refused || spare == Side::Refused;
                assert!(open == 0 || (may && open < 25), "{main:?} {spare:?} {open}");
            }
        }
    }
}

/// Whether the answer is one that these sides give; if not it is open.
fn is_of(main: Side, spare: Side, expected: Expected) -> bool {
    let repaired = |side, repaired: u64| match side {
        Side::Accepted => repaired == 0,
        _ => (1..=8).contains(&repaired),
    };
    let number = |side, number: u8| match side {
        Side::Missing => number == 1,
        _ => (2..=9).contains(&number),
    };
    let in_main = matches!(main, Side::Accepted | Side::Damaged);
    let in_spare = matches!(spare, Side::Accepted | Side::Damaged);
    match expected {
        Expected::Open => return false,
        Expected::Read(record, _) if in_main => {
            assert!(record[TUNER] == 1 && repaired(main, record[REPAIRED]));
        }
        Expected::Read(record, _) => {
            assert!(in_spare && record[TUNER] == 2 && repaired(spare, record[REPAIRED]));
        }
        Expected::Neither(of_main, of_spare) => {
            assert!(!in_main && !in_spare && number(main, of_main) && number(spare, of_spare));
        }
    }
    true
}

/// From both tuners every number of repaired places, and beside it every number of differing bits, in both editions.
#[test]
fn every_damage_of_both_tuners() {
    let samples = many(4_000, 5);
    for edition in EDITIONS {
        for tuner in [1, 2] {
            for repaired in 0..=8 {
                let of = |differing| {
                    let same = |sample: &&Captures| {
                        matches!(sample.expected(edition), Expected::Read(record, bits)
                            if (record[TUNER], record[REPAIRED], bits) == (tuner, repaired, differing))
                    };
                    samples.iter().filter(same).count()
                };
                assert!((0..=3).all(|differing| of(differing) >= 5), "{repaired}");
            }
        }
    }
}

/// The sides of which neither is accepted, and how often they are tried.
const NEITHER: [(Side, Side, usize); 4] = [
    (Side::Refused, Side::Refused, 2_500),
    (Side::Refused, Side::Missing, 200),
    (Side::Missing, Side::Refused, 200),
    (Side::Missing, Side::Missing, 50),
];

/// Every pair of both tuners' numbers, 1 to 9.
#[test]
fn every_pair_of_numbers() {
    let mut random = Random::new(6);
    for edition in EDITIONS {
        let mut seen = [[0; 10]; 10];
        for (main, spare, count) in NEITHER {
            for _ in 0..count {
                let sample = captures_of(edition, main, spare, &mut random);
                if let Expected::Neither(main, spare) = sample.expected(edition) {
                    seen[usize::from(main)][usize::from(spare)] += 1;
                }
            }
        }
        let pairs = (1..=9).flat_map(|main| (1..=9).map(move |spare| (main, spare)));
        pairs.for_each(|(main, spare)| assert!(seen[main][spare] >= 2, "{main} {spare}"));
    }
}

/// Area safety information in the main capture: the other edition takes the spare one's frame, or none.
#[test]
fn from_another_tuner_in_each_edition() {
    let samples = many(2_000, 8);
    let tuner = |sample: &Captures, edition| match sample.expected(edition) {
        Expected::Read(record, _) => record[TUNER],
        _ => 0,
    };
    for first in [0, 2] {
        let both =
            |sample: &&Captures| (tuner(sample, First), tuner(sample, AreaSafety)) == (first, 1);
        let safety = |sample: &&Captures| match sample.expected(AreaSafety) {
            Expected::Read(record, _) => [5, 6].contains(&record[IDENTIFICATION]),
            _ => false,
        };
        assert!(samples.iter().filter(both).filter(safety).count() > 20);
    }
}

/// How many whole frames and further bytes a capture has.
fn extent(capture: &[u8]) -> (u64, usize) {
    (
        (capture.len() / FRAME_BYTES) as u64,
        capture.len() % FRAME_BYTES,
    )
}

/// Captures of equal and different lengths, with and without a short piece at the end; frames inside, at the end, past it, and huge.
#[test]
fn every_extent() {
    let samples = many(4_000, 7);
    let count =
        |which: &dyn Fn(&Captures) -> bool| samples.iter().filter(|sample| which(sample)).count();
    let (main, spare) = (
        |s: &Captures| extent(&s.main),
        |s: &Captures| extent(&s.spare),
    );
    assert!(count(&|s| s.main.len() == s.spare.len()) > 20);
    assert!(count(&|s| s.main.len() < s.spare.len()) > 1000);
    assert!(count(&|s| s.main.len() > s.spare.len()) > 1000);
    assert!(count(&|s| s.main.is_empty()) > 20 && count(&|s| s.spare.is_empty()) > 20);
    for tail in [0, 1, 12, 25] {
        // Frame n lies before the short piece, it is that piece, or it lies past it.
        assert!(count(&|s| main(s).1 == tail && s.n < main(s).0) > 20);
        assert!(count(&|s| main(s).1 == tail && s.n == main(s).0) > 20);
        assert!(count(&|s| main(s).1 == tail && s.n > main(s).0) > 20);
        assert!(count(&|s| spare(s).1 == tail && s.n < spare(s).0) > 20);
        assert!(count(&|s| spare(s).1 == tail && s.n == spare(s).0) > 20);
        assert!(count(&|s| spare(s).1 == tail && s.n > spare(s).0) > 20);
    }
    for n in 0..=4 {
        assert!(count(&|s| s.n == n && s.n < main(s).0 && s.n < spare(s).0) > 20);
        assert!(count(&|s| s.n == n && s.n < main(s).0 && s.n >= spare(s).0) > 20);
        assert!(count(&|s| s.n == n && s.n >= main(s).0 && s.n < spare(s).0) > 20);
        assert!(count(&|s| s.n == n && s.n >= main(s).0 && s.n >= spare(s).0) > 5);
        // The last frame, and one with others after it.
        assert!(count(&|s| s.n == n && s.n + 1 == main(s).0) > 20);
        assert!(count(&|s| s.n == n && s.n + 1 < main(s).0) > 20);
    }
    for n in HUGE {
        // With frames where 26 times the number would come out in 64 bits.
        assert!(count(&|s| s.n == n && main(s).0 > 2 && spare(s).0 > 2) > 1);
        assert!(count(&|s| s.n == n && s.expected == [Expected::Neither(1, 1); 2]) > 1);
    }
}
