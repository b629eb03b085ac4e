//! The repair with doubtful marks (document 02, "Doubtful marks"). Few marks: every filling of the marked places is repaired as without marks. More
//! of them, which leave at most four other places: remainders by the generator, compared from both ends. Neither looks at the bits under the marks.
use crate::code::{frame_of, is_code_word, protected, Word, DEGREE, GENERATOR, LENGTH};
use crate::{repair, Repaired, FRAME_BYTES};
use std::collections::HashMap;

/// "2t+s at most 17".
const MOST: usize = 17;

/// Up to so many marks every filling is tried: 128 of them at most. With more, t is at most (17-8)/2, which is four.
const MOST_FILLED: usize = 7;

/// "the code word that differs in t unmarked places with 2t+s at most 17", and t as its places; or the refusal's number: "Marks other than 26 bytes
/// are refusal 1; then refuse with 4 exactly when there is none." A mark is at the bit of its place, and only those of B17 to B203 are among the s.
pub fn repair_marked(frame: &[u8], marks: &[u8]) -> Result<Repaired, u8> {
    if frame.len() != FRAME_BYTES || marks.len() != FRAME_BYTES {
        return Err(1);
    }
    let doubtful = protected(marks);
    let (marked, sure): (Vec<usize>, Vec<usize>) =
        (0..LENGTH).partition(|&place| doubtful[place] == 1);
    // "The bits under marks must not matter": from here on they are 0, whatever was received.
    let mut received = protected(frame);
    marked.iter().for_each(|&place| received[place] = 0);
    let mut words = match marked.len() {
        s if s <= MOST_FILLED => by_fillings(&received, &marked),
        s if s <= MOST => by_remainders(&received, &marked, &sure),
        // s alone is over 17, whatever t is.
        _ => vec![],
    };
    let differing = |word: &Word| {
        let differs = |&&place: &&usize| word[place] != received[place];
        sure.iter().filter(differs).count()
    };
    words.retain(|word| 2 * differing(word) + marked.len() <= MOST);
    words.sort_unstable();
    words.dedup();
    // Two such words differ in t1+t2+s places at most, which is 17 at most, and two code words differ in 18 or more.
    assert!(words.len() <= 1, "\"There is never more than one.\"");
    let word = words.first().ok_or(4)?;
    Ok(Repaired {
        word: frame_of(word),
        places: differing(word) as u8,
    })
}

/// The code words that the repair without marks finds when the marked places, seven at most, are filled in every way. The word that is asked for is
/// among them: one filling has its own bits there, and then it differs in the t unmarked places only, which are eight at most.
fn by_fillings(received: &Word, marked: &[usize]) -> Vec<Word> {
    let filled = |filling: u128| frame_of(&with_marked(received, marked, filling));
    (0..1 << marked.len())
        .filter_map(|filling| repair(&filled(filling)).ok())
        .map(|repaired| protected(&repaired.word))
        .collect()
}

/// The word with this filling added at the marked places, the first mark's bit lowest.
fn with_marked(word: &Word, marked: &[usize], filling: u128) -> Word {
    let mut filled = *word;
    for (i, &place) in marked.iter().enumerate() {
        filled[place] ^= (filling >> i & 1) as u8;
    }
    filled
}

/// The code words that differ in at most (17-s)/2 unmarked places, for eight to 17 marks.
///
/// A word is a code word exactly when the remainders of the places that hold 1 sum up to 0. The word that is asked for is the received one with some
/// unmarked places T and some marked places turned over; so the remainders of what was received, of T and of those marked places sum up to 0.
/// `reduce` takes away whatever is a sum of marked places' remainders, so that the reduced remainders of what was received and of T alone sum up to
/// 0. T has at most (17-s)/2 places, four at most, and is made of two sets of half as many, rounded down and up; all these sets are tried, and so it
/// is found. Which marked places' remainders were added by the way says how the marked places are filled.
fn by_remainders(received: &Word, marked: &[usize], sure: &[usize]) -> Vec<Word> {
    let steps = steps(marked);
    let reduced = remainders().map(|remainder| reduce(remainder, &steps));
    let ones = (0..LENGTH).filter(|&place| received[place] == 1);
    let target = ones.fold(0, |sum, place| sum ^ reduced[place]);
    let most = (MOST - marked.len()) / 2;
    let (half, other_half) = (most / 2, most - most / 2);
    let half_sums = sums(half, sure, &reduced);
    let by_remainder = |&(set, sum): &(Set, Remainder)| (sum & REMAINDER, (set, sum));
    let sets: HashMap<_, _> = half_sums.iter().map(by_remainder).collect();
    // Two such sets and the marked places have fewer than 18 places, so that no code word lies in them.
    assert_eq!(sets.len(), half_sums.len(), "no two have the same sum");
    let mut words = vec![];
    for (other_set, other_sum) in sums(other_half, sure, &reduced) {
        if let Some((set, sum)) = sets.get(&((target ^ other_sum) & REMAINDER)) {
            let filling = (target ^ sum ^ other_sum) >> DEGREE;
            let mut word = with_marked(received, marked, filling);
            // A place in both sets is turned over twice, and so not at all.
            for &place in set.iter().chain(&other_set).flatten() {
                word[place] ^= 1;
            }
            assert!(is_code_word(&word), "the remainders sum up to 0");
            words.push(word);
        }
    }
    words
}

/// A remainder by the generator: bit i is the coefficient of x^i. In a sum of remainders bit 82+i says whether that of the i-th marked place was
/// added.
type Remainder = u128;

/// The 82 bits that are the remainder itself.
const REMAINDER: Remainder = (1 << DEGREE) - 1;

/// What remains of x^place by the generator, for each place: times x, and less the generator whenever x^82 is reached.
fn remainders() -> [Remainder; LENGTH] {
    let generator: Remainder = GENERATOR.iter().map(|power| 1 << power).sum();
    let mut next = 1;
    std::array::from_fn(|_| {
        let remainder = next;
        next <<= 1;
        if next >> DEGREE == 1 {
            next ^= generator;
        }
        remainder
    })
}

/// Sums of the marked places' remainders, each with a bit that it has and no later one has: each is a marked place's remainder from which the bits of
/// those before it were taken away. Something is left of it, since no sum of up to 17 places' remainders is 0: they would be the places of a code
/// word.
fn steps(marked: &[usize]) -> Vec<(u32, Remainder)> {
    let remainders = remainders();
    let mut steps = vec![];
    for (i, &place) in marked.iter().enumerate() {
        let sum = reduce(remainders[place] | 1 << (DEGREE + i), &steps);
        let own_bit = sum.trailing_zeros();
        assert!((own_bit as usize) < DEGREE, "a code word of 17 places");
        steps.push((own_bit, sum));
    }
    steps
}

/// The sum, with each step added whose own bit it has. No step has the own bit of one before it, so that in the end the sum is 0 in all of them. Two
/// sums that differ by marked places only come out the same in the 82 bits: what they still differ by is a sum of steps that is 0 in all their own
/// bits, and only the sum of no step is so.
fn reduce(sum: Remainder, steps: &[(u32, Remainder)]) -> Remainder {
    steps.iter().fold(sum, |sum, &(own_bit, step)| {
        if sum >> own_bit & 1 == 1 {
            sum ^ step
        } else {
            sum
        }
    })
}

/// A set of at most two places.
type Set = [Option<usize>; 2];

/// Every set of at most n of these places, for n of two at most, and the sum of its reduced remainders.
fn sums(n: usize, places: &[usize], reduced: &[Remainder]) -> Vec<(Set, Remainder)> {
    let mut sums = vec![([None, None], 0)];
    for (i, &place) in places.iter().enumerate() {
        if n >= 1 {
            sums.push(([Some(place), None], reduced[place]));
        }
        if n >= 2 {
            let both =
                |&other: &usize| ([Some(place), Some(other)], reduced[place] ^ reduced[other]);
            sums.extend(places[..i].iter().map(both));
        }
    }
    sums
}
