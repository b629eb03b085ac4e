//! The repair by majority vote over the check table, one byte a bit.
use crate::code::{distance, frame_of, is_code_word, protected, Word, FULL, LENGTH, ROWS, THROUGH};
use crate::FRAME_BYTES;

/// A repaired code word, and the number of places in which the received bits differ from it.
#[derive(Clone, Copy, Debug, PartialEq, Eq)]
pub struct Repaired {
    /// B17 to B203 at their places, and 0 elsewhere.
    pub word: [u8; FRAME_BYTES],
    pub places: u8,
}

/// The code word within eight places of the frame's protected part, or the refusal's number, 1 or 4.
pub fn repair(frame: &[u8]) -> Result<Repaired, u8> {
    if frame.len() != FRAME_BYTES {
        return Err(1);
    }
    let received = protected(frame);
    if is_code_word(&received) {
        return Ok(Repaired {
            word: frame_of(&received),
            places: 0,
        });
    }
    let word = vote(&received);
    let places = distance(&received, &word);
    if places > 8 || !is_code_word(&word) {
        return Err(4);
    }
    Ok(Repaired {
        word: frame_of(&word),
        places: places as u8,
    })
}

/// The sum on each row of the check table.
fn row_sums(word: &Word) -> [u8; FULL] {
    let mut places = [0; FULL];
    places[..LENGTH].copy_from_slice(word);
    std::array::from_fn(|s| {
        ROWS[s]
            .iter()
            .fold(0, |sum, &place| sum ^ places[usize::from(place)])
    })
}

/// Turns over each place of whose 17 rows more than eight have an odd sum.
fn vote(received: &Word) -> Word {
    let sums = row_sums(received);
    std::array::from_fn(|place| {
        let odd: u8 = THROUGH[place].iter().map(|&s| sums[usize::from(s)]).sum();
        received[place] ^ u8::from(odd > 8)
    })
}
