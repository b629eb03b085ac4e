//! The repair as the rules put it: a byte for a bit, every check row summed by the table, and every place decided by the rows through it.
use gvozdyana::{Refusal, FRAME_BYTES};
use reference::code::{FULL, LENGTH, ROWS, THROUGH};

/// 1 where the bits at the row's places have an odd sum.
fn row_sum(word: &[u8; FULL], row: &[u16; 17]) -> u8 {
    row.iter()
        .fold(0, |sum, &place| sum ^ word[usize::from(place)])
}

pub fn repair_into(frame: &[u8], bytes: &mut [u8; FRAME_BYTES]) -> Result<u8, Refusal> {
    if frame.len() != FRAME_BYTES {
        return Err(Refusal::WrongLength);
    }
    let mut word = [0; FULL];
    for (place, bit) in word[..LENGTH].iter_mut().enumerate() {
        let k = 203 - place;
        *bit = frame[k / 8] >> (7 - k % 8) & 1;
    }
    let mut sums = [0; FULL];
    for (sum, row) in sums.iter_mut().zip(&ROWS) {
        *sum = row_sum(&word, row);
    }
    let mut places = 0;
    for place in 0..LENGTH {
        let rows = &THROUGH[place];
        let odd: u8 = rows.iter().map(|&row| sums[usize::from(row)]).sum();
        if odd > 8 {
            word[place] ^= 1;
            places += 1;
        }
    }
    if places > 8 || ROWS.iter().any(|row| row_sum(&word, row) != 0) {
        return Err(Refusal::BeyondRepair);
    }
    *bytes = [0; FRAME_BYTES];
    for (place, bit) in word[..LENGTH].iter().enumerate() {
        let k = 203 - place;
        bytes[k / 8] |= bit << (7 - k % 8);
    }
    Ok(places)
}
