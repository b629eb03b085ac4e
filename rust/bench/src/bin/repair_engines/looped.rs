//! The repair 64 check rows at once, as it was best known before the shipped engine was made fast: loops over the differences, so that the running program
//! reckons where each window begins, and counters that are carried on bit by bit.
use gvozdyana::{Refusal, FRAME_BYTES};
use reference::code::{DIFFERENCES, FULL, LENGTH};

/// A row of 273 bits in limbs of 64, the lowest place first.
type Row = [u64; 5];

/// The places of a word in its third limb, and those past four limbs in a row.
const HIGHEST: u64 = (1 << (LENGTH - 128)) - 1;
const LAST: u64 = (1 << (FULL - 256)) - 1;

/// The row twice over, so that a window may run past its end.
fn twice(row: &Row) -> [u64; 10] {
    let mut limbs = [0; 10];
    limbs[..5].copy_from_slice(row);
    for (i, limb) in row.iter().enumerate() {
        limbs[4 + i] |= limb << 17;
        limbs[5 + i] |= limb >> 47;
    }
    limbs
}

/// The 64 bits from place 64 limb + start on.
fn window(limbs: &[u64; 10], start: usize, limb: usize) -> u64 {
    let (first, shift) = (start / 64 + limb, start % 64);
    if shift == 0 {
        limbs[first]
    } else {
        limbs[first] >> shift | limbs[first + 1] << (64 - shift)
    }
}

/// The sums on all check rows.
fn check_sums(word: &Row) -> Row {
    let limbs = twice(word);
    let mut sums = [0; 5];
    for d in DIFFERENCES {
        for (limb, sum) in sums.iter_mut().enumerate() {
            *sum ^= window(&limbs, (FULL - d) % FULL, limb);
        }
    }
    sums[4] &= LAST;
    sums
}

/// The places with nine or more odd rows.
fn hits(sums: &Row) -> Row {
    let limbs = twice(sums);
    let mut counters = [[0; 3]; 5];
    for d in DIFFERENCES {
        for limb in 0..3 {
            let mut carry = window(&limbs, d, limb);
            for counter in &mut counters {
                let sum = counter[limb] ^ carry;
                carry &= counter[limb];
                counter[limb] = sum;
            }
        }
    }
    let [ones, twos, fours, eights, sixteens] = counters;
    let of = |i: usize| sixteens[i] | eights[i] & (fours[i] | twos[i] | ones[i]);
    [of(0), of(1), of(2) & HIGHEST, 0, 0]
}

fn word_of(frame: &[u8; FRAME_BYTES]) -> Row {
    let limb = |at: usize| u64::from_be_bytes(frame[at..at + 8].try_into().unwrap());
    let (low, middle, high) = (limb(18), limb(10), limb(2));
    [
        low >> 4 | middle << 60,
        middle >> 4 | high << 60,
        high >> 4 & HIGHEST,
        0,
        0,
    ]
}

pub fn repair_into(frame: &[u8], out: &mut [u8; FRAME_BYTES]) -> Result<u8, Refusal> {
    let word = word_of(frame.try_into().map_err(|_| Refusal::WrongLength)?);
    let sums = check_sums(&word);
    let mut places = 0;
    let mut error = [0; 5];
    if sums != [0; 5] {
        error = hits(&sums);
        places = error.iter().map(|limb| limb.count_ones()).sum();
        if places > 8 || check_sums(&error) != sums {
            return Err(Refusal::BeyondRepair);
        }
    }
    let [low, middle, high] = [0, 1, 2].map(|limb| word[limb] ^ error[limb]);
    out[..2].fill(0);
    out[2..10].copy_from_slice(&(high << 4 | middle >> 60).to_be_bytes());
    out[10..18].copy_from_slice(&(middle << 4 | low >> 60).to_be_bytes());
    out[18..].copy_from_slice(&(low << 4).to_be_bytes());
    Ok(places as u8)
}
