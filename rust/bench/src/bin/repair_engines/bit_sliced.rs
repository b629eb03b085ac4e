//! The repair 64 check rows, and then 64 places, at once, in plain 64-bit arithmetic. A word is a polynomial in limbs of 64 coefficients, the lowest power
//! first. The sums on the 273 check rows are its product with the sum of x^d over the differences d, modulo x^273 - 1; the odd rows through each place are
//! counted in bit slices, by carry-save adders. Where each window begins is known to the compiler, so that it costs a shift.
use gvozdyana::{Refusal, FRAME_BYTES};
use reference::code::{DIFFERENCES, FULL, LENGTH};

/// 187 coefficients, and 0 above them.
type Word = [u64; 3];

/// The coefficients of a word in its highest limb, and the check rows past four limbs.
const HIGHEST: u64 = (1 << (LENGTH - 128)) - 1;
const LAST_ROWS: u64 = (1 << (FULL - 256)) - 1;

/// The 64 coefficients from x^start on.
#[inline(always)]
fn window<const N: usize>(limbs: &[u64; N], start: usize) -> u64 {
    let (limb, shift) = (start / 64, start % 64);
    if shift == 0 {
        limbs[limb]
    } else {
        limbs[limb] >> shift | limbs[limb + 1] << (64 - shift)
    }
}

/// Written out, since a loop over the differences would leave the shifts to the running program.
#[inline(always)]
fn at_each_difference(of: impl Fn(usize) -> u64) -> [u64; 17] {
    [
        of(DIFFERENCES[0]),
        of(DIFFERENCES[1]),
        of(DIFFERENCES[2]),
        of(DIFFERENCES[3]),
        of(DIFFERENCES[4]),
        of(DIFFERENCES[5]),
        of(DIFFERENCES[6]),
        of(DIFFERENCES[7]),
        of(DIFFERENCES[8]),
        of(DIFFERENCES[9]),
        of(DIFFERENCES[10]),
        of(DIFFERENCES[11]),
        of(DIFFERENCES[12]),
        of(DIFFERENCES[13]),
        of(DIFFERENCES[14]),
        of(DIFFERENCES[15]),
        of(DIFFERENCES[16]),
    ]
}

/// A limb of the product, from 0 to 6, before it is taken modulo x^273 - 1: its degree is 186 + 201 at most.
#[inline(always)]
fn product(word: &Word, limb: usize) -> u64 {
    let [low, middle, high] = *word;
    let padded = [0, 0, 0, 0, low, middle, high, 0, 0, 0, 0];
    at_each_difference(|d| window(&padded, 64 * (4 + limb) - d))
        .into_iter()
        .fold(0, |sum, shifted| sum ^ shifted)
}

/// The sums on check rows 128 to 255, into which nothing is carried round. The sums on all rows make a word of a cyclic code of dimension 82, and any 82
/// neighbours tell the rest: a word is a code word exactly if these are 0.
#[inline(always)]
fn syndrome(word: &Word) -> [u64; 2] {
    [product(word, 2), product(word, 3)]
}

/// The sums on check rows 0 to 272, and then on from row 0 again.
#[inline(always)]
fn check_sums(word: &Word, [third, fourth]: [u64; 2]) -> [u64; 7] {
    let beyond = [product(word, 4), product(word, 5), product(word, 6)];
    let first = product(word, 0) ^ window(&beyond, FULL - 256);
    let second = product(word, 1) ^ window(&beyond, FULL - 256 + 64);
    [
        first,
        second,
        third,
        fourth,
        beyond[0] & LAST_ROWS | first << 17,
        first >> 47 | second << 17,
        second >> 47 | third << 17,
    ]
}

/// A carry-save adder: 64 sums of three bits, the ones and the twos.
#[inline(always)]
fn add3(a: u64, b: u64, c: u64) -> (u64, u64) {
    let sum = a ^ b;
    (sum ^ c, a & b | sum & c)
}

#[inline(always)]
fn add2(a: u64, b: u64) -> (u64, u64) {
    (a ^ b, a & b)
}

/// Where nine or more of the 17 bits are 1.
#[inline(always)]
fn majority(bits: [u64; 17]) -> u64 {
    let (ones, twos_0) = add3(bits[0], bits[1], bits[2]);
    let (ones, twos_1) = add3(ones, bits[3], bits[4]);
    let (ones, twos_2) = add3(ones, bits[5], bits[6]);
    let (ones, twos_3) = add3(ones, bits[7], bits[8]);
    let (ones, twos_4) = add3(ones, bits[9], bits[10]);
    let (ones, twos_5) = add3(ones, bits[11], bits[12]);
    let (ones, twos_6) = add3(ones, bits[13], bits[14]);
    let (ones, twos_7) = add3(ones, bits[15], bits[16]);
    let (twos, fours_0) = add3(twos_0, twos_1, twos_2);
    let (twos, fours_1) = add3(twos, twos_3, twos_4);
    let (twos, fours_2) = add3(twos, twos_5, twos_6);
    let (twos, fours_3) = add2(twos, twos_7);
    let (fours, eights_0) = add3(fours_0, fours_1, fours_2);
    let (fours, eights_1) = add2(fours, fours_3);
    let (eights, sixteens) = add2(eights_0, eights_1);
    sixteens | eights & (ones | twos | fours)
}

/// The places with nine or more odd rows, in a limb of the word.
#[inline(always)]
fn hits(sums: &[u64; 7], limb: usize) -> u64 {
    majority(at_each_difference(|d| window(sums, 64 * limb + d)))
}

/// B(203 - p) is the coefficient of x^p, and below it the frame has four bits of filler.
#[inline(always)]
fn word_of(frame: &[u8; FRAME_BYTES]) -> Word {
    let limb = |at: usize| u64::from_be_bytes(frame[at..at + 8].try_into().unwrap());
    let (low, middle, high) = (limb(18), limb(10), limb(2));
    [
        low >> 4 | middle << 60,
        middle >> 4 | high << 60,
        high >> 4 & HIGHEST,
    ]
}

#[inline(always)]
fn put_word(word: &Word, frame: &mut [u8; FRAME_BYTES]) {
    let [low, middle, high] = *word;
    frame[..2].fill(0);
    frame[2..10].copy_from_slice(&(high << 4 | middle >> 60).to_be_bytes());
    frame[10..18].copy_from_slice(&(middle << 4 | low >> 60).to_be_bytes());
    frame[18..].copy_from_slice(&(low << 4).to_be_bytes());
}

pub fn repair_into(frame: &[u8], out: &mut [u8; FRAME_BYTES]) -> Result<u8, Refusal> {
    let word = word_of(frame.try_into().map_err(|_| Refusal::WrongLength)?);
    let received = syndrome(&word);
    if received == [0, 0] {
        put_word(&word, out);
        return Ok(0);
    }
    let sums = check_sums(&word, received);
    let error = [hits(&sums, 0), hits(&sums, 1), hits(&sums, 2) & HIGHEST];
    if syndrome(&error) != received {
        return Err(Refusal::BeyondRepair);
    }
    let places: u32 = error.iter().map(|limb| limb.count_ones()).sum();
    if places > 8 {
        return Err(Refusal::BeyondRepair);
    }
    let repaired = [word[0] ^ error[0], word[1] ^ error[1], word[2] ^ error[2]];
    put_word(&repaired, out);
    Ok(places as u8)
}
