//! Published check values, and document 01's worked examples of the CRC and its facts about the code.
use reference::bit;
use reference::code::{
    distance, encode, frame_of, is_code_word, protected, FULL, GENERATOR, LENGTH, MESSAGE, ROWS,
};
use reference::crc::{crc10, crc32};

fn bits(bytes: &[u8]) -> Vec<bool> {
    (0..8 * bytes.len()).map(|k| bit(bytes, k)).collect()
}

#[test]
fn check_values() {
    assert_eq!(crc10(bits(b"123456789")), 0x199, "CRC-10/ATM");
    assert_eq!(crc32(b"123456789"), 0x0376_E6E7, "CRC-32/MPEG-2");
    assert_eq!(crc32(&[]), 0xFFFF_FFFF);
}

#[test]
fn crc10_of_the_last_bits() {
    let only = |set: &[usize]| -> Vec<bool> { (21..112).map(|k| set.contains(&k)).collect() };
    assert_eq!(crc10(only(&[111])), 0b10_0011_0011);
    assert_eq!(crc10(only(&[110])), 0b10_0101_0101);
    assert_eq!(crc10(only(&[110, 111])), 0b00_0110_0110);
}

/// What remains of bits, highest power first, divided by x^width + `generator`.
fn remainder(mut dividend: Vec<bool>, generator: u64, width: usize) -> u64 {
    for i in 0..dividend.len() - width {
        if dividend[i] {
            for j in 0..width {
                dividend[i + 1 + j] ^= generator >> (width - 1 - j) & 1 == 1;
            }
        }
    }
    let tail = &dividend[dividend.len() - width..];
    tail.iter().fold(0, |value, &b| value << 1 | u64::from(b))
}

/// "the 91 bits ... as a polynomial ... times x^10; the remainder"; a register of ones at the start turns the first 32 bits over.
#[test]
fn checksums_by_long_division() {
    let mut bytes = vec![0u8; 184];
    for round in 0..200 {
        for (i, byte) in bytes.iter_mut().enumerate() {
            *byte = (*byte).wrapping_mul(5) ^ (round * 31 + i * 7) as u8;
        }
        let mut dividend = bits(&bytes)[..91].to_vec();
        dividend.resize(101, false);
        let crc = u64::from(crc10(bits(&bytes).into_iter().take(91)));
        assert_eq!(crc, remainder(dividend, 0b10_0011_0011, 10));
        let mut dividend = bits(&bytes);
        dividend.resize(8 * 184 + 32, false);
        for b in &mut dividend[..32] {
            *b = !*b;
        }
        let crc = u64::from(crc32(&bytes));
        assert_eq!(crc, remainder(dividend, 0x04C1_1DB7, 32));
    }
}

#[test]
fn crc32_of_bytes_with_their_crc_is_zero() {
    let mut bytes = b"123456789".to_vec();
    bytes.extend(crc32(&bytes).to_be_bytes());
    assert_eq!(crc32(&bytes), 0);
}

#[test]
fn two_places_share_one_row() {
    for p in 0..FULL as u16 {
        assert_eq!(ROWS.iter().filter(|row| row.contains(&p)).count(), 17);
        for q in 0..p {
            assert_eq!(
                ROWS.iter()
                    .filter(|row| row.contains(&p) && row.contains(&q))
                    .count(),
                1,
                "places {p} and {q}"
            );
        }
    }
}

#[test]
fn multiples_of_the_generator_are_code_words() {
    for shift in 0..MESSAGE {
        let mut word = [0; LENGTH];
        for power in GENERATOR {
            word[power + shift] = 1;
        }
        assert!(is_code_word(&word));
        for row in ROWS {
            let ones = row
                .iter()
                .filter(|&&p| usize::from(p) < LENGTH && word[usize::from(p)] == 1)
                .count();
            assert_eq!(ones % 2, 0);
        }
        let message = std::array::from_fn(|i| word[LENGTH - 1 - i] == 1);
        assert_eq!(distance(&encode(&message), &word), 0);
        assert_eq!(protected(&frame_of(&word)), word);
    }
}
