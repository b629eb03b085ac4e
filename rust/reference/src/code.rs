//! The (187,105) difference-set cyclic code. Bk, for k from 17 to 203, is the coefficient of x^(203-k); a place is an exponent.
use crate::{bit, set_bit, FRAME_BYTES};

/// The length of the full code, and of the shortened one, whose places 187 to 272 hold 0.
pub const FULL: usize = 273;
pub const LENGTH: usize = 187;

/// The bits of a message, and the degree of the generator.
pub const MESSAGE: usize = 105;
pub const DEGREE: usize = 82;

/// The powers of x in the generator.
pub const GENERATOR: [usize; 18] = [
    82, 77, 76, 71, 67, 66, 56, 52, 48, 40, 36, 34, 24, 22, 18, 10, 4, 0,
];

/// Row s of the check table holds the places s-d mod 273.
pub const DIFFERENCES: [usize; 17] = [
    0, 18, 24, 46, 50, 67, 103, 112, 115, 126, 128, 159, 166, 167, 186, 196, 201,
];

/// The check table: 273 rows of 17 places.
pub static ROWS: [[u16; 17]; FULL] = table(true);

/// The 17 rows that hold each place.
pub static THROUGH: [[u16; 17]; FULL] = table(false);

/// Entry i of line n is n-d or n+d mod 273, where d is difference i.
const fn table(less: bool) -> [[u16; 17]; FULL] {
    let mut table = [[0; 17]; FULL];
    let mut n = 0;
    while n < FULL {
        let mut i = 0;
        while i < 17 {
            let d = DIFFERENCES[i];
            table[n][i] = ((if less { n + FULL - d } else { n + d }) % FULL) as u16;
            i += 1;
        }
        n += 1;
    }
    table
}

/// The coefficients of a word by place, one byte a bit.
pub type Word = [u8; LENGTH];

/// The protected part of a frame of 26 bytes.
pub fn protected(frame: &[u8]) -> Word {
    std::array::from_fn(|place| u8::from(bit(frame, 203 - place)))
}

/// 26 bytes that hold a word at B17 to B203 and 0 elsewhere.
pub fn frame_of(word: &Word) -> [u8; FRAME_BYTES] {
    let mut frame = [0; FRAME_BYTES];
    for (place, &coefficient) in word.iter().enumerate() {
        if coefficient == 1 {
            set_bit(&mut frame, 203 - place);
        }
    }
    frame
}

/// Takes multiples of the generator away until only places below its degree may hold 1.
fn divide(word: &mut Word) {
    for top in (DEGREE..LENGTH).rev() {
        if word[top] == 1 {
            for power in GENERATOR {
                word[top - DEGREE + power] ^= 1;
            }
        }
    }
}

/// Nothing remains by the generator.
pub fn is_code_word(word: &Word) -> bool {
    let mut rest = *word;
    divide(&mut rest);
    rest == [0; LENGTH]
}

/// The code word whose highest 105 places hold the message, its highest power first.
pub fn encode(message: &[bool; MESSAGE]) -> Word {
    let mut word = [0; LENGTH];
    for i in 0..MESSAGE {
        word[LENGTH - 1 - i] = u8::from(message[i]);
    }
    let mut parity = word;
    divide(&mut parity);
    word[..DEGREE].copy_from_slice(&parity[..DEGREE]);
    word
}

/// In how many places two words differ.
pub fn distance(a: &Word, b: &Word) -> usize {
    (0..LENGTH).filter(|&place| a[place] != b[place]).count()
}
