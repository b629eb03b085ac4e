//! Frames, frames with marks, captures, records, headers, ledgers and their reports, doubles and what a desk gives, to try the two versions on, each
//! made from a seed: the same seed gives the same sample.
pub mod captures;
pub mod desks;
pub mod doubles;
pub mod frames;
pub mod headers;
pub mod ledgers;
pub mod marked;
pub mod records;

use reference::code::{encode, frame_of, Word, DEGREE, GENERATOR, LENGTH, MESSAGE};
use reference::{flip_bit, FRAME_BYTES};

/// SplitMix64, a small generator of pseudorandom numbers.
pub struct Random(u64);

impl Random {
    pub fn new(seed: u64) -> Random {
        Random(seed)
    }

    pub fn number(&mut self) -> u64 {
        self.0 = self.0.wrapping_add(0x9E37_79B9_7F4A_7C15);
        let mut z = self.0;
        z = (z ^ z >> 30).wrapping_mul(0xBF58_476D_1CE4_E5B9);
        z = (z ^ z >> 27).wrapping_mul(0x94D0_49BB_1331_11EB);
        z ^ z >> 31
    }

    /// A number below n.
    pub fn below(&mut self, n: usize) -> usize {
        (self.number() % n as u64) as usize
    }

    /// A number up to the greatest; the two ends, and 1, are as likely as all others together.
    pub fn up_to(&mut self, most: u64) -> u64 {
        match self.below(6) {
            0 => 0,
            1 => most,
            2 => most.min(1),
            _ => self.number() % (most + 1),
        }
    }

    /// One of these.
    pub fn pick<T: Copy>(&mut self, from: &[T]) -> T {
        from[self.below(from.len())]
    }

    pub fn bytes(&mut self, n: usize) -> Vec<u8> {
        (0..n).map(|_| self.number() as u8).collect()
    }

    /// n different elements of a list.
    pub fn choose(&mut self, n: usize, from: &[usize]) -> Vec<usize> {
        let mut left = from.to_vec();
        (0..n)
            .map(|_| left.swap_remove(self.below(left.len())))
            .collect()
    }
}

/// x^shift times the generator.
pub fn shifted_generator(shift: usize) -> Word {
    let mut word = [0; LENGTH];
    for power in GENERATOR {
        word[power + shift] = 1;
    }
    word
}

/// A code word: zeros, the generator times a power of x, or a random message with its parity.
pub fn code_word(random: &mut Random) -> Word {
    match random.below(8) {
        0 => [0; LENGTH],
        1 => shifted_generator(random.below(LENGTH - DEGREE)),
        _ => encode(&std::array::from_fn::<bool, MESSAGE, _>(|_| {
            random.number() & 1 == 1
        })),
    }
}

/// A frame that holds a word with these places turned over, and anything in B0 to B16 and the filler.
pub fn hit(word: &Word, places: &[usize], random: &mut Random) -> [u8; FRAME_BYTES] {
    let mut frame = frame_of(word);
    for place in places {
        flip_bit(&mut frame, 203 - place);
    }
    for k in (0..17).chain(204..208) {
        if random.number() & 1 == 1 {
            flip_bit(&mut frame, k);
        }
    }
    frame
}

/// A code word, and a frame in which n of its places are hit.
pub fn sent_and_hit(n: usize, random: &mut Random) -> (Word, [u8; FRAME_BYTES]) {
    let word = code_word(random);
    let places = random.choose(n, &std::array::from_fn::<usize, LENGTH, _>(|place| place));
    let frame = hit(&word, &places, random);
    (word, frame)
}
