//! Seeded cases. GVZ_SEED starts from another seed; GVZ_FRAMES and GVZ_HEADERS ask for other numbers of cases. A mismatch tells its case.
#![allow(dead_code)]
pub mod programs;

use gvozdyana::{Edition, Refusal, Tuner};
use reference::frame as plain;
use samples::Random;
use std::fmt;

/// The number of frames, and of headers, that each test takes a share of unless it is told otherwise: a file compares so many or a little more.
const FRAMES: u64 = 500_000;
const HEADERS: u64 = 100_000;

pub fn frames() -> u64 {
    setting("GVZ_FRAMES", FRAMES)
}

pub fn headers() -> u64 {
    setting("GVZ_HEADERS", HEADERS)
}

fn setting(name: &str, default: u64) -> u64 {
    std::env::var(name).map_or(default, |text| {
        text.parse()
            .unwrap_or_else(|_| panic!("{name} is not a number: {text}"))
    })
}

/// The edition as the wrapper and the plain version name it.
pub const EDITIONS: [(Edition, plain::Edition); 2] = [
    (Edition::First, plain::Edition::First),
    (Edition::AreaSafety, plain::Edition::AreaSafety),
];

/// A number that a C program may name an edition by: of those that no edition has, some are one once they are cut short.
pub fn edition_number(random: &mut Random) -> u32 {
    match random.below(4) {
        0 => random.pick(&[2, 3, 256, 257, 1 << 16 | 1, 1 << 31 | 1, u32::MAX]),
        1 => random.number() as u32,
        _ => random.below(2) as u32,
    }
}

/// The edition that a number is taken for: 1 is area safety, and any other the first.
pub fn edition_of(number: u32) -> (Edition, plain::Edition) {
    EDITIONS[usize::from(number == 1)]
}

/// The tuner as the wrapper and the plain version name it, in the order of their numbers.
pub const TUNERS: [(Tuner, plain::Tuner); 3] = [
    (Tuner::None, plain::Tuner::None),
    (Tuner::Main, plain::Tuner::Main),
    (Tuner::Spare, plain::Tuner::Spare),
];

/// The numbers that a reader is told: every tuner's, and one that no tuner has, which may be one once it is cut short.
pub fn tuner_numbers(random: &mut Random) -> [u32; 4] {
    let any = random.number() as u32;
    let other = random.pick(&[3, 255, 256, 257, 258, 1 << 16 | 1, 1 << 31 | 2, any, any]);
    [0, 1, 2, other.max(3)]
}

/// The tuner that a number is taken for: 1 is main, 2 spare, and any other none.
pub fn tuner_of(number: u32) -> (Tuner, plain::Tuner) {
    match number {
        1 => TUNERS[1],
        2 => TUNERS[2],
        _ => TUNERS[0],
    }
}

/// Which case of a sort, and the seed that makes it.
#[derive(Clone, Copy)]
pub struct Case {
    index: u64,
    seed: u64,
}

impl fmt::Display for Case {
    fn fmt(&self, f: &mut fmt::Formatter<'_>) -> fmt::Result {
        write!(f, "case {}, seed {}", self.index, self.seed)
    }
}

/// Calls `test` with the random numbers of each of `count` seeds of a sort.
pub fn for_each_seed(sort: u64, count: u64, mut test: impl FnMut(&mut Random, Case)) {
    let first = setting("GVZ_SEED", 1) + (sort << 40);
    for index in 0..count {
        let seed = first + index;
        test(&mut Random::new(seed), Case { index, seed });
    }
}

pub fn hex(bytes: &[u8]) -> String {
    bytes.iter().map(|b| format!("{b:02x}")).collect()
}

/// A buffer's length: most often the right one, else one near it or far from it.
pub fn length(right: usize, random: &mut Random) -> usize {
    match random.below(20) {
        0 => random.below(2 * right + 2),
        1 => random.pick(&[0, right - 1, right + 1]),
        _ => right,
    }
}

/// Any numbers, to lie in a buffer beforehand.
pub fn numbers(count: usize, random: &mut Random) -> Vec<u64> {
    (0..count).map(|_| random.number()).collect()
}

/// The refusal's number, or 0.
pub fn number<T>(answer: Result<T, Refusal>) -> u8 {
    answer.err().map_or(0, Refusal::number)
}
