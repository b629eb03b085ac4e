//! Doubles to try the desk with.
use crate::Random;
use reference::place::degrees;

/// Zeros, ones, limits and what lies beside them; infinities; NaN of both signs and several payloads.
pub const SPECIAL: [u64; 28] = [
    0x0000_0000_0000_0000,
    0x8000_0000_0000_0000,
    0x0000_0000_0000_0001,
    0x8000_0000_0000_0001,
    0x000F_FFFF_FFFF_FFFF,
    0x0010_0000_0000_0000,
    0x3FF0_0000_0000_0000,
    0xBFF0_0000_0000_0000,
    0x3FE0_0000_0000_0000,
    0x3FEC_CCCC_CCCC_CCCC,
    0x4056_8000_0000_0001,
    0x4056_8666_6666_6666,
    0x4066_8000_0000_0001,
    0x4066_8333_3333_3333,
    0x408F_F800_0000_0000,
    0x4090_0000_0000_0000,
    0x43E0_0000_0000_0000,
    0x43F0_0000_0000_0000,
    0xC3F0_0000_0000_0000,
    0x7FEF_FFFF_FFFF_FFFF,
    0x7FF0_0000_0000_0000,
    0xFFF0_0000_0000_0000,
    0x7FF0_0000_0000_0001,
    0x7FF8_0000_0000_0000,
    0x7FFF_FFFF_FFFF_FFFF,
    0xFFF0_0000_0000_0001,
    0xFFF8_0000_0000_0000,
    0xFFF8_0000_DEAD_BEEF,
];

/// An image, a double beside one, a special one, NaN of any payload, or any bits.
pub fn double(random: &mut Random) -> f64 {
    let flag = random.up_to(1);
    let image = degrees(flag, random.up_to(2000)).to_bits();
    let any = random.number();
    f64::from_bits(match random.below(12) {
        0..=4 => image,
        5 => image.wrapping_add(1),
        6 => image.wrapping_sub(1),
        7 => random.pick(&SPECIAL),
        8 => any | 0x7FF0_0000_0000_0000,
        9 => any,
        10 => (any as i32 as f64 / 10.0).to_bits(),
        _ => ((any % 1100) as f64).to_bits(),
    })
}

/// A depth: kilometres, with a fraction, or any double.
pub fn depth(random: &mut Random) -> f64 {
    match random.below(6) {
        0..=3 => random.up_to(1030) as f64,
        4 => random.up_to(2100) as f64 / 2.0,
        _ => double(random),
    }
}
