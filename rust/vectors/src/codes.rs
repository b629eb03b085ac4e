//! The checksums and the code.
use crate::{because, numbers, rows, status, Call, Case, Lends, Operation};
use reference::code::{self, GENERATOR};
use reference::crc::{crc10, crc32};
use reference::{bit, flip_bit, get, put, repair, Repaired};
use std::ops::RangeInclusive;

pub(crate) const OPERATIONS: [Operation; 10] = [
    operation("crc10", |call| {
        crc10_of(&call.input, call.numbers[0], call.numbers[1])
    }),
    operation("crc10_counts", |call| {
        let [at, count, _] = call.numbers;
        call.told = (0..count).map(|n| crc10_of(&call.input, at, n)).collect();
        crc10_of(&call.input, at, count)
    }),
    operation("crc32", |call| u64::from(crc32(&call.input))),
    operation("crc32_lengths", |call| {
        let lengths = 0..call.input.len();
        call.told = lengths
            .map(|n| u64::from(crc32(&call.input[..n])))
            .collect();
        u64::from(crc32(&call.input))
    }),
    operation("encode", |call| {
        encode(&mut call.lent);
        0
    }),
    operation("repair", repaired),
    operation("repair_register", repaired),
    operation("repair_by_value", |call| {
        let found = repair(&call.input);
        call.lent = found.as_ref().map_or([0; 26], |found| found.word).to_vec();
        found.map_or_else(|number| status(number, 0), |found| status(0, found.places))
    }),
    operation("get", |call| {
        let [at, width, _] = call.numbers;
        field(&call.input, at, width).map_or(0, |places| get(&call.input, places))
    }),
    operation("put", |call| {
        let [at, width, value] = call.numbers;
        if let Some(places) = field(&call.lent, at, width) {
            put(&mut call.lent, places, value);
        }
        0
    }),
];

const fn operation(name: &'static str, status: fn(&mut Call) -> u64) -> Operation {
    Operation {
        name,
        lends: Lends::Bytes,
        status,
    }
}

/// The CRC-10 of so many bits from one on, of those that there are.
fn crc10_of(bytes: &[u8], at: u64, count: u64) -> u64 {
    let end = at.saturating_add(count).min(8 * bytes.len() as u64);
    u64::from(crc10((at..end).map(|k| bit(bytes, k as usize))))
}

/// The bits of a field, if they are there: 64 at most, and none of a width of 0.
fn field(bytes: &[u8], at: u64, width: u64) -> Option<RangeInclusive<usize>> {
    let end = at.checked_add(width)?;
    let there = (1..=64).contains(&width) && end <= 8 * bytes.len() as u64;
    there.then(|| at as usize..=end as usize - 1)
}

/// The parity of a frame's message into its place; all else stays, and so do bytes that are no frame.
pub(crate) fn encode(frame: &mut [u8]) {
    if frame.len() == 26 {
        let word = code::encode(&std::array::from_fn(|i| bit(frame, 17 + i)));
        let coded = code::frame_of(&word);
        for k in 122..=203 {
            put(frame, k..=k, u64::from(bit(&coded, k)));
        }
    }
}

fn repaired(call: &mut Call) -> u64 {
    let answer = repair(&call.input);
    put_repaired(answer, call)
}

/// A repair's word into the lent bytes where they are 26, and its status.
pub(crate) fn put_repaired(answer: Result<Repaired, u8>, call: &mut Call) -> u64 {
    match answer {
        _ if call.lent.len() != 26 => status(1, 0),
        Ok(found) => {
            call.lent.copy_from_slice(&found.word);
            status(0, found.places)
        }
        Err(number) => status(number, 0),
    }
}

/// Bytes without a pattern, by a generator of pseudorandom numbers.
fn mixed(n: usize) -> Vec<u8> {
    let mut x = 1u32;
    let next = || {
        x = (x * 20_077 + 12_345) % 65_536;
        (x / 256) as u8
    };
    std::iter::repeat_with(next).take(n).collect()
}

/// Some message, without its parity.
pub(crate) fn message(seed: usize) -> [u8; 26] {
    let mut x = seed % 65_536;
    std::array::from_fn(|_| {
        x = (x * 75 + 74) % 65_537;
        (x % 256) as u8
    })
}

/// n of the generator's 18 places set, from number i on and round again.
pub(crate) fn generator_places(i: usize, n: usize) -> [u8; 26] {
    let mut frame = [0; 26];
    for j in 0..n {
        flip_bit(&mut frame, 203 - GENERATOR[(i + j) % 18]);
    }
    frame
}

/// A frame with n bits turned over, from place k on and round again.
fn hit(mut frame: [u8; 26], k: usize, n: usize) -> [u8; 26] {
    for j in 0..n {
        flip_bit(&mut frame, 17 + (k + j) % 187);
    }
    frame
}

pub(crate) fn cases() -> Vec<Case> {
    [
        because(
            "check values, document 01's examples, every count of bits and every length of bytes",
            checksums(),
        ),
        because(
            "the parity, in its place and nowhere else; words for the repair",
            messages(),
        ),
        because(
            "the repair up to eight places and past them, by both engines and by value: document 01's examples, hits over the whole word",
            repairs(),
        ),
        because(
            "fields inside a byte, over nine bytes, at the end, past it: what is not there is 0, and nothing else is written",
            fields(),
        ),
    ]
    .concat()
}

fn checksums() -> Vec<Case> {
    let digits = b"123456789";
    let words = b"The quick brown fox";
    let only = |places: &[usize]| {
        let mut frame = [0; 26];
        places.iter().for_each(|&k| flip_bit(&mut frame, k));
        frame
    };
    let example = |what: &str, places: &[usize]| {
        Case::new("crc10", format!("B21 to B111 with only {what} set"))
            .numbers(&[21, 91])
            .input(&only(places))
    };
    let counts = |at: u64, what: &str| {
        Case::new(
            "crc10_counts",
            format!("each count of bits {what}, past the end too"),
        )
        .numbers(&[at, 179 - at])
        .input(words)
    };
    let mut header = crate::headers::model_header();
    let model = header;
    crate::headers::set_form(&mut header, 2);
    let sealed = [&digits[..], &crc32(digits).to_be_bytes()].concat();
    vec![
        Case::new("crc10", "123456789")
            .numbers(&[0, 72])
            .input(digits)
            .known("CRC-10/ATM", "199"),
        Case::new("crc10", "of nothing").numbers(&[0, 91]),
        Case::new("crc10", "past the end")
            .numbers(&[1 << 63, 91])
            .input(digits),
        Case::new("crc10", "more bits than are there")
            .numbers(&[0, u64::MAX])
            .input(digits)
            .known("CRC-10/ATM, of those that are there", "199"),
        example("B111", &[111]).known("document 01, example 6", "233"),
        example("B110", &[110]).known("document 01, example 7", "255"),
        example("B110 and B111", &[110, 111]).known("document 01, example 7", "66"),
        counts(0, "from bit 0"),
        counts(21, "from bit 21, inside a byte"),
        counts(150, "from bit 150, near the end"),
        Case::new("crc32", "123456789")
            .input(digits)
            .known("CRC-32/MPEG-2", "376e6e7"),
        Case::new("crc32", "of nothing").known("register all ones", "ffffffff"),
        Case::new("crc32", "123456789 with its CRC after it")
            .input(&sealed)
            .known("ITU-T H.222.0: comes out zero", "0"),
        Case::new("crc32", "the model header, bytes 4 to 183")
            .input(&model[4..184])
            .known("by another program", "e760a571"),
        Case::new("crc32", "the model header with form 2")
            .input(&header[4..184])
            .known("by another program", "a94b8658"),
        Case::new("crc32_lengths", "each length of a text").input(words),
        Case::new(
            "crc32_lengths",
            "each length from 0 to 400, groups of eight and what is left over",
        )
        .input(&mixed(400)),
    ]
}

fn messages() -> Vec<Case> {
    let mut first = [0; 26];
    flip_bit(&mut first, 121);
    let mut cases = vec![
        Case::new("encode", "the message with only B121 set: the generator")
            .lent(&first)
            .known("document 01, example 2", "0:00*15.4308c01110114014404110"),
    ];
    for n in [0, 25, 27] {
        cases.push(
            Case::new("encode", format!("{n} bytes, no frame: left as they are"))
                .lent(&vec![0xA5; n]),
        );
    }
    cases.extend((0..187).map(|seed| {
        Case::new("encode", format!("message {seed}, to be hit below")).lent(&message(seed))
    }));
    cases
}

fn repairs() -> Vec<Case> {
    let case = |operation, what: &str, frame: &[u8]| {
        Case::new(operation, what).input(frame).lent(&[0xA5; 26])
    };
    let mut cases = vec![];
    for operation in ["repair", "repair_register", "repair_by_value"] {
        cases.extend([
            case(operation, "no bytes", &[]),
            case(operation, "25 bytes", &[0; 25]),
            case(operation, "27 bytes", &[0; 27]),
            case(operation, "187 zeros", &[0; 26]).known("document 01, example 1", "0:00*26."),
            case(operation, "all ones", &[255; 26]),
            case(operation, "zeros hit in B17 to B26", &hit([0; 26], 0, 10)),
        ]);
        let refused = match operation {
            "repair_by_value" => "4:00*26.",
            _ => "4:a5*26.",
        };
        for i in 0..18 {
            let eight = format!("eight places of the generator from number {i} on");
            let nine = format!("nine of them from number {i} on");
            let ten = format!("ten of them from number {i} on");
            cases.extend([
                case(operation, &eight, &generator_places(i, 8))
                    .known("document 01, example 3", "800:00*26."),
                case(operation, &nine, &generator_places(i, 9))
                    .known("document 01, example 4", refused),
                case(operation, &ten, &generator_places(i, 10))
                    .known("document 01, example 5", "800:00*15.4308c01110114014404110"),
            ]);
        }
    }
    for seed in 0..187 {
        let mut word = message(seed);
        encode(&mut word);
        for (n, what) in [(0, "clean"), (8, "eight hits"), (9, "nine hits")] {
            let what = format!("code word {seed}, {what} from B{} on and round", 17 + seed);
            let hit = hit(word, seed, n);
            cases.extend(
                ["repair", "repair_by_value"].map(|operation| case(operation, &what, &hit)),
            );
        }
    }
    for operation in ["repair", "repair_register"] {
        cases.extend([0, 25, 27].map(|n| {
            Case::new(operation, format!("a word of {n} bytes"))
                .input(&[0; 26])
                .lent(&vec![0xA5; n])
        }));
    }
    cases
}

/// Fields of 26 bytes, and of a header's: where one begins, how many bits it has.
const FIELDS: &str = "
a whole frame's first 64 bits | 26 | 0 64
the next | 26 | 64 64
the next | 26 | 128 64
its last 16 bits | 26 | 192 16
a frame's pattern | 26 | 1 16
nine bytes' worth, inside the first and the last | 26 | 7 64
one bit, the last | 26 | 207 1
one bit past the end | 26 | 208 1
half past the end | 26 | 204 8
no bits | 26 | 5 0
65 bits | 26 | 0 65
from a place that no byte has | 26 | 18446744073709551615 64
as wide as a number can say | 26 | 1 18446744073709551615
no bytes | 0 | 0 1
a header's form | 188 | 52 4
a header's CRC | 188 | 1472 32
";

fn fields() -> Vec<Case> {
    let case = |[what, bytes, place]: [&'static str; 3]| {
        let bytes = mixed(bytes.parse().expect("a count"));
        let [at, width] = numbers(place)[..] else {
            panic!("no field: {place}");
        };
        let put = |value, name| {
            Case::new("put", format!("{what}: {name}"))
                .numbers(&[at, width, value])
                .lent(&bytes)
        };
        [
            Case::new("get", what).numbers(&[at, width]).input(&bytes),
            put(0, "zeros"),
            put(u64::MAX, "ones, more than fit"),
            put(0xA5C3_96E1_5A3C_691E, "a number, cut to the width"),
        ]
    };
    rows(FIELDS).flat_map(case).collect()
}
