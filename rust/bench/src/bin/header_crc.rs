//! Times the CRC check of a million different headers, in one run: by a table of 256 entries, by eight tables, and by the proved function. Each round
//! goes through all headers with each version. Then laying in, with the archive at hand. The only argument is the number of headers.
use reference::frame::Edition;
use samples::{frames, headers, records, Random};
use std::collections::HashSet;
use std::hint::black_box;
use std::time::Instant;

type Header = [u8; 188];
type Crc = fn(&[u8]) -> u32;

const ROUNDS: usize = 3;

/// Entry b of table n is what remains of b x^(32 + 8 n) by x^32 + 0x04C11DB7.
static TABLES: [[u32; 256]; 8] = tables();

const fn tables() -> [[u32; 256]; 8] {
    let mut tables = [[0; 256]; 8];
    let mut b = 0;
    while b < 256 {
        let mut register = (b as u32) << 24;
        let mut n = 0;
        while n < 64 {
            let leaves = register >> 31 == 1;
            register = register << 1 ^ if leaves { 0x04C1_1DB7 } else { 0 };
            n += 1;
            if n % 8 == 0 {
                tables[n / 8 - 1][b] = register;
            }
        }
        b += 1;
    }
    tables
}

/// A byte a step, by one table.
fn by_table(register: u32, bytes: &[u8]) -> u32 {
    bytes.iter().fold(register, |register, byte| {
        register << 8 ^ TABLES[0][usize::from((register >> 24) as u8 ^ byte)]
    })
}

/// Eight bytes a step, by a table for each of them.
fn by_eight_tables(register: u32, bytes: &[u8]) -> u32 {
    let groups = bytes.chunks_exact(8);
    let rest = groups.remainder();
    let register = groups.fold(register, |register, group| {
        let first = u32::from_be_bytes(group[..4].try_into().unwrap()) ^ register;
        let second = u32::from_be_bytes(group[4..].try_into().unwrap());
        let of = |table: usize, byte: u32| TABLES[table][usize::from(byte as u8)];
        of(7, first >> 24)
            ^ of(6, first >> 16)
            ^ of(5, first >> 8)
            ^ of(4, first)
            ^ of(3, second >> 24)
            ^ of(2, second >> 16)
            ^ of(1, second >> 8)
            ^ of(0, second)
    });
    by_table(register, rest)
}

const START: u32 = 0xFFFF_FFFF;

const VERSIONS: [(&str, Crc); 3] = [
    ("table of 256 entries, Rust", |bytes| by_table(START, bytes)),
    ("eight tables, Rust", |bytes| by_eight_tables(START, bytes)),
    ("proved", gvozdyana::crc32),
];

/// The headers whose CRC comes out zero, and nanoseconds for each header.
fn check(headers: &[Header], crc: Crc) -> (usize, f64) {
    let start = Instant::now();
    let accepted = headers
        .iter()
        .filter(|header| crc(&header[4..]) == 0)
        .count();
    let time = start.elapsed().as_nanos() as f64 / headers.len() as f64;
    (accepted, time)
}

/// Nanoseconds for laying a clean frame into each header.
fn lay_in(headers: &mut [Header], frames: &[[u8; 26]]) -> f64 {
    let start = Instant::now();
    for (header, frame) in headers.iter_mut().zip(frames.iter().cycle()) {
        let laid = gvozdyana::header::lay_in(gvozdyana::Edition::First, black_box(header), frame);
        laid.expect("a legal header and frame");
    }
    start.elapsed().as_nanos() as f64 / headers.len() as f64
}

fn main() {
    let count: usize = std::env::args()
        .nth(1)
        .map_or(1_000_000, |n| n.parse().expect("the number of headers"));
    let mut random = Random::new(13);
    let mut all: Vec<Header> = (0..count)
        .map(|_| headers::faulty(&[], &mut random).bytes.try_into().unwrap())
        .collect();
    let different = all.iter().collect::<HashSet<_>>().len();
    println!("{count} headers, {different} of them different");

    let rounds: Vec<_> = (0..ROUNDS)
        .map(|_| VERSIONS.map(|(_, crc)| check(&all, black_box(crc))))
        .collect();
    println!(
        "{:<28} {:>9} {:>27} {:>24} {:>24}",
        "CRC check", "accepted", "ns a header", "of one table's time", "of eight tables' time"
    );
    for (version, (name, _)) in VERSIONS.iter().enumerate() {
        let accepted = rounds[0][version].0;
        assert!(rounds.iter().all(|round| round[version].0 == accepted));
        let times = rounds.iter().map(|round| round[version].1);
        let of = |other: usize| {
            rounds
                .iter()
                .map(move |round| round[version].1 / round[other].1)
        };
        let row = |numbers: Vec<f64>, digits: usize| -> String {
            let numbers: Vec<_> = numbers.iter().map(|n| format!("{n:.digits$}")).collect();
            numbers.join(" ")
        };
        println!(
            "{name:<28} {accepted:>9} {:>27} {:>24} {:>24}",
            row(times.collect(), 0),
            row(of(0).collect(), 2),
            row(of(1).collect(), 2)
        );
    }

    let warnings: Vec<[u8; 26]> = (0..1000)
        .map(|_| {
            let body = random.pick(records::bodies(Edition::First));
            frames::written(&records::legal_record(body, &mut random))
        })
        .collect();
    let times: Vec<_> = (0..ROUNDS)
        .map(|_| format!("{:.0}", lay_in(&mut all, &warnings)))
        .collect();
    println!("{:<28} {:>37}", "lay in, no hit", times.join(" "));
}

#[cfg(test)]
mod tests {
    use super::*;
    use reference::crc::crc32;

    #[test]
    fn the_versions_agree() {
        let mut random = Random::new(1);
        for length in 0..=400 {
            let bytes = random.bytes(length);
            for (name, version) in VERSIONS {
                assert_eq!(version(&bytes), crc32(&bytes), "{name}, {length} bytes");
            }
        }
    }
}
