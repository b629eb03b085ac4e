//! The listing program on a million clean frames, beside the same work called in a loop, and the plain version.
use crate::programs::{is_built, Input};
use gvozdyana::{frame, Edition, Tuner};
use samples::Random;
use std::hint::black_box;
use std::io::Write;
use std::time::Instant;

const PROGRAM: &str = "list_frames";

fn per_frame(count: usize, call: impl FnOnce()) -> f64 {
    let start = Instant::now();
    call();
    start.elapsed().as_nanos() as f64 / count as f64
}

/// The reading, with its repair, and the writing of the line, in a loop.
fn looped(frames: &[u8]) {
    let mut text = Vec::new();
    for (n, piece) in frames.chunks(26).enumerate() {
        match frame::read(Edition::First, Tuner::None, piece) {
            Ok(reading) => writeln!(text, "{} 0 {}", n + 1, reading.record.repaired),
            Err(refusal) => writeln!(text, "{} {} -", n + 1, refusal.number()),
        }
        .expect("memory");
    }
    black_box(text);
}

/// Prints the rows; count clean frames, at most 999,999.
pub fn rows(count: usize, make: impl Fn(&mut Random) -> [u8; 26]) {
    if !is_built(PROGRAM) {
        return;
    }
    let count = count.min(999_999);
    let mut random = Random::new(9);
    let frames: Vec<u8> = (0..count).flat_map(|_| make(&mut random)).collect();
    let input = Input::new(&frames);
    for _ in 0..3 {
        let proved = input.nanoseconds(PROGRAM) / count as f64;
        let looped = per_frame(count, || looped(&frames));
        let plain = per_frame(count, || {
            black_box(reference::listing::listing(
                reference::frame::Edition::First,
                &frames,
            ));
        });
        println!(
            "{:<28} {proved:>12.0} {plain:>12.0} {:>8.2}   (in a loop {looped:.0}, program / loop {:.2})",
            "listing, no hit",
            plain / proved,
            proved / looped
        );
    }
}
