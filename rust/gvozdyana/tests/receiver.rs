//! The follower and the captures, by the proved version and by the plain one, in both editions.
mod common;
use common::{edition_number, edition_of, for_each_seed, frames, hex, number, Case, EDITIONS};
use gvozdyana::follower::{Event, State};
use gvozdyana::frame::read;
use gvozdyana::{calls, capture, Refusal, Tuner};
use reference::follower as plain;
use reference::frame::{Edition, Record, IDENTIFICATION, REPAIRED, TUNER, UPDATE, VALUES};
use samples::captures::{captures, Expected};
use samples::frames::{frame, hit, written};
use samples::records::{legal_record, BODIES};
use samples::Random;

/// The state with a number: the update number and 4 real, 8 test, 12 safety, 16 safety test; all else quiet.
fn state_of(number: u32) -> plain::State {
    match number {
        4..=7 => plain::State::Active(plain::Kind::Real, u64::from(number - 4)),
        8..=11 => plain::State::Active(plain::Kind::Test, u64::from(number - 8)),
        12..=15 => plain::State::Active(plain::Kind::Safety, u64::from(number - 12)),
        16..=19 => plain::State::Active(plain::Kind::SafetyTest, u64::from(number - 16)),
        _ => plain::State::Quiet,
    }
}

fn number_of(state: plain::State) -> u32 {
    match state {
        plain::State::Quiet => 0,
        plain::State::Active(plain::Kind::Real, u) => 4 + u as u32,
        plain::State::Active(plain::Kind::Test, u) => 8 + u as u32,
        plain::State::Active(plain::Kind::Safety, u) => 12 + u as u32,
        plain::State::Active(plain::Kind::SafetyTest, u) => 16 + u as u32,
    }
}

/// The event's number, the refusal's number and the event with types.
fn event_of(event: plain::Event) -> (u32, u8, Option<Event>) {
    match event {
        plain::Event::Quiet => (0, 0, Some(Event::Quiet)),
        plain::Event::Ended => (1, 0, Some(Event::Ended)),
        plain::Event::Begins => (2, 0, Some(Event::Begins)),
        plain::Event::Same => (3, 0, Some(Event::Same)),
        plain::Event::Changed => (4, 0, Some(Event::Changed)),
        plain::Event::Skipped => (5, 0, Some(Event::Skipped)),
        plain::Event::Refused(number) => {
            (6, number, Refusal::from_number(number).map(Event::Refused))
        }
    }
}

/// The status of one step by this number of an edition is the plain version's, and so is the step with types; then the new state and the event.
fn step(edition: u32, state: u32, frame: &[u8], case: Case) -> (u32, u32) {
    let what = || {
        format!(
            "edition {edition}, state {state}, frame {}, {case}",
            hex(frame)
        )
    };
    let (typed_edition, plain_edition) = edition_of(edition);
    let (next, event) = plain::follow(plain_edition, state_of(state), frame);
    let (event, number, typed) = event_of(event);
    let status = calls::follow(edition, state, frame);
    let next = number_of(next);
    assert_eq!(
        status,
        u32::from(number) + 256 * event + 65536 * next,
        "{}",
        what()
    );
    let (after, told) = State::from_number(state).follow(typed_edition, frame);
    assert_eq!((after.number(), Some(told)), (next, typed), "{}", what());
    (next, event)
}

/// A state's number: 0 to 24, or a large one.
fn any_state(random: &mut Random) -> u32 {
    match random.below(4) {
        0 => random.pick(&[255, 256, 260, 268, 1 << 16, 1 << 31, u32::MAX]),
        1 => random.number() as u32,
        _ => random.below(25) as u32,
    }
}

/// A frame of any sort, or more often one that is accepted.
fn likely_frame(random: &mut Random) -> Vec<u8> {
    if random.below(3) == 0 {
        return frame(random).bytes;
    }
    let mut record = legal_record(random.pick(&BODIES), random);
    if record[IDENTIFICATION] != 7 {
        record[UPDATE] = random.number() % 4;
    }
    let mut frame = written(&record);
    let hits = random.below(2) * random.below(9);
    hit(&mut frame, hits, random);
    frame.to_vec()
}

#[test]
fn followed_from_every_state() {
    for_each_seed(31, 200, |random, case| {
        let frame = likely_frame(random);
        for state in (0..=24).chain([255, 256, 260, 264, 268, 272, 1 << 16, 1 << 31, u32::MAX]) {
            for edition in [0, 1, 2, u32::MAX] {
                step(edition, state, &frame, case);
            }
        }
    });
}

#[test]
fn sequences_followed() {
    let mut seen = [[0; 7]; 2];
    for_each_seed(32, frames() / 50, |random, case| {
        let edition = edition_number(random);
        let (named, _) = edition_of(edition);
        let mut state = any_state(random);
        for _ in 0..10 {
            let (next, event) = step(edition, state, &likely_frame(random), case);
            seen[named as usize][event as usize] += 1;
            state = next;
        }
    });
    println!("events 0 to 6: {seen:?}");
    assert!(
        seen.as_flattened().iter().all(|&count| count > 0),
        "{seen:?}"
    );
}

/// Some frames end to end, with a tail that is no frame.
fn any_capture(random: &mut Random) -> Vec<u8> {
    let mut capture = Vec::new();
    for _ in 0..random.below(5) {
        let mut frame = likely_frame(random);
        frame.resize(26, 0);
        capture.extend(frame);
    }
    let tail = random.below(26);
    capture.extend(random.bytes(tail));
    capture
}

/// A frame number: in the captures, past them, or one at which 26 n is past 64 bits.
fn any_frame_number(random: &mut Random) -> u64 {
    let small = random.up_to(6);
    match random.below(6) {
        0 => (1 << 63) + small,
        1 => u64::MAX - small,
        2 => (u128::from(random.up_to(25)) << 64).div_ceil(26) as u64 + small,
        _ => small,
    }
}

/// The answers about frame n by both editions, and by this number of one, are the plain version's; then the sources by both.
fn asked(main: &[u8], spare: &[u8], n: u64, edition: u32, case: Case) -> [u32; 2] {
    let what = || format!("main {}, spare {}, n {n}, {case}", hex(main), hex(spare));
    let by = |number: u32, edition: Edition| {
        let (a, b) = reference::capture::numbers(edition, main, spare, n);
        let numbers = calls::capture_numbers(number, main, spare, n);
        assert_eq!(
            numbers,
            u32::from(a) + 256 * u32::from(b),
            "{number}: {}",
            what()
        );
        let source = calls::capture_source(number, main, spare, n);
        let expected = match (a, b) {
            (0, _) => 1,
            (_, 0) => 2,
            _ => 0,
        };
        assert_eq!(source, expected, "{number}: {}", what());
        (a, b, source)
    };
    by(edition, edition_of(edition).1);
    EDITIONS.map(|(typed, plain_edition)| {
        let (a, b, source) = by(typed.number(), plain_edition);
        let (first, second) = capture::numbers(typed, main, spare, n);
        assert_eq!((number(first), number(second)), (a, b), "{}", what());
        let tuner = capture::source(typed, main, spare, n);
        assert_eq!(tuner.number(), source, "{}", what());
        let part = capture::frame_at(typed, main, spare, n).unwrap_or(&[]);
        let plain = reference::capture::frame_at(plain_edition, main, spare, n);
        assert_eq!(part, plain, "{}", what());
        // The part is the capture's own, not only the same bytes.
        assert!(source == 0 || part.as_ptr() == plain.as_ptr(), "{}", what());
        source
    })
}

#[test]
fn captures_asked() {
    let mut seen = [[0; 3]; 3];
    for_each_seed(33, frames() / 10, |random, case| {
        let (main, spare) = (any_capture(random), any_capture(random));
        let n = any_frame_number(random);
        let edition = edition_number(random);
        let [first, safety] = asked(&main, &spare, n, edition, case);
        seen[first as usize][safety as usize] += 1;
    });
    println!(
        "neither, main, spare by the first edition, and of each by that of area safety: {seen:?}"
    );
    for (first, safety) in [(0, 0), (0, 1), (0, 2), (1, 1), (2, 1), (2, 2)] {
        assert!(seen[first][safety] > 0, "{first} {safety}: {seen:?}");
    }
    // What the first accepts of main the other accepts too, and so of spare.
    assert_eq!((seen[1][0], seen[1][2], seen[2][0]), (0, 0, 0), "{seen:?}");
}

/// Frame n of two captures, as the source, the frame's bytes and the reader answer it together: its record and the differing bits of B1 to B16, or both
/// tuners' numbers.
fn composed(
    edition: gvozdyana::Edition,
    main: &[u8],
    spare: &[u8],
    n: u64,
) -> Result<(Record, u8), (u8, u8)> {
    let tuner = capture::source(edition, main, spare, n);
    let Some(frame) = capture::frame_at(edition, main, spare, n) else {
        assert_eq!(tuner, Tuner::None);
        let (main, spare) = capture::numbers(edition, main, spare, n);
        return Err((number(main), number(spare)));
    };
    let reading = read(edition, tuner, frame).expect("accepted there");
    Ok((reading.record.values(), reading.differing))
}

/// The same over plain numbers, as a C program asks it.
fn composed_by(edition: u32, main: &[u8], spare: &[u8], n: u64) -> Result<(Record, u8), (u8, u8)> {
    let tuner = calls::capture_source(edition, main, spare, n);
    let capture = match tuner {
        1 => main,
        2 => spare,
        _ => {
            assert_eq!(tuner, 0);
            let [main, spare, ..] = calls::capture_numbers(edition, main, spare, n).to_le_bytes();
            return Err((main, spare));
        }
    };
    let frame = &capture[26 * n as usize..][..26];
    let mut record = [7; VALUES];
    let status = calls::frame_read(edition, tuner, frame, &mut record);
    assert_eq!(status & 0xFF00_FFFF, 0, "accepted there");
    Ok((record, (status >> 16) as u8))
}

/// The record of frame n says which tuner it came from, and how many of its own places were repaired.
#[test]
fn captures_read() {
    let mut seen = [[0; 9]; 3];
    for_each_seed(34, frames() / 10, |random, case| {
        let sample = captures(random);
        let (main, spare, n) = (&sample.main, &sample.spare, sample.n);
        let what = || format!("main {}, spare {}, n {n}, {case}", hex(main), hex(spare));
        let any = edition_number(random);
        let by_any = composed_by(any, main, spare, n);
        let plain = reference::capture::read(edition_of(any).1, main, spare, n);
        assert_eq!(by_any, plain, "edition {any}, {}", what());
        for (edition, plain_edition) in EDITIONS {
            let answer = composed(edition, main, spare, n);
            let plain = reference::capture::read(plain_edition, main, spare, n);
            assert_eq!(answer, plain, "{edition:?}, {}", what());
            let by_number = composed_by(edition.number(), main, spare, n);
            assert_eq!(by_number, plain, "{edition:?}, {}", what());
            match sample.expected(plain_edition) {
                Expected::Read(record, differing) => {
                    assert_eq!(answer, Ok((record, differing)), "{}", what());
                }
                Expected::Neither(main, spare) => {
                    assert_eq!(answer, Err((main, spare)), "{}", what());
                }
                Expected::Open => {}
            }
            match answer {
                Ok((record, _)) => seen[record[TUNER] as usize][record[REPAIRED] as usize] += 1,
                Err(_) => seen[0][0] += 1,
            }
        }
    });
    println!("neither, and main and spare by the repaired places: {seen:?}");
    assert!(seen[0][0] > 0, "{seen:?}");
    let counts = seen[1..].as_flattened();
    assert!(counts.iter().all(|&count| count > 0), "{seen:?}");
}

/// All transitions among the five states: another kind begins, whatever the updates, and no information ends.
#[test]
fn the_four_kinds() {
    let frame_of = |identification, update| {
        let mut record = [0; VALUES];
        (record[IDENTIFICATION], record[UPDATE]) = (identification, update);
        written(&record)
    };
    let safety = EDITIONS[1].0.number();
    for (state, (kind, identification)) in (0..20).flat_map(|state| {
        [(4, 0), (4, 1), (8, 2), (8, 3), (12, 5), (16, 6)].map(|kind| (state, kind))
    }) {
        for update in 0..4 {
            let status = calls::follow(safety, state, &frame_of(identification, u64::from(update)));
            let event = match (update + 4 - state % 4) % 4 {
                _ if state / 4 != kind / 4 => 2,
                0 => 3,
                1 => 4,
                _ => 5,
            };
            let expected = 256 * event + 65536 * (kind + update);
            assert_eq!(
                status, expected,
                "{state}: {identification}, update {update}"
            );
        }
    }
    for state in 4..20 {
        for edition in [0, safety] {
            let status = calls::follow(edition, state, &frame_of(7, 0));
            assert_eq!(status, 256, "{state} ended");
        }
        // The first edition keeps a state that it cannot begin itself.
        for identification in [5, 6] {
            let status = calls::follow(0, state, &frame_of(identification, 1));
            assert_eq!(status, 6 + 256 * 6 + 65536 * state, "{state} stays");
        }
    }
}
