//! The follower and the captures.
use crate::frames::{frame, short_record};
use crate::{apart, because, by_both, edition_of, status, Call, Case, Lends, Operation};
use crate::{AREA_SAFETY, FIRST};
use reference::capture::{frame_at, numbers};
use reference::follower::{follow, reset, Event, Kind, State};
use reference::frame::{write, Edition};

pub(crate) const OPERATIONS: [Operation; 6] = [
    operation("follow", |call| {
        let state = state_of_number(call.numbers[0]);
        let (next, event) = follow(call.edition(), state, &call.input);
        event_status(event) + 65536 * number_of_state(next)
    }),
    operation("step", |call| {
        let (next, event) = follow(call.edition(), state_of(call.numbers), &call.input);
        call.told = told(next);
        event_status(event)
    }),
    operation("reset", |call| {
        call.told = told(reset());
        0
    }),
    operation("capture_source", |call| {
        let (main, spare, n) = captures(call);
        match numbers(call.edition(), main, spare, n) {
            (0, _) => 1,
            (_, 0) => 2,
            _ => 0,
        }
    }),
    operation("capture_numbers", |call| {
        let (main, spare, n) = captures(call);
        let (a, b) = numbers(call.edition(), main, spare, n);
        status(a, b)
    }),
    operation("frame_at", |call| {
        let (main, spare, n) = captures(call);
        let frame = frame_at(call.edition(), main, spare, n).to_vec();
        if frame.len() <= call.lent.len() {
            call.lent[..frame.len()].copy_from_slice(&frame);
        }
        frame.len() as u64
    }),
];

const fn operation(name: &'static str, status: fn(&mut Call) -> u64) -> Operation {
    Operation {
        name,
        lends: Lends::Bytes,
        status,
    }
}

/// The kinds, from 1 on.
const KINDS: [Kind; 4] = [Kind::Real, Kind::Test, Kind::Safety, Kind::SafetyTest];

fn number_of_kind(kind: Kind) -> u64 {
    (1..)
        .zip(KINDS)
        .find(|&(_, k)| k == kind)
        .expect("a kind")
        .0
}

/// The state of a number of the C boundary, four times the kind's number and the update number: one that no state has is quiet.
fn state_of_number(number: u64) -> State {
    match number {
        4..=19 => State::Active(KINDS[number as usize / 4 - 1], number % 4),
        _ => State::Quiet,
    }
}

fn number_of_state(state: State) -> u64 {
    match state {
        State::Quiet => 0,
        State::Active(kind, update) => 4 * number_of_kind(kind) + update % 4,
    }
}

/// The state of a kind, 0 for quiet, and any update number.
fn state_of([kind, update, _]: [u64; 3]) -> State {
    match kind {
        0 => State::Quiet,
        _ => State::Active(KINDS[kind as usize - 1], update),
    }
}

fn told(state: State) -> Vec<u64> {
    match state {
        State::Quiet => vec![0],
        State::Active(kind, update) => vec![number_of_kind(kind), update],
    }
}

fn event_status(event: Event) -> u64 {
    match event {
        Event::Quiet => status(0, 0),
        Event::Ended => status(0, 1),
        Event::Begins => status(0, 2),
        Event::Same => status(0, 3),
        Event::Changed => status(0, 4),
        Event::Skipped => status(0, 5),
        Event::Refused(number) => status(number, 6),
    }
}

/// The captures stand one after the other, the main one of so many bytes.
fn captures(call: &Call) -> (&[u8], &[u8], u64) {
    let (main, spare) = call.input.split_at(call.numbers[0] as usize);
    (main, spare, call.numbers[1])
}

pub(crate) type Frame = [u8; 26];

fn written(identification: u64, update: u64, broadcaster: u64) -> Frame {
    let record = short_record(identification, update, broadcaster);
    let mut frame = [0; 26];
    assert_eq!(write(Edition::AreaSafety, &record, &mut frame), 0);
    frame
}

/// Identifications with updates 0 to 3.
fn with_updates(identifications: &[u64]) -> Vec<(String, Vec<u8>)> {
    let mut frames = vec![];
    for &identification in identifications {
        for update in 0..4 {
            let what = format!("identification {identification}, update {update}");
            frames.push((what, written(identification, update, 0).to_vec()));
        }
    }
    frames
}

/// Frames of every kind: identifications with every update; no information; synchronising bits damaged; identification 5 with start/end 01, and 4; pieces
/// that are no frame; 26 and 27 zeros.
fn frames() -> Vec<(String, Vec<u8>)> {
    let mut frames = with_updates(&[0, 1, 2, 3, 5, 6]);
    frames.push(("no information".to_owned(), written(7, 0, 5).to_vec()));
    for n in [3, 4] {
        let what = format!("identification 0, update 2, {n} synchronising bits");
        frames.push((what, turned(written(0, 2, 0), n).to_vec()));
    }
    for name in [
        "identification 5, start/end 01",
        "identification 4, start/end 00",
    ] {
        frames.push((name.to_owned(), frame(name)));
    }
    let frame = written(0, 0, 0);
    for piece in [&frame[..0], &frame[..5], &frame[..25], &[0; 26], &[0; 27]] {
        let zeros = if piece.len() > 25 {
            "zeros"
        } else {
            "bytes of a frame"
        };
        frames.push((format!("{} {zeros}", piece.len()), piece.to_vec()));
    }
    frames
}

pub(crate) fn cases() -> Vec<Case> {
    [
        because(
            "every state with every kind of frame, and numbers that no state has",
            by_both(&followed()),
        ),
        because(
            "area safety information is a kind of its own, and so is its test; any other number is the first edition",
            safety_followed(),
        ),
        because(
            "the same with the whole update number told, and updates above 3",
            stepped(),
        ),
        because(
            "a run of frames, the state carried on",
            [sequence(FIRST), sequence(AREA_SAFETY)].concat(),
        ),
        because(
            "main before spare, captures cut at every part of a frame, frame numbers past them",
            tuners(),
        ),
        because(
            "captures with area safety information: which frame is accepted goes by the edition",
            safety_tuners(),
        ),
        because(
            "a damaged pattern is accepted with three bits and not with four, and handed out as received",
            by_both(&damaged_patterns()),
        ),
    ]
    .concat()
}

fn state_text(state: State) -> String {
    match state {
        State::Quiet => "quiet".to_owned(),
        State::Active(Kind::Real, update) => format!("real {update}"),
        State::Active(Kind::Test, update) => format!("test {update}"),
        State::Active(Kind::Safety, update) => format!("safety {update}"),
        State::Active(Kind::SafetyTest, update) => format!("safety test {update}"),
    }
}

fn follow_case(number: u64, what: &str, frame: &[u8]) -> Case {
    let state = state_text(state_of_number(number));
    Case::new("follow", format!("{state} ({number}): {what}"))
        .numbers(&[number])
        .input(frame)
}

/// From each state that a number of the C boundary has, and from numbers that no state has.
fn followed() -> Vec<Case> {
    let mut cases = vec![];
    for number in [0].into_iter().chain(4..20) {
        cases.extend(
            frames()
                .iter()
                .map(|(what, frame)| follow_case(number, what, frame)),
        );
    }
    for number in [1, 3, 20, 255, 65549, u64::from(u32::MAX)] {
        cases.push(follow_case(
            number,
            "identification 0, update 1",
            &written(0, 1, 0),
        ));
        cases.push(follow_case(number, "26 zeros", &[0; 26]));
    }
    let changed = follow_case(7, "update 3 then 0", &written(0, 0, 0));
    let skipped = follow_case(4, "update 0 then 3", &written(0, 3, 0));
    cases.push(changed.known("document 01, example 9", "40400"));
    cases.push(skipped.known("document 01, example 9", "70500"));
    cases
}

/// States, identifications and updates, and the status in the first edition and in that of area safety: the new state, the event, the refusal.
const SAFETY: [(u64, u64, u64, &str, &str); 14] = [
    // from quiet: begins
    (0, 5, 1, "606", "d0200"),
    (0, 6, 3, "606", "130200"),
    // of the same kind: same, changed, skipped
    (13, 5, 1, "d0606", "d0300"),
    (15, 5, 0, "f0606", "c0400"),
    (16, 6, 2, "100606", "120500"),
    // of any other kind: begins, whatever the update
    (13, 6, 1, "d0606", "110200"),
    (17, 5, 1, "110606", "d0200"),
    (13, 0, 1, "50200", "50200"),
    (18, 3, 2, "a0200", "a0200"),
    (5, 5, 1, "50606", "d0200"),
    (9, 6, 2, "90606", "120200"),
    (9, 5, 1, "90606", "d0200"),
    // ended
    (14, 7, 0, "100", "100"),
    (19, 7, 0, "100", "100"),
];

fn safety_followed() -> Vec<Case> {
    let case = |(state, identification, update, first, safety)| {
        let what = format!("identification {identification}, update {update}");
        let frame = written(identification, update, 0);
        apart(follow_case(state, &what, &frame), first, safety)
    };
    SAFETY.into_iter().flat_map(case).collect()
}

/// From the first state, and from states of any update number.
fn stepped() -> Vec<Case> {
    let frames = frames();
    let updates = [0, 1, 2, 3, 255, u64::MAX];
    let active = (1..=4).flat_map(|kind| updates.map(|update| [kind, update, 0]));
    let mut cases = vec![];
    for numbers in [[0; 3]].into_iter().chain(active) {
        let state = state_text(state_of(numbers));
        let step = |(what, frame): &(String, Vec<u8>)| {
            Case::new("step", format!("{state}: {what}"))
                .numbers(&numbers)
                .input(frame)
        };
        cases.extend(by_both(&frames.iter().map(step).collect::<Vec<_>>()));
        let case = Case::new("reset", &*state).numbers(&numbers);
        cases.push(case.known("document 01: a reset gives quiet", "0 0"));
    }
    cases
}

/// Frames one after the other, the state carried on.
fn sequence(edition: u64) -> Vec<Case> {
    let frames = [
        ("update 3", written(0, 3, 0)),
        ("without area, update 0", written(1, 0, 0)),
        ("update 3", written(0, 3, 0)),
        ("a test", written(3, 3, 0)),
        ("zeros", [0; 26]),
        ("a test, update 0", written(2, 0, 0)),
        ("area safety, update 0", written(5, 0, 0)),
        ("area safety, update 1", written(5, 1, 0)),
        ("a test of area safety, update 2", written(6, 2, 0)),
        ("a test of area safety, update 0", written(6, 0, 0)),
        ("zeros", [0; 26]),
        ("no information", written(7, 0, 1)),
        ("no information again", written(7, 0, 2)),
        ("update 2", written(1, 2, 0)),
    ];
    let mut state = reset();
    let mut case = |(what, frame): (&str, Frame)| {
        let case = follow_case(number_of_state(state), &format!("in a row: {what}"), &frame);
        state = follow(edition_of(edition), state, &frame).0;
        case.edition(edition)
    };
    frames.map(&mut case).into()
}

/// Hit in B24 to B31, and in the bits of `more` among B32 to B39.
fn hit(mut frame: Frame, more: u8) -> Frame {
    frame[3] ^= 255;
    frame[4] ^= more;
    frame
}

/// The first n synchronising bits turned over.
fn turned(mut frame: Frame, n: usize) -> Frame {
    for k in 1..=n {
        reference::flip_bit(&mut frame, k);
    }
    frame
}

/// A frame with its first n bits of B24 and after turned over.
pub(crate) fn hits(frame: &[u8], n: usize) -> Frame {
    let mut hit: Frame = frame.try_into().expect("26 bytes");
    for k in 0..n {
        reference::flip_bit(&mut hit, 24 + k);
    }
    hit
}

/// Main's frame has synchronising bits that differ, three and four.
pub(crate) fn damaged() -> [(Frame, Frame, String); 2] {
    let sent = written(0, 1, 0);
    [3, 4].map(|n| {
        let what = format!("main's frame with {n} synchronising bits turned over");
        (turned(sent, n), sent, what)
    })
}

/// The bytes that are handed out are those received.
fn damaged_patterns() -> Vec<Case> {
    let mut cases = vec![];
    for ((main, spare, what), source) in damaged().into_iter().zip(["1", "2"]) {
        let input = [main, spare].concat();
        let case = |operation| {
            Case::new(operation, what.clone())
                .numbers(&[26, 0])
                .input(&input)
        };
        cases.extend([
            case("capture_source").known("document 02, e)", source),
            case("capture_numbers"),
            case("frame_at").lent(&[0xA5; 26]),
        ]);
    }
    cases
}

/// Captures of three frames each, cut to every pair of lengths, and the numbers of frames inside them and past them.
pub(crate) fn cut_captures() -> Vec<(Vec<u8>, Vec<u8>, u64)> {
    let main = [
        hit(written(0, 1, 0), 0),
        hit(written(1, 2, 0), 1),
        hit(written(2, 3, 0), 128),
    ]
    .concat();
    let spare = [written(3, 0, 0), written(7, 0, 9), [0; 26]].concat();
    let lengths = [0, 25, 26, 51, 52, 78];
    let mut captures = vec![];
    for (m, s) in lengths.into_iter().flat_map(|m| lengths.map(|s| (m, s))) {
        for n in [0, 1, 2, 1 << 63, u64::MAX] {
            captures.push((main[..m].to_vec(), spare[..s].to_vec(), n));
        }
    }
    captures
}

fn tuners() -> Vec<Case> {
    let asked = |(main, spare, n): (Vec<u8>, Vec<u8>, u64)| asked(&main, &spare, n);
    cut_captures().into_iter().flat_map(asked).collect()
}

/// The three questions of frame n.
fn asked(main: &[u8], spare: &[u8], n: u64) -> [Case; 3] {
    let (m, s) = (main.len(), spare.len());
    let what = format!("captures of {m} and {s} bytes, frame {n}");
    let input = [main, spare].concat();
    let case = |operation| {
        Case::new(operation, what.clone())
            .numbers(&[m as u64, n])
            .input(&input)
    };
    [
        case("capture_source"),
        case("capture_numbers"),
        case("frame_at").lent(&[0xA5; 26]),
    ]
}

/// Pairs of frames, and what they are.
pub(crate) fn pairs() -> Vec<(Frame, Frame, String)> {
    let pairs = safety_pairs().into_iter().enumerate();
    pairs
        .map(|(i, (main, spare, ..))| {
            (
                main,
                spare,
                format!("area safety information, pair {}", i + 1),
            )
        })
        .collect()
}

/// Main's frame and spare's, and by each edition the tuner and the two numbers.
type SafetyPair = (Frame, Frame, [&'static str; 2], [&'static str; 2]);

/// Area safety information before a warning and after one, hit in eight places and in nine, refused in both editions.
fn safety_pairs() -> [SafetyPair; 5] {
    let undefined: Frame = frame("identification 4, start/end 00")
        .try_into()
        .expect("26 bytes");
    [
        (written(5, 1, 0), written(0, 1, 0), ["2", "1"], ["6", "0"]),
        (written(0, 1, 0), written(6, 1, 0), ["1", "1"], ["600", "0"]),
        (
            hit(written(6, 2, 0), 0),
            written(7, 0, 9),
            ["2", "1"],
            ["6", "0"],
        ),
        (
            hit(written(6, 2, 0), 1),
            written(5, 3, 0),
            ["0", "2"],
            ["604", "4"],
        ),
        (undefined, written(5, 3, 0), ["0", "2"], ["606", "6"]),
    ]
}

fn safety_tuners() -> Vec<Case> {
    let mut cases = vec![];
    for (main, spare, sources, numbers) in safety_pairs() {
        let [source, both, part] = asked(&main, &spare, 0);
        cases.extend(apart(source, sources[0], sources[1]));
        cases.extend(apart(both, numbers[0], numbers[1]));
        cases.extend(by_both(&[part]));
    }
    // a frame number past a capture is 1 there, whatever the edition
    cases.extend(by_both(&asked(&written(5, 1, 0), &written(6, 1, 0), 1)));
    cases
}
