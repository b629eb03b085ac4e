//! The functions that take doubtful marks. The input of a case is a frame and its marks, and its first number says how many bytes the frame has; the
//! second names the tuner.
use crate::codes::{encode, generator_places, message, put_repaired};
use crate::frames::{answers, frame, frames, lending, put_record};
use crate::headers::{flipped, model_header};
use crate::{apart, because, by_both, rows, status};
use crate::{Call, Case, Lends, Operation, AREA_SAFETY};
use reference::frame::{judge_marked, read_marked, Edition, Tuner, VALUES};
use reference::header::lay_in_marked;
use reference::{bit, flip_bit, put, repair_marked, FRAME_BYTES};

pub(crate) const OPERATIONS: [Operation; 4] = [
    operation("repair_marked", |call| {
        let (frame, marks) = parts(call);
        let answer = repair_marked(&frame, &marks);
        put_repaired(answer, call)
    }),
    operation("frame_judge_marked", |call| {
        let (frame, marks) = parts(call);
        match judge_marked(Edition::First, &frame, &marks) {
            Ok((t, differing)) => status(0, t) + 65536 * u64::from(differing),
            Err(number) => status(number, 0),
        }
    }),
    operation("lay_in_marked", |call| {
        let (frame, marks) = parts(call);
        let number = lay_in_marked(call.edition(), &mut call.lent, &frame, &marks);
        status(number, 0)
    }),
    lending("frame_read_marked", |call| {
        let (frame, marks) = parts(call);
        let tuner = Tuner::named(call.numbers[1]);
        let answer = read_marked(call.edition(), tuner, &frame, &marks);
        put_record(answer, call)
    }),
];

const fn operation(name: &'static str, status: fn(&mut Call) -> u64) -> Operation {
    Operation {
        name,
        lends: Lends::Bytes,
        status,
    }
}

/// The frame and the marks of a call.
fn parts(call: &Call) -> (Vec<u8>, Vec<u8>) {
    let (frame, marks) = call.input.split_at(call.numbers[0] as usize);
    (frame.to_vec(), marks.to_vec())
}

/// Makes cases that are there for one reason.
type Make = fn() -> Vec<Case>;

/// The reasons, and the cases of each.
const CASES: [(&str, Make); 9] = [
    (
        "marks among the generator's 18 places, so that zeros and the generator are both near; what is received under the marks does not matter",
        generator,
    ),
    (
        "2t+s from 16 to 19 for every t, and more marks: code words hit and marked over the whole word, whatever is received under the marks",
        words,
    ),
    (
        "no marks, and marks outside B17 to B203, which are ignored: the answers are those without marks",
        unmarked,
    ),
    (
        "each frame of the reader's tables with 17 marks and with 18: 2 and 3 are tested before 4, and 5 to 9 after it",
        refusals,
    ),
    (
        "a frame of each body with every t, 2t+s of 17 and of 18, and up to three of B1 to B16 turned over: t is the number of repaired places",
        bodies,
    ),
    (
        "the record has the tuner that the reader is told; a number that no tuner has is none",
        tuners,
    ),
    (
        "area safety information with marks: what the editions answer apart, and that any other number is the first",
        safety,
    ),
    (
        "frames, marks and buffers of other lengths are 1 and are left, whatever else is wrong",
        lengths,
    ),
    (
        "a refused header is left, and is tested before the frame and its marks",
        headers,
    ),
];

pub(crate) fn cases() -> Vec<Case> {
    let cases = CASES.iter();
    cases
        .flat_map(|(why, cases)| because(why, cases()))
        .collect()
}

/// A frame and its marks, and what they are.
struct Marked {
    what: String,
    frame: Vec<u8>,
    marks: Vec<u8>,
}

impl Marked {
    fn new(what: impl Into<String>, frame: &[u8], marks: &[u8]) -> Marked {
        Marked {
            what: what.into(),
            frame: frame.to_vec(),
            marks: marks.to_vec(),
        }
    }

    fn case(&self, operation: &'static str) -> Case {
        Case::new(operation, &self.what)
            .numbers(&[self.frame.len() as u64])
            .input(&[&self.frame[..], &self.marks].concat())
    }

    fn repair(&self) -> Case {
        self.case("repair_marked").lent(&[0xA5; FRAME_BYTES])
    }

    fn judge(&self) -> Case {
        self.case("frame_judge_marked")
    }

    /// Read as the frame of the tuner that this number names.
    fn read(&self, tuner: u64) -> Case {
        self.case("frame_read_marked")
            .numbers(&[self.frame.len() as u64, tuner])
            .values(VALUES)
    }

    fn lay(&self, header: &[u8]) -> Case {
        self.case("lay_in_marked").lent(header)
    }

    /// Judged, read by both editions, and laid into the model header by that of area safety, which has more frames.
    fn as_frame(&self) -> Vec<Case> {
        let mut cases = by_both(&[self.read(0)]);
        cases.extend([self.judge(), self.lay(&model_header()).edition(AREA_SAFETY)]);
        cases
    }
}

/// The places outside B17 to B203.
fn places_outside() -> impl Iterator<Item = usize> {
    (0..17).chain(204..208)
}

/// Marks on all of them.
fn outside() -> [u8; FRAME_BYTES] {
    let mut marks = [0; FRAME_BYTES];
    places_outside().for_each(|k| flip_bit(&mut marks, k));
    marks
}

/// The same bytes behind pattern 0.
fn framed(mut bytes: [u8; FRAME_BYTES]) -> [u8; FRAME_BYTES] {
    (bytes[0], bytes[1]) = (0x1A, 0xF7);
    bytes
}

// ---- the generator's places

/// How many places before the marked ones, how many of these are received 1, and the answers of the repair, of the judgment, of the reader and of
/// laying in. Zeros behind pattern 0 are a warning for all areas, and the generator's CRC is wrong.
const GENERATOR: &str = "
1 | 0 | 0:00*26. | 0 | 0 0*21 | ..b0ac5a53 | 17 of the generator's places marked, zeros received
1 | 1 | 0:00*15.4308c01110114014404110 | 5 | 5 .. | 5:.. | 17 of the generator's places marked, the 18th received 1
0 | 0 | 4:a5*26. | 4 | 4 .. | 4:.. | 18 of the generator's places marked, zeros received
0 | 18 | 4:a5*26. | 4 | 4 .. | 4:.. | 18 of the generator's places marked, all received 1
2 | 0 | 0:00*26. | 0 | 0 0*21 | ..b0ac5a53 | 16 of the generator's places marked, zeros received
2 | 1 | 4:a5*26. | 4 | 4 .. | 4:.. | 16 of the generator's places marked, one of the other two received 1
2 | 2 | 0:00*15.4308c01110114014404110 | 5 | 5 .. | 5:.. | 16 of the generator's places marked, the other two received 1
3 | 1 | 100:00*26. | 100 | 0 0*20 1 | ..b0ac5a53 | 15 of the generator's places marked, one of the other three received 1
3 | 2 | 100:00*15.4308c01110114014404110 | 5 | 5 .. | 5:.. | 15 of the generator's places marked, two of the other three received 1
";

/// Each row with every place in turn as the first, x^82 before all; with x^82 the first also judged, read and laid in, and with each bit under the
/// marks turned over.
fn generator() -> Vec<Case> {
    let mut cases = vec![];
    for [unmarked, received, repair, judge, read, lay, what] in rows(GENERATOR) {
        let count = |text: &str| text.parse::<usize>().expect("a count");
        let (unmarked, received) = (count(unmarked), count(received));
        let from = "document 02, d)";
        for i in 0..18 {
            let frame = framed(generator_places(i, received));
            let marks = generator_places(i + unmarked, 18 - unmarked);
            let marked = Marked::new(format!("{what}, from number {i} on"), &frame, &marks);
            cases.push(marked.repair().known(from, repair));
            cases.push(marked.judge().known(from, judge));
            if i == 0 {
                let laid = marked.lay(&model_header()).known(from, lay);
                cases.extend(by_both(&[marked.read(0).known(from, read), laid]));
                cases.extend(under_marks(&marked).map(|other| other.repair().known(from, repair)));
            }
        }
    }
    cases
}

/// The same with each bit under a mark turned over, and with all of them.
fn under_marks(marked: &Marked) -> impl Iterator<Item = Marked> + '_ {
    let places: Vec<usize> = (0..208).filter(|&k| bit(&marked.marks, k)).collect();
    let each: Vec<Vec<usize>> = places.iter().map(|&k| vec![k]).collect();
    each.into_iter().chain([places]).map(|places| {
        let mut frame = marked.frame.clone();
        places.iter().for_each(|&k| flip_bit(&mut frame, k));
        let what = match places[..] {
            [k] => format!("{}, B{k} under its mark turned over", marked.what),
            _ => format!("{}, all under the marks turned over", marked.what),
        };
        Marked::new(what, &frame, &marked.marks)
    })
}

// ---- hits and marks

/// What is received under the marks.
#[derive(Clone, Copy)]
enum Under {
    Sent,
    TurnedOver,
    Zeros,
    Ones,
}

const UNDER: [(Under, &str); 4] = [
    (Under::Sent, "as sent"),
    (Under::TurnedOver, "turned over"),
    (Under::Zeros, "zeros"),
    (Under::Ones, "ones"),
];

/// A frame with t hits and s marks: every 13th place of the 187, from one on and round.
fn damaged(frame: &[u8], (t, s): (usize, usize), from: usize, under: Under) -> (Vec<u8>, Vec<u8>) {
    let (mut received, mut marks) = (frame.to_vec(), vec![0; FRAME_BYTES]);
    let place = |j: usize| 17 + (from + 13 * j) % 187;
    (0..t).for_each(|j| flip_bit(&mut received, place(j)));
    for k in (t..t + s).map(place) {
        flip_bit(&mut marks, k);
        let value = match under {
            Under::Sent => bit(frame, k),
            Under::TurnedOver => !bit(frame, k),
            Under::Zeros => false,
            Under::Ones => true,
        };
        put(&mut received, k..=k, value.into());
    }
    (received, marks)
}

/// All t and s of which 2t+s is this.
fn pairs(sum: usize) -> impl Iterator<Item = (usize, usize)> {
    (0..=sum / 2).map(move |t| (t, sum - 2 * t))
}

fn words() -> Vec<Case> {
    let more = [(0, 30), (0, 40), (0, 187), (1, 18), (8, 18)];
    let pairs = (16..=19).flat_map(pairs).chain(more);
    let mut cases = vec![];
    for (seed, (t, s)) in pairs.enumerate() {
        let mut word = message(seed);
        encode(&mut word);
        for (under, text) in UNDER {
            let (frame, marks) = damaged(&word, (t, s), 5 * seed, under);
            let what = format!("code word {seed}, {t} hits and {s} marks, {text} under them");
            let case = Marked::new(what, &frame, &marks).repair();
            cases.push(match 2 * t + s {
                18 => case.known("18 is past 17, and no other word is nearer", "4:a5*26."),
                _ => case,
            });
        }
    }
    cases
}

// ---- no marks, and marks that are ignored

fn unmarked() -> Vec<Case> {
    let from = "document 02, d): as without marks";
    let mut cases = vec![];
    for (text, marks) in [("no marks", [0; FRAME_BYTES]), ("marks outside", outside())] {
        for (n, answer) in [
            (8, "800:00*26."),
            (9, "4:a5*26."),
            (10, "800:00*15.4308c01110114014404110"),
        ] {
            let what = format!("{n} places of the generator, {text}");
            let marked = Marked::new(what, &generator_places(0, n), &marks);
            cases.push(marked.repair().known(from, answer));
        }
        for (frame, answer, what) in answers() {
            let marked = Marked::new(format!("{what}, {text}"), &frame, &marks);
            let read = match answer {
                "-" => marked.read(0),
                _ => marked.read(0).known(from, answer),
            };
            cases.push(marked.judge());
            cases.extend(by_both(&[read]));
        }
    }
    for (frame, _, what) in answers() {
        let marked = Marked::new(format!("{what}, marks outside"), &frame, &outside());
        cases.push(marked.lay(&model_header()));
    }
    cases.extend(none_more());
    cases
}

/// Seventeen marks, and one more on each place where it is ignored, and on all of them.
fn none_more() -> Vec<Case> {
    let mut cases = vec![];
    let all: Vec<usize> = places_outside().collect();
    for places in all.iter().map(|&k| vec![k]).chain([all.clone()]) {
        let mut marks = generator_places(1, 17);
        places.iter().for_each(|&k| flip_bit(&mut marks, k));
        let what = match places[..] {
            [k] => format!("17 marks, and one on B{k}"),
            _ => "17 marks, and all outside B17 to B203".to_owned(),
        };
        let marked = Marked::new(what, &framed([0; FRAME_BYTES]), &marks);
        cases.push(marked.repair().known("document 02, d)", "0:00*26."));
        cases.push(marked.judge().known("document 02, d)", "0"));
        cases.push(marked.read(0).known("document 02, d)", "0 0*21"));
    }
    cases
}

// ---- frames with hits and marks

fn refusals() -> Vec<Case> {
    let mut cases = vec![];
    for (frame, what) in frames().filter(|(frame, _)| frame.len() == FRAME_BYTES) {
        for s in [17, 18] {
            let (received, marks) = damaged(&frame, (0, s), 7, Under::TurnedOver);
            cases.extend(Marked::new(format!("{what}, {s} marks"), &received, &marks).as_frame());
        }
    }
    let known = |name: &str, answer| {
        let (received, marks) = damaged(&frame(name), (0, 18), 7, Under::TurnedOver);
        let marked = Marked::new(format!("{name}, 18 marks"), &received, &marks);
        marked.judge().known("document 02, d)", answer)
    };
    cases.extend([
        known("a filler bit alone", "2"),
        known("no pattern: all zero", "3"),
        known("all areas:", "4"),
        known("CRC wrong", "4"),
    ]);
    cases
}

/// What the judgment answers with t hits, if no bit of B1 to B16 differs.
const JUDGED: [&str; 9] = ["0", "100", "200", "300", "400", "500", "600", "700", "800"];

/// Frames of each body, by what their descriptions begin with; the first edition has the first five.
const BODIES: [&str; 7] = [
    "all areas:",
    "pattern 1, one area",
    "place, with B0",
    "no information",
    "a cancellation",
    "area safety",
    "identification 6, all ones",
];

fn bodies() -> Vec<Case> {
    let mut cases = vec![];
    for (i, name) in BODIES.into_iter().enumerate() {
        for (t, s) in pairs(17).chain(pairs(18)) {
            let (under, _) = UNDER[(i + t) % 4];
            let (received, marks) = damaged(&frame(name), (t, s), 19 * i + t, under);
            let what = format!("{name} {t} hits, {s} marks");
            let clean = Marked::new(what, &received, &marks);
            cases.push(clean.repair());
            cases.push(match (2 * t + s, i) {
                (18, _) => clean.judge().known("document 02, d)", "4"),
                (_, 0..5) => clean.judge().known("document 02, d)", JUDGED[t]),
                _ => clean.judge().known("document 02, a)", "6"),
            });
            let differing = (i + t) % 4;
            let mut received = received;
            (1..=differing).for_each(|k| flip_bit(&mut received, 5 * k));
            let what = format!("{}, {differing} of B1 to B16 turned over", clean.what);
            let marked = Marked::new(what, &received, &marks);
            cases.push(marked.judge());
            cases.extend(by_both(&[marked.read(t as u64 % 3)]));
            cases.push(marked.lay(&model_header()).edition(AREA_SAFETY));
        }
    }
    cases
}

/// The last two numbers of what is read with three hits and eleven marks: the tuner told and t.
fn tuners() -> Vec<Case> {
    let told = [
        (0, ".. 0*3 3"),
        (1, ".. 1 3"),
        (2, ".. 2 3"),
        (3, ".. 0*3 3"),
        (257, ".. 0*3 3"),
        (65538, ".. 0*3 3"),
        (0xFFFF_FFFF, ".. 0*3 3"),
    ];
    let (received, marks) = damaged(&frame("place, with B0"), (3, 11), 40, Under::Ones);
    let case = |(tuner, answer)| {
        let what = format!("tuner {tuner} told: place, 3 hits and 11 marks");
        let marked = Marked::new(what, &received, &marks);
        marked.read(tuner).known("document 02, d) and j)", answer)
    };
    by_both(&told.map(case))
}

/// Frames, each with what reading it with few enough marks answers in the two editions, and what laying it in does.
const SAFETY: &str = "
area safety | 6 .. | 0 .. | 6:.. | 0:..
identification 6, all ones | 6 .. | 0 .. | 6:.. | 0:..
identification 5, start/end 01 | 6 .. | 7 .. | 6:.. | 7:..
identification 4, start/end 00 | 6 .. | 6 .. | 6:.. | 6:..
";

fn safety() -> Vec<Case> {
    let marked = |name: &str, (t, s)| {
        let (received, marks) = damaged(&frame(name), (t, s), 3, Under::TurnedOver);
        Marked::new(format!("{name}, {t} hits, {s} marks"), &received, &marks)
    };
    let mut cases = vec![];
    for [name, first, safety, first_laid, safety_laid] in rows(SAFETY) {
        for pair in [(0, 17), (4, 9)] {
            let few = marked(name, pair);
            cases.extend(apart(few.read(1), first, safety));
            cases.extend(apart(few.lay(&model_header()), first_laid, safety_laid));
        }
        let many = marked(name, (0, 18));
        cases.extend(apart(many.read(1), "4 ..", "4 .."));
        cases.extend(apart(many.lay(&model_header()), "4:..", "4:.."));
    }
    cases
}

// ---- lengths and headers

/// Every two lengths of a frame and its marks of which one is wrong, without a mark and all marked; and buffers.
fn lengths() -> Vec<Case> {
    let (all_areas, from) = (frame("all areas:"), "document 02, d)");
    let mut cases = vec![];
    for (text, mark) in [("no marks", 0), ("all marked", 0xFF)] {
        let mut other = |frame_len: usize, marks_len: usize| {
            let mut frame = all_areas.clone();
            frame.resize(frame_len, 0);
            let what = format!("{text}: a frame of {frame_len} bytes, marks of {marks_len}");
            let marked = Marked::new(what, &frame, &vec![mark; marks_len]);
            cases.push(marked.repair().known(from, "1:a5*26."));
            cases.push(marked.judge().known(from, "1"));
            cases.extend(by_both(&[marked.read(0).known(from, "1 ..")]));
            cases.push(marked.lay(&model_header()).known(from, "1:.."));
        };
        for frame_len in [0, 25, 26, 27, 52] {
            for marks_len in [0, 25, 26, 27, 52] {
                if (frame_len, marks_len) != (FRAME_BYTES, FRAME_BYTES) {
                    other(frame_len, marks_len);
                }
            }
        }
        let marked = Marked::new(text, &all_areas, &[mark; FRAME_BYTES]);
        cases.extend(buffers(&marked));
    }
    cases
}

/// Words, records and headers of other lengths.
fn buffers(marked: &Marked) -> Vec<Case> {
    let mut cases = vec![];
    for n in [0, 25, 27] {
        let what = format!("{}: a word of {n} bytes", marked.what);
        cases.push(
            Case {
                what,
                ..marked.repair()
            }
            .lent(&vec![0xA5; n]),
        );
    }
    for n in [0, 19, 20, 22] {
        let what = format!("{}: a record of {n} numbers", marked.what);
        cases.extend(by_both(&[Case {
            what,
            ..marked.read(2)
        }
        .values(n)]));
    }
    for n in [0, 187, 189] {
        let mut header = model_header().to_vec();
        header.resize(n, 0);
        let what = format!("{}: a header of {n} bytes", marked.what);
        cases.extend(by_both(&[Case {
            what,
            ..marked.lay(&header)
        }]));
    }
    cases
}

/// A good frame with marks that are good, too many or none, and a refused frame, into headers that are refused.
fn headers() -> Vec<Case> {
    let headers: [(&str, &[usize], bool, &str); 4] = [
        ("byte 0 wrong", &[7], true, "c:.."),
        ("CRC wrong", &[1503], false, "d:.."),
        ("form 2", &[54, 55], true, "e:.."),
        ("the fixed bit 0", &[71], true, "f:.."),
    ];
    let mut cases = vec![];
    for (what, places, again, answer) in headers {
        let header = flipped(places, again);
        let mut lay = |name: &str, s: usize, marks_len: usize| {
            let (received, mut marks) = damaged(&frame(name), (0, s), 11, Under::TurnedOver);
            marks.truncate(marks_len);
            let what = format!("{what}, {name} {s} marks in {marks_len} bytes");
            let case = Marked::new(what, &received, &marks).lay(&header);
            cases.extend(by_both(&[case.known("document 01's rules", answer)]));
        };
        lay("all areas:", 17, FRAME_BYTES);
        lay("all areas:", 18, FRAME_BYTES);
        lay("all areas:", 17, 25);
        lay("all areas:", 0, 0);
        lay("no pattern: all zero", 18, FRAME_BYTES);
        lay("area safety", 17, FRAME_BYTES);
    }
    cases
}
