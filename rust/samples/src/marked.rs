//! Frames with doubtful marks (document 02, d): code words and frames of all sorts, hit in unmarked places, with marks on places that are hit and on
//! others, and of other lengths.
use crate::frames::{self, flip_pattern, Expected};
use crate::records::{bodies, legal_record, with_origin, Body, BODIES};
use crate::{code_word, shifted_generator, Random};
use reference::code::{encode, frame_of, protected, Word, DEGREE, GENERATOR, LENGTH};
use reference::frame::{Edition, Record, EDITIONS, PATTERN};
use reference::{bit, flip_bit, put, set_bit, Repaired, FRAME_BYTES};

/// The bytes of a frame, or of its marks.
type Bytes = [u8; FRAME_BYTES];

#[derive(Clone, Debug, PartialEq, Eq)]
pub struct Sample {
    pub frame: Vec<u8>,
    pub marks: Vec<u8>,
    /// What its making says of the repair with marks, asked for alone: the word and t, or the refusal's number; none where it says nothing.
    pub repaired: Option<Result<Repaired, u8>>,
    /// What its making says of its reading with marks in each edition, in the order of `EDITIONS`. The reader is told no tuner; the record's number
    /// of repaired places is t.
    pub expected: [Expected; 2],
}

impl Sample {
    pub fn expected(&self, edition: Edition) -> Expected {
        self.expected[edition as usize]
    }

    /// How many marks are set within B17 to B203, in marks of 26 bytes.
    pub fn marks_set(&self) -> usize {
        (17..=203).filter(|&k| bit(&self.marks, k)).count()
    }

    /// "the frame and then a mark for each of its bits": 52 bytes for the listing, where both have their 26.
    pub fn piece(&self) -> Option<Vec<u8>> {
        let whole = self.frame.len() == FRAME_BYTES && self.marks.len() == FRAME_BYTES;
        whole.then(|| [&self.frame[..], &self.marks].concat())
    }
}

/// What is received under the marks: it "must not matter".
#[derive(Clone, Copy, Debug, PartialEq, Eq)]
pub enum Under {
    Sent,
    TurnedOver,
    Zeros,
    Ones,
    Any,
}

pub const UNDER: [Under; 5] = [
    Under::Sent,
    Under::TurnedOver,
    Under::Zeros,
    Under::Ones,
    Under::Any,
];

/// What happens to a frame on its way. Places are powers of x.
#[derive(Clone, Debug)]
pub struct Damage {
    /// The unmarked places that are hit: t of them.
    pub hits: Vec<usize>,
    /// The marked places: s of them.
    pub marked: Vec<usize>,
    pub under: Under,
    /// How many of B1 to B16 are turned over.
    pub flips: usize,
    /// Whether a filler bit is 1.
    pub filler: bool,
}

impl Damage {
    /// t hits and s marks at different places among these, with anything under the marks; all else as sent.
    fn at(places: &[usize], (t, s): (usize, usize), random: &mut Random) -> Damage {
        let mut hits = random.choose(t + s, places);
        let marked = hits.split_off(t);
        Damage {
            hits,
            marked,
            under: random.pick(&UNDER),
            flips: 0,
            filler: false,
        }
    }

    /// The same at any places.
    pub fn any((t, s): (usize, usize), random: &mut Random) -> Damage {
        let places: [usize; LENGTH] = std::array::from_fn(|place| place);
        Damage::at(&places, (t, s), random)
    }

    /// What the repair with marks makes of this word. Up to 17 it is the word sent: "There is never more than one." At 18 it is always 4: the word
    /// sent is not within 17, and another one with t' and 2t'+s at most 17 would differ from it in no more than t+t'+s places. Twice that is
    /// (2t+s)+(2t'+s), at most 18+17, so that these are 17 at most, and two code words differ in 18 or more. More than 17 marks are 4 whatever was
    /// hit. Beyond, another word may be within 17 or none.
    fn repaired(&self, sent: &Word) -> Option<Result<Repaired, u8>> {
        let (t, s) = (self.hits.len(), self.marked.len());
        match 2 * t + s {
            0..=17 => Some(answer(sent, t)),
            18 => Some(Err(4)),
            _ if s > 17 => Some(Err(4)),
            _ => None,
        }
    }

    /// What is received of these bytes, and its marks.
    fn received(&self, sent: &Bytes, random: &mut Random) -> (Bytes, Bytes) {
        let (mut frame, mut marks) = (*sent, [0; FRAME_BYTES]);
        for place in &self.hits {
            flip_bit(&mut frame, 203 - place);
        }
        for k in self.marked.iter().map(|place| 203 - place) {
            set_bit(&mut marks, k);
            let received = match self.under {
                Under::Sent => bit(sent, k),
                Under::TurnedOver => !bit(sent, k),
                Under::Zeros => false,
                Under::Ones => true,
                Under::Any => random.number() & 1 == 1,
            };
            put(&mut frame, k..=k, u64::from(received));
        }
        mark_outside(&mut marks, random);
        flip_pattern(&mut frame, self.flips, random);
        if self.filler {
            flip_bit(&mut frame, 204 + random.below(4));
        }
        (frame, marks)
    }

    /// What an edition makes of a frame in whose own bits it would read this. Thirteen or more bits turned over are three or fewer away from the
    /// other pattern.
    fn expected(
        &self,
        read: Result<Record, u8>,
        repaired: Option<Result<Repaired, u8>>,
    ) -> Expected {
        let (other, differing) = match self.flips {
            13.. => (1, 16 - self.flips),
            flips => (0, flips),
        };
        match (self.filler, differing, repaired, read) {
            (true, _, _, _) => Expected::Refused(2),
            (_, 4.., _, _) => Expected::Refused(3),
            (_, _, None, _) => Expected::Open,
            (_, _, Some(Err(number)), _) | (_, _, _, Err(number)) => Expected::Refused(number),
            (_, _, Some(Ok(_)), Ok(record)) => {
                let mut record = with_origin(&record, 0, self.hits.len() as u64);
                record[PATTERN] ^= other;
                Expected::Read(record, differing as u8)
            }
        }
    }
}

/// The answer with this word and this t.
fn answer(word: &Word, t: usize) -> Result<Repaired, u8> {
    Ok(Repaired {
        word: frame_of(word),
        places: t as u8,
    })
}

/// "marks outside B17..B203 are ignored": none of them is set, or all, or some.
fn mark_outside(marks: &mut [u8], random: &mut Random) {
    let which = random.below(3);
    for k in (0..17).chain(204..208) {
        if which == 1 || (which == 2 && random.below(2) == 0) {
            set_bit(marks, k);
        }
    }
}

/// A code word with this damage behind anything in B0 to B16 and the filler: nothing is said of how it is read.
pub fn of_word(word: &Word, damage: &Damage, random: &mut Random) -> Sample {
    let sent = crate::hit(word, &[], random);
    let (frame, marks) = damage.received(&sent, random);
    Sample {
        frame: frame.to_vec(),
        marks: marks.to_vec(),
        repaired: damage.repaired(word),
        expected: [Expected::Open; 2],
    }
}

/// A frame with this damage, in whose own bits the editions read this, in the order of `EDITIONS`.
pub fn of_frame(
    sent: &Bytes,
    read: [Result<Record, u8>; 2],
    damage: &Damage,
    random: &mut Random,
) -> Sample {
    let (frame, marks) = damage.received(sent, random);
    let repaired = damage.repaired(&protected(sent));
    Sample {
        frame: frame.to_vec(),
        marks: marks.to_vec(),
        repaired,
        expected: read.map(|read| damage.expected(read, repaired)),
    }
}

/// The frame of a legal record of this body with this damage.
pub fn of_body(body: Body, damage: &Damage, random: &mut Random) -> Sample {
    let record = legal_record(body, random);
    let read = EDITIONS.map(|edition| match bodies(edition).contains(&body) {
        true => Ok(record),
        false => Err(6),
    });
    of_frame(&frames::written(&record), read, damage, random)
}

/// The same bytes in other lengths, of which one is not 26: cut off, or with as many zeros or ones after them.
pub fn of_lengths(sample: Sample, frame: usize, marks: usize, random: &mut Random) -> Sample {
    assert!(frame != FRAME_BYTES || marks != FRAME_BYTES);
    let mut sample = sample;
    sample.frame.resize(frame, random.pick(&[0, 0xFF]));
    sample.marks.resize(marks, random.pick(&[0, 0xFF]));
    sample.repaired = Some(Err(1));
    sample.expected = [Expected::Refused(1); 2];
    sample
}

/// The lengths that frames and marks are tried with.
pub const LENGTHS: [usize; 5] = [0, 25, 26, 27, 52];

/// Every pair of these lengths but the right one.
fn wrong_lengths() -> Vec<(usize, usize)> {
    let pairs = LENGTHS
        .iter()
        .flat_map(|&frame| LENGTHS.map(|marks| (frame, marks)));
    pairs
        .filter(|&pair| pair != (FRAME_BYTES, FRAME_BYTES))
        .collect()
}

/// A code word with all its hits and marks among the 18 places of the generator times x^shift. Another code word differs from it just there, and so
/// differs from what is received in the 18-t-s places that are neither hit nor marked. Its count is 36-(2t+s): it is the answer beyond 18, as the one
/// sent is below.
pub fn in_generator(
    word: &Word,
    shift: usize,
    pair: (usize, usize),
    random: &mut Random,
) -> Sample {
    let damage = Damage::at(&GENERATOR.map(|power| power + shift), pair, random);
    let mut sample = of_word(word, &damage, random);
    let (t, s) = pair;
    if 2 * t + s > 18 {
        let generator = shifted_generator(shift);
        let other = std::array::from_fn(|place| word[place] ^ generator[place]);
        sample.repaired = Some(answer(&other, 18 - t - s));
    }
    sample
}

/// A code word with marks on so many places that hold 1 and so many that hold 0, and t hits elsewhere. A repair that fills all marks alike has most
/// to put right where the two numbers are equal.
pub fn split(t: usize, ones: usize, zeros: usize, random: &mut Random) -> Sample {
    // A message of which enough places hold 1 and enough hold 0.
    let message: [bool; 105] = std::array::from_fn(|i| match i {
        0..40 => i % 2 == 0,
        _ => random.number() & 1 == 1,
    });
    let word = encode(&message);
    let all: [usize; LENGTH] = std::array::from_fn(|place| place);
    let (holding_1, holding_0): (Vec<usize>, Vec<usize>) =
        all.iter().partition(|&&place| word[place] == 1);
    let mut marked = random.choose(ones, &holding_1);
    marked.extend(random.choose(zeros, &holding_0));
    let sure: Vec<usize> = (0..LENGTH)
        .filter(|place| !marked.contains(place))
        .collect();
    let damage = Damage {
        marked,
        ..Damage::at(&sure, (t, 0), random)
    };
    of_word(&word, &damage, random)
}

/// A frame that in this edition is accepted with its marks, or refused with the first of these faults, which are refusals' numbers. What the other
/// edition makes of it is known too. With fault 4 there are 18 to 40 marks, or 2t+s is 18, or it is 19 or 20, which may leave the answer open.
pub fn faulty(edition: Edition, faults: &[u8], random: &mut Random) -> Sample {
    let has = |fault: u8| faults.contains(&fault);
    let in_word: Vec<u8> = faults.iter().copied().filter(|&fault| fault > 4).collect();
    let (sent, read) = frames::sent(edition, &in_word, random);
    let (t, s) = match (has(4), random.below(4)) {
        (true, 0) => (random.below(10), 18 + random.below(23)),
        (true, 1) => random.pick(&pairs(19..=20)),
        (true, _) => random.pick(&pairs(18..=18)),
        _ => random.pick(&pairs(0..=17)),
    };
    let flips = match (has(3), random.below(2)) {
        (true, _) => 4 + random.below(9),
        (_, 0) => 0,
        _ => random.pick(&[1, 2, 3, 13, 14, 15, 16]),
    };
    let damage = Damage {
        flips,
        filler: has(2),
        ..Damage::any((t, s), random)
    };
    let sample = of_frame(&sent, read, &damage, random);
    if has(1) {
        let (frame, marks) = random.pick(&wrong_lengths());
        return of_lengths(sample, frame, marks, random);
    }
    sample
}

/// All t and s of which 2t+s is one of these.
pub fn pairs(sums: std::ops::RangeInclusive<usize>) -> Vec<(usize, usize)> {
    let of_sum = |sum: usize| (0..=sum / 2).map(move |t| (t, sum - 2 * t));
    sums.flat_map(of_sum).collect()
}

/// Any bytes as the frame, if asked with a pattern and the filler, and any bytes as the marks, or few marks.
fn noise(random: &mut Random) -> Sample {
    let framed = random.below(2) == 0;
    let frame = frames::noise(framed, random);
    let mut marks = random.bytes(FRAME_BYTES);
    if random.below(3) != 0 {
        let s = random.below(20);
        let (_, few) = Damage::any((0, s), random).received(&frame, random);
        marks = few.to_vec();
    }
    let mut sample = Sample {
        frame: frame.to_vec(),
        marks,
        repaired: None,
        expected: [Expected::Open; 2],
    };
    if sample.marks_set() > 17 {
        sample.repaired = Some(Err(4));
        if framed {
            sample.expected = [Expected::Refused(4); 2];
        }
    }
    sample
}

/// Any frame without marks but those that are ignored: "With no marks the answer is that of the base."
fn unmarked(random: &mut Random) -> Sample {
    let sample = frames::frame(random);
    let mut marks = vec![0; FRAME_BYTES];
    mark_outside(&mut marks, random);
    Sample {
        repaired: (sample.bytes.len() != FRAME_BYTES).then_some(Err(1)),
        frame: sample.bytes,
        marks,
        expected: sample.expected,
    }
}

/// A frame and marks of any sort.
pub fn marked(random: &mut Random) -> Sample {
    let edition = random.pick(&EDITIONS);
    match random.below(14) {
        0 => noise(random),
        1 => unmarked(random),
        2 => faulty(edition, &[1], random),
        3 => faulty(edition, &[4], random),
        4..=6 => faulty(edition, &[], random),
        7 | 8 => {
            let fault = 1 + random.below(9) as u8;
            faulty(edition, &[fault], random)
        }
        9 => {
            let faults: Vec<u8> = (1..=9).filter(|_| random.below(3) == 0).collect();
            faulty(edition, &faults, random)
        }
        10 => {
            let damage = Damage::any(random.pick(&pairs(0..=20)), random);
            of_word(&code_word(random), &damage, random)
        }
        11 => {
            let shift = random.below(LENGTH - DEGREE);
            let s = random.below(19);
            let t = random.below(19 - s);
            in_generator(&code_word(random), shift, (t, s), random)
        }
        12 => {
            let (t, s) = random.pick(&pairs(16..=18));
            let ones = random.below(s + 1);
            split(t, ones, s - ones, random)
        }
        _ => {
            let damage = Damage::any((random.below(10), random.below(41)), random);
            of_body(random.pick(&BODIES), &damage, random)
        }
    }
}

/// Every list below.
pub fn systematic(random: &mut Random) -> Vec<Sample> {
    let lists = [
        every_pair,
        every_generator,
        every_split,
        every_pattern,
        every_fault,
        every_length,
    ];
    lists.iter().flat_map(|list| list(random)).collect()
}

/// Every t and s with 2t+s up to 20, and every s up to 40 with some t: each with everything that may be received under the marks, as a code word and
/// as the frame of every body in turn.
pub fn every_pair(random: &mut Random) -> Vec<Sample> {
    let mut all = pairs(0..=20);
    all.extend((21..=40).flat_map(|s| [0, 1, 8, 9].map(|t| (t, s))));
    let mut samples = vec![];
    for pair in all {
        for (under, body) in UNDER.into_iter().zip(BODIES) {
            let damage = |random: &mut Random| Damage {
                under,
                ..Damage::any(pair, random)
            };
            let (of_a_word, of_a_body) = (damage(random), damage(random));
            samples.push(of_word(&code_word(random), &of_a_word, random));
            samples.push(of_body(body, &of_a_body, random));
        }
    }
    samples
}

/// Every number of marks and hits among the 18 places of the generator: with zeros sent, and shifted with another code word added.
pub fn every_generator(random: &mut Random) -> Vec<Sample> {
    let mut samples = vec![];
    for s in 0..=18 {
        for t in 0..=18 - s {
            samples.push(in_generator(&[0; LENGTH], 0, (t, s), random));
            for shift in [
                0,
                1,
                1 + random.below(LENGTH - DEGREE - 2),
                LENGTH - 1 - DEGREE,
            ] {
                samples.push(in_generator(&code_word(random), shift, (t, s), random));
            }
        }
    }
    samples
}

/// With 2t+s from 16 to 18, every number of marked places that hold 1.
pub fn every_split(random: &mut Random) -> Vec<Sample> {
    let mut samples = vec![];
    for (t, s) in pairs(16..=18) {
        samples.extend((0..=s).map(|ones| split(t, ones, s - ones, random)));
    }
    samples
}

/// Every number of bits of B1 to B16 turned over, with and without a filler bit: for every body, without hits and marks, and with 2t+s of 17 and 18.
pub fn every_pattern(random: &mut Random) -> Vec<Sample> {
    let mut samples = vec![];
    for flips in 0..=16 {
        for filler in [false, true] {
            for sum in [0, 17, 18] {
                for body in BODIES {
                    let damage = Damage {
                        flips,
                        filler,
                        ..Damage::any(random.pick(&pairs(sum..=sum)), random)
                    };
                    samples.push(of_body(body, &damage, random));
                }
            }
        }
    }
    samples
}

/// Every fault alone, and every two together, in both editions.
pub fn every_fault(random: &mut Random) -> Vec<Sample> {
    let mut samples = vec![];
    for edition in EDITIONS {
        for first in 1..=9 {
            samples.push(faulty(edition, &[first], random));
            for second in first + 1..=9 {
                samples.push(faulty(edition, &[first, second], random));
            }
        }
    }
    samples
}

/// Every two lengths of which one is wrong, of a frame that would be accepted, of one with a filler bit, and of one with too many marks.
pub fn every_length(random: &mut Random) -> Vec<Sample> {
    let mut samples = vec![];
    for (frame, marks) in wrong_lengths() {
        for faults in [&[][..], &[2], &[4]] {
            let sample = faulty(Edition::First, faults, random);
            samples.push(of_lengths(sample, frame, marks, random));
        }
    }
    samples
}
