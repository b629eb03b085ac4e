//! Records of frames, legal ones and others.
use crate::Random;
use reference::frame::*;

/// How many bits each field that stands in the frame has where it is free.
pub const WIDTHS: [u32; IN_FRAME] = [
    1, 1, 3, 2, 31, 1, 56, 1, 1, 9, 1, 1, 10, 1, 11, 10, 10, 11, 57,
];

/// What a record is tried with in the tuner and the number of repaired places, which the writer ignores: the tuners' numbers, and numbers that are
/// none.
pub const ORIGINS: [u64; 7] = [0, 1, 2, 3, 255, 256, u64::MAX];

/// One of `ORIGINS`, or any number of any width.
pub fn origin(random: &mut Random) -> u64 {
    let any = random.number() >> random.below(64);
    match random.below(4) {
        0 => any,
        _ => random.pick(&ORIGINS),
    }
}

/// The record with any tuner and any number of repaired places.
pub fn with_any_origin(record: &Record, random: &mut Random) -> Record {
    with_origin(record, origin(random), origin(random))
}

/// The record with this number of a tuner and so many repaired places, and the same in all other fields.
pub fn with_origin(record: &Record, tuner: u64, repaired: u64) -> Record {
    let mut record = *record;
    (record[TUNER], record[REPAIRED]) = (tuner, repaired);
    record
}

/// What a frame's details hold.
#[derive(Clone, Copy, Debug, PartialEq, Eq)]
pub enum Body {
    Areas,
    Place,
    Cancellation,
    NoInformation,
    Safety,
}

/// The bodies of all editions.
pub const BODIES: [Body; 5] = [
    Body::Areas,
    Body::Place,
    Body::Cancellation,
    Body::NoInformation,
    Body::Safety,
];

/// The bodies of an edition: the first has all but area safety information.
pub fn bodies(edition: Edition) -> &'static [Body] {
    match edition {
        Edition::First => &BODIES[..4],
        Edition::AreaSafety => &BODIES,
    }
}

impl Body {
    /// The fields that it leaves free, but for identification, page and kind, which say that it is this body.
    fn free(self) -> &'static [usize] {
        match self {
            Body::Areas => &[REFERENCE, PATTERN, UPDATE, TIME, AREAS],
            Body::Place => &[
                REFERENCE, PATTERN, UPDATE, TIME, TOTAL, ITEM, NUMBER, SOUTH, LATITUDE, WEST,
                LONGITUDE, DEPTH, OCCURRED,
            ],
            Body::Cancellation => &[REFERENCE, PATTERN, UPDATE, TIME, TOTAL, ITEM, NUMBER],
            Body::NoInformation => &[REFERENCE, PATTERN, BROADCASTER],
            Body::Safety => &[REFERENCE, PATTERN, UPDATE, TIME, REGION],
        }
    }

    /// The fields of which it leaves no bit free.
    fn not_free(self) -> Vec<usize> {
        let own: &[usize] = match self {
            Body::Areas => &[IDENTIFICATION, PAGE],
            Body::Place | Body::Cancellation => &[IDENTIFICATION, PAGE, KIND],
            Body::NoInformation | Body::Safety => &[IDENTIFICATION],
        };
        let free = |field: &usize| own.contains(field) || self.free().contains(field);
        (0..WIDTHS.len()).filter(|field| !free(field)).collect()
    }
}

/// The greatest value that is legal in a free field.
fn greatest(field: usize) -> u64 {
    match field {
        LATITUDE => 900,
        LONGITUDE => 1800,
        _ => (1 << WIDTHS[field]) - 1,
    }
}

/// A legal record of this body, in each edition that has the body; its tuner and its number of repaired places are any.
pub fn legal_record(body: Body, random: &mut Random) -> Record {
    let mut record = with_any_origin(&[0; VALUES], random);
    for &field in body.free() {
        record[field] = random.up_to(greatest(field));
    }
    record[IDENTIFICATION] = match body {
        Body::NoInformation => 7,
        Body::Safety => random.pick(&[5, 6]),
        _ => random.up_to(3),
    };
    record[PAGE] = u64::from(matches!(body, Body::Place | Body::Cancellation));
    record[KIND] = u64::from(body == Body::Cancellation);
    record
}

/// A record for the writer: legal in some edition, with up to three fields changed, or of any numbers. In each the tuner and the number of repaired
/// places are any.
pub fn record(random: &mut Random) -> Record {
    if random.below(16) == 0 {
        let any = std::array::from_fn(|_| random.number() >> random.below(64));
        return with_any_origin(&any, random);
    }
    let mut record = legal_record(random.pick(&BODIES), random);
    for _ in 0..random.below(4) {
        let field = match random.below(8) {
            0 => IDENTIFICATION,
            1 => REGION,
            _ => random.below(IN_FRAME),
        };
        let past = 1u64 << WIDTHS[field];
        let any = random.number();
        record[field] = match field {
            LATITUDE => random.pick(&[0, 1, 900, 901, 1023, 1024, any]),
            LONGITUDE => random.pick(&[0, 1, 1800, 1801, 2047, 2048, any]),
            IDENTIFICATION => random.pick(&[any % 8, any % 8, 8, 255, any]),
            _ => random.pick(&[0, 1, 2, past - 1, past, any % past, any]),
        };
    }
    record
}

/// A record that is legal in some edition but for one field at most.
pub struct Edge {
    pub record: Record,
    /// What its making says, in the order of `EDITIONS`: the refusal's number, 0 where it is legal.
    pub refusals: [u8; 2],
}

impl Edge {
    pub fn refusal(&self, edition: Edition) -> u8 {
        self.refusals[edition as usize]
    }
}

/// For each body, records with a free field at its ends and beyond, with another field that is not 0, with a page or kind of more than a bit, and
/// with an identification that is undefined in both editions. Each of `ORIGINS` as the tuner and as the number of repaired places is among the legal
/// ones; in all others these two are any.
pub fn edges(random: &mut Random) -> Vec<Edge> {
    let mut edges = vec![];
    for body in BODIES {
        for &field in body.free() {
            let (last, past) = (greatest(field), 1 << WIDTHS[field]);
            edges.extend([0, 1, last].map(|value| edge(body, field, value, 0, random)));
            edges.extend([past, u64::MAX].map(|value| edge(body, field, value, 10, random)));
            if last + 1 < past {
                edges.extend([last + 1, past - 1].map(|value| edge(body, field, value, 9, random)));
            }
        }
        for field in body.not_free() {
            let past = 1 << WIDTHS[field];
            let values = [1, past - 1, past, u64::MAX];
            edges.extend(values.map(|value| edge(body, field, value, 10, random)));
        }
        for field in [PAGE, KIND] {
            edges.extend([2, u64::MAX].map(|value| edge(body, field, value, 10, random)));
        }
        for field in [TUNER, REPAIRED] {
            edges.extend(ORIGINS.map(|value| edge(body, field, value, 0, random)));
        }
        let undefined = [4, 8, 12, 13, 14, 15, 255, u64::MAX];
        edges.extend(undefined.map(|value| edge(body, IDENTIFICATION, value, 6, random)));
    }
    edges
}

/// A record of this body with this value in one field, and its refusal's number in the editions that have the body; in others that is 6.
fn edge(body: Body, field: usize, value: u64, number: u8, random: &mut Random) -> Edge {
    let mut record = legal_record(body, random);
    record[field] = value;
    let refusal = |edition| match bodies(edition).contains(&body) {
        true => number,
        false => 6,
    };
    Edge {
        record,
        refusals: EDITIONS.map(refusal),
    }
}
