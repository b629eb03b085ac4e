//! What a desk gives, a warning and a place, with the record that is to be made of it.
use crate::doubles::{depth, double};
use crate::records::WIDTHS;
use crate::Random;
use reference::frame::*;
use reference::place::{degrees, kilometres, DeskWarning, Place};

/// What the making says of the desk's record in an edition.
#[derive(Clone, Copy, Debug, PartialEq, Eq)]
pub enum Expected {
    /// This record, whose tuner and number of repaired places are 0.
    Made(Record),
    Refused(u8),
    /// The place is of any doubles.
    Open,
}

#[derive(Clone, Copy, Debug)]
pub struct Desk {
    pub warning: DeskWarning,
    pub place: Place,
    /// In the order of `EDITIONS`.
    pub expected: [Expected; 2],
}

impl Desk {
    pub fn expected(&self, edition: Edition) -> Expected {
        self.expected[edition as usize]
    }
}

/// The fields that the desk gives, in the order of `DeskWarning`.
pub const GIVEN: [usize; 7] = [IDENTIFICATION, UPDATE, TIME, TOTAL, ITEM, NUMBER, OCCURRED];

/// The fields of a place, with their greatest values, in the order of `PlaceFields`.
pub const PLACE: [(usize, u64); 5] = [
    (SOUTH, 1),
    (LATITUDE, 900),
    (WEST, 1),
    (LONGITUDE, 1800),
    (DEPTH, 1023),
];

/// A place, and whether its doubles are images.
#[derive(Clone, Copy)]
enum Typed {
    /// Of these fields.
    Image([u64; 5]),
    NoImage(Place),
    Any(Place),
}

/// What a desk may give: fields that are legal or too wide, any identification, a place that is an image, one that is not, or any doubles.
pub fn desk(random: &mut Random) -> Desk {
    let mut given = good(random);
    let any = random.number() >> random.below(64);
    if random.below(3) == 0 {
        given[0] = random.pick(&[4, 5, 6, 7, 8, 255, u64::MAX, any]);
    }
    if random.below(3) == 0 {
        for _ in 0..1 + random.below(2) {
            let i = 1 + random.below(6);
            given[i] = random.pick(&[past(i), past(i), u64::MAX, past(i).saturating_add(any)]);
        }
    }
    let typed = match random.below(6) {
        0 => Typed::NoImage(no_image(random)),
        1 => Typed::Any(any_place(random)),
        _ => Typed::Image(image(random)),
    };
    made(given, typed)
}

/// Every given field at 0, at its greatest value, one above and far above, and every identification up to 8; the fields of the place at their ends;
/// places that are no image. Each refused warning comes with a place that is an image and with one that is not.
pub fn desks(random: &mut Random) -> Vec<Desk> {
    let mut desks = vec![];
    let mut both = |given: [u64; 7], random: &mut Random| {
        desks.push(made(given, Typed::Image(image(random))));
        desks.push(made(given, Typed::NoImage(no_image(random))));
    };
    for i in 0..GIVEN.len() {
        for value in [0, past(i) - 1, past(i), u64::MAX] {
            for identification in 0..=8 {
                let mut given = good(random);
                given[0] = identification;
                given[i] = value;
                both(given, random);
            }
        }
    }
    both([0; 7], random);
    for (i, (_, last)) in PLACE.into_iter().enumerate() {
        for value in [0, 1, last] {
            let mut fields = image(random);
            fields[i] = value;
            desks.push(made(good(random), Typed::Image(fields)));
        }
    }
    for (south, west) in [(0, 0), (0, 1), (1, 0), (1, 1)] {
        desks.push(made(good(random), Typed::Image([south, 0, west, 0, 0])));
        desks.push(made(
            good(random),
            Typed::Image([south, 900, west, 1800, 1023]),
        ));
    }
    for _ in 0..200 {
        desks.push(made(good(random), Typed::NoImage(no_image(random))));
    }
    desks
}

/// One above the greatest value of a given field.
fn past(i: usize) -> u64 {
    1 << WIDTHS[GIVEN[i]]
}

/// Given fields of a warning or its test, none too wide.
fn good(random: &mut Random) -> [u64; 7] {
    let mut given = std::array::from_fn(|i| random.up_to(past(i) - 1));
    given[0] = random.up_to(3);
    given
}

/// The fields of a place.
fn image(random: &mut Random) -> [u64; 5] {
    PLACE.map(|(_, last)| random.up_to(last))
}

fn place_of([south, latitude, west, longitude, depth]: [u64; 5]) -> Place {
    Place {
        latitude: degrees(south, latitude),
        longitude: degrees(west, longitude),
        depth: kilometres(depth),
    }
}

/// A place of which one double, or all three, is no image.
fn no_image(random: &mut Random) -> Place {
    let mut place = place_of(image(random));
    let which = random.below(4);
    if which == 0 || which == 3 {
        place.latitude = wrong(
            place.latitude,
            degrees(random.up_to(1), 901 + random.up_to(1000)),
            random,
        );
    }
    if which == 1 || which == 3 {
        place.longitude = wrong(
            place.longitude,
            degrees(random.up_to(1), 1801 + random.up_to(1000)),
            random,
        );
    }
    if which == 2 || which == 3 {
        let beyond = random.pick(&[-0.0, -1.0, 0.5, 1022.5, 1024.0, 1025.0, 2048.0]);
        place.depth = wrong(place.depth, beyond, random);
    }
    place
}

/// A double that is no image: one beyond the limits, one beside an image, infinite, NaN, or too small or great for any.
fn wrong(image: f64, beyond: f64, random: &mut Random) -> f64 {
    let bits = image.to_bits();
    match random.below(6) {
        0 | 1 => beyond,
        2 => f64::from_bits(bits.wrapping_add(1)),
        3 => f64::from_bits(bits.wrapping_sub(1)),
        4 => random.pick(&[
            f64::INFINITY,
            f64::NEG_INFINITY,
            f64::MAX,
            f64::MIN,
            5e-324,
            -5e-324,
        ]),
        _ => f64::from_bits(random.number() | 0x7FF0_0000_0000_0000),
    }
}

/// A place of any doubles.
fn any_place(random: &mut Random) -> Place {
    Place {
        latitude: double(random),
        longitude: double(random),
        depth: depth(random),
    }
}

/// What the desk gives, and what each edition is to make of it: 11, then 6, then 10. There is no 9, for an image keeps the house limits.
fn made(given: [u64; 7], typed: Typed) -> Desk {
    let [identification, update, time, total, item, number, occurred] = given;
    let warning = DeskWarning {
        identification,
        update,
        time,
        total,
        item,
        number,
        occurred,
    };
    let place = match typed {
        Typed::Image(fields) => place_of(fields),
        Typed::NoImage(place) | Typed::Any(place) => place,
    };
    let expected = EDITIONS.map(|edition| match typed {
        Typed::Image(fields) => expected_of(edition, given, fields),
        Typed::NoImage(_) => Expected::Refused(11),
        Typed::Any(_) => Expected::Open,
    });
    Desk {
        warning,
        place,
        expected,
    }
}

/// What an edition is to make of a place that is an image. A place belongs to identification 0 to 3: where 5 and 6 are defined they leave no page
/// free, and neither does 7.
fn expected_of(edition: Edition, given: [u64; 7], fields: [u64; 5]) -> Expected {
    let wide = (0..GIVEN.len()).any(|i| given[i] >= past(i));
    match (given[0], edition) {
        (4 | 8.., _) | (5 | 6, Edition::First) => Expected::Refused(6),
        (5..=7, _) => Expected::Refused(10),
        _ if wide => Expected::Refused(10),
        _ => Expected::Made(record_of(given, fields)),
    }
}

/// The given fields and those of the place, page 1, and 0 elsewhere.
fn record_of(given: [u64; 7], fields: [u64; 5]) -> Record {
    let mut record = [0; VALUES];
    record[PAGE] = 1;
    for (field, value) in GIVEN.into_iter().zip(given) {
        record[field] = value;
    }
    for ((field, _), value) in PLACE.into_iter().zip(fields) {
        record[field] = value;
    }
    record
}
