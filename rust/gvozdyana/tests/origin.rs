//! Where a record came from: the tuner that the reader was told, and how many places it repaired. What reads a frame says it, by the proved version as
//! by the plain one, and what takes a record does not look at it.
mod common;
use common::{edition_of, for_each_seed, frames, hex, tuner_numbers, tuner_of, EDITIONS, TUNERS};
use gvozdyana::follower::Update;
use gvozdyana::frame::{read, write, Identification, Record, Warning};
use gvozdyana::place::{fields, Place};
use gvozdyana::{calls, Refusal, Tuner};
use reference::frame::{IN_FRAME, VALUES};
use reference::{frame as plain, place};
use samples::desks::{self, desk};
use samples::frames::{hit, written};
use samples::records::{bodies, legal_record, record, with_origin, BODIES, ORIGINS};

/// Every tuner told, and numbers that no tuner has, with every number of hits: the record has both, and the status has neither.
#[test]
fn every_tuner_and_every_number_of_hits() {
    for_each_seed(71, 200, |random, case| {
        let (edition, plain_edition) = random.pick(&EDITIONS);
        let sent = legal_record(random.pick(bodies(plain_edition)), random);
        for hits in 0..=8 {
            let mut frame = written(&sent);
            hit(&mut frame, hits, random);
            let told = tuner_numbers(random);
            for number in told.into_iter().chain([3, 255, 256, 257, 258, u32::MAX]) {
                let (tuner, named) = tuner_of(number);
                let mut left = [7; VALUES];
                let status = calls::frame_read(edition.number(), number, &frame, &mut left);
                let expected = with_origin(&sent, named.number(), hits as u64);
                let what = || format!("tuner {number}, {hits} hits, frame {}, {case}", hex(&frame));
                assert_eq!((status, left), (0, expected), "{}", what());
                let reading = read(edition, tuner, &frame).expect("accepted");
                assert_eq!(reading.record.values(), expected, "{}", what());
                assert_eq!(reading.record.tuner, tuner, "{}", what());
            }
        }
    });
}

/// A record of any tuner with any number of repaired places, written and read as another tuner's: all fields are the same, no place is repaired, and
/// the tuner is the one then told.
#[test]
fn written_and_read_as_another_tuner() {
    for_each_seed(72, frames() / 20, |random, case| {
        let (edition, plain_edition) = random.pick(&EDITIONS);
        let mut sent =
            Record::from_values(legal_record(random.pick(bodies(plain_edition)), random));
        for (tuner, _) in TUNERS {
            sent.tuner = tuner;
            sent.repaired = random.pick(&ORIGINS);
            let frame = write(edition, &sent).expect("legal");
            for (other, _) in TUNERS {
                let again = read(edition, other, &frame).expect("accepted").record;
                assert!(again.same_fields(&sent), "{again:?}, {sent:?}, {case}");
                assert_eq!((again.tuner, again.repaired), (other, 0), "{case}");
            }
        }
    });
}

/// One field is enough to tell two records apart, whatever the last two are; those alone are not.
#[test]
fn same_fields() {
    for_each_seed(73, 500, |random, case| {
        let values = record(random);
        let first = Record::from_values(values);
        for field in 0..VALUES {
            let mut changed = record(random);
            changed[..IN_FRAME].copy_from_slice(&values[..IN_FRAME]);
            let other = Record::from_values(changed);
            assert!(first.same_fields(&other), "{first:?}, {other:?}, {case}");
            changed[field] ^= 1 << random.below(64);
            let other = Record::from_values(changed);
            let same = first.same_fields(&other);
            assert_eq!(same, field >= IN_FRAME, "{first:?}, {other:?}, {case}");
            assert_eq!(other.same_fields(&first), same, "{case}");
        }
    });
}

/// What the writer, the report and the areas answer to a record, legal or not, over plain numbers.
fn answers(edition: u32, values: &plain::Record) -> (u32, String, u32, [u64; 3], Vec<u32>) {
    let (mut frame, mut place) = ([0xA5; 26], [0.5; 3]);
    let written = calls::frame_write(edition, values, &mut frame);
    let report = calls::report(edition, values, &mut place);
    let areas = [0, 15, 55, 56, u64::MAX].map(|area| calls::warned(values, area));
    let bits = place.map(f64::to_bits);
    (written, hex(&frame), report, bits, areas.to_vec())
}

/// Any two numbers may stand there: never a refusal, and nothing else changes.
#[test]
fn nothing_that_takes_a_record_looks_at_it() {
    for_each_seed(74, frames() / 250, |random, case| {
        let values = match random.below(2) {
            0 => legal_record(random.pick(&BODIES), random),
            _ => record(random),
        };
        for edition in [0, 1] {
            let expected = answers(edition, &with_origin(&values, 0, 0));
            for tuner in ORIGINS.into_iter().chain([77, random.number()]) {
                for repaired in ORIGINS.into_iter().chain([9, random.number()]) {
                    let other = with_origin(&values, tuner, repaired);
                    let what = || format!("edition {edition}, {other:?}, {case}");
                    assert_eq!(answers(edition, &other), expected, "{}", what());
                    // The plain version too, which has been compared with the rest.
                    let number = plain::record_refusal(edition_of(edition).1, &other);
                    assert_eq!(expected.0, u32::from(number), "{}", what());
                }
            }
        }
    });
}

/// A record made of a desk's place, from no tuner and with nothing repaired: what the plain version makes of it, where its identification and update
/// can be named here.
#[test]
fn made_at_the_desk() {
    use Identification::*;
    let named = [
        WarningWithArea,
        WarningWithoutArea,
        TestWithArea,
        TestWithoutArea,
    ];
    let mut seen = [0; 16];
    for_each_seed(75, frames() / 100, |random, case| {
        let sample = desk(random);
        let given = sample.warning;
        let identification = named
            .into_iter()
            .find(|i| i.number() == given.identification);
        let update = u8::try_from(given.update).ok().and_then(Update::new);
        let (Some(identification), Some(update)) = (identification, update) else {
            return;
        };
        let warning = Warning {
            identification,
            update,
            time: given.time,
        };
        let typed = Place {
            latitude: sample.place.latitude,
            longitude: sample.place.longitude,
            depth: sample.place.depth,
        };
        for (edition, plain_edition) in EDITIONS {
            let made = fields(typed).and_then(|fields| {
                let record = Record {
                    total: given.total,
                    item: given.item,
                    ..Record::at_place(warning, given.number, fields, given.occurred)
                };
                write(edition, &record).map(|_| record)
            });
            let values = made.map(|record| record.values()).map_err(Refusal::number);
            let expected = place::desk_record(plain_edition, given, sample.place);
            assert_eq!(values, expected, "{sample:?}, {case}");
            match sample.expected(plain_edition) {
                desks::Expected::Made(record) => assert_eq!(values, Ok(record), "{case}"),
                desks::Expected::Refused(number) => assert_eq!(values, Err(number), "{case}"),
                desks::Expected::Open => {}
            }
            if let Ok(record) = made {
                assert_eq!((record.tuner, record.repaired), (Tuner::None, 0));
            }
            seen[usize::from(values.err().unwrap_or(0))] += 1;
        }
    });
    println!("made and refused, by number: {seen:?}");
    for number in 0..16 {
        let occurs = [0, 10, 11].contains(&number);
        assert_eq!(seen[number] > 0, occurs, "{number}: {seen:?}");
    }
}

/// The follower takes the frame and is told no tuner: damage that is repaired changes nothing.
#[test]
fn the_follower_does_not_look_at_damage() {
    for_each_seed(76, 2000, |random, case| {
        let frame = written(&legal_record(random.pick(&BODIES), random));
        let (edition, state) = (random.below(2) as u32, random.below(20) as u32);
        let expected = calls::follow(edition, state, &frame);
        let mut damaged = frame;
        hit(&mut damaged, random.below(9), random);
        let status = calls::follow(edition, state, &damaged);
        assert_eq!(status, expected, "frame {}, {case}", hex(&damaged));
    });
}
