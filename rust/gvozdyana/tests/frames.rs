//! Frames read, as every tuner's, and records written, by the proved version and by the plain one, in both editions. What is accepted is also held to
//! what was sent, and a frame made with faults to the first of them.
mod common;
use common::{
    edition_number, edition_of, for_each_seed, frames, hex, length, numbers, tuner_numbers,
    tuner_of, Case, EDITIONS, TUNERS,
};
use gvozdyana::frame::{read, write, Reading, Record};
use gvozdyana::{calls, repair, Edition, Refusal, Tuner};
use reference::frame::{IDENTIFICATION, IN_FRAME, REGION, REPAIRED, TIME, TUNER, VALUES};
use reference::{flip_bit, frame as plain, get, put};
use samples::frames::{
    all_heads, damaged_patterns, faulty, frame, open, sealed, written, Expected, Sample, ENDS,
};
use samples::records::{bodies, edges, legal_record, record, with_origin, Body, BODIES, WIDTHS};
use samples::Random;

/// The proved reader's status and buffer by these numbers of an edition and a tuner are the plain version's; then its answer.
fn read_as(
    (edition, tuner): (u32, u32),
    sample: &Sample,
    record_len: usize,
    before: &[u64],
    case: Case,
) -> Result<(plain::Record, u8), u8> {
    let what = || {
        format!(
            "edition {edition}, tuner {tuner}, frame {}, record of {record_len}, {case}",
            hex(&sample.bytes)
        )
    };
    let mut left = before.to_vec();
    let status = calls::frame_read(edition, tuner, &sample.bytes, &mut left[..record_len]);
    let ((_, named), (_, from)) = (edition_of(edition), tuner_of(tuner));
    let answer = match record_len {
        VALUES => plain::read(named, from, &sample.bytes),
        _ => Err(1),
    };
    let told = match answer {
        Ok((_, differing)) => 65536 * u32::from(differing),
        Err(number) => number.into(),
    };
    assert_eq!(status, told, "{}", what());
    let mut expected = before.to_vec();
    if let Ok((record, _)) = answer {
        expected[..VALUES].copy_from_slice(&record);
    }
    assert_eq!(left, expected, "{}", what());
    match sample.expected(named) {
        _ if record_len != VALUES => assert_eq!(answer, Err(1), "{}", what()),
        Expected::Read(record, differing) => {
            let record = with_origin(&record, from.number(), record[REPAIRED]);
            assert_eq!(answer, Ok((record, differing)), "{}", what());
        }
        Expected::Refused(first) => assert_eq!(answer, Err(first), "{}", what()),
        Expected::Open => {}
    }
    answer
}

/// The same by every tuner; then the refusal's number, which no tuner changes.
fn read_by(
    edition: u32,
    tuners: [u32; 4],
    sample: &Sample,
    record_len: usize,
    before: &[u64],
    case: Case,
) -> u8 {
    let what = || format!("edition {edition}, frame {}, {case}", hex(&sample.bytes));
    let answers = tuners.map(|tuner| read_as((edition, tuner), sample, record_len, before, case));
    let numbers = answers.map(|answer| answer.err().unwrap_or(0));
    assert_eq!(numbers, [numbers[0]; 4], "{}", what());
    // Spare's record written: the frame is the repaired one with the clean pattern.
    if let Ok((record, _)) = answers[2] {
        let mut again = [0; 26];
        let status = calls::frame_write(edition, &record, &mut again);
        assert_eq!(status, 0, "{}", what());
        let clean = plain::clean(edition_of(edition).1, &sample.bytes).expect("accepted");
        assert_eq!(hex(&again), hex(&clean), "{}", what());
    }
    numbers[0]
}

/// The same by both editions, and the repair is the plain version's, its places those of the record; then the refusals' numbers.
fn compared(
    sample: &Sample,
    record_len: usize,
    before: &[u64],
    random: &mut Random,
    case: Case,
) -> [u8; 2] {
    let repaired = repair(&sample.bytes).map(|r| (r.word, r.places));
    let plain = reference::repair(&sample.bytes).map(|r| (r.word, r.places));
    let what = || format!("frame {}, {case}", hex(&sample.bytes));
    assert_eq!(repaired.map_err(Refusal::number), plain, "{}", what());
    let tuners = tuner_numbers(random);
    EDITIONS.map(|(edition, _)| {
        let number = read_by(edition.number(), tuners, sample, record_len, before, case);
        if let Ok(reading) = read(edition, Tuner::None, &sample.bytes) {
            let places = repaired.map(|(_, places)| places.into());
            assert_eq!(places, Ok(reading.record.repaired), "{}", what());
        }
        number
    })
}

/// The same with a record of the right length.
fn whole(sample: &Sample, random: &mut Random, case: Case) -> [u8; 2] {
    compared(sample, VALUES, &[7; VALUES], random, case)
}

#[test]
fn frames_of_all_sorts() {
    let mut seen = [[0; 16]; 2];
    for_each_seed(11, frames() / 2, |random, case| {
        let sample = frame(random);
        let record_len = length(VALUES, random);
        let before = numbers(2 * VALUES + 2, random);
        let refusals = compared(&sample, record_len, &before, random, case);
        for (seen, number) in seen.iter_mut().zip(refusals) {
            seen[usize::from(number)] += 1;
        }
        let (edition, tuners) = (edition_number(random), tuner_numbers(random));
        read_by(edition, tuners, &sample, record_len, &before, case);
    });
    for seen in seen {
        println!("accepted and refused 1 to 9: {:?}", &seen[..10]);
        assert!(seen[..10].iter().all(|&count| count > 0), "{seen:?}");
        assert!(seen[10..].iter().all(|&count| count == 0), "{seen:?}");
    }
}

#[test]
fn legal_frames_hit_in_up_to_14_places() {
    for_each_seed(12, frames() / 2, |random, case| {
        let (_, edition) = random.pick(&EDITIONS);
        let sample = match random.below(3) {
            0 => faulty(edition, &[4], random),
            _ => faulty(edition, &[], random),
        };
        whole(&sample, random, case);
    });
}

#[test]
fn damaged_synchronising_bits() {
    let mut seen = [0; 7];
    for_each_seed(17, 20, |random, case| {
        for sample in damaged_patterns(random) {
            for number in whole(&sample, random, case) {
                seen[usize::from(number)] += 1;
            }
        }
    });
    println!("accepted and refused 1 to 6: {seen:?}");
    for number in [0, 2, 3, 4, 6] {
        assert!(seen[number] > 0, "{number}: {seen:?}");
    }
}

#[test]
fn every_value_of_b1_to_b16() {
    for_each_seed(18, 2, |random, case| {
        let legal = written(&legal_record(random.pick(&BODIES), random));
        for synchronising in 0..65536 {
            let mut frame = legal;
            put(&mut frame, 1..=16, synchronising);
            whole(&open(frame), random, case);
        }
    });
}

#[test]
fn every_bit_turned_over() {
    for_each_seed(15, 20, |random, case| {
        for body in BODIES {
            let legal = written(&legal_record(body, random));
            for k in 0..208 {
                let mut frame = legal;
                flip_bit(&mut frame, k);
                whole(&open(frame), random, case);
                // With CRC and parity made again, which leaves the filler 0.
                whole(&open(sealed(frame, 0)), random, case);
            }
        }
    });
}

/// Everything that start/end, update and identification can be, with the details of every body.
#[test]
fn every_start_end_update_and_identification() {
    let mut seen = [[0; 10]; 2];
    for_each_seed(19, 10, |random, case| {
        for sample in all_heads(random) {
            let refusals = whole(&sample, random, case);
            for (seen, number) in seen.iter_mut().zip(refusals) {
                seen[usize::from(number)] += 1;
            }
        }
    });
    println!("accepted and refused 1 to 9: {seen:?}");
    assert!(seen
        .iter()
        .all(|seen| seen[0] > 0 && seen[6] > 0 && seen[7] > 0));
    // One identification of eight is undefined there, and three in the first edition.
    assert_eq!(seen[0][6], 3 * seen[1][6]);
}

/// The identification in the repaired word, where there is one.
fn identification(frame: &[u8]) -> Option<u64> {
    repair(frame)
        .ok()
        .map(|repaired| get(&repaired.word, 21..=23))
}

/// The first edition refuses 6 what the other reads, or refuses 7; of all else they say the same.
#[test]
fn the_editions_differ_on_5_and_6_alone() {
    let mut differ = 0;
    for_each_seed(26, frames() / 4, |random, case| {
        let bytes = frame(random).bytes;
        for (tuner, _) in TUNERS {
            let [first, safety] = EDITIONS.map(|(edition, _)| read(edition, tuner, &bytes));
            let what = || format!("frame {}: {first:?}, {safety:?}, {case}", hex(&bytes));
            if first != safety {
                differ += 1;
                assert!(matches!(identification(&bytes), Some(5 | 6)), "{}", what());
                assert_eq!(first, Err(Refusal::Identification), "{}", what());
                let other = matches!(safety, Ok(_) | Err(Refusal::StartEndOrUpdate));
                assert!(other, "{}", what());
            } else if first == Err(Refusal::Identification) {
                assert_eq!(identification(&bytes), Some(4), "{}", what());
            }
        }
        let values = record(random);
        let written = EDITIONS.map(|(edition, _)| write(edition, &Record::from_values(values)));
        let what = || format!("record {values:?}: {written:?}, {case}");
        match values[IDENTIFICATION] {
            5 | 6 => {
                assert_eq!(written[0], Err(Refusal::Identification), "{}", what());
                assert_ne!(written[1], written[0], "{}", what());
            }
            _ => assert_eq!(written[0], written[1], "{}", what()),
        }
    });
    println!("{differ} readings differ");
    assert!(differ > 0);
}

/// The proved writer's status and buffer by this number of an edition are the plain version's; then its number.
fn write_by(edition: u32, values: &[u64], before: &[u8], case: Case) -> u8 {
    let (mut left, mut expected) = (before.to_vec(), before.to_vec());
    let status = calls::frame_write(edition, values, &mut left);
    let number = match values.try_into() {
        Ok(record) => plain::write(edition_of(edition).1, record, &mut expected),
        Err(_) => 1,
    };
    let what = || {
        format!(
            "edition {edition}, record {values:?}, frame of {}, {case}",
            before.len()
        )
    };
    assert_eq!(status, u32::from(number), "{}", what());
    assert_eq!(hex(&left), hex(&expected), "{}", what());
    number
}

#[test]
fn records_of_all_sorts_written() {
    let mut seen = [[0; 16]; 2];
    for_each_seed(13, frames() / 2, |random, case| {
        let mut values = record(random).to_vec();
        values.resize(length(VALUES, random), 0);
        let frame_len = length(26, random);
        let before = random.bytes(frame_len);
        for (edition, seen) in (0..).zip(&mut seen) {
            seen[usize::from(write_by(edition, &values, &before, case))] += 1;
        }
        write_by(edition_number(random), &values, &before, case);
    });
    println!("written and refused, by number: {seen:?}");
    for (seen, number) in seen.iter().flat_map(|seen| (0..16).map(move |n| (seen, n))) {
        let occurs = [0, 1, 6, 9, 10].contains(&number);
        assert_eq!(seen[number] > 0, occurs, "{number}: {seen:?}");
    }
}

#[test]
fn every_field_at_its_limits() {
    for_each_seed(16, 20, |random, case| {
        for body in BODIES {
            let legal = legal_record(body, random);
            for field in 0..IN_FRAME {
                let past = 1 << WIDTHS[field];
                for value in [0, 1, 2, 900, 901, 1800, 1801, past - 1, past, u64::MAX] {
                    let mut values = legal;
                    values[field] = value;
                    for edition in [0, 1] {
                        write_by(edition, &values, &[0xA5; 26], case);
                    }
                }
            }
        }
    });
}

/// A field at its end or beyond, in each body: what is refused is known from how the record was made.
#[test]
fn records_at_the_edges() {
    for_each_seed(20, 10, |random, case| {
        for edge in edges(random) {
            for (number, (_, edition)) in (0..).zip(EDITIONS) {
                let refusal = write_by(number, &edge.record, &[0xA5; 26], case);
                assert_eq!(refusal, edge.refusal(edition), "{:?}, {case}", edge.record);
            }
        }
    });
}

/// Time and region at their ends come back, and one beyond is refused.
#[test]
fn the_region_at_its_ends() {
    let safety = Edition::AreaSafety;
    for_each_seed(25, 10, |random, case| {
        for (time, region) in ENDS {
            let mut values = legal_record(Body::Safety, random);
            (values[TIME], values[REGION]) = (time, region);
            let record = Record::from_values(values);
            let frame = write(safety, &record).expect("legal");
            assert_eq!(get(&frame, 24..=54), time, "{case}");
            assert_eq!(get(&frame, 55..=111), region, "{case}");
            for (tuner, _) in TUNERS {
                let reading = read(safety, tuner, &frame).expect("accepted");
                assert!(reading.record.same_fields(&record), "{case}");
                let refused = read(Edition::First, tuner, &frame);
                assert_eq!(refused, Err(Refusal::Identification));
            }
        }
        for region in [1 << 57, 1 << 63, u64::MAX] {
            let mut values = legal_record(Body::Safety, random);
            values[REGION] = region;
            let record = Record::from_values(values);
            assert_eq!(write(safety, &record), Err(Refusal::Field), "{case}");
        }
    });
}

#[test]
fn legal_records_come_back() {
    for_each_seed(14, frames() / 5, |random, case| {
        let (edition, plain_edition) = random.pick(&EDITIONS);
        let values = legal_record(random.pick(bodies(plain_edition)), random);
        let record = Record::from_values(values);
        // A number that no tuner has is taken for none.
        let tuner = plain::Tuner::named(values[TUNER]).number();
        let expected = with_origin(&values, tuner, values[REPAIRED]);
        assert_eq!(record.values(), expected);
        let frame = write(edition, &record)
            .unwrap_or_else(|refusal| panic!("{refusal}: {record:?}, {case}"));
        for (tuner, _) in TUNERS {
            let expected = Reading {
                record: Record {
                    tuner,
                    repaired: 0,
                    ..record
                },
                differing: 0,
            };
            assert_eq!(read(edition, tuner, &frame), Ok(expected), "{case}");
        }
    });
}

#[test]
fn the_order_of_the_fields() {
    let record = Record {
        reference: 1,
        pattern: 2,
        identification: 3,
        update: 4,
        time: 5,
        page: 6,
        areas: 7,
        total: 8,
        item: 9,
        number: 10,
        kind: 11,
        south: 12,
        latitude: 13,
        west: 14,
        longitude: 15,
        depth: 16,
        occurred: 17,
        broadcaster: 18,
        region: 19,
        tuner: Tuner::Spare,
        repaired: 21,
    };
    let mut expected = std::array::from_fn(|i| i as u64 + 1);
    expected[TUNER] = 2;
    assert_eq!(record.values(), expected);
    assert_eq!(Record::from_values(record.values()), record);
    for (tuner, plain_tuner) in TUNERS {
        expected[TUNER] = plain_tuner.number();
        assert_eq!(tuner.number(), plain_tuner.number() as u32);
        assert_eq!(Record::from_values(expected), Record { tuner, ..record });
    }
}
