//! Which areas are warned, by the proved version and by the plain one; of frames without damage also by their own bits.
mod common;
use common::{for_each_seed, frames, hex, length, Case, EDITIONS, TUNERS};
use gvozdyana::frame::{read, Record};
use gvozdyana::{calls, Refusal};
use reference::frame as plain;
use reference::{bit, get};
use samples::frames::{faulty, frame, written};
use samples::records::{legal_record, record, Body, BODIES};

/// Every area, numbers past them, and numbers that are areas once they are cut short.
fn asked() -> impl Iterator<Item = u64> {
    let cut_short = [8, 16, 32, 63].map(|width| (1 << width) + 15);
    (0..=120)
        .chain([255, 256, 1 << 32, 1 << 63, u64::MAX - 8, u64::MAX])
        .chain(cut_short)
}

/// The proved status is the plain version's answer for every number asked, and so is the answer with types; then how many are warned.
fn compared(values: &plain::Record, case: Case) -> usize {
    let record = Record::from_values(*values);
    let mut count = 0;
    for area in asked() {
        let expected = plain::warned(values, area);
        let what = || format!("area {area} of {values:?}, {case}");
        let status = calls::warned(values, area);
        assert_eq!(status, 256 * u32::from(expected), "{}", what());
        assert_eq!(record.warned(area), expected, "{}", what());
        count += usize::from(expected);
    }
    assert_eq!(record.warned_areas().count(), count, "{values:?}, {case}");
    count
}

#[test]
fn areas_of_records_of_all_sorts() {
    let mut seen = [0; 57];
    for_each_seed(51, frames() / 5, |random, case| {
        let values = match random.below(3) {
            0 => legal_record(random.pick(&BODIES), random),
            1 => legal_record(Body::Areas, random),
            _ => record(random),
        };
        seen[compared(&values, case)] += 1;
    });
    println!("records by how many areas they warn: {seen:?}");
    assert!(seen[0] > 0 && seen[56] > 0, "{seen:?}");
    assert!(seen[1..56].iter().sum::<u32>() > 0, "{seen:?}");
}

/// Whatever else a record holds, identification and page decide whether it warns anybody; some are numbers that are right once they are cut short.
#[test]
fn every_identification_and_page() {
    for_each_seed(52, 50, |random, case| {
        let mut values = record(random);
        for identification in (0..=12).chain([256, 257, 1 << 32, u64::MAX]) {
            for page in [0, 1, 2, 256, 1 << 32, u64::MAX] {
                values[plain::IDENTIFICATION] = identification;
                values[plain::PAGE] = page;
                compared(&values, case);
            }
        }
    });
}

/// Each area has its own bit, with each of the four identifications.
#[test]
fn one_area_alone() {
    for identification in 0..=3 {
        for area in 0..56 {
            let mut values = [0; plain::VALUES];
            values[plain::IDENTIFICATION] = identification;
            values[plain::AREAS] = ((1 << 56) - 1) ^ (1 << (55 - area));
            let record = Record::from_values(values);
            let warned: Vec<u64> = record.warned_areas().collect();
            assert_eq!(warned, [area], "identification {identification}");
        }
    }
}

#[test]
fn records_of_other_lengths() {
    for_each_seed(53, frames() / 5, |random, case| {
        let mut values = legal_record(Body::Areas, random).to_vec();
        values.resize(length(plain::VALUES, random), 0);
        for area in [0, 15, 55, 56, u64::MAX] {
            let status = calls::warned(&values, area);
            let expected = match values[..].try_into() {
                Ok(record) => 256 * u32::from(plain::warned(record, area)),
                Err(_) => u32::from(Refusal::WrongLength.number()),
            };
            assert_eq!(status, expected, "area {area} of {values:?}, {case}");
        }
    });
}

/// The areas of a frame by its own bits: "Page 0: B(56+k) belongs to area k, 0 to 55 ... 0 means warned".
fn warned_in(frame: &[u8], area: u64) -> bool {
    let has_areas = get(frame, 21..=23) <= 3 && !bit(frame, 55);
    has_areas && area < 56 && !bit(frame, 56 + area as usize)
}

#[test]
fn areas_of_frames_read() {
    let (mut undamaged, mut repaired) = (0, 0);
    for_each_seed(54, frames() / 5, |random, case| {
        let (edition, plain_edition) = random.pick(&EDITIONS);
        let bytes = match random.below(3) {
            0 => frame(random).bytes,
            1 => faulty(plain_edition, &[], random).bytes,
            _ => written(&legal_record(Body::Areas, random)).to_vec(),
        };
        for (tuner, _) in TUNERS {
            let Ok(reading) = read(edition, tuner, &bytes) else {
                return;
            };
            let what = || format!("{tuner:?}, frame {}, {case}", hex(&bytes));
            let record = reading.record;
            compared(&record.values(), case);
            let whole = match (record.repaired, reading.differing) {
                (0, 0) => bytes.clone(),
                _ => plain::clean(plain_edition, &bytes)
                    .expect("accepted")
                    .to_vec(),
            };
            for area in asked() {
                let expected = warned_in(&whole, area);
                assert_eq!(record.warned(area), expected, "{}, {area}", what());
            }
            match record.repaired {
                0 => undamaged += 1,
                _ => repaired += 1,
            }
        }
    });
    println!("undamaged {undamaged}, repaired {repaired}");
    assert!(undamaged > 0 && repaired > 0);
}
