//! What the making of a record says of its refusal in each edition, held to the plain version; and that all its edges are reached.
use reference::frame::Edition::{AreaSafety, First};
use reference::frame::{
    record_refusal, write, Record, AREAS, EDITIONS, IDENTIFICATION, IN_FRAME, PAGE, REGION,
    REPAIRED, TIME, TUNER,
};
use samples::frames::written;
use samples::records::{bodies, edges, legal_record, origin, record, with_any_origin, with_origin};
use samples::records::{Body, BODIES, ORIGINS, WIDTHS};
use samples::Random;

fn is_safety(record: &Record) -> bool {
    [5, 6].contains(&record[IDENTIFICATION])
}

/// A legal record is legal in the editions that have its body, which write the same frame, and refused with 6 in the other.
#[test]
fn legal_records() {
    let mut random = Random::new(1);
    for body in BODIES {
        for _ in 0..500 {
            let record = legal_record(body, &mut random);
            for edition in EDITIONS {
                let mut frame = [0; 26];
                let legal = bodies(edition).contains(&body);
                let number = write(edition, &record, &mut frame);
                assert_eq!(number, if legal { 0 } else { 6 }, "{edition:?} {body:?}");
                assert!(!legal || frame == written(&record));
            }
            assert_eq!(is_safety(&record), body == Body::Safety);
        }
    }
    assert_eq!(bodies(First).len() + 1, bodies(AreaSafety).len());
}

/// The ends of what a safety record carries are reached, alone and together.
#[test]
fn the_ends_of_safety_records() {
    let mut random = Random::new(2);
    let records: Vec<Record> = (0..2000)
        .map(|_| legal_record(Body::Safety, &mut random))
        .collect();
    let last = |field: usize| (1 << WIDTHS[field]) - 1;
    for identification in [5, 6] {
        for time in [0, last(TIME)] {
            for region in [0, 1, last(REGION)] {
                let same = |record: &&Record| {
                    record[IDENTIFICATION] == identification
                        && (record[TIME], record[REGION]) == (time, region)
                };
                assert!(records.iter().filter(same).count() > 0);
            }
        }
    }
}

#[test]
fn every_edge() {
    let edges = edges(&mut Random::new(3));
    for edge in &edges {
        for edition in EDITIONS {
            let number = record_refusal(edition, &edge.record);
            assert_eq!(
                number,
                edge.refusal(edition),
                "{edition:?} {:?}",
                edge.record
            );
        }
    }
    let count = |first, area_safety, which: &dyn Fn(&Record) -> bool| {
        let same = |edge: &&samples::records::Edge| {
            edge.refusals == [first, area_safety] && which(&edge.record)
        };
        edges.iter().filter(same).count()
    };
    // The region one past its last, of all ones, and at its last; and on each of the four other bodies at four values.
    let past = 1 << 57;
    assert_eq!(count(6, 10, &|r| r[REGION] == past), 1);
    assert_eq!(count(6, 10, &|r| r[REGION] == u64::MAX), 1);
    assert!(count(6, 0, &|r| r[REGION] == past - 1) >= 1);
    assert_eq!(count(10, 10, &|r| r[REGION] != 0), 4 * 4);
    // Every other field on a safety record.
    for field in PAGE..REGION {
        assert!(count(6, 10, &|r| r[field] == 1) >= 1, "field {field}");
    }
    assert_eq!(count(6, 10, &|r| r[AREAS] != 0), 4);
    // Eight undefined identifications for each body.
    assert_eq!(count(6, 6, &|_| true), 8 * 5);
    // Each number as the tuner and as the repaired places of a legal record of each body.
    for field in [TUNER, REPAIRED] {
        for value in ORIGINS {
            assert!(count(0, 0, &|r| r[field] == value) >= 4, "{field} {value}");
            assert!(count(6, 0, &|r| r[field] == value) >= 1, "{field} {value}");
        }
    }
    assert!(count(9, 9, &|_| true) > 0);
    assert_eq!(count(6, 9, &|_| true), 0);
}

/// Among records of all sorts there are all pairs of numbers that the editions can give, and each in both ways.
#[test]
fn every_pair_of_numbers() {
    let mut random = Random::new(4);
    let mut seen = [[0; 11]; 11];
    let (mut region_elsewhere, mut page_on_safety) = (0, 0);
    for _ in 0..20_000 {
        let record = record(&mut random);
        let [first, area_safety] = EDITIONS.map(|edition| record_refusal(edition, &record));
        seen[usize::from(first)][usize::from(area_safety)] += 1;
        if first == 10 && record[REGION] != 0 {
            region_elsewhere += 1;
        }
        if area_safety == 10 && is_safety(&record) && record[PAGE] == 1 {
            page_on_safety += 1;
        }
    }
    for (first, row) in seen.iter().enumerate() {
        for (area_safety, &count) in row.iter().enumerate() {
            let pairs = [(0, 0), (6, 0), (6, 6), (6, 10), (9, 9), (10, 10)];
            let possible = pairs.contains(&(first, area_safety));
            assert_eq!(count > 20, possible, "{first} and {area_safety}");
        }
    }
    assert!(region_elsewhere > 100 && page_on_safety > 20);
}

/// Every one of the numbers stands in the tuner and in the repaired places, whatever the refusals are, and other numbers too; and every pair of them.
#[test]
fn every_origin() {
    let mut random = Random::new(5);
    let records: Vec<Record> = (0..20_000).map(|_| record(&mut random)).collect();
    for numbers in [[0, 0], [6, 0], [6, 6], [6, 10], [9, 9], [10, 10]] {
        let refused = |r: &&Record| EDITIONS.map(|edition| record_refusal(edition, r)) == numbers;
        let of_these: Vec<&Record> = records.iter().filter(refused).collect();
        for field in [TUNER, REPAIRED] {
            let holds = |value| of_these.iter().any(|r| r[field] == value);
            assert!(ORIGINS.into_iter().all(holds), "{numbers:?} {field}");
            assert!(of_these.iter().any(|r| !ORIGINS.contains(&r[field])));
        }
    }
    for pair in ORIGINS
        .map(|tuner| ORIGINS.map(|repaired| (tuner, repaired)))
        .concat()
    {
        let same = |r: &&Record| (r[TUNER], r[REPAIRED]) == pair;
        assert!(records.iter().filter(same).count() > 20, "{pair:?}");
    }
    for body in BODIES {
        let legal: Vec<Record> = (0..300).map(|_| legal_record(body, &mut random)).collect();
        for field in [TUNER, REPAIRED] {
            for value in ORIGINS {
                assert!(legal.iter().any(|record| record[field] == value));
            }
        }
    }
    assert!((0..100).any(|_| !ORIGINS.contains(&origin(&mut random))));
}

/// Only the two values are changed, and what is written and refused does not change with them.
#[test]
fn another_origin() {
    let mut random = Random::new(6);
    for _ in 0..2_000 {
        let record = record(&mut random);
        let other = with_any_origin(&record, &mut random);
        assert_eq!(record[..IN_FRAME], other[..IN_FRAME]);
        assert_eq!(with_origin(&other, record[TUNER], record[REPAIRED]), record);
        for edition in EDITIONS {
            let [first, second] = [&record, &other].map(|record| {
                let mut frame = [0xA5; 26];
                (write(edition, record, &mut frame), frame)
            });
            assert_eq!(first, second);
        }
    }
}
