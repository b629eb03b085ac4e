//! What the making of a frame says of its reading in each edition, held to the plain version; and how often the limits of the damage are reached.
use reference::frame::Edition::{AreaSafety, First};
use reference::frame::{
    read, Edition, Record, EDITIONS, IDENTIFICATION, PATTERN, REFERENCE, REGION, REPAIRED, TIME,
    TUNERS,
};
use reference::get;
use samples::frames::{all_heads, damaged_patterns, faulty, frame, Expected, Sample, ENDS};
use samples::records::with_origin;
use samples::Random;

/// The plain version answers as the making says, where it says anything; told no tuner exactly so, and told another one but for that.
fn agree(sample: &Sample) {
    for edition in EDITIONS {
        let expected = match sample.expected(edition) {
            Expected::Read(record, differing) => Ok((record, differing)),
            Expected::Refused(number) => Err(number),
            Expected::Open => continue,
        };
        for (number, tuner) in (0..).zip(TUNERS) {
            let told = |(record, differing): (Record, u8)| {
                let record = with_origin(&record, number, record[REPAIRED]);
                (record, differing)
            };
            let answer = read(edition, tuner, &sample.bytes);
            let expected = match number {
                0 => expected,
                _ => expected.map(told),
            };
            assert_eq!(answer, expected, "{edition:?} {:02x?}", sample.bytes);
        }
    }
}

/// The refusal's number, 0 for a record; none where nothing is said.
fn number(sample: &Sample, edition: Edition) -> Option<u8> {
    match sample.expected(edition) {
        Expected::Read(..) => Some(0),
        Expected::Refused(number) => Some(number),
        Expected::Open => None,
    }
}

/// In how many of the samples the editions give these numbers.
fn count(samples: &[Sample], first: u8, area_safety: u8) -> usize {
    let both = |sample: &&Sample| {
        number(sample, First) == Some(first) && number(sample, AreaSafety) == Some(area_safety)
    };
    samples.iter().filter(both).count()
}

/// In how many of the samples so many bits of B1 to B16 differ from pattern 0.
fn differing_from_pattern_0(samples: &[Sample], flips: u32) -> usize {
    let distance = |sample: &&Sample| {
        (get(&sample.bytes, 1..=16) ^ 0b0011_0101_1110_1110).count_ones() == flips
    };
    samples.iter().filter(distance).count()
}

#[test]
fn frames_of_all_sorts() {
    let mut random = Random::new(1);
    for _ in 0..20_000 {
        agree(&frame(&mut random));
    }
}

/// A single fault is the one that the edition named gives, whichever that is.
#[test]
fn one_fault_in_the_edition_named() {
    let mut random = Random::new(7);
    for edition in EDITIONS {
        for fault in 1..=9 {
            for _ in 0..200 {
                let sample = faulty(edition, &[fault], &mut random);
                agree(&sample);
                let open = sample.expected(edition) == Expected::Open && fault == 4;
                assert!(open || number(&sample, edition) == Some(fault));
            }
        }
        for _ in 0..200 {
            let sample = faulty(edition, &[], &mut random);
            agree(&sample);
            assert_eq!(number(&sample, edition), Some(0));
        }
    }
}

/// Among frames of all sorts there are all pairs of numbers that the editions can give.
#[test]
fn every_pair_of_numbers() {
    let mut random = Random::new(3);
    let samples: Vec<Sample> = (0..20_000).map(|_| frame(&mut random)).collect();
    for first in 0..=9 {
        for area_safety in 0..=9 {
            let possible = first == area_safety || (first == 6 && [0, 7].contains(&area_safety));
            let found = count(&samples, first, area_safety) >= 20;
            assert_eq!(found, possible, "{first} and {area_safety}");
        }
    }
}

/// Each of the 128 values of B17 to B23 with 13 details.
#[test]
fn every_head() {
    let samples = all_heads(&mut Random::new(4));
    assert_eq!(samples.len(), 128 * 13);
    samples.iter().for_each(agree);
    // Identification 4; 5 and 6 with start/end 00 and with the other three.
    assert_eq!(count(&samples, 6, 6), 16 * 13);
    assert_eq!(count(&samples, 6, 0), 2 * 4 * 13);
    assert_eq!(count(&samples, 6, 7), 2 * 12 * 13);
    // 0 to 3 with start/end other than 00, and 7 with other than 11 or update other than 11.
    assert_eq!(count(&samples, 7, 7), (4 * 12 + 15) * 13);
    // 0 to 3 with the details of three bodies, and 7 with those of one.
    assert_eq!(count(&samples, 0, 0), 4 * 4 * 3 + 1);
    let read = |identification: u64, (time, region): (u64, u64)| {
        let same = |record: Record| {
            record[IDENTIFICATION] == identification
                && (record[TIME], record[REGION]) == (time, region)
        };
        let is_read = |sample: &&Sample| matches!(sample.expected(AreaSafety), Expected::Read(record, _) if same(record));
        samples.iter().filter(is_read).count()
    };
    for ends in ENDS {
        assert!(read(5, ends) >= 4 && read(6, ends) >= 4, "{ends:?}");
    }
}

#[test]
fn the_same_seed_gives_the_same_samples() {
    let bytes = |seed| -> Vec<Vec<u8>> {
        let samples = damaged_patterns(&mut Random::new(seed));
        samples.into_iter().map(|sample| sample.bytes).collect()
    };
    assert_eq!(bytes(5), bytes(5));
    assert_ne!(bytes(5), bytes(6));
}

/// Five bodies, two patterns, two values of B0 and 17 numbers of bits, each with 11 numbers of hits and once with a filler bit.
#[test]
fn every_number_of_bits_and_hits() {
    let samples = damaged_patterns(&mut Random::new(2));
    assert_eq!(samples.len(), 5 * 2 * 2 * 17 * (11 + 1));
    samples.iter().for_each(agree);
    for flips in 0..=16 {
        let expected = 2 * 5 * 2 * (11 + 1);
        assert_eq!(differing_from_pattern_0(&samples, flips), expected);
    }
    // Once for each number of bits; nine numbers of bits, each with 11 of hits; eight of bits with nine hits.
    assert_eq!(count(&samples, 2, 2), 20 * 17);
    assert_eq!(count(&samples, 3, 3), 20 * 9 * 11);
    assert_eq!(count(&samples, 4, 4), 20 * 8);
    // One body of the five: eight numbers of bits, each with nine of hits.
    assert_eq!(count(&samples, 6, 0), 4 * 8 * 9);
    assert_eq!(count(&samples, 0, 0), 16 * 8 * 9);
    for (edition, bodies) in [(First, 4), (AreaSafety, 5)] {
        every_damage(edition, bodies, &samples);
    }
}

/// Each damage that is put right is as frequent as any other.
fn every_damage(edition: Edition, bodies: usize, samples: &[Sample]) {
    for pattern in 0..2 {
        for reference in 0..2 {
            for repaired in 0..=8 {
                for differing in 0..=3 {
                    let same = |sample: &&Sample| {
                        matches!(sample.expected(edition), Expected::Read(record, of)
                            if (record[REPAIRED], of) == (repaired, differing)
                                && record[PATTERN] == pattern
                                && record[REFERENCE] == reference)
                    };
                    // Sent with this pattern, or with the other one and all the other bits turned over; each for every body.
                    assert_eq!(samples.iter().filter(same).count(), 2 * bodies);
                }
            }
        }
    }
}
