//! The area safety edition (document 02, a): what each edition makes of every identification, the details of 5 and 6 carried whole, and that the
//! editions differ in nothing else.
mod common;
use common::{flipped, found, frame, hex, in_both, record, sealed, written, written_in};
use common::{listing as both_list, read as both_read, read_in as read};
use reference::capture::{frame_at, number, numbers};
use reference::code::GENERATOR;
use reference::follower::{follow, Event, Kind, State};
use reference::frame::Edition::{AreaSafety, First};
use reference::frame::{
    clean, judge, record_refusal, warned, write, Edition, Record, AREAS, BROADCASTER, DEPTH,
    EDITIONS, IDENTIFICATION, ITEM, KIND, LATITUDE, LONGITUDE, NUMBER, OCCURRED, PAGE, PATTERN,
    REFERENCE, REGION, SOUTH, TIME, TOTAL, UPDATE, VALUES, WEST,
};
use reference::header::{lay_in, take_out};
use reference::listing::listing;
use reference::place::{report, Place, Report};
use reference::{get, put};

/// The greatest time and the greatest region: 31 and 57 ones.
const LAST_TIME: u64 = 0x7FFF_FFFF;
const LAST_REGION: u64 = 0x01FF_FFFF_FFFF_FFFF;

/// The fields that area safety information does not leave free.
const NOT_FREE: [usize; 13] = [
    PAGE,
    AREAS,
    TOTAL,
    ITEM,
    NUMBER,
    KIND,
    SOUTH,
    LATITUDE,
    WEST,
    LONGITUDE,
    DEPTH,
    OCCURRED,
    BROADCASTER,
];

const KINDS: [Kind; 4] = [Kind::Real, Kind::Test, Kind::Safety, Kind::SafetyTest];

/// The refusal's number, or 0.
fn judged(edition: Edition, frame: &[u8]) -> u8 {
    judge(edition, frame).err().unwrap_or(0)
}

/// Pattern 0, these bits in B17 to B111, and a good CRC and parity.
fn made(start_end: u64, update: u64, identification: u64, time: u64, region: u64) -> [u8; 26] {
    let mut frame = [0x1a, 0xf7].to_vec();
    frame.resize(26, 0);
    put(&mut frame, 17..=18, start_end);
    put(&mut frame, 19..=20, update);
    put(&mut frame, 21..=23, identification);
    put(&mut frame, 24..=54, time);
    put(&mut frame, 55..=111, region);
    sealed(frame.try_into().expect("26 bytes"))
}

/// A record of area safety information or its test.
fn safety(identification: u64, update: u64, time: u64, region: u64) -> Record {
    record(&[
        (IDENTIFICATION, identification),
        (UPDATE, update),
        (TIME, time),
        (REGION, region),
    ])
}

/// A frame of any identification but 4, as its edition asks for it.
fn sent(identification: u64, update: u64) -> [u8; 26] {
    let update = if identification == 7 { 0 } else { update };
    let fields = [(IDENTIFICATION, identification), (UPDATE, update)];
    written_in(AreaSafety, &record(&fields))
}

/// The places of the first powers of the generator: eight are repaired, nine are not.
fn hits(n: usize) -> Vec<usize> {
    GENERATOR[..n].iter().map(|power| 203 - power).collect()
}

/// Details at their ends, each bit alone, each bit alone left out, and what the other bodies would fix or limit.
fn details() -> Vec<(u64, u64)> {
    let (times, regions) = ([0, 1, 1 << 30, LAST_TIME], [0, 1, 1 << 56, LAST_REGION]);
    let mut details = vec![];
    for time in times {
        details.extend(regions.map(|region| (time, region)));
    }
    for i in 0..31 {
        details.extend([(1 << i, 0), (LAST_TIME ^ 1 << i, LAST_REGION)]);
    }
    for i in 0..57 {
        details.extend([(0, 1 << i), (LAST_TIME, LAST_REGION ^ 1 << i)]);
    }
    // Where B55 would be the page and B67 the kind; without these two; latitude and longitude of ones.
    let (page, kind) = (1 << 56, 1 << 44);
    for region in [page | kind, LAST_REGION ^ page ^ kind, page | 0x3FF << 33] {
        details.extend([
            (0, region),
            (0x1234_5678, region),
            (5, region | 0x7FF << 21),
        ]);
    }
    details
}

/// A small generator of pseudorandom numbers.
struct Random(u64);

impl Random {
    fn number(&mut self) -> u64 {
        self.0 ^= self.0 << 13;
        self.0 ^= self.0 >> 7;
        self.0 ^= self.0 << 17;
        self.0
    }

    fn below(&mut self, n: usize) -> usize {
        (self.number() % n as u64) as usize
    }

    fn flip_some(&mut self, frame: [u8; 26], most: usize, from: usize, to: usize) -> [u8; 26] {
        let count = self.below(most + 1);
        let places: Vec<usize> = (0..count)
            .map(|_| from + self.below(to - from + 1))
            .collect();
        flipped(frame, &places)
    }
}

#[test]
fn every_identification() {
    for (identification, first, area_safety) in [
        (0, 0, 0),
        (1, 0, 0),
        (2, 0, 0),
        (3, 0, 0),
        (4, 6, 6),
        (5, 6, 0),
        (6, 6, 0),
        (7, 0, 0),
        (8, 6, 6),
        (13, 6, 6),
        (14, 6, 6),
        (255, 6, 6),
        (u64::MAX, 6, 6),
    ] {
        let fields = record(&[(IDENTIFICATION, identification)]);
        let expected = [first, area_safety];
        let numbers = EDITIONS.map(|edition| record_refusal(edition, &fields));
        assert_eq!(numbers, expected, "record, {identification}");
        if identification > 7 {
            continue;
        }
        let frame = match identification {
            7 => made(3, 3, 7, LAST_TIME, LAST_REGION),
            _ => made(0, 0, identification, 0, 0),
        };
        let numbers = EDITIONS.map(|edition| judged(edition, &frame));
        assert_eq!(numbers, expected, "frame, {identification}");
    }
}

/// CRC and parity of these were made by long division.
#[test]
fn known_digits() {
    let ones = [
        (REFERENCE, 1),
        (PATTERN, 1),
        (IDENTIFICATION, 6),
        (UPDATE, 3),
    ];
    let mut all_ones = record(&ones);
    (all_ones[TIME], all_ones[REGION]) = (LAST_TIME, LAST_REGION);
    for (digits, fields) in [
        (
            "1af70500000000000000000000004f521e5692041479a68c6810",
            safety(5, 0, 0, 0),
        ),
        (
            "e5089efffffffffffffffffffffffbb60756ba98197b6583d440",
            all_ones,
        ),
        (
            "1af70d2468acf0123456789abcdec214c8a012aa6862fb4a2bc0",
            safety(5, 1, 0x1234_5678, 0x0012_3456_789A_BCDE),
        ),
        (
            "1af7160000000100000000000000279a8b6acdbc6d2a79e326b0",
            safety(6, 2, 0, 1 << 56),
        ),
        (
            "1af7160000000200000000000000d1be417e5ebd61b9ce92b350",
            safety(6, 2, 1, 0),
        ),
        (
            "1af7160000000000000000000001f9599e41766abb1cb07310a0",
            safety(6, 2, 0, 1),
        ),
    ] {
        assert_eq!(hex(&written_in(AreaSafety, &fields)), digits);
        let expected = Ok(found(fields, 0, 0));
        assert_eq!(read(AreaSafety, &frame(digits)), expected, "{digits}");
        assert_eq!(read(First, &frame(digits)), Err(6), "{digits}");
    }
    for (digits, first, area_safety) in [
        // Start/end 01, and all of B17 to B111 as identification 7 would have it.
        ("1af72500000000000000000000004f5954122382f9520ac46300", 6, 7),
        ("1af77dffffffffffffffffffffffc15b2be916e0d2ef00e02e70", 6, 7),
        // Identification 4 with zeros and with ones.
        ("1af7040000000000000000000000dd767925f1175476131a9c70", 6, 6),
        ("1af704ffffffffffffffffffffff5354a3b4df1664b373a8f0a0", 6, 6),
    ] {
        let numbers = EDITIONS.map(|edition| judged(edition, &frame(digits)));
        assert_eq!(numbers, [first, area_safety], "{digits}");
    }
}

/// "Start/end is 00 for 5 and 6": anything else is 7 where they are defined, and 6 where they are not. Every update will do.
#[test]
fn start_end_and_update() {
    for (start_end, update) in (0..16).map(|both| (both >> 2, both & 3)) {
        for (time, region) in [(0, 0), (LAST_TIME, LAST_REGION), (77, 12345)] {
            for identification in [5, 6] {
                let frame = made(start_end, update, identification, time, region);
                let expected = match start_end {
                    0 => Ok(found(safety(identification, update, time, region), 0, 0)),
                    _ => Err(7),
                };
                assert_eq!(read(AreaSafety, &frame), expected);
                assert_eq!(read(First, &frame), Err(6));
            }
            let undefined = made(start_end, update, 4, time, region);
            assert_eq!(both_read(&undefined), Err(6));
        }
    }
}

/// "their 88 detail bits are carried whole": B24 to B54 as the time, B55 to B111 as the region.
#[test]
fn any_details_there_and_back() {
    for (time, region) in details() {
        for (identification, update) in [(5, 0), (5, 3), (6, 1), (6, 2)] {
            let fields = safety(identification, update, time, region);
            let frame = made(0, update, identification, time, region);
            assert_eq!(
                (get(&frame, 24..=54), get(&frame, 55..=111)),
                (time, region)
            );
            assert_eq!(read(AreaSafety, &frame), Ok(found(fields, 0, 0)));
            assert_eq!(clean(AreaSafety, &frame), Ok(frame));
            assert_eq!(written_in(AreaSafety, &fields), frame);
        }
    }
}

#[test]
fn each_bit_of_the_details_in_its_place() {
    for k in 24..=111 {
        let frame = sealed(flipped(made(0, 0, 5, 0, 0), &[k]));
        let (time, region) = match k {
            24..=54 => (1 << (54 - k), 0),
            _ => (0, 1 << (111 - k)),
        };
        let expected = Ok(found(safety(5, 0, time, region), 0, 0));
        assert_eq!(read(AreaSafety, &frame), expected, "B{k}");
    }
}

#[test]
fn the_reference_bit_and_the_pattern_are_carried() {
    for (reference, pattern) in [(0, 0), (0, 1), (1, 0), (1, 1)] {
        let mut fields = safety(6, 1, 5, 1 << 56);
        (fields[REFERENCE], fields[PATTERN]) = (reference, pattern);
        let frame = written_in(AreaSafety, &fields);
        assert_eq!(get(&frame, 0..=0), reference);
        assert_eq!(get(&frame, 1..=16), [0x35EE, 0xCA11][pattern as usize]);
        assert_eq!(read(AreaSafety, &frame), Ok(found(fields, 0, 0)));
    }
}

/// Eight hits are repaired, nine refused; up to three bits of the pattern are put right; the first edition tests these before it says 6.
#[test]
fn damage_is_put_right() {
    for fields in [safety(5, 2, 1, 1 << 56), safety(6, 0, LAST_TIME, 1)] {
        let whole = written_in(AreaSafety, &fields);
        for count in 0..=8 {
            for differing in 0..=3 {
                let pattern: Vec<usize> = (0..differing).map(|i| 4 + 5 * i).collect();
                let received = flipped(flipped(whole, &hits(count)), &pattern);
                let expected = found(fields, count as u8, differing as u8);
                assert_eq!(read(AreaSafety, &received), Ok(expected));
                assert_eq!(judge(AreaSafety, &received), Ok(count as u8));
                assert_eq!(clean(AreaSafety, &received), Ok(whole));
                assert_eq!(read(First, &received), Err(6));
                assert_eq!(clean(First, &received), Err(6));
            }
        }
        assert_eq!(both_read(&flipped(whole, &hits(9))), Err(4));
        assert_eq!(both_read(&flipped(whole, &[4, 9, 14, 16])), Err(3));
        assert_eq!(both_read(&flipped(whole, &[204])), Err(2));
        assert_eq!(both_read(&whole[..25]), Err(1));
    }
}

/// Every single hit, those of the identification among them, which would else be another one.
#[test]
fn every_single_hit() {
    let whole = written_in(AreaSafety, &safety(5, 1, 7, 9));
    for k in 17..204 {
        let received = flipped(whole, &[k]);
        assert_eq!(clean(AreaSafety, &received), Ok(whole), "B{k}");
        assert_eq!(clean(First, &received), Err(6), "B{k}");
    }
    let warning = written(&record(&[(IDENTIFICATION, 1)]));
    // 001 received as 101.
    let received = flipped(warning, &[21]);
    assert_eq!(in_both(|edition| clean(edition, &received)), Ok(warning));
}

/// 5 comes before 6 and 7.
#[test]
fn a_wrong_crc_comes_first() {
    let mut wrong = made(1, 0, 5, 3, 4);
    let message = flipped(wrong, &[121]);
    let word = reference::code::encode(&std::array::from_fn(|i| reference::bit(&message, 17 + i)));
    wrong = reference::code::frame_of(&word);
    put(&mut wrong, 0..=16, 0x35EE);
    assert_eq!(both_read(&wrong), Err(5));
}

#[test]
fn what_area_safety_information_leaves_free() {
    for identification in [5, 6] {
        let base = safety(identification, 1, 2, 3);
        let changed = |field: usize, value| {
            let mut record = base;
            record[field] = value;
            EDITIONS.map(|edition| record_refusal(edition, &record))
        };
        for field in NOT_FREE {
            for value in [1, 2, 900, 901, 1 << 57, u64::MAX] {
                assert_eq!(changed(field, value), [6, 10], "field {field}, {value}");
            }
            assert_eq!(changed(field, 0), [6, 0]);
        }
        for (field, last) in [
            (REFERENCE, 1),
            (PATTERN, 1),
            (UPDATE, 3),
            (TIME, LAST_TIME),
            (REGION, LAST_REGION),
        ] {
            assert_eq!(changed(field, 0), [6, 0], "field {field}");
            assert_eq!(changed(field, last), [6, 0], "field {field}");
            assert_eq!(changed(field, last + 1), [6, 10], "field {field}");
            assert_eq!(changed(field, u64::MAX), [6, 10], "field {field}");
        }
    }
    assert_eq!(LAST_REGION, (1 << 57) - 1);
}

/// The region is left free by no other body: 10 in both editions, before 9 and after 6.
#[test]
fn what_leaves_the_region_free() {
    let place = [(PAGE, 1), (LATITUDE, 356), (LONGITUDE, 1397)];
    let beyond = [(PAGE, 1), (LATITUDE, 901)];
    let others: [&[(usize, u64)]; 6] = [
        &[],
        &[(IDENTIFICATION, 3), (AREAS, 1)],
        &place,
        &beyond,
        &[(PAGE, 1), (KIND, 1)],
        &[(IDENTIFICATION, 7), (BROADCASTER, 5)],
    ];
    for fields in others {
        let mut base = record(fields);
        let without = in_both(|edition| record_refusal(edition, &base));
        assert_eq!(without, if base[LATITUDE] > 900 { 9 } else { 0 });
        for region in [1, 1 << 56, LAST_REGION, LAST_REGION + 1, u64::MAX] {
            base[REGION] = region;
            assert_eq!(in_both(|edition| record_refusal(edition, &base)), 10);
        }
        base[IDENTIFICATION] = 4;
        assert_eq!(in_both(|edition| record_refusal(edition, &base)), 6);
    }
}

/// "The frame writer tests its buffer (1), then the identification (6), then 10, then 9"; a refusal leaves the buffer.
#[test]
fn the_writers_order() {
    let good = safety(5, 1, 2, 3);
    let wide = safety(6, 0, 0, LAST_REGION + 1);
    // Page 1, kind 0 and a latitude over the limit: here that is no place.
    let mut over = safety(5, 0, 0, 0);
    (over[PAGE], over[LATITUDE]) = (1, 901);
    for (edition, length, fields, expected) in [
        (First, 25, good, 1),
        (AreaSafety, 25, good, 1),
        (AreaSafety, 27, wide, 1),
        (First, 26, good, 6),
        (First, 26, wide, 6),
        (First, 26, over, 6),
        (AreaSafety, 26, wide, 10),
        (AreaSafety, 26, over, 10),
    ] {
        let mut buffer = vec![0xA5; length];
        assert_eq!(write(edition, &fields, &mut buffer), expected);
        assert_eq!(buffer, vec![0xA5; length]);
    }
    let mut buffer = [0xA5; 26];
    assert_eq!(write(AreaSafety, &good, &mut buffer), 0);
    assert_eq!(buffer, made(0, 1, 5, 2, 3));
}

#[test]
fn no_area_is_warned_by_area_safety_information() {
    for identification in [5, 6] {
        for region in [0, LAST_REGION] {
            let fields = safety(identification, 0, 0, region);
            assert!((0..64).all(|area| !warned(&fields, area)));
        }
    }
}

/// A frame with any details, most with a good CRC and few hits.
fn random_frame(random: &mut Random) -> [u8; 26] {
    let mut frame: [u8; 26] = std::array::from_fn(|_| random.number() as u8);
    put(&mut frame, 1..=16, [0x35EE, 0xCA11][random.below(2)]);
    put(&mut frame, 204..=207, 0);
    match random.below(6) {
        0 => return frame,
        1 => put(&mut frame, 17..=20, 15),
        2 => {}
        _ => put(&mut frame, 17..=18, 0),
    }
    if random.below(2) == 0 {
        put(&mut frame, 67..=111, (1 << 45) - 1);
    }
    if random.below(4) == 0 {
        put(&mut frame, 24..=55, (1 << 32) - 1);
    }
    let frame = sealed(frame);
    let frame = random.flip_some(frame, 10, 17, 203);
    random.flip_some(frame, 4, 1, 16)
}

/// "the first edition's answers do not change": of 5 and 6 they are the other edition's up to 5, and then 6. "What both editions share": all else.
#[test]
fn the_editions_differ_in_5_and_6_only() {
    let mut random = Random(0x9E37_79B9_7F4A_7C15);
    let mut seen = [[0; 10]; 8];
    for _ in 0..5_000 {
        let frame = random_frame(&mut random);
        let sent = reference::repair(&frame).map_or(0, |r| get(&r.word, 21..=23));
        let number = judged(AreaSafety, &frame);
        seen[sent as usize][usize::from(number)] += 1;
        if sent != 5 && sent != 6 {
            alike(&frame, &mut random);
        } else if (1..=5).contains(&number) {
            assert_eq!(judged(First, &frame), number);
        } else {
            assert!(number == 0 || number == 7);
            assert_eq!(judged(First, &frame), 6);
            assert_eq!(read(First, &frame), Err(6));
            assert_eq!(clean(First, &frame), Err(6));
        }
    }
    for (identification, number) in [
        (0, 0),
        (3, 8),
        (1, 9),
        (4, 6),
        (5, 0),
        (5, 7),
        (6, 0),
        (6, 7),
        (7, 0),
        (7, 7),
        (7, 8),
    ] {
        assert!(
            seen[identification][number] > 0,
            "{identification} {number}"
        );
    }
}

/// Both editions answer alike, whatever they are asked of this frame and what it holds.
fn alike(frame: &[u8; 26], random: &mut Random) {
    let old = match random.below(5) {
        4 => State::Quiet,
        i => State::Active(KINDS[i], random.number() % 5),
    };
    let [first, area_safety] = EDITIONS.map(|edition| {
        let read = read(edition, frame);
        let reported = read.map(|(fields, _)| report(edition, &fields));
        let cleaned = clean(edition, frame);
        let followed = follow(edition, old, frame);
        let listed = listing(edition, frame);
        (read, reported, cleaned, followed, listed)
    });
    assert_eq!(first, area_safety);
}

/// Records of any fields: the editions differ in 5 and 6 only, which the first refuses with 6.
#[test]
fn records_differ_in_5_and_6_only() {
    let mut random = Random(12345);
    for _ in 0..30_000 {
        let mut fields: Record = [0; VALUES];
        fields[IDENTIFICATION] = random.number() % 9;
        for _ in 0..random.below(4) {
            fields[random.below(VALUES)] = random.number() >> random.below(64);
        }
        let numbers = EDITIONS.map(|edition| record_refusal(edition, &fields));
        match fields[IDENTIFICATION] {
            5 | 6 => assert!(numbers[0] == 6 && [0, 10].contains(&numbers[1])),
            _ => assert_eq!(numbers[0], numbers[1], "{fields:?}"),
        }
    }
}

fn kind_of(identification: u64) -> Kind {
    match identification {
        0 | 1 => Kind::Real,
        2 | 3 => Kind::Test,
        5 => Kind::Safety,
        _ => Kind::SafetyTest,
    }
}

/// Every state and every frame: "other" "means any other".
#[test]
fn every_change_of_kind() {
    // Rows: the update held; columns: the update of the frame.
    let events = ["=+xx", "x=+x", "xx=+", "+xx="];
    for identification in [0, 1, 2, 3, 5, 6] {
        let kind = kind_of(identification);
        for update in 0..4 {
            let frame = sent(identification, update);
            let new = State::Active(kind, update);
            let begins = (new, Event::Begins);
            assert_eq!(follow(AreaSafety, State::Quiet, &frame), begins);
            for (before, held) in KINDS.iter().flat_map(|&b| (0..4).map(move |u| (b, u))) {
                let event = match events[held as usize].as_bytes()[update as usize] {
                    _ if before != kind => Event::Begins,
                    b'=' => Event::Same,
                    b'+' => Event::Changed,
                    _ => Event::Skipped,
                };
                let answer = follow(AreaSafety, State::Active(before, held), &frame);
                assert_eq!(answer, (new, event), "{before:?} {held}, then {kind:?}");
            }
        }
    }
}

#[test]
fn no_information_ends_every_kind() {
    let quiet = |event| (State::Quiet, event);
    for edition in EDITIONS {
        let answer = |old| follow(edition, old, &sent(7, 0));
        assert_eq!(answer(State::Quiet), quiet(Event::Quiet));
        for kind in KINDS {
            for held in [0, 1, 2, 3, 4, u64::MAX] {
                assert_eq!(answer(State::Active(kind, held)), quiet(Event::Ended));
            }
        }
    }
}

/// A state of a safety kind may be met in the first edition: it is kept by a frame that is refused there, left by a warning, and ended.
#[test]
fn a_safety_state_in_the_first_edition() {
    for kind in KINDS {
        for held in 0..4 {
            let old = State::Active(kind, held);
            for identification in [5, 6] {
                let answer = follow(First, old, &sent(identification, held));
                assert_eq!(answer, (old, Event::Refused(6)));
            }
            if kind == Kind::Safety || kind == Kind::SafetyTest {
                for identification in 0..4 {
                    let new = State::Active(kind_of(identification), held);
                    let answer = follow(First, old, &sent(identification, held));
                    assert_eq!(answer, (new, Event::Begins));
                }
            }
        }
    }
    let quiet = (State::Quiet, Event::Refused(6));
    assert_eq!(follow(First, State::Quiet, &sent(5, 0)), quiet);
}

#[test]
fn refused_frames_keep_every_state() {
    let wrong_start = made(1, 0, 5, 0, 0);
    let undefined = made(0, 0, 4, 0, 0);
    for old in KINDS.map(|kind| State::Active(kind, 2)) {
        let refused = |number| (old, Event::Refused(number));
        assert_eq!(follow(AreaSafety, old, &wrong_start), refused(7));
        assert_eq!(follow(First, old, &wrong_start), refused(6));
        for edition in EDITIONS {
            assert_eq!(follow(edition, old, &undefined), refused(6));
            assert_eq!(follow(edition, old, &[0; 26]), refused(3));
            assert_eq!(follow(edition, old, &[]), refused(1));
        }
    }
}

#[test]
fn a_safety_number_that_no_frame_carries() {
    for held in [255, u64::MAX] {
        let old = State::Active(Kind::Safety, held);
        let event = |update| follow(AreaSafety, old, &sent(5, update)).1;
        assert_eq!(event(0), Event::Changed);
        assert!((1..4).all(|update| event(update) == Event::Skipped));
    }
}

/// "their report is a fifth case, without data".
#[test]
fn reports() {
    for identification in [5, 6] {
        for (time, region) in details() {
            let fields = safety(identification, 3, time, region);
            assert_eq!(report(AreaSafety, &fields), Ok(Report::AreaSafety));
            assert_eq!(report(First, &fields), Err(6));
        }
        let wide = safety(identification, 0, 0, LAST_REGION + 1);
        assert_eq!(report(AreaSafety, &wide), Err(10));
        assert_eq!(report(First, &wide), Err(6));
    }
    let place = Report::Place(Place {
        latitude: 0.3,
        longitude: 139.7,
        depth: 40.0,
    });
    let cases: [(&[(usize, u64)], _); 7] = [
        (&[(IDENTIFICATION, 2)], Ok(Report::AreasOnly)),
        (&[(IDENTIFICATION, 7)], Ok(Report::Nothing)),
        (&[(PAGE, 1), (KIND, 1)], Ok(Report::Cancellation)),
        (
            &[(PAGE, 1), (LATITUDE, 3), (LONGITUDE, 1397), (DEPTH, 40)],
            Ok(place),
        ),
        (&[(REGION, 1)], Err(10)),
        (&[(IDENTIFICATION, 4), (REGION, 1)], Err(6)),
        (&[(PAGE, 1), (LATITUDE, 901)], Err(9)),
    ];
    for (fields, expected) in cases {
        assert_eq!(
            in_both(|edition| report(edition, &record(fields))),
            expected,
            "{fields:?}"
        );
    }
}

/// "a second listing program with document 01's lines".
#[test]
fn the_same_bytes_listed_twice() {
    let mut input = [
        written(&[0; VALUES]),
        sent(5, 0),
        flipped(sent(6, 1), &hits(8)),
        made(2, 0, 6, 0, 0),
        made(0, 0, 4, 0, 0),
        flipped(sent(5, 3), &hits(9)),
        sent(7, 0),
    ]
    .concat();
    input.extend(&sent(5, 0)[..25]);
    let text = |edition| String::from_utf8(listing(edition, &input)).expect("text");
    assert_eq!(
        text(First),
        "1 0 0\n2 6 -\n3 6 -\n4 6 -\n5 6 -\n6 4 -\n7 0 0\n8 1 -\nend 8\n"
    );
    assert_eq!(
        text(AreaSafety),
        "1 0 0\n2 0 0\n3 0 8\n4 7 -\n5 6 -\n6 4 -\n7 0 0\n8 1 -\nend 8\n"
    );
    assert_eq!(both_list(&[]), b"end 0\n");
}

/// A header with AC bits that are all ones.
fn header() -> [u8; 188] {
    let mut fields = [0; reference::header::FIELDS];
    fields[reference::header::PACKET] = 0x4700_0000;
    fields[reference::header::FORM] = 1;
    let mut header = [0; 188];
    assert_eq!(reference::header::write(&fields, &mut header), 0);
    assert_eq!(take_out(&mut header), 0);
    header
}

#[test]
fn laying_in() {
    let before = header();
    for (time, region) in [(0, 0), (LAST_TIME, LAST_REGION), (1, 1 << 56)] {
        let whole = made(0, 2, 6, time, region);
        let received = flipped(flipped(whole, &hits(8)), &[2, 3, 16]);
        for frame in [whole, received] {
            let mut after = before;
            assert_eq!(lay_in(First, &mut after, &frame), 6);
            assert_eq!(after, before);
            assert_eq!(lay_in(AreaSafety, &mut after, &frame), 0);
            assert_eq!(after[99..124], whole[..25]);
            assert_eq!(after[124], whole[25] | 0x0F);
            assert_eq!(after[..99], before[..99]);
            assert_eq!(after[125..184], before[125..184]);
            assert_eq!(reference::header::refusal(&after), 0);
            assert_eq!(take_out(&mut after), 0);
            assert_eq!(after, before);
        }
    }
}

#[test]
fn refused_frames_are_not_laid_in() {
    let before = header();
    let mut broken = before;
    broken[187] ^= 1;
    let safe = sent(5, 0);
    for (edition, header, frame, expected) in [
        (AreaSafety, before, made(3, 3, 5, 0, 0), 7),
        (First, before, made(3, 3, 5, 0, 0), 6),
        (AreaSafety, before, made(0, 0, 4, 0, 0), 6),
        (First, broken, safe, 13),
        (AreaSafety, broken, safe, 13),
    ] {
        let mut after = header;
        assert_eq!(lay_in(edition, &mut after, &frame), expected);
        assert_eq!(after, header);
    }
}

/// The main capture's frame is area safety information: the first edition takes the spare one's instead.
#[test]
fn captures() {
    let warning = written(&record(&[(IDENTIFICATION, 1)]));
    let safe = flipped(sent(5, 0), &hits(8));
    let main = [safe, warning, safe, made(1, 0, 6, 0, 0)].concat();
    let spare = [warning, safe, safe, safe].concat();
    let taken = |edition, n| {
        let part = frame_at(edition, &main, &spare, n);
        let at =
            |capture: &[u8]| part.as_ptr_range() == capture[26 * n as usize..][..26].as_ptr_range();
        match (part.len(), at(&main), at(&spare)) {
            (0, _, _) => "neither",
            (26, true, _) => "main",
            (26, _, true) => "spare",
            _ => "other bytes",
        }
    };
    for (n, edition, from, both) in [
        (0, First, "spare", (6, 0)),
        (0, AreaSafety, "main", (0, 0)),
        (1, First, "main", (0, 6)),
        (1, AreaSafety, "main", (0, 0)),
        (2, First, "neither", (6, 6)),
        (2, AreaSafety, "main", (0, 0)),
        (3, First, "neither", (6, 6)),
        (3, AreaSafety, "spare", (7, 0)),
    ] {
        assert_eq!(taken(edition, n), from, "{edition:?}, frame {n}");
        assert_eq!(numbers(edition, &main, &spare, n), both);
        assert_eq!(number(edition, &main, n), both.0);
    }
    assert_eq!(
        in_both(|edition| numbers(edition, &main, &spare, 4)),
        (1, 1)
    );
}
