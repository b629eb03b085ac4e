//! Where a record came from (document 02, j): the tuner that the reader is told, the number of repaired places, what ignores both, the record of two
//! captures, and the desk's.
mod common;
use common::{flipped, in_both, record, sealed, with_origin, written, written_in};
use reference::capture::{self, frame_at, numbers};
use reference::code::GENERATOR;
use reference::follower::{follow, Event, Kind, State};
use reference::frame::Edition::{AreaSafety, First};
use reference::frame::{
    clean, judge, read, record_refusal, warned, write, Edition, Record, Tuner, AREAS, BROADCASTER,
    DEPTH, EDITIONS, IDENTIFICATION, IN_FRAME, ITEM, KIND, LATITUDE, LONGITUDE, NUMBER, OCCURRED,
    PAGE, PATTERN, REFERENCE, REGION, REPAIRED, SOUTH, TIME, TOTAL, TUNER, TUNERS, UPDATE, VALUES,
    WEST,
};
use reference::place::{degrees, desk_record, kilometres, report, DeskWarning, Place, Report};
use reference::put;

/// What may stand where the writer does not look.
const ANY: [u64; 7] = [0, 1, 2, 3, 255, 256, u64::MAX];

/// The tuners with the numbers that stand in a record.
const NUMBERS: [(Tuner, u64); 3] = [(Tuner::None, 0), (Tuner::Main, 1), (Tuner::Spare, 2)];

/// A legal record of each body; the last is legal in the area safety edition only.
fn legal() -> [Record; 5] {
    [
        record(&[(IDENTIFICATION, 2), (UPDATE, 2), (TIME, 77), (AREAS, 12345)]),
        record(&[
            (REFERENCE, 1),
            (PAGE, 1),
            (TOTAL, 1),
            (NUMBER, 300),
            (SOUTH, 1),
            (LATITUDE, 900),
            (LONGITUDE, 1800),
            (DEPTH, 1023),
        ]),
        record(&[(IDENTIFICATION, 3), (UPDATE, 1), (PAGE, 1), (KIND, 1)]),
        record(&[(PATTERN, 1), (IDENTIFICATION, 7), (BROADCASTER, 1000)]),
        record(&[(IDENTIFICATION, 5), (UPDATE, 3), (REGION, 1 << 56)]),
    ]
}

/// Records that are refused, with the numbers of the first and of the area safety edition.
fn illegal() -> [(Record, [u8; 2]); 7] {
    [
        (record(&[(IDENTIFICATION, 4)]), [6, 6]),
        (record(&[(IDENTIFICATION, 8), (PAGE, 2)]), [6, 6]),
        (record(&[(IDENTIFICATION, 6), (AREAS, 1)]), [6, 10]),
        (record(&[(IDENTIFICATION, 7), (UPDATE, 1)]), [10, 10]),
        (record(&[(REGION, 1)]), [10, 10]),
        (record(&[(PAGE, 1), (LATITUDE, 901)]), [9, 9]),
        (record(&[(PAGE, 1), (LONGITUDE, 1801)]), [9, 9]),
    ]
}

/// The record with each of these in both values, in all pairs.
fn of_any_origin(record: &Record) -> Vec<Record> {
    let pair = |tuner| ANY.map(|repaired| with_origin(record, tuner, repaired));
    ANY.iter().flat_map(|&tuner| pair(tuner)).collect()
}

/// The places of the first powers of the generator: eight are repaired, nine are not.
fn hits(n: usize) -> Vec<usize> {
    GENERATOR[..n].iter().map(|power| 203 - power).collect()
}

/// The values that stand in the frame.
fn in_frame(record: &Record) -> &[u64] {
    &record[..IN_FRAME]
}

#[test]
fn the_coding() {
    assert_eq!((TUNER, REPAIRED, IN_FRAME, VALUES), (19, 20, 19, 21));
    assert_eq!(TUNERS, NUMBERS.map(|(tuner, _)| tuner));
    for (tuner, number) in NUMBERS {
        assert_eq!(tuner.number(), number);
        assert_eq!(Tuner::named(number), tuner);
    }
    for number in [3, 4, 255, 256, 257, 1 << 32, (1 << 32) + 1, u64::MAX] {
        assert_eq!(Tuner::named(number), Tuner::None, "{number}");
    }
}

/// "A frame record gains the tuner that the reader is told ... and the number of repaired places."
#[test]
fn every_tuner_told_and_every_number_of_hits() {
    for sent in legal() {
        let whole = written_in(AreaSafety, &sent);
        for (tuner, number) in NUMBERS {
            for count in 0..=8 {
                let other_hits: Vec<usize> = (0..count).map(|i| 17 + 23 * i).collect();
                for places in [hits(count), other_hits] {
                    let received = flipped(whole, &places);
                    let expected = with_origin(&sent, number, count as u64);
                    let answer = read(AreaSafety, tuner, &received);
                    assert_eq!(answer, Ok((expected, 0)), "{tuner:?} {count}");
                    let first = if sent[IDENTIFICATION] == 5 {
                        Err(6)
                    } else {
                        answer
                    };
                    assert_eq!(read(First, tuner, &received), first);
                }
            }
            let nine = flipped(whole, &hits(9));
            assert_eq!(in_both(|edition| read(edition, tuner, &nine)), Err(4));
        }
    }
}

/// The differing bits of B1 to B16 stay beside the record: they are no repaired places.
#[test]
fn differing_bits_are_not_among_the_repaired_places() {
    for sent in &legal()[..4] {
        for count in 0..=8 {
            for differing in 0..=3 {
                let pattern: Vec<usize> = (0..differing).map(|i| 4 + 5 * i).collect();
                let received = flipped(flipped(written(sent), &hits(count)), &pattern);
                let answer = in_both(|edition| read(edition, Tuner::Spare, &received));
                let expected = with_origin(sent, 2, count as u64);
                assert_eq!(answer, Ok((expected, differing as u8)));
                assert_eq!(
                    in_both(|edition| judge(edition, &received)),
                    Ok(count as u8)
                );
            }
        }
    }
}

/// A refusal is the same whatever tuner is told.
#[test]
fn refusals_do_not_look_at_the_tuner() {
    let whole = written(&[0; VALUES]);
    let mut undefined = whole;
    put(&mut undefined, 21..=23, 4);
    for tuner in TUNERS {
        let answer = |frame: &[u8]| in_both(|edition| read(edition, tuner, frame));
        assert_eq!(answer(&[]), Err(1));
        assert_eq!(answer(&whole[..25]), Err(1));
        assert_eq!(answer(&flipped(whole, &[207])), Err(2));
        assert_eq!(answer(&[0; 26]), Err(3));
        assert_eq!(answer(&flipped(whole, &hits(9))), Err(4));
        assert_eq!(answer(&flipped(whole, &hits(18))), Err(5));
        assert_eq!(answer(&sealed(undefined)), Err(6));
    }
}

/// "The writer ignores both": the same bytes are written, and the same refusals given, with the buffer left as it was.
#[test]
fn the_writer_ignores_both() {
    for base in legal() {
        for edition in EDITIONS {
            let refused = edition == First && base[IDENTIFICATION] == 5;
            let number = if refused { 6 } else { 0 };
            let mut expected = [0xA5; 26];
            assert_eq!(write(edition, &base, &mut expected), number);
            for record in of_any_origin(&base) {
                let mut buffer = [0xA5; 26];
                assert_eq!(record_refusal(edition, &record), number, "{record:?}");
                assert_eq!(write(edition, &record, &mut buffer), number);
                assert_eq!(buffer, expected);
                assert_eq!(write(edition, &record, &mut [0; 25]), 1);
            }
        }
    }
    for (base, numbers) in illegal() {
        for record in of_any_origin(&base) {
            for (edition, number) in EDITIONS.into_iter().zip(numbers) {
                let mut buffer = [0xA5; 26];
                assert_eq!(record_refusal(edition, &record), number, "{record:?}");
                assert_eq!(write(edition, &record, &mut buffer), number);
                assert_eq!(buffer, [0xA5; 26]);
            }
        }
    }
}

/// "Everything that takes or hands on a record follows": the report and the areas do not change with where the record came from.
#[test]
fn report_and_areas_ignore_both() {
    let legal = legal();
    let illegal = illegal().map(|(record, _)| record);
    for base in legal.iter().chain(&illegal) {
        for record in of_any_origin(base) {
            for edition in EDITIONS {
                assert_eq!(report(edition, &record), report(edition, base));
            }
            for area in [0, 1, 42, 55, 56, u64::MAX] {
                assert_eq!(warned(&record, area), warned(base, area));
            }
        }
    }
    assert!(warned(&with_origin(&[0; VALUES], u64::MAX, u64::MAX), 15));
    assert_eq!(
        report(First, &with_origin(&legal[2], 3, 256)),
        Ok(Report::Cancellation)
    );
    assert_eq!(
        report(AreaSafety, &with_origin(&legal[4], 3, 256)),
        Ok(Report::AreaSafety)
    );
}

/// "a written and freshly read record has count 0 and the tuner then told", whatever stood there before; "the same in all fields but these two".
#[test]
fn written_and_freshly_read() {
    for base in legal() {
        for record in of_any_origin(&base) {
            let frame = written_in(AreaSafety, &record);
            for (tuner, number) in NUMBERS {
                let (back, differing) = read(AreaSafety, tuner, &frame).expect("accepted");
                assert_eq!(in_frame(&back), in_frame(&record));
                assert_eq!((back[19], back[20], differing), (number, 0, 0));
            }
        }
    }
}

#[test]
fn spare_and_seven_read_as_main() {
    for base in legal() {
        let frame = written_in(AreaSafety, &with_origin(&base, 2, 7));
        let main = with_origin(&base, 1, 0);
        assert_eq!(read(AreaSafety, Tuner::Main, &frame), Ok((main, 0)));
    }
}

/// "An accepted frame, read and written, comes back as the frame with its damage repaired": the record of a damaged frame is legal, and its frame
/// clean.
#[test]
fn a_damaged_frame_written_and_read_again() {
    for base in legal() {
        let whole = written_in(AreaSafety, &base);
        let received = flipped(whole, &hits(7));
        let (first, _) = read(AreaSafety, Tuner::Spare, &received).expect("accepted");
        assert_eq!(first, with_origin(&base, 2, 7));
        assert_eq!(written_in(AreaSafety, &first), whole);
        assert_eq!(clean(AreaSafety, &received), Ok(whole));
        let again = read(AreaSafety, Tuner::Main, &whole);
        assert_eq!(again, Ok((with_origin(&first, 1, 0), 0)));
    }
}

/// The follower takes frames, and is told no tuner: damage changes nothing.
#[test]
fn the_follower_does_not_look_at_the_count() {
    let whole = written(&record(&[(IDENTIFICATION, 1), (UPDATE, 2)]));
    for count in 0..=8 {
        let received = flipped(whole, &hits(count));
        let old = State::Active(Kind::Real, 1);
        let answer = in_both(|edition| follow(edition, old, &received));
        assert_eq!(answer, (State::Active(Kind::Real, 2), Event::Changed));
    }
}

/// The answer of `capture::read`, which agrees with the frame taken and with both numbers.
fn read_captures(
    edition: Edition,
    main: &[u8],
    spare: &[u8],
    n: u64,
) -> Result<(Record, u8), (u8, u8)> {
    let answer = capture::read(edition, main, spare, n);
    let taken = frame_at(edition, main, spare, n);
    match answer {
        Ok((record, differing)) => {
            let tuner = Tuner::named(record[TUNER]);
            assert_eq!(read(edition, tuner, taken), Ok((record, differing)));
            assert_eq!(judge(edition, taken).map(u64::from), Ok(record[REPAIRED]));
            let of_main = numbers(edition, main, spare, n).0;
            let from = if of_main == 0 {
                Tuner::Main
            } else {
                Tuner::Spare
            };
            assert_eq!(tuner, from);
        }
        Err(both) => {
            assert_eq!(taken, &[] as &[u8]);
            assert_eq!(numbers(edition, main, spare, n), both);
        }
    }
    answer
}

fn both_read(main: &[u8], spare: &[u8], n: u64) -> Result<(Record, u8), (u8, u8)> {
    in_both(|edition| read_captures(edition, main, spare, n))
}

/// Two records that are not the same, and their frames.
fn two() -> ([Record; 2], [[u8; 26]; 2]) {
    let [areas, place, ..] = legal();
    ([areas, place], [written(&areas), written(&place)])
}

/// "the main one if accepted there", with its own number of repaired places.
#[test]
fn the_main_one_if_accepted_there() {
    let ([of_main, _], [main, spare]) = two();
    for count in 0..=8 {
        let main = flipped(main, &hits(count));
        let expected = Ok((with_origin(&of_main, 1, count as u64), 0));
        for spare in [&spare[..], &main, &[0; 26], &[]] {
            assert_eq!(both_read(&main, spare, 0), expected);
        }
        let damaged_spare = flipped(spare, &hits(8 - count));
        assert_eq!(both_read(&main, &damaged_spare, 0), expected);
        let two_bits = flipped(main, &[2, 16]);
        let expected = Ok((with_origin(&of_main, 1, count as u64), 2));
        assert_eq!(both_read(&two_bits, &damaged_spare, 0), expected);
    }
}

/// "otherwise the spare one if accepted there", with the spare one's number of repaired places.
#[test]
fn otherwise_the_spare_one() {
    let ([_, of_spare], [main, spare]) = two();
    let nine = flipped(main, &hits(9));
    let four_bits = flipped(main, &[1, 2, 3, 4]);
    for count in 0..=8 {
        let spare = flipped(flipped(spare, &hits(count)), &[9]);
        let expected = Ok((with_origin(&of_spare, 2, count as u64), 1));
        for main in [&nine[..], &four_bits, &[0; 26], &main[..25], &[]] {
            assert_eq!(both_read(main, &spare, 0), expected);
        }
    }
}

/// Nine hits in the main one; the same frame, hit in three places, in the spare one.
#[test]
fn the_same_frame_in_both() {
    let ([sent, _], [whole, _]) = two();
    let (nine, three) = (flipped(whole, &hits(9)), flipped(whole, &hits(3)));
    let from = |tuner, repaired| Ok((with_origin(&sent, tuner, repaired), 0));
    assert_eq!(both_read(&nine, &three, 0), from(2, 3));
    assert_eq!(both_read(&three, &nine, 0), from(1, 3));
    assert_eq!(both_read(&three, &whole, 0), from(1, 3));
    assert_eq!(both_read(&nine, &nine, 0), Err((4, 4)));
}

#[test]
fn neither() {
    let (_, [main, spare]) = two();
    let filler = flipped(spare, &[205]);
    let nine = flipped(main, &hits(9));
    assert_eq!(both_read(&nine, &filler, 0), Err((4, 2)));
    assert_eq!(both_read(&filler, &nine, 0), Err((2, 4)));
    assert_eq!(both_read(&[0; 26], &nine, 0), Err((3, 4)));
    assert_eq!(both_read(&nine, &[], 0), Err((4, 1)));
    assert_eq!(both_read(&[], &nine, 0), Err((1, 4)));
    assert_eq!(both_read(&[], &[], 0), Err((1, 1)));
}

/// "frame n at byte 26n"; "A frame number whose 26 bytes do not all lie in a capture, however large, is 1 there."
#[test]
fn past_the_end_of_one_or_both() {
    let ([a, b], [frame_a, frame_b]) = two();
    let long = [frame_a, frame_b, frame_a].concat();
    let short = [frame_b, frame_a].concat();
    let from = |record, tuner| Ok((with_origin(record, tuner, 0), 0));
    assert_eq!(both_read(&long, &short, 0), from(&a, 1));
    assert_eq!(both_read(&long, &short, 1), from(&b, 1));
    assert_eq!(both_read(&long, &short, 2), from(&a, 1));
    assert_eq!(both_read(&short, &long, 0), from(&b, 1));
    assert_eq!(both_read(&short, &long, 1), from(&a, 1));
    assert_eq!(both_read(&short, &long, 2), from(&a, 2));
    assert_eq!(both_read(&long[..77], &short, 2), Err((1, 1)));
    assert_eq!(both_read(&long[..77], &long, 2), from(&a, 2));
    assert_eq!(both_read(&long[..25], &short[..51], 0), from(&b, 2));
    assert_eq!(both_read(&long[..25], &short[..51], 1), Err((1, 1)));
    // 26 times 2^63 is a multiple of 2^64, and 26 times one more is 26 above it.
    for n in [
        3,
        1 << 31,
        1 << 32,
        u64::MAX / 26,
        u64::MAX / 26 + 1,
        1 << 63,
        (1 << 63) + 1,
        u64::MAX,
    ] {
        assert_eq!(both_read(&long, &short, n), Err((1, 1)), "frame {n}");
    }
}

/// By the edition named: the first takes the spare one where the main one is area safety information.
#[test]
fn captures_by_the_edition() {
    let [areas, .., safety] = legal();
    let main = flipped(written_in(AreaSafety, &safety), &hits(8));
    let spare = flipped(written(&areas), &hits(2));
    let answer = |edition| read_captures(edition, &main, &spare, 0);
    assert_eq!(answer(First), Ok((with_origin(&areas, 2, 2), 0)));
    assert_eq!(answer(AreaSafety), Ok((with_origin(&safety, 1, 8), 0)));
    let answer = |edition| read_captures(edition, &main, &main, 0);
    assert_eq!(answer(First), Err((6, 6)));
}

/// The seven fields that the desk gives, in the order of `DeskWarning`, each with its greatest value.
const GIVEN: [(usize, u64); 7] = [
    (IDENTIFICATION, 3),
    (UPDATE, 3),
    (TIME, 0x7FFF_FFFF),
    (TOTAL, 1),
    (ITEM, 1),
    (NUMBER, 511),
    (OCCURRED, 1023),
];

fn warning(values: [u64; 7]) -> DeskWarning {
    let [identification, update, time, total, item, number, occurred] = values;
    DeskWarning {
        identification,
        update,
        time,
        total,
        item,
        number,
        occurred,
    }
}

/// A place, from the flag and the tenths of its latitude, those of its longitude, and its depth.
fn place((south, latitude): (u64, u64), (west, longitude): (u64, u64), depth: u64) -> Place {
    Place {
        latitude: degrees(south, latitude),
        longitude: degrees(west, longitude),
        depth: kilometres(depth),
    }
}

fn somewhere() -> Place {
    place((0, 356), (0, 1397), 40)
}

/// Both editions' answers, the first edition's first.
fn desk(values: [u64; 7], place: Place) -> [Result<Record, u8>; 2] {
    EDITIONS.map(|edition| desk_record(edition, warning(values), place))
}

/// All bits of a place.
fn bits(place: Place) -> [u64; 3] {
    [place.latitude, place.longitude, place.depth].map(f64::to_bits)
}

/// What the desk's record is held to: legal, from no tuner, with no repaired place, and its report is the place by bits.
fn is_desk_record(edition: Edition, made: &Record, given: Place) {
    assert_eq!(record_refusal(edition, made), 0);
    assert_eq!((made[TUNER], made[REPAIRED]), (0, 0));
    match report(edition, made) {
        Ok(Report::Place(reported)) => assert_eq!(bits(reported), bits(given)),
        other => panic!("{other:?}"),
    }
    let frame = written_in(edition, made);
    assert_eq!(read(edition, Tuner::None, &frame), Ok((*made, 0)));
}

#[test]
fn good_desk_records() {
    let ends = [(0, 0), (0, 900), (1, 0), (1, 900), (0, 1), (1, 356)];
    for (south, latitude) in ends {
        for (west, longitude) in [(0, 0), (0, 1800), (1, 0), (1, 1800), (1, 901)] {
            for depth in [0, 1, 1023] {
                let given = place((south, latitude), (west, longitude), depth);
                let values = [1, 2, 0x1234_5678, 1, 0, 300, depth];
                let expected = record(&[
                    (IDENTIFICATION, 1),
                    (UPDATE, 2),
                    (TIME, 0x1234_5678),
                    (PAGE, 1),
                    (TOTAL, 1),
                    (NUMBER, 300),
                    (SOUTH, south),
                    (LATITUDE, latitude),
                    (WEST, west),
                    (LONGITUDE, longitude),
                    (DEPTH, depth),
                    (OCCURRED, depth),
                ]);
                assert_eq!(desk(values, given), [Ok(expected); 2]);
                for edition in EDITIONS {
                    is_desk_record(edition, &expected, given);
                }
            }
        }
    }
}

/// Each of the seven fields at 0 and at its greatest value, in its own place of the record; page 1, and all that is not given 0.
#[test]
fn each_given_field_in_its_place() {
    let zero = record(&[(PAGE, 1), (LATITUDE, 356), (LONGITUDE, 1397), (DEPTH, 40)]);
    assert_eq!(desk([0; 7], somewhere()), [Ok(zero); 2]);
    let mut all = zero;
    for (i, (field, last)) in GIVEN.into_iter().enumerate() {
        let mut values = [0; 7];
        values[i] = last;
        let mut expected = zero;
        expected[field] = last;
        all[field] = last;
        assert_eq!(
            desk(values, somewhere()),
            [Ok(expected); 2],
            "field {field}"
        );
    }
    let values = GIVEN.map(|(_, last)| last);
    assert_eq!(desk(values, somewhere()), [Ok(all); 2]);
    is_desk_record(First, &all, somewhere());
}

/// A warning or its test has a place; 5 and 6 leave no page free where they are defined, nor does 7.
#[test]
fn desk_identifications() {
    for (identification, first, area_safety) in [
        (0, 0, 0),
        (1, 0, 0),
        (2, 0, 0),
        (3, 0, 0),
        (4, 6, 6),
        (5, 6, 10),
        (6, 6, 10),
        (7, 10, 10),
        (8, 6, 6),
        (255, 6, 6),
        (u64::MAX, 6, 6),
    ] {
        for update in [0, 3] {
            let values = [identification, update, 5, 0, 0, 6, 7];
            let numbers = desk(values, somewhere()).map(|made| made.err().unwrap_or(0));
            assert_eq!(numbers, [first, area_safety], "{identification}");
        }
    }
}

/// "a field wider than its place"; an identification above 7 is 6 instead, and before.
#[test]
fn one_too_wide() {
    for (i, (field, last)) in GIVEN.into_iter().enumerate().skip(1) {
        for value in [last + 1, 1 << 32, u64::MAX] {
            let mut values = [0; 7];
            values[i] = value;
            assert_eq!(desk(values, somewhere()), [Err(10); 2], "field {field}");
            values[0] = 8;
            assert_eq!(desk(values, somewhere()), [Err(6); 2], "field {field}");
            values[0] = 5;
            assert_eq!(desk(values, somewhere()), [Err(6), Err(10)]);
        }
    }
    assert_eq!(desk([8, 0, 0, 0, 0, 0, 0], somewhere()), [Err(6); 2]);
}

/// 11 comes first: before 6 and before 10.
#[test]
fn no_image_comes_first() {
    let good = somewhere();
    let mut wrong = vec![];
    for x in [
        f64::NAN,
        f64::INFINITY,
        f64::NEG_INFINITY,
        0.05,
        180.1,
        -180.1,
        1024.0,
        5e-324,
    ] {
        wrong.push(Place {
            latitude: x,
            ..good
        });
        wrong.push(Place {
            longitude: x,
            ..good
        });
        wrong.push(Place { depth: x, ..good });
    }
    for latitude in [90.1, -90.1] {
        wrong.push(Place { latitude, ..good });
    }
    for depth in [-0.0, -1.0, 0.5] {
        wrong.push(Place { depth, ..good });
    }
    for given in wrong {
        for values in [
            [0; 7],
            [4, 0, 0, 0, 0, 0, 0],
            [5, 0, 0, 0, 0, 0, 0],
            [7, 0, 0, 0, 0, 0, 0],
            [u64::MAX; 7],
            [0, 4, 0, 0, 0, 0, 0],
            [3, 0, 0, 0, 0, 512, 0],
        ] {
            assert_eq!(desk(values, given), [Err(11); 2], "{given:?}");
        }
    }
}

/// "a southern 0 gives minus zero and the flag is not lost"; a depth of minus zero is no image.
#[test]
fn minus_zero() {
    for (latitude, longitude, south, west) in [
        (0.0, 0.0, 0, 0),
        (-0.0, 0.0, 1, 0),
        (0.0, -0.0, 0, 1),
        (-0.0, -0.0, 1, 1),
    ] {
        let depth = 0.0;
        let given = Place {
            latitude,
            longitude,
            depth,
        };
        let expected = record(&[(PAGE, 1), (SOUTH, south), (WEST, west)]);
        assert_eq!(desk([0; 7], given), [Ok(expected); 2]);
        is_desk_record(AreaSafety, &expected, given);
        let depth = -0.0;
        assert_eq!(desk([0; 7], Place { depth, ..given }), [Err(11); 2]);
    }
}

/// "latitude 0 to 900, longitude 0 to 1800, both signs; depth 0 to 1023": what lies beyond is 11, so the writer's 9 is never met.
#[test]
fn the_desks_limits() {
    for flag in [0, 1] {
        let last = place((flag, 900), (flag, 1800), 1023);
        let expected = record(&[
            (PAGE, 1),
            (SOUTH, flag),
            (LATITUDE, 900),
            (WEST, flag),
            (LONGITUDE, 1800),
            (DEPTH, 1023),
        ]);
        assert_eq!(desk([0; 7], last), [Ok(expected); 2]);
        for beyond in [
            place((flag, 901), (flag, 1800), 1023),
            place((flag, 900), (flag, 1801), 1023),
            place((flag, 900), (flag, 1800), 1024),
            place((flag, 1023), (flag, 2047), 1023),
        ] {
            assert_eq!(desk([0; 7], beyond), [Err(11); 2], "{beyond:?}");
        }
    }
}
