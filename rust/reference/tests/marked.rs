//! Doubtful marks (document 02, d): which word is found and with which count, that it is the only one, what does not matter, and the order of the
//! refusals; reading, laying in and listing with marks.
mod common;
use common::{flipped, found, frame, in_both, judge, record, sealed, with_origin, written};
use common::{written_in, ALL_AREAS};
use reference::code::{
    distance, encode, frame_of, is_code_word, protected, Word, DEGREE, GENERATOR, LENGTH,
};
use reference::frame::{
    self, Edition, Record, Tuner, AREAS, BROADCASTER, DEPTH, IDENTIFICATION, KIND, LATITUDE, PAGE,
    PATTERN, REFERENCE, REGION, REPAIRED, TIME, TUNERS, UPDATE, VALUES,
};
use reference::header::{self, FIELDS, FORM, PACKET};
use reference::listing::marked_listing;
use reference::{put, repair, repair_marked, set_bit, Repaired};

/// The bits whose marks are ignored: B0, the synchronising bits and the filler.
const OUTSIDE: [usize; 21] = [
    0, 1, 2, 3, 4, 5, 6, 7, 8, 9, 10, 11, 12, 13, 14, 15, 16, 204, 205, 206, 207,
];

/// The lengths that are tried of a frame and of its marks; 26 is the right one.
const LENGTHS: [usize; 7] = [0, 1, 25, 26, 27, 51, 52];

/// Marks at these places, which are powers of x.
fn marks(places: &[usize]) -> [u8; 26] {
    let mut marks = [0; 26];
    places.iter().for_each(|p| set_bit(&mut marks, 203 - p));
    marks
}

/// The frame with these places, which are powers of x, turned over.
fn hit(frame: [u8; 26], places: &[usize]) -> [u8; 26] {
    let bits: Vec<usize> = places.iter().map(|place| 203 - place).collect();
    flipped(frame, &bits)
}

/// The answer with this word and this t.
fn answer(word: [u8; 26], t: usize) -> Result<Repaired, u8> {
    Ok(Repaired {
        word,
        places: t as u8,
    })
}

/// The generator's code word times x^shift.
fn generator(shift: usize) -> [u8; 26] {
    marks(&GENERATOR.map(|power| power + shift))
}

/// Numbers without a visible order, the same ones for the same seed (SplitMix64).
struct Numbers(u64);

impl Numbers {
    fn next(&mut self) -> u64 {
        self.0 = self.0.wrapping_add(0x9E37_79B9_7F4A_7C15);
        let mut z = self.0;
        z = (z ^ z >> 30).wrapping_mul(0xBF58_476D_1CE4_E5B9);
        z = (z ^ z >> 27).wrapping_mul(0x94D0_49BB_1331_11EB);
        z ^ z >> 31
    }

    /// n different places.
    fn places(&mut self, n: usize) -> Vec<usize> {
        let mut left: Vec<usize> = (0..LENGTH).collect();
        let mut take = |_| left.swap_remove(self.next() as usize % left.len());
        (0..n).map(&mut take).collect()
    }

    fn code_word(&mut self) -> Word {
        encode(&std::array::from_fn(|_| self.next() & 1 == 1))
    }

    fn bytes(&mut self) -> [u8; 26] {
        std::array::from_fn(|_| self.next() as u8)
    }
}

/// A code word, the word received of it as a frame, and its marks: t unmarked places hit, s marked, with anything under the marks.
fn sent_and_marked(t: usize, s: usize, numbers: &mut Numbers) -> (Word, [u8; 26], Vec<usize>) {
    let word = numbers.code_word();
    let places = numbers.places(t + s);
    let (hits, marked) = places.split_at(t);
    let mut under = marked.to_vec();
    under.retain(|_| numbers.next() & 1 == 1);
    let received = hit(hit(frame_of(&word), hits), &under);
    (word, received, marked.to_vec())
}

/// Every choice of up to two of these places.
fn choices(most: usize, places: &[usize]) -> Vec<Vec<usize>> {
    let mut choices = vec![vec![]];
    for (i, &a) in places.iter().enumerate() {
        if most >= 1 {
            choices.push(vec![a]);
        }
        if most >= 2 {
            choices.extend(places[..i].iter().map(|&b| vec![a, b]));
        }
    }
    choices
}

/// The code words that differ in at most this many unmarked places, two at most, and in how many: every filling with every choice is tried.
fn search(received: &[u8], marked: &[usize], most: usize) -> Vec<(Word, usize)> {
    let sure: Vec<usize> = (0..LENGTH)
        .filter(|place| !marked.contains(place))
        .collect();
    let mut found = vec![];
    for filling in 0..1u32 << marked.len() {
        let mut filled = protected(received);
        for (i, &place) in marked.iter().enumerate() {
            filled[place] = (filling >> i & 1) as u8;
        }
        for choice in choices(most, &sure) {
            let mut word = filled;
            choice.iter().for_each(|&place| word[place] ^= 1);
            if is_code_word(&word) {
                found.push((word, choice.len()));
            }
        }
    }
    found
}

/// The answer by the base's repair of every filling, the word's t counted here.
fn by_fillings(received: &[u8], marked: &[usize]) -> Result<Repaired, u8> {
    let mut found = vec![];
    for filling in 0..1u32 << marked.len() {
        let mut filled = protected(received);
        for (i, &place) in marked.iter().enumerate() {
            filled[place] = (filling >> i & 1) as u8;
        }
        if let Ok(repaired) = repair(&frame_of(&filled)) {
            let word = protected(&repaired.word);
            let under = |&&place: &&usize| word[place] != filled[place];
            let t = distance(&word, &filled) - marked.iter().filter(under).count();
            if 2 * t + marked.len() <= 17 {
                found.push((word, t));
            }
        }
    }
    found.sort_unstable();
    found.dedup();
    assert!(found.len() <= 1, "There is never more than one.");
    let (word, t) = found.first().ok_or(4)?;
    answer(frame_of(word), *t)
}

#[test]
fn seventeen_of_the_generators_places_marked() {
    for left in 0..18 {
        let mut places = GENERATOR.to_vec();
        let unmarked = places.remove(left);
        let seventeen = marks(&places);
        assert_eq!(repair_marked(&[0; 26], &seventeen), answer([0; 26], 0));
        let received = hit([0; 26], &[unmarked]);
        let expected = answer(generator(0), 0);
        assert_eq!(repair_marked(&received, &seventeen), expected, "{unmarked}");
        // "The bits under marks must not matter."
        let ones = hit([0; 26], &places);
        assert_eq!(repair_marked(&ones, &seventeen), answer([0; 26], 0));
        assert_eq!(repair_marked(&generator(0), &seventeen), expected);
    }
}

#[test]
fn eighteen_sixteen_and_fifteen_marked() {
    let eighteen = marks(&GENERATOR);
    assert_eq!(repair_marked(&[0; 26], &eighteen), Err(4));
    assert_eq!(repair_marked(&generator(0), &eighteen), Err(4));
    let sixteen = marks(&GENERATOR[..16]);
    assert_eq!(repair_marked(&[0; 26], &sixteen), answer([0; 26], 0));
    for other in &GENERATOR[16..] {
        let received = hit([0; 26], &[*other]);
        assert_eq!(repair_marked(&received, &sixteen), Err(4), "2+16 is 18");
    }
    let both = hit([0; 26], &GENERATOR[16..]);
    assert_eq!(repair_marked(&both, &sixteen), answer(generator(0), 0));
    let fifteen = marks(&GENERATOR[..15]);
    for other in &GENERATOR[15..] {
        let received = hit([0; 26], &[*other]);
        let expected = answer([0; 26], 1);
        assert_eq!(repair_marked(&received, &fifteen), expected, "2+15 is 17");
    }
}

/// s of the generator's places are marked and t of the others received as 1: zeros have 2t+s, and the generator, which differs in the 18-s-t others,
/// has 36-2t-s. These two sum up to 36, so that one of them is at most 17 unless both are 18. Document 01's examples 3, 4 and 5 are those without
/// marks.
#[test]
fn all_marks_and_hits_in_the_generators_places() {
    for shift in [0, 1, 50, LENGTH - 1 - DEGREE] {
        let places = GENERATOR.map(|power| power + shift);
        for s in 0..=18 {
            for t in 0..=18 - s {
                let (marked, others) = places.split_at(s);
                let received = hit([0; 26], &others[..t]);
                let expected = match 2 * t + s {
                    0..=17 => answer([0; 26], t),
                    18 => Err(4),
                    _ => answer(generator(shift), 18 - s - t),
                };
                let answer = repair_marked(&received, &marks(marked));
                assert_eq!(answer, expected, "{t} and {s}, times x^{shift}");
            }
        }
    }
}

#[test]
fn more_than_seventeen_marks() {
    let mut numbers = Numbers(1);
    for s in 0..=LENGTH {
        let (word, received, marked) = sent_and_marked(0, s, &mut numbers);
        let expected = if s <= 17 {
            answer(frame_of(&word), 0)
        } else {
            Err(4)
        };
        let answer = repair_marked(&received, &marks(&marked));
        assert_eq!(answer, expected, "{s} marks");
    }
    assert_eq!(repair_marked(&[0; 26], &[0xFF; 26]), Err(4));
}

/// Hits under marks are not among t.
#[test]
fn t_counts_unmarked_places_only() {
    let mut numbers = Numbers(2);
    for s in 0..=17 {
        for t in 0..=(17 - s) / 2 {
            let word = frame_of(&numbers.code_word());
            let places = numbers.places(t + s);
            for under in 0..=s {
                let received = hit(word, &places[..t + under]);
                let answered = repair_marked(&received, &marks(&places[t..]));
                assert_eq!(answered, answer(word, t), "{t}, {s}, {under} under");
            }
        }
    }
}

/// 2t+s is 18: then no word is within 17, since it would differ from the one sent in t+t'+s places, fewer than 18.
#[test]
fn one_more_than_seventeen() {
    let mut numbers = Numbers(3);
    for t in 0..=9 {
        for _ in 0..10 {
            let (_, received, marked) = sent_and_marked(t, 18 - 2 * t, &mut numbers);
            assert_eq!(repair_marked(&received, &marks(&marked)), Err(4), "{t}");
        }
    }
}

#[test]
fn without_marks_the_answer_is_the_bases() {
    let mut numbers = Numbers(4);
    for t in 0..=12 {
        for _ in 0..100 {
            let (_, received, _) = sent_and_marked(t, 0, &mut numbers);
            assert_eq!(repair_marked(&received, &[0; 26]), repair(&received));
        }
    }
    for _ in 0..500 {
        let noise = numbers.bytes();
        assert_eq!(repair_marked(&noise, &[0; 26]), repair(&noise));
    }
}

/// Each bit under a mark turned over alone, and any of them together.
#[test]
fn bits_under_marks_do_not_matter() {
    let mut numbers = Numbers(5);
    for s in 1..=20 {
        for t in 0..=(20 - s) / 2 {
            let (_, received, marked) = sent_and_marked(t, s, &mut numbers);
            let marks = marks(&marked);
            let expected = repair_marked(&received, &marks);
            for i in 0..s {
                let other = hit(received, &marked[i..=i]);
                assert_eq!(repair_marked(&other, &marks), expected, "{t} and {s}");
                let many = hit(received, &marked[..i]);
                assert_eq!(repair_marked(&many, &marks), expected, "{t} and {s}");
            }
        }
    }
}

/// Neither marks there nor what was received there.
#[test]
fn marks_outside_do_not_matter() {
    let mut numbers = Numbers(6);
    for s in [0, 1, 7, 8, 16, 17, 18] {
        for t in [0, (17usize.saturating_sub(s)) / 2, 9] {
            let (_, received, marked) = sent_and_marked(t, s, &mut numbers);
            let marks = marks(&marked);
            let expected = repair_marked(&received, &marks);
            let everywhere = flipped(marks, &OUTSIDE);
            assert_eq!(repair_marked(&received, &everywhere), expected);
            for k in OUTSIDE {
                assert_eq!(repair_marked(&received, &flipped(marks, &[k])), expected);
                assert_eq!(repair_marked(&flipped(received, &[k]), &marks), expected);
            }
        }
    }
}

/// With few marks a word with t at most two is found exactly when the search finds it.
#[test]
fn few_marks_against_every_choice() {
    let mut numbers = Numbers(7);
    for s in 0..=4 {
        for t in 0..=3 {
            let (_, received, marked) = sent_and_marked(t, s, &mut numbers);
            let searched = search(&received, &marked, 2);
            assert!(searched.len() <= 1, "There is never more than one.");
            let expected = searched.first().map(|(word, t)| (frame_of(word), *t));
            let answered = repair_marked(&received, &marks(&marked));
            let within_two = |repaired: &Repaired| repaired.places <= 2;
            let answered = answered.ok().filter(within_two);
            let answered = answered.map(|found| (found.word, usize::from(found.places)));
            assert_eq!(answered, expected, "{t} and {s}");
            assert_eq!(answered.is_some(), t <= 2);
        }
    }
}

/// With many marks the search is complete: 14 leave one unmarked place, 16 and 17 none.
#[test]
fn many_marks_against_every_choice() {
    let mut numbers = Numbers(8);
    let near = |s: usize, t: usize| (hit([0; 26], &GENERATOR[s..s + t]), GENERATOR[..s].to_vec());
    for (s, t) in [(14, 1), (16, 0), (16, 1), (16, 2), (17, 0), (17, 1)] {
        let (_, received, marked) = sent_and_marked(t, s, &mut numbers);
        for (received, marked) in [(received, marked), near(s, t)] {
            let searched = search(&received, &marked, (17 - s) / 2);
            assert!(searched.len() <= 1, "There is never more than one.");
            let expected = match searched.first() {
                Some((word, t)) => answer(frame_of(word), *t),
                None => Err(4),
            };
            let answered = repair_marked(&received, &marks(&marked));
            assert_eq!(answered, expected, "{t} and {s}");
        }
    }
}

/// Where the method changes, from seven marks to eight, and a little beyond: the base's repair of every filling.
#[test]
fn some_marks_against_every_filling() {
    let mut numbers = Numbers(9);
    for s in 5..=11 {
        for t in 0..=(19 - s) / 2 {
            let (_, received, marked) = sent_and_marked(t, s, &mut numbers);
            let expected = by_fillings(&received, &marked);
            assert_eq!(repair_marked(&received, &marks(&marked)), expected);
            assert_eq!(expected.is_ok(), 2 * t + s <= 17, "{t} and {s}");
        }
        let noise = numbers.bytes();
        let marked = numbers.places(s);
        let expected = by_fillings(&noise, &marked);
        assert_eq!(repair_marked(&noise, &marks(&marked)), expected);
    }
}

/// 1 for either length and before all else, then 4.
#[test]
fn the_lengths_of_frame_and_marks() {
    for frame_length in LENGTHS {
        for marks_length in LENGTHS {
            for fill in [0, 0xFF] {
                let (frame, marks) = (vec![fill; frame_length], vec![0xFF; marks_length]);
                // Ones have a filler bit; zeros have neither pattern.
                let (alone, judged) = match (frame_length, marks_length) {
                    (26, 26) => (4, if fill == 0 { 3 } else { 2 }),
                    _ => (1, 1),
                };
                assert_eq!(repair_marked(&frame, &marks), Err(alone));
                assert_eq!(judge_marked(&frame, &marks), Err(judged));
            }
        }
    }
    let all = frame(ALL_AREAS);
    for length in LENGTHS {
        let expected = if length == 26 { Ok((0, 0)) } else { Err(1) };
        assert_eq!(judge_marked(&all, &vec![0; length]), expected);
    }
}

/// What both editions answer.
fn judge_marked(frame: &[u8], marks: &[u8]) -> Result<(u8, u8), u8> {
    in_both(|edition| frame::judge_marked(edition, frame, marks))
}

fn clean_marked(frame: &[u8], marks: &[u8]) -> Result<[u8; 26], u8> {
    in_both(|edition| frame::clean_marked(edition, frame, marks))
}

/// What both editions read when no tuner is told; told another one, the same but for that tuner.
fn read_marked(frame: &[u8], marks: &[u8]) -> Result<(Record, u8), u8> {
    in_both(|edition| {
        let none = frame::read_marked(edition, Tuner::None, frame, marks);
        for (number, tuner) in (0..).zip(TUNERS) {
            let told = |(record, differing): (Record, u8)| {
                let record = with_origin(&record, number, record[REPAIRED]);
                (record, differing)
            };
            let read = frame::read_marked(edition, tuner, frame, marks);
            assert_eq!(read, none.map(told));
        }
        none
    })
}

/// A record of each kind.
fn records() -> [Record; 4] {
    [
        record(&[(IDENTIFICATION, 2), (UPDATE, 2), (TIME, 77), (AREAS, 12345)]),
        record(&[(REFERENCE, 1), (PAGE, 1), (LATITUDE, 356), (DEPTH, 40)]),
        record(&[(IDENTIFICATION, 3), (PATTERN, 1), (PAGE, 1), (KIND, 1)]),
        record(&[(PATTERN, 1), (IDENTIFICATION, 7), (BROADCASTER, 1000)]),
    ]
}

/// Everything that is said of one frame with marks: "The count reported is t", in the record too.
#[test]
fn reading_with_marks() {
    let mut numbers = Numbers(10);
    for sent in records() {
        let whole = written(&sent);
        for s in 0..=18 {
            for t in 0..=(18 - s) / 2 {
                let differing = numbers.next() as usize % 4;
                let places = numbers.places(t + s);
                let bits: Vec<usize> = (0..differing).map(|i| 2 + 5 * i).collect();
                // Every other one of the marked places is hit too.
                let under: Vec<usize> = places[t..].iter().copied().step_by(2).collect();
                let received = hit(hit(flipped(whole, &bits), &places[..t]), &under);
                let marks = marks(&places[t..]);
                let fits = 2 * t + s <= 17;
                let expected = found(sent, t as u8, differing as u8);
                let read = read_marked(&received, &marks);
                assert_eq!(read, if fits { Ok(expected) } else { Err(4) });
                let judged = judge_marked(&received, &marks);
                assert_eq!(judged, read.map(|_| (t as u8, differing as u8)));
                assert_eq!(clean_marked(&received, &marks), read.map(|_| whole));
            }
        }
    }
}

#[test]
fn reading_without_marks() {
    let mut numbers = Numbers(11);
    for sent in records() {
        for hits in 0..=10 {
            let received = hit(written(&sent), &numbers.places(hits));
            let none = [0; 26];
            assert_eq!(read_marked(&received, &none), common::read(&received));
            assert_eq!(clean_marked(&received, &none), common::clean(&received));
            let places = judge_marked(&received, &none).map(|(t, _)| t);
            assert_eq!(places, judge(&received));
        }
    }
}

/// Area safety information is read with marks in its own edition and refused in the first.
#[test]
fn the_edition_named() {
    let sent = record(&[(IDENTIFICATION, 5), (TIME, 9), (REGION, 1 << 56 | 3)]);
    let whole = written_in(Edition::AreaSafety, &sent);
    let received = hit(whole, &[0, 186, 30, 40]);
    let marks = marks(&[30, 40, 100]);
    for (edition, expected) in [
        (Edition::First, Err(6)),
        (Edition::AreaSafety, Ok(found(sent, 2, 0))),
    ] {
        let read = frame::read_marked(edition, Tuner::None, &received, &marks);
        assert_eq!(read, expected);
        let clean = frame::clean_marked(edition, &received, &marks);
        assert_eq!(clean, expected.map(|_| whole));
        let judged = frame::judge_marked(edition, &received, &marks);
        assert_eq!(judged, expected.map(|_| (2, 0)));
    }
    let piece = [received, marks].concat();
    assert_eq!(marked_listing(&piece), b"1 6 -\nend 1\n", "first edition");
}

/// Frames of which the word sent is refused with 5 to 9.
fn refused_words() -> Vec<([u8; 26], u8)> {
    let mut place = written(&record(&[(PAGE, 1)]));
    put(&mut place, 69..=78, 901);
    let mut words = vec![(sealed(place), 9)];
    for (digits, number) in [
        ("1af7040000000000000000000000dd3571e5e0074536075add60", 5),
        ("1af7640000000000000000000000dd6ba7e8239c630ae7c28140", 6),
        ("1af7077fffffff805fffffffffffcd3b0241c13d6f14b3b28d70", 7),
        ("1af7000000000100070a0000000071fee4dcd9339873b730f150", 8),
    ] {
        words.push((frame(digits), number));
    }
    words
}

/// 1, 2 and 3 before 4 with the marks; 5 to 9 after it, on the word that the marks give.
#[test]
fn the_order_of_the_refusals() {
    let eighteen = marks(&GENERATOR);
    for (refused, number) in refused_words() {
        assert_eq!(judge_marked(&refused, &[0; 26]), Err(number));
        // Two hits, and eight more under marks; without the marks these would be ten.
        let received = hit(flipped(refused, &[3]), &GENERATOR[..10]);
        let eight = marks(&GENERATOR[2..10]);
        assert_eq!(judge_marked(&received, &eight), Err(number));
        assert_eq!(judge_marked(&received, &eighteen), Err(4));
        let pattern = flipped(received, &[4, 5, 6]);
        assert_eq!(judge_marked(&pattern, &eighteen), Err(3));
        for filler in 204..208 {
            let filler = flipped(pattern, &[filler]);
            assert_eq!(judge_marked(&filler, &eighteen), Err(2));
            assert_eq!(judge_marked(&filler, &eighteen[..25]), Err(1));
            assert_eq!(judge_marked(&filler[..25], &eighteen), Err(1));
        }
    }
    // The marks make example 11's zeros the generator, whose CRC is wrong.
    let received = hit(frame(ALL_AREAS), &GENERATOR[..1]);
    assert_eq!(judge_marked(&received, &marks(&GENERATOR[1..])), Err(5));
}

/// Damaged patterns are accepted with marks as without; marks over B0 to B16 and the filler do nothing, neither for the pattern nor to s.
#[test]
fn damaged_patterns_with_marks() {
    let hits = hit(frame(ALL_AREAS), &GENERATOR[..6]);
    let four = marks(&GENERATOR[4..8]);
    for turned in 0..=16 {
        let bits: Vec<usize> = (1..=turned).collect();
        let received = flipped(hits, &bits);
        let expected = match turned {
            0..=3 => Ok(found([0; VALUES], 4, turned as u8)),
            13.. => Ok(found(record(&[(PATTERN, 1)]), 4, 16 - turned as u8)),
            _ => Err(3),
        };
        for outside in [vec![], bits, (1..=16).collect(), OUTSIDE.to_vec()] {
            let marks = flipped(four, &outside);
            assert_eq!(read_marked(&received, &marks), expected, "{turned} bits");
            let line = match expected {
                Ok(_) => "1 0 4\nend 1\n",
                Err(_) => "1 3 -\nend 1\n",
            };
            assert_eq!(text(&[received, marks].concat()), line, "{turned} bits");
        }
    }
}

fn text(input: &[u8]) -> String {
    String::from_utf8(marked_listing(input)).expect("text")
}

#[test]
fn one_clean_frame_with_its_marks_and_a_short_piece() {
    let mut input = [frame(ALL_AREAS), [0; 26]].concat();
    assert_eq!(text(&input), "1 0 0\nend 1\n");
    for length in 1..52 {
        let short = &[frame(ALL_AREAS), [0; 26]].concat()[..length];
        let all = text(&[&input[..], short].concat());
        assert_eq!(all, "1 0 0\n2 1 -\nend 2\n", "{length} bytes");
        // 1 before 2, and whatever the bytes are.
        let all = text(&vec![0xFF; length]);
        assert_eq!(all, "1 1 -\nend 1\n", "{length} bytes");
    }
    input.extend([0; 26]);
    assert_eq!(text(&input), "1 0 0\n2 1 -\nend 2\n");
    assert_eq!(text(&[]), "end 0\n");
}

#[test]
fn lines_of_frames_with_marks() {
    let all = frame(ALL_AREAS);
    let (six, eighteen) = (marks(&GENERATOR[..6]), marks(&GENERATOR));
    let mut input = vec![];
    for (frame, marks) in [
        // 18 marks behind a filler bit, behind a pattern with four differing bits, and alone.
        (flipped(all, &[207]), eighteen),
        (flipped(all, &[1, 2, 3, 4]), eighteen),
        (all, eighteen),
        // The marked ones do not count, and with six marks up to five others are repaired: 2*5+6 is 16.
        (hit(all, &GENERATOR[..6]), six),
        (hit(all, &GENERATOR[..11]), six),
        (hit(all, &GENERATOR[..12]), six),
        // The same without marks: six hits, and eleven, which are within seven places of the generator, whose CRC is wrong.
        (hit(all, &GENERATOR[..6]), [0; 26]),
        (hit(all, &GENERATOR[..11]), [0; 26]),
        ([0; 26], [0; 26]),
    ] {
        input.extend([frame, marks].concat());
    }
    let lines = "1 2 -\n2 3 -\n3 4 -\n4 0 0\n5 0 5\n6 4 -\n7 0 6\n8 5 -\n9 3 -\nend 9\n";
    assert_eq!(text(&input), lines);
}

#[test]
fn the_listing_stops_after_999999_pieces() {
    for length in [51_999_948, 51_999_949, 52_000_000] {
        let all = text(&vec![0; length]);
        assert_eq!(all.lines().count(), 1_000_000);
        assert!(all.ends_with("\n999999 3 -\nend 999999\n"));
    }
    let all = text(&vec![0; 51_999_947]);
    assert!(all.ends_with("\n999998 3 -\n999999 1 -\nend 999999\n"));
}

/// A header that is accepted.
fn header() -> [u8; 188] {
    let mut record = [0; FIELDS];
    record[PACKET] = 0x4700_0000;
    record[FORM] = 1;
    let mut buffer = [0; 188];
    assert_eq!(header::write(&record, &mut buffer), 0);
    buffer
}

/// Lays in with marks, which in both editions gives the same number and leaves the same header.
fn lay_in_marked(header: &[u8], frame: &[u8], marks: &[u8]) -> (u8, Vec<u8>) {
    in_both(|edition| {
        let mut after = header.to_vec();
        let number = header::lay_in_marked(edition, &mut after, frame, marks);
        (number, after)
    })
}

#[test]
fn laying_in_with_marks() {
    for sent in records() {
        let whole = written(&sent);
        let mut laid = header();
        assert_eq!(header::lay_in(Edition::First, &mut laid, &whole), 0);
        let received = hit(flipped(whole, &[2, 9, 16]), &GENERATOR[..10]);
        for (marked, expected) in [
            (2..10, (0, laid.to_vec())),
            (1..17, (4, header().to_vec())),
            (0..18, (4, header().to_vec())),
        ] {
            let marks = marks(&GENERATOR[marked]);
            assert_eq!(lay_in_marked(&header(), &received, &marks), expected);
        }
        let none = lay_in_marked(&header(), &whole, &[0; 26]);
        assert_eq!(none, (0, laid.to_vec()));
    }
}

/// "Laying in tests the header fully, then the frame", to which its marks belong.
#[test]
fn refused_laying_in_changes_nothing() {
    let (good, all, eighteen) = (header(), frame(ALL_AREAS), marks(&GENERATOR));
    let mut broken = good;
    broken[187] ^= 1;
    let filler = flipped(all, &[204]);
    // Header, frame and marks, and the number.
    type Case<'a> = ([&'a [u8]; 3], u8);
    let cases: [Case; 8] = [
        ([&good[..187], &all, &[0; 26]], 1),
        ([&broken, &all, &[]], 13),
        ([&broken, &[], &eighteen], 13),
        ([&good, &filler, &[0; 25]], 1),
        ([&good, &[0; 27], &eighteen], 1),
        ([&good, &filler, &eighteen], 2),
        ([&good, &[0; 26], &eighteen], 3),
        ([&good, &all, &eighteen], 4),
    ];
    for ([header, frame, marks], number) in cases {
        let expected = (number, header.to_vec());
        assert_eq!(lay_in_marked(header, frame, marks), expected);
    }
}
