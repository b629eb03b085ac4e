//! The proved repair beside the plain one and beside the second engine, on frames of all sorts.
mod common;
use common::{for_each_seed, frames, hex, length, Case};
use gvozdyana::{calls, repair, repair_by_register, repair_into, Refusal, Repaired, FRAME_BYTES};
use reference::code::{distance, frame_of, is_code_word, protected, Word, GENERATOR, LENGTH};
use samples::{code_word, hit, sent_and_hit, shifted_generator, Random};

/// The proved answer, once it is the plain version's.
fn compared(frame: &[u8], case: Case) -> Result<Repaired, Refusal> {
    let proved = repair(frame);
    let told = proved.map(|r| (r.word, r.places)).map_err(Refusal::number);
    let plain = reference::repair(frame).map(|r| (r.word, r.places));
    assert_eq!(told, plain, "frame {} of {case}", hex(frame));
    proved
}

#[test]
fn code_words_hit_in_up_to_14_places() {
    for_each_seed(1, frames() * 60 / 100, |random, case| {
        let hits = random.below(15);
        let (sent, frame) = sent_and_hit(hits, random);
        let told = compared(&frame, case);
        let what = || format!("frame {} of {case}, {hits} hits", hex(&frame));
        match told {
            Ok(r) => {
                let word = protected(&r.word);
                assert!(is_code_word(&word), "{}", what());
                assert_eq!(
                    distance(&protected(&frame), &word),
                    usize::from(r.places),
                    "{}",
                    what()
                );
                assert!(r.places <= 8, "{}", what());
                assert_eq!(r.word, frame_of(&word), "{}", what());
            }
            Err(refusal) => assert_eq!(refusal, Refusal::BeyondRepair, "{}", what()),
        }
        if hits <= 8 {
            assert_eq!(
                told,
                Ok(Repaired {
                    word: frame_of(&sent),
                    places: hits as u8
                }),
                "{}",
                what()
            );
        }
        if hits == 9 {
            // Two code words differ in at least 18 places, so no other is nearer than nine.
            assert_eq!(told, Err(Refusal::BeyondRepair), "{}", what());
        }
    });
}

#[test]
fn eight_nine_and_ten_of_the_generators_places() {
    for_each_seed(2, frames() * 15 / 100, |random, case| {
        // Every second time on the generator itself, else on the generator times a power of x.
        let shift = random.below(2) * random.below(105);
        let places = GENERATOR.map(|power| power + shift);
        for (hits, expected) in [
            (
                8,
                Ok(Repaired {
                    word: [0; FRAME_BYTES],
                    places: 8,
                }),
            ),
            (9, Err(Refusal::BeyondRepair)),
            (
                10,
                Ok(Repaired {
                    word: frame_of(&shifted_generator(shift)),
                    places: 8,
                }),
            ),
        ] {
            let chosen = random.choose(hits, &places);
            let frame = hit(&[0; LENGTH], &chosen, random);
            assert_eq!(
                compared(&frame, case),
                expected,
                "frame {} of {case}, {hits} places",
                hex(&frame)
            );
        }
    });
}

#[test]
fn noise() {
    for_each_seed(3, frames() * 10 / 100, |random, case| {
        compared(&random.bytes(FRAME_BYTES), case).ok();
    });
}

#[test]
fn lengths_from_0_to_60() {
    for_each_seed(4, frames() * 10 / 100, |random, case| {
        let n = random.below(61);
        let frame = random.bytes(n);
        let told = compared(&frame, case);
        assert_eq!(
            told == Err(Refusal::WrongLength),
            n != FRAME_BYTES,
            "frame {} of {case}",
            hex(&frame)
        );
    });
}

#[test]
fn buffers_of_0_to_60_bytes() {
    for_each_seed(5, frames() * 5 / 100, |random, case| {
        let hits = random.below(12);
        let (_, mut frame) = sent_and_hit(hits, random);
        let frame = &mut frame[..if random.below(8) == 0 {
            random.below(26)
        } else {
            26
        }];
        let n = if random.below(2) == 0 {
            FRAME_BYTES
        } else {
            random.below(61)
        };
        let before = random.bytes(n);
        let mut word = before.clone();
        let told = repair_into(frame, &mut word);
        let plain = if n == FRAME_BYTES {
            reference::repair(frame)
        } else {
            Err(1)
        };
        let left = plain.map_or(before, |r| r.word.to_vec());
        let what = || format!("frame {} of {case}, {n} bytes", hex(frame));
        assert_eq!(
            told.map_err(Refusal::number),
            plain.map(|r| r.places),
            "{}",
            what()
        );
        assert_eq!(word, left, "{}", what());
    });
}

/// Any nine to 17 places of any word: refused, or a word that was not sent, with a count of at least 18 less the hits.
#[test]
fn nine_to_17_hits_anywhere() {
    for_each_seed(6, frames() * 10 / 100, |random, case| {
        let hits = 9 + random.below(9);
        let (sent, frame) = sent_and_hit(hits, random);
        let what = || format!("frame {} of {case}, {hits} hits", hex(&frame));
        match compared(&frame, case) {
            Ok(r) => {
                assert!(hits > 9, "{}", what());
                assert_ne!(protected(&r.word), sent, "{}", what());
                assert!(usize::from(r.places) + hits >= 18, "{}", what());
                assert!(r.places <= 8, "{}", what());
            }
            Err(refusal) => assert_eq!(refusal, Refusal::BeyondRepair, "{}", what()),
        }
    });
}

/// A frame in which a code word's hits lead towards another, 18 places apart; and the other.
fn hit_towards_another(hits: usize, random: &mut Random) -> ([u8; FRAME_BYTES], Word) {
    let sent = code_word(random);
    let apart = shifted_generator(random.below(105));
    let places: Vec<usize> = (0..LENGTH).filter(|&place| apart[place] == 1).collect();
    let chosen = random.choose(hits, &places);
    let other = std::array::from_fn(|place| sent[place] ^ apart[place]);
    (hit(&sent, &chosen, random), other)
}

/// Hits that lead towards another code word, which random ones hardly ever do: the least count that is allowed.
#[test]
fn nine_to_17_hits_towards_another_word() {
    for_each_seed(7, frames() * 10 / 100, |random, case| {
        let hits = 9 + random.below(9);
        let (frame, other) = hit_towards_another(hits, random);
        let expected = if hits == 9 {
            Err(Refusal::BeyondRepair)
        } else {
            Ok(Repaired {
                word: frame_of(&other),
                places: 18 - hits as u8,
            })
        };
        assert_eq!(
            compared(&frame, case),
            expected,
            "frame {} of {case}, {hits} hits",
            hex(&frame)
        );
    });
}

/// Both answers to ten hits, on the zero word.
#[test]
fn ten_hits_on_the_zero_word() {
    let mut frame = [0; FRAME_BYTES];
    for k in 17..27 {
        frame[k / 8] |= 128 >> (k % 8);
    }
    assert_eq!(hex(&frame[..4]), "00007fe0");
    assert_eq!(repair(&frame), Err(Refusal::BeyondRepair));

    let generator = frame_of(&shifted_generator(0));
    let mut frame = generator;
    for k in [121, 126, 127, 132, 136, 137, 147, 151] {
        frame[k / 8] ^= 128 >> (k % 8);
    }
    let told = Repaired {
        word: generator,
        places: 8,
    };
    assert_eq!(repair(&frame), Ok(told));
}

/// Clean, hit in 1 to 17 places anywhere or towards another code word, noise, and noise of 0 to 60 bytes.
fn frame_of_any_sort(random: &mut Random) -> Vec<u8> {
    let hits = 1 + random.below(17);
    match random.below(10) {
        0 => sent_and_hit(0, random).1.to_vec(),
        1..=5 => sent_and_hit(hits, random).1.to_vec(),
        6 | 7 => hit_towards_another(hits, random).0.to_vec(),
        8 => random.bytes(FRAME_BYTES),
        _ => {
            let n = random.below(61);
            random.bytes(n)
        }
    }
}

/// The second engine takes long, so that its frames are fewer.
#[test]
fn the_second_engine() {
    for_each_seed(8, frames() * 3 / 100, |random, case| {
        let frame = frame_of_any_sort(random);
        assert_eq!(
            repair_by_register(&frame),
            compared(&frame, case),
            "frame {} of {case}",
            hex(&frame)
        );
    });
}

#[test]
fn every_length_and_the_second_engine() {
    for_each_seed(9, 20, |random, case| {
        for n in (0..=60).filter(|&n| n != FRAME_BYTES) {
            let frame = random.bytes(n);
            let told = repair_by_register(&frame);
            assert_eq!(told, Err(Refusal::WrongLength), "{n} bytes of {case}");
            assert_eq!(told, compared(&frame, case), "{n} bytes of {case}");
        }
    });
}

/// What the two engines answer and leave in a buffer, which is most often of 26 bytes.
#[test]
fn buffers_of_the_second_engine() {
    for_each_seed(10, frames() / 100, |random, case| {
        let frame = frame_of_any_sort(random);
        let n = length(FRAME_BYTES, random);
        let before = random.bytes(n);
        let (mut left, mut left_by_register) = (before.clone(), before.clone());
        let status = calls::repair(&frame, &mut left);
        let what = || format!("frame {} of {case}, {n} bytes", hex(&frame));
        assert_eq!(
            calls::repair_register(&frame, &mut left_by_register),
            status,
            "{}",
            what()
        );
        assert_eq!(left_by_register, left, "{}", what());
        if status & 255 != 0 {
            assert_eq!(left_by_register, before, "{}", what());
        }
    });
}
