//! Following the update number in both editions: every pair of updates, every change of kind, refusals, and numbers that no frame carries. The
//! frames are those that both editions know.
mod common;
use common::{flipped, in_both, record, written};
use reference::follower::{self, reset, Event, Kind, State};
use reference::frame::{IDENTIFICATION, UPDATE};

/// Every kind that a state may hold, in either edition.
const KINDS: [Kind; 4] = [Kind::Real, Kind::Test, Kind::Safety, Kind::SafetyTest];

fn follow(old: State, frame: &[u8]) -> (State, Event) {
    in_both(|edition| follower::follow(edition, old, frame))
}

fn warning(identification: u64, update: u64) -> [u8; 26] {
    written(&record(&[
        (IDENTIFICATION, identification),
        (UPDATE, update),
    ]))
}

fn nothing() -> [u8; 26] {
    written(&record(&[(IDENTIFICATION, 7)]))
}

fn kind_of(identification: u64) -> Kind {
    if identification < 2 {
        Kind::Real
    } else {
        Kind::Test
    }
}

#[test]
fn every_pair_of_updates() {
    // Rows: the update held; columns: the update of the frame.
    let events = ["=+xx", "x=+x", "xx=+", "+xx="];
    for held in 0..4u64 {
        for update in 0..4u64 {
            for identification in 0..4 {
                let kind = kind_of(identification);
                let event = match events[held as usize].as_bytes()[update as usize] {
                    b'=' => Event::Same,
                    b'+' => Event::Changed,
                    _ => Event::Skipped,
                };
                let frame = warning(identification, update);
                let new = State::Active(kind, update);
                assert_eq!(follow(State::Active(kind, held), &frame), (new, event));
                let begins = (new, Event::Begins);
                for other in KINDS.into_iter().filter(|&other| other != kind) {
                    assert_eq!(follow(State::Active(other, held), &frame), begins);
                }
                assert_eq!(follow(State::Quiet, &frame), begins);
            }
        }
    }
}

#[test]
fn no_information_ends() {
    let quiet = |event| (State::Quiet, event);
    assert_eq!(follow(State::Quiet, &nothing()), quiet(Event::Quiet));
    for kind in KINDS {
        let old = State::Active(kind, 2);
        assert_eq!(follow(old, &nothing()), quiet(Event::Ended));
    }
    assert_eq!(reset(), State::Quiet);
}

#[test]
fn a_refused_frame_keeps_the_state() {
    for old in [
        State::Quiet,
        State::Active(Kind::Real, 1),
        State::Active(Kind::Test, u64::MAX),
        State::Active(Kind::Safety, 2),
    ] {
        for length in [0, 5, 25, 27] {
            assert_eq!(follow(old, &vec![0; length]), (old, Event::Refused(1)));
        }
        assert_eq!(follow(old, &[0; 26]), (old, Event::Refused(3)));
    }
}

/// Document 02, e): up to three differing bits of B1 to B16 change no event; four are a refusal.
#[test]
fn a_damaged_pattern() {
    for old in [
        State::Quiet,
        State::Active(Kind::Real, 1),
        State::Active(Kind::Test, 3),
        State::Active(Kind::SafetyTest, 0),
    ] {
        for sent in [warning(0, 2), warning(1, 1), warning(3, 0), nothing()] {
            for places in [&[16][..], &[1, 9], &[3, 4, 12]] {
                let received = flipped(sent, places);
                assert_eq!(follow(old, &received), follow(old, &sent), "{places:?}");
            }
            let four = flipped(sent, &[3, 4, 12, 16]);
            assert_eq!(follow(old, &four), (old, Event::Refused(3)));
        }
    }
}

#[test]
fn a_number_that_no_frame_carries() {
    for held in [255, u64::MAX] {
        let event = |update| follow(State::Active(Kind::Real, held), &warning(0, update)).1;
        assert_eq!(event(0), Event::Changed);
        for update in 1..4 {
            assert_eq!(event(update), Event::Skipped);
        }
    }
}
