//! Following the update number (document 01, "Following the update number"; document 02, "The area safety edition").
use crate::frame::{self, Edition, Tuner, IDENTIFICATION, UPDATE};

/// "real (0, 1)", "test (2, 3)". "The follower gets two more kinds": area safety information (5) and its test (6).
#[derive(Clone, Copy, Debug, PartialEq, Eq)]
pub enum Kind {
    Real,
    Test,
    Safety,
    SafetyTest,
}

/// "States: quiet, real (0, 1) with update u, test (2, 3) with update u", and likewise for the two more kinds. Any state may be met in any
/// edition.
#[derive(Clone, Copy, Debug, PartialEq, Eq)]
pub enum State {
    Quiet,
    Active(Kind, u64),
}

#[derive(Clone, Copy, Debug, PartialEq, Eq)]
pub enum Event {
    Quiet,
    Ended,
    Begins,
    Same,
    Changed,
    Skipped,
    /// "A refused frame gives its number and the old state."
    Refused(u8),
}

/// The new state and the event, of a frame that is judged by the edition named. No record is handed out, and so no tuner is told.
pub fn follow(edition: Edition, old: State, frame: &[u8]) -> (State, Event) {
    let record = match frame::read(edition, Tuner::None, frame) {
        Ok((record, _)) => record,
        Err(number) => return (old, Event::Refused(number)),
    };
    let update = record[UPDATE];
    let kind = match record[IDENTIFICATION] {
        0 | 1 => Kind::Real,
        2 | 3 => Kind::Test,
        5 => Kind::Safety,
        6 => Kind::SafetyTest,
        // "No information: from quiet "quiet", else "ended", and the state is quiet."
        _ if old == State::Quiet => return (State::Quiet, Event::Quiet),
        _ => return (State::Quiet, Event::Ended),
    };
    let event = match old {
        State::Active(before, u) if before == kind => event_of(u, update),
        // "A warning from quiet, or of the other kind: "begins"." ""other" then means any other."
        _ => Event::Begins,
    };
    (State::Active(kind, update), event)
}

/// "Same kind: u equal "same", u+1 mod 4 "changed", otherwise "skipped"." Any number may be held.
fn event_of(held: u64, update: u64) -> Event {
    if update == held {
        Event::Same
    } else if u128::from(update) == (u128::from(held) + 1) % 4 {
        Event::Changed
    } else {
        Event::Skipped
    }
}

/// "A reset gives quiet."
pub fn reset() -> State {
    State::Quiet
}
