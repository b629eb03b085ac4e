//! The update number followed.
use crate::{calls, Edition, Refusal};

/// An update number, 0 to 3.
#[derive(Clone, Copy, Debug, PartialEq, Eq, Hash)]
pub struct Update(u8);

impl Update {
    /// None above 3.
    pub fn new(number: u8) -> Option<Update> {
        (number < 4).then_some(Update(number))
    }

    /// The number, 0 to 3.
    pub fn number(self) -> u8 {
        self.0
    }
}

/// What the follower keeps between frames. A new one, and one that is reset, is quiet.
#[derive(Clone, Copy, Debug, Default, PartialEq, Eq, Hash)]
pub enum State {
    /// No information was last received, or nothing yet.
    #[default]
    Quiet,
    /// A warning with this update number, identification 0 or 1.
    Real(Update),
    /// A test with this update number, identification 2 or 3.
    Test(Update),
    /// Area safety information with this update number, identification 5.
    Safety(Update),
    /// A test of area safety information with this update number, identification 6.
    SafetyTest(Update),
}

/// What a frame means after those before it.
#[derive(Clone, Copy, Debug, PartialEq, Eq, Hash)]
pub enum Event {
    /// No information, as before.
    Quiet,
    /// No information, after anything else.
    Ended,
    /// Anything else from quiet, or after another kind: of the four kinds each other one.
    Begins,
    /// The update number that was held.
    Same,
    /// The update number after the one that was held, modulo 4.
    Changed,
    /// Any other update number.
    Skipped,
    /// The frame is refused, and the state stays.
    Refused(Refusal),
}

impl State {
    /// The state's number: 0 quiet; the update number and 4 real, 8 test, 12 safety, 16 safety test.
    pub fn number(self) -> u32 {
        match self {
            State::Quiet => 0,
            State::Real(update) => 4 + u32::from(update.0),
            State::Test(update) => 8 + u32::from(update.0),
            State::Safety(update) => 12 + u32::from(update.0),
            State::SafetyTest(update) => 16 + u32::from(update.0),
        }
    }

    /// The state with this number; any other number is taken for quiet.
    ///
    /// ```
    /// use gvozdyana::follower::{State, Update};
    ///
    /// let state = State::Real(Update::new(3).unwrap());
    /// assert_eq!(State::from_number(state.number()), state);
    /// assert_eq!(State::from_number(20), State::Quiet);
    /// ```
    pub fn from_number(number: u32) -> State {
        match number {
            4..=7 => State::Real(Update(number as u8 - 4)),
            8..=11 => State::Test(Update(number as u8 - 8)),
            12..=15 => State::Safety(Update(number as u8 - 12)),
            16..=19 => State::SafetyTest(Update(number as u8 - 16)),
            _ => State::Quiet,
        }
    }

    /// The next state and the event, of a frame that is judged by the edition named. Any state may be met in any edition.
    ///
    /// ```
    /// use gvozdyana::follower::{Event, State, Update};
    /// use gvozdyana::frame::{write, Identification, Record, Warning};
    /// use gvozdyana::{Edition, Refusal};
    ///
    /// let with_update = |number| {
    ///     let warning = Warning {
    ///         identification: Identification::WarningWithArea,
    ///         update: Update::new(number).unwrap(),
    ///         time: 1000,
    ///     };
    ///     write(Edition::First, &Record::for_areas(warning, [15]).unwrap())
    /// };
    /// let follow = |state: State, frame: &[u8]| state.follow(Edition::First, frame);
    /// let (state, event) = follow(State::Quiet, &with_update(3)?);
    /// assert_eq!(event, Event::Begins);
    /// assert_eq!(follow(state, &with_update(0)?).1, Event::Changed);
    /// let nothing = write(Edition::First, &Record::no_information(5))?;
    /// assert_eq!(follow(state, &nothing), (State::Quiet, Event::Ended));
    /// assert_eq!(follow(state, &[]), (state, Event::Refused(Refusal::WrongLength)));
    /// # Ok::<(), Refusal>(())
    /// ```
    pub fn follow(self, edition: Edition, frame: &[u8]) -> (State, Event) {
        let status = calls::follow(edition.number(), self.number(), frame);
        let event = match (Refusal::from_status(status), status >> 8 & 255) {
            (Some(refusal), _) => Event::Refused(refusal),
            (None, 0) => Event::Quiet,
            (None, 1) => Event::Ended,
            (None, 2) => Event::Begins,
            (None, 3) => Event::Same,
            (None, 4) => Event::Changed,
            (None, 5) => Event::Skipped,
            (None, event) => unreachable!("the archive knows no event {event}"),
        };
        (State::from_number(status >> 16), event)
    }
}
