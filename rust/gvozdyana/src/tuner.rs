/// A tuner, or none: the one that [`capture::source`](crate::capture::source) takes a frame from, that [`frame::read`](crate::frame::read) is told, and
/// that a record then holds.
///
/// ```
/// use gvozdyana::frame::{read, write, Record};
/// use gvozdyana::{Edition, Refusal, Tuner};
///
/// let desk = Record::no_information(5);
/// assert_eq!(desk.tuner, Tuner::None);
/// let frame = write(Edition::First, &desk)?;
/// let spare = read(Edition::First, Tuner::Spare, &frame)?.record;
/// assert_eq!(spare.tuner, Tuner::Spare);
/// assert!(spare.same_fields(&desk));
/// # Ok::<(), Refusal>(())
/// ```
#[derive(Clone, Copy, Debug, PartialEq, Eq, Hash)]
pub enum Tuner {
    /// Neither tuner, or none was told; a record that is made and not read has it.
    None,
    /// The one whose frame is taken if it is accepted.
    Main,
    /// The one whose frame is taken if only it is accepted.
    Spare,
}

impl Tuner {
    /// The number that the archive is told and a record's values hold: 0 for none, 1 for main, 2 for spare.
    pub fn number(self) -> u32 {
        self as u32
    }

    /// The tuner with this number; any other number is taken for none.
    pub(crate) fn from_number(number: u64) -> Tuner {
        match number {
            1 => Tuner::Main,
            2 => Tuner::Spare,
            _ => Tuner::None,
        }
    }
}
