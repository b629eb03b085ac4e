//! The day's ledger: what became of a list of frames, in numbers, and the report that is printed of it and read again.
use crate::{calls, told, Edition, Refusal};
use std::str::FromStr;

/// The values of a ledger.
pub const LEDGER_VALUES: usize = 12;

/// The most frames that a ledger counts.
pub const MOST_FRAMES: u64 = 4_000_000;

/// The numbers of a list of frames: how many were seen, refused with each of 1 to 9, and accepted, and the places that were repaired in all.
///
/// A ledger is possible where some list of at most [`MOST_FRAMES`] frames gives it: the frames seen are the sum of those refused and those accepted,
/// and at most so many, and the repaired places are at most eight times those accepted. The fresh one is, and so is whatever [`Ledger::count`] and
/// [`Ledger::parse`] make. One that [`Ledger::from_values`] makes of other numbers is refused 18 where it is used.
///
/// ```
/// use gvozdyana::frame::{write, Record};
/// use gvozdyana::ledger::Ledger;
/// use gvozdyana::{Edition, Refusal};
///
/// let mut frame = write(Edition::First, &Record::no_information(5))?;
/// // On the way two bits are hit.
/// frame[10] ^= 0x11;
/// let mut ledger = Ledger::new();
/// ledger.count(Edition::First, &frame)?;
/// ledger.count(Edition::First, &frame[..5])?;
/// assert_eq!((ledger.seen(), ledger.accepted(), ledger.repaired()), (2, 1, 2));
/// assert_eq!((ledger.refused(1), ledger.refused(2)), (1, 0));
///
/// let report = ledger.report()?;
/// assert!(report.starts_with("seen 2\nrefused 1 1\nrefused 2 0\n"));
/// assert!(report.ends_with("refused 9 0\naccepted 1\nrepaired 2\n"));
/// assert_eq!(report.parse(), Ok(ledger));
/// // An emptied ledger starts a new list.
/// ledger = Ledger::new();
/// assert_eq!(ledger.seen(), 0);
/// # Ok::<(), Refusal>(())
/// ```
#[derive(Clone, Copy, Debug, Default, PartialEq, Eq, Hash)]
pub struct Ledger([u64; LEDGER_VALUES]);

impl Ledger {
    /// The fresh one: no frame was seen.
    pub fn new() -> Ledger {
        Ledger::default()
    }

    /// The ledger with these values: the frames seen, those refused with 1 to 9, those accepted, and the repaired places. They may be any.
    ///
    /// ```
    /// use gvozdyana::ledger::Ledger;
    /// use gvozdyana::{Edition, Refusal};
    ///
    /// // One frame was accepted, and nine places of it were repaired.
    /// let mut ledger = Ledger::from_values([1, 0, 0, 0, 0, 0, 0, 0, 0, 0, 1, 9]);
    /// assert_eq!(ledger.report(), Err(Refusal::ImpossibleLedger));
    /// let refused = ledger.count(Edition::First, &[]);
    /// assert_eq!((refused, ledger.seen()), (Err(Refusal::ImpossibleLedger), 1));
    /// ```
    pub fn from_values(values: [u64; LEDGER_VALUES]) -> Ledger {
        Ledger(values)
    }

    /// The values of the ledger.
    pub fn values(&self) -> [u64; LEDGER_VALUES] {
        self.0
    }

    /// How many frames were seen: those refused and those accepted together.
    pub fn seen(&self) -> u64 {
        self.0[0]
    }

    /// How many frames were refused with this number. No frame is refused with another one than 1 to 9, and of those there are 0.
    pub fn refused(&self, number: u8) -> u64 {
        match number {
            1..=9 => self.0[usize::from(number)],
            _ => 0,
        }
    }

    /// How many frames were accepted.
    pub fn accepted(&self) -> u64 {
        self.0[10]
    }

    /// The repaired places of all accepted frames together.
    pub fn repaired(&self) -> u64 {
        self.0[11]
    }

    /// Counts one more frame, of any bytes: as one refused with the number that [`frame::read`](crate::frame::read) refuses it with by the edition
    /// named, or as one accepted, with its repaired places. Refuses 18 for a ledger that is not possible, then 19 for one that has [`MOST_FRAMES`]
    /// already; the ledger is then as it was. What the frame is refused for is counted, and not answered.
    ///
    /// ```
    /// use gvozdyana::ledger::{Ledger, MOST_FRAMES};
    /// use gvozdyana::{Edition, Refusal};
    ///
    /// let mut ledger = Ledger::new();
    /// while ledger.seen() < MOST_FRAMES {
    ///     ledger.count(Edition::First, &[])?;
    /// }
    /// assert_eq!(ledger.refused(1), MOST_FRAMES);
    /// let full = ledger;
    /// assert_eq!(ledger.count(Edition::First, &[]), Err(Refusal::LedgerFull));
    /// assert_eq!(ledger, full);
    /// # Ok::<(), Refusal>(())
    /// ```
    pub fn count(&mut self, edition: Edition, frame: &[u8]) -> Result<(), Refusal> {
        told(calls::ledger_count(edition.number(), &mut self.0, frame)).map(|_| ())
    }

    /// How many bytes the report has, 137 to 203. Refuses 18 for a ledger that is not possible.
    pub fn report_length(&self) -> Result<usize, Refusal> {
        told(calls::ledger_length(&self.0)).map(|bytes| bytes as usize)
    }

    /// The report: a line for each value, in their order, with its name, a space, the value in decimal digits and a newline. Refuses 18 for a ledger
    /// that is not possible.
    ///
    /// ```
    /// use gvozdyana::ledger::Ledger;
    /// use gvozdyana::Refusal;
    ///
    /// let report = Ledger::new().report()?;
    /// let names: Vec<&str> = report.lines().filter_map(|line| line.strip_suffix(" 0")).collect();
    /// assert_eq!(names[..3], ["seen", "refused 1", "refused 2"]);
    /// assert_eq!(names[9..], ["refused 9", "accepted", "repaired"]);
    /// # Ok::<(), Refusal>(())
    /// ```
    pub fn report(&self) -> Result<String, Refusal> {
        let mut text = vec![0; self.report_length()?];
        self.report_into(&mut text)?;
        Ok(String::from_utf8(text).expect("the archive prints ASCII alone"))
    }

    /// The same into a buffer of the report's length, which a refusal leaves as it was. Refuses 18, then 27 for a buffer of another length.
    pub fn report_into(&self, text: &mut [u8]) -> Result<(), Refusal> {
        told(calls::ledger_print(&self.0, text)).map(|_| ())
    }

    /// The ledger whose report this is. Refuses 18 exactly where the text is not, byte for byte, the report of some possible ledger.
    ///
    /// ```
    /// use gvozdyana::ledger::Ledger;
    /// use gvozdyana::Refusal;
    ///
    /// let report = Ledger::new().report()?;
    /// assert_eq!(Ledger::parse(report.as_bytes()), Ok(Ledger::new()));
    /// for other in [report.trim_end(), &report.replace('0', "00"), &report.repeat(2)] {
    ///     assert_eq!(other.parse::<Ledger>(), Err(Refusal::ImpossibleLedger));
    /// }
    /// # Ok::<(), Refusal>(())
    /// ```
    pub fn parse(text: &[u8]) -> Result<Ledger, Refusal> {
        let mut ledger = Ledger::new();
        told(calls::ledger_parse(text, &mut ledger.0))?;
        Ok(ledger)
    }
}

impl FromStr for Ledger {
    type Err = Refusal;

    fn from_str(text: &str) -> Result<Ledger, Refusal> {
        Ledger::parse(text.as_bytes())
    }
}
