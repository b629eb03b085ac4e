/// Which services the box relays, and so which identifications a frame may have. Frames and records of the identifications that both have are answered
/// alike by both.
///
/// ```
/// use gvozdyana::follower::Update;
/// use gvozdyana::frame::{read, write, Record, Safety, SafetyIdentification};
/// use gvozdyana::{Edition, Refusal, Tuner};
///
/// let safety = Safety {
///     identification: SafetyIdentification::AreaSafety,
///     update: Update::new(0).unwrap(),
///     time: 1000,
/// };
/// let frame = write(Edition::AreaSafety, &Record::area_safety(safety, 5))?;
/// let reading = read(Edition::AreaSafety, Tuner::None, &frame)?;
/// assert_eq!(reading.record.region, 5);
/// let refused = read(Edition::First, Tuner::None, &frame);
/// assert_eq!(refused, Err(Refusal::Identification));
/// # Ok::<(), Refusal>(())
/// ```
#[derive(Clone, Copy, Debug, PartialEq, Eq, Hash)]
pub enum Edition {
    /// Warnings and no information: identification 0 to 3 and 7.
    First,
    /// And area safety information: 5 and 6 too.
    AreaSafety,
}

impl Edition {
    /// The number that the archive is told: 0 for the first, 1 for area safety.
    pub fn number(self) -> u32 {
        self as u32
    }
}
