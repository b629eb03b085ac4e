//! The warning frame, read and written, and records made of what is meant.
use crate::follower::Update;
use crate::{calls, place, told, Edition, Refusal, Tuner, FRAME_BYTES};

/// The values of a frame's record.
pub const FRAME_VALUES: usize = 21;

/// Areas are numbered from 0 to 55, in the order of the notice's schedule 2; 15 is Tokyo.
pub const AREAS: u64 = 56;

/// Declares the record and its order as numbers from one table, of the fields that stand in the frame; the last two say where the record came from.
macro_rules! record {
    ($($name:ident, $words:literal;)*) => {
        /// What a frame says, and how many bits each field has. A field that identification, page and kind do not leave free is 0, so that a record
        /// of zeros is a warning for ALL areas. There is no default: make a record by [`Record::no_information`], [`Record::for_areas`],
        /// [`Record::at_place`], [`Record::cancellation`] or [`Record::area_safety`], and change fields then. Each may hold too much for its place,
        /// and the writer then refuses it. The last two stand in no frame: no rule looks at them, but two records that differ there are not equal.
        ///
        /// ```compile_fail
        /// gvozdyana::frame::Record::default();
        /// ```
        #[derive(Clone, Copy, Debug, PartialEq, Eq, Hash)]
        pub struct Record {
            $(#[doc = $words] pub $name: u64,)*
            /// The tuner that the reader was told; none in a record that is made and not read. No rule looks at it.
            pub tuner: Tuner,
            /// How many places of B17 to B203 the reader repaired, 0 to 8, the unmarked ones alone where it was given marks; 0 in a record that is
            /// made and not read. No rule looks at it.
            pub repaired: u64,
        }

        impl Record {
            /// The record with these values, in the order of the fields; a number that no tuner has is taken for none.
            pub fn from_values([$($name,)* tuner, repaired]: [u64; FRAME_VALUES]) -> Record {
                let tuner = Tuner::from_number(tuner);
                Record { $($name,)* tuner, repaired }
            }

            /// The values of the fields, in their order; the tuner by its number.
            pub fn values(&self) -> [u64; FRAME_VALUES] {
                [$(self.$name,)* self.tuner.number().into(), self.repaired]
            }
        }
    };
}

record! {
    reference, "1 bit: B0, the differential reference, carried as it stands.";
    pattern, "1 bit: 0 for the pattern 0011010111101110 in B1 to B16, 1 for its complement. Received bits may differ from it in up to three places.";
    identification, "3 bits: 0 to 3 are the numbers of an [`Identification`], 5 and 6 of a [`SafetyIdentification`], 7 is no information. 4 is undefined, \
        and refused; so are 5 and 6 in the first edition.";
    update, "2 bits, as `time` of identification 0 to 3, 5 and 6; 0 for 7, although its frame holds ones there. It goes 0, 1, 2, 3 and back to 0, so that the greater one is not the newer one ([`State::follow`](crate::follower::State::follow)).";
    time, "31 bits: the current time, a plain number that is carried as it stands.";
    page, "1 bit: 0 for areas, 1 for a place or a cancellation; identification 0 to 3 alone.";
    areas, "56 bits: area 0 highest, and 0 MEANS WARNED. It means something only on page 0 of identification 0 to 3; elsewhere it is 0 and nobody is \
        warned. Ask [`Record::warned`], which looks at all of that.";
    total, "1 bit, as all from here to `occurred` of page 1 alone: how many places are being sent, 0 for one and 1 for two.";
    item, "1 bit: tells the places that are being sent apart; the notice gives its values no order.";
    number, "9 bits: the warning number.";
    kind, "1 bit: 0 for a place, 1 for a cancellation, which leaves the six after it 0.";
    south, "1 bit: 0 north, 1 south.";
    latitude, "10 bits: tenths of a degree, 0 to 900.";
    west, "1 bit: 0 east, 1 west.";
    longitude, "11 bits: tenths of a degree, 0 to 1800.";
    depth, "10 bits: kilometres.";
    occurred, "10 bits: the time of occurrence, a plain number that is carried as it stands.";
    broadcaster, "11 bits: the broadcaster number, of identification 7 alone.";
    region, "57 bits, B55 highest: the target region of identification 5 and 6 alone, carried as it stands.";
}

/// The identifications of warnings and tests; the number of each is its place here, from 0.
#[derive(Clone, Copy, Debug, PartialEq, Eq, Hash)]
pub enum Identification {
    /// 0: a warning with area.
    WarningWithArea,
    /// 1: a warning without area.
    WarningWithoutArea,
    /// 2: a test with area.
    TestWithArea,
    /// 3: a test without area.
    TestWithoutArea,
}

impl Identification {
    /// The number that a record holds.
    pub fn number(self) -> u64 {
        self as u64
    }
}

/// The identifications of area safety information, which only the area safety edition has.
#[derive(Clone, Copy, Debug, PartialEq, Eq, Hash)]
pub enum SafetyIdentification {
    /// 5: area safety information.
    AreaSafety = 5,
    /// 6: a test of it.
    AreaSafetyTest = 6,
}

impl SafetyIdentification {
    /// The number that a record holds.
    pub fn number(self) -> u64 {
        self as u64
    }
}

/// What every warning and every test carries.
#[derive(Clone, Copy, Debug, PartialEq, Eq, Hash)]
pub struct Warning {
    /// Which of the four it is.
    pub identification: Identification,
    /// The update number.
    pub update: Update,
    /// 31 bits: the current time, a plain number.
    pub time: u64,
}

/// What area safety information and its test carry beside the region.
#[derive(Clone, Copy, Debug, PartialEq, Eq, Hash)]
pub struct Safety {
    /// Which of the two it is.
    pub identification: SafetyIdentification,
    /// The update number.
    pub update: Update,
    /// 31 bits: the current time, a plain number.
    pub time: u64,
}

/// All with pattern 0 and a reference bit of 0, from no tuner and with no repaired place. Numbers that are too great for their places are kept, and
/// refused by the writer.
impl Record {
    /// No information, from the broadcaster with this number, of 11 bits.
    ///
    /// ```
    /// use gvozdyana::frame::{read, write, Record};
    /// use gvozdyana::{Edition, Tuner};
    ///
    /// let record = Record::no_information(5);
    /// assert_eq!(record.warned_areas().count(), 0);
    /// let frame = write(Edition::First, &record)?;
    /// assert_eq!(read(Edition::First, Tuner::None, &frame)?.record, record);
    /// # Ok::<(), gvozdyana::Refusal>(())
    /// ```
    pub fn no_information(broadcaster: u64) -> Record {
        Record {
            identification: 7,
            broadcaster,
            ..Record::from_values([0; FRAME_VALUES])
        }
    }

    /// A warning, or a test, for these areas and no others; `None` where an area is above 55.
    ///
    /// ```
    /// use gvozdyana::follower::Update;
    /// use gvozdyana::frame::{Identification, Record, Warning, AREAS};
    ///
    /// let test = Warning {
    ///     identification: Identification::TestWithArea,
    ///     update: Update::new(0).unwrap(),
    ///     time: 1000,
    /// };
    /// let tokyo = Record::for_areas(test, [15]).unwrap();
    /// assert!(tokyo.warned(15));
    /// assert!(!tokyo.warned(14));
    /// assert_eq!(Record::for_areas(test, 0..AREAS).unwrap().warned_areas().count(), 56);
    /// assert_eq!(Record::for_areas(test, []).unwrap().warned_areas().count(), 0);
    /// assert_eq!(Record::for_areas(test, [15, 56]), None);
    /// ```
    pub fn for_areas(warning: Warning, areas: impl IntoIterator<Item = u64>) -> Option<Record> {
        let mut bits = (1 << AREAS) - 1;
        for area in areas {
            bits &= !(1 << (AREAS - 1).checked_sub(area)?);
        }
        Some(Record {
            areas: bits,
            ..warning.on_page(0)
        })
    }

    /// The place of the warning with this number, of 9 bits, and its time of occurrence, of 10 bits. It is the only one being sent; where there are
    /// two, set `total` to 1 and `item` in each.
    ///
    /// ```
    /// use gvozdyana::follower::Update;
    /// use gvozdyana::frame::{Identification, Record, Warning};
    /// use gvozdyana::place::{fields, report, Place, Report};
    /// use gvozdyana::Edition;
    ///
    /// let warning = Warning {
    ///     identification: Identification::WarningWithArea,
    ///     update: Update::new(1).unwrap(),
    ///     time: 1000,
    /// };
    /// let place = Place { latitude: 35.6, longitude: 139.7, depth: 40.0 };
    /// let record = Record::at_place(warning, 7, fields(place)?, 990);
    /// assert_eq!(report(Edition::First, &record), Ok(Report::Place(place)));
    /// # Ok::<(), gvozdyana::Refusal>(())
    /// ```
    pub fn at_place(warning: Warning, number: u64, place: place::Fields, occurred: u64) -> Record {
        Record {
            number,
            south: place.south,
            latitude: place.latitude,
            west: place.west,
            longitude: place.longitude,
            depth: place.depth,
            occurred,
            ..warning.on_page(1)
        }
    }

    /// The cancellation of the warning with this number, of 9 bits.
    ///
    /// ```
    /// use gvozdyana::follower::Update;
    /// use gvozdyana::frame::{Identification, Record, Warning};
    /// use gvozdyana::place::{report, Report};
    /// use gvozdyana::Edition;
    ///
    /// let warning = Warning {
    ///     identification: Identification::WarningWithArea,
    ///     update: Update::new(2).unwrap(),
    ///     time: 1000,
    /// };
    /// let record = Record::cancellation(warning, 7);
    /// assert_eq!(report(Edition::First, &record), Ok(Report::Cancellation));
    /// ```
    pub fn cancellation(warning: Warning, number: u64) -> Record {
        Record {
            number,
            kind: 1,
            ..warning.on_page(1)
        }
    }

    /// Area safety information, or its test, for this target region, of 57 bits. Only the area safety edition has it: the first refuses it.
    ///
    /// ```
    /// use gvozdyana::follower::Update;
    /// use gvozdyana::frame::{Record, Safety, SafetyIdentification};
    /// use gvozdyana::place::{report, Report};
    /// use gvozdyana::{Edition, Refusal};
    ///
    /// let safety = Safety {
    ///     identification: SafetyIdentification::AreaSafetyTest,
    ///     update: Update::new(1).unwrap(),
    ///     time: 1000,
    /// };
    /// let record = Record::area_safety(safety, (1 << 57) - 1);
    /// assert_eq!(report(Edition::AreaSafety, &record), Ok(Report::AreaSafety));
    /// assert_eq!(report(Edition::First, &record), Err(Refusal::Identification));
    /// let record = Record::area_safety(safety, 1 << 57);
    /// assert_eq!(report(Edition::AreaSafety, &record), Err(Refusal::Field));
    /// ```
    pub fn area_safety(safety: Safety, region: u64) -> Record {
        Record {
            identification: safety.identification.number(),
            update: safety.update.number().into(),
            time: safety.time,
            region,
            ..Record::from_values([0; FRAME_VALUES])
        }
    }
}

impl Warning {
    /// A record of this page, with 0 in the page's fields.
    fn on_page(self, page: u64) -> Record {
        Record {
            identification: self.identification.number(),
            update: self.update.number().into(),
            time: self.time,
            page,
            ..Record::from_values([0; FRAME_VALUES])
        }
    }
}

impl Record {
    /// Whether an area is warned: on page 0 of identification 0 to 3 its bit is 0. An area above 55 is not.
    pub fn warned(&self, area: u64) -> bool {
        let warned = told(calls::warned(&self.values(), area));
        warned.expect("the archive refuses no record of 21 values") == 1
    }

    /// The numbers of the areas that are warned, in their order.
    pub fn warned_areas(&self) -> impl Iterator<Item = u64> + '_ {
        (0..AREAS).filter(|&area| self.warned(area))
    }

    /// Whether all fields are the same but the tuner and the number of repaired places: the two then say the same, and are written alike.
    ///
    /// ```
    /// use gvozdyana::frame::Record;
    /// use gvozdyana::Tuner;
    ///
    /// let desk = Record::no_information(5);
    /// let main = Record { tuner: Tuner::Main, repaired: 3, ..desk };
    /// assert!(main != desk && main.same_fields(&desk));
    /// assert!(!main.same_fields(&Record::no_information(6)));
    /// ```
    pub fn same_fields(&self, other: &Record) -> bool {
        let (tuner, repaired) = (other.tuner, other.repaired);
        let of_the_same_origin = Record {
            tuner,
            repaired,
            ..*self
        };
        of_the_same_origin == *other
    }
}

/// An accepted frame's record, and what the record does not hold of the frame.
#[derive(Clone, Copy, Debug, PartialEq, Eq)]
pub struct Reading {
    /// What the frame says, the tuner told, and the number of repaired places.
    pub record: Record,
    /// How many bits of B1 to B16 differed from the pattern, 0 to 3. They are not among the repaired places.
    pub differing: u8,
}

/// Reads a frame, by the edition named. The tuner is told, as [`capture::source`](crate::capture::source) answers it, and goes into the record; it
/// changes nothing else. Refuses 1 to 9.
///
/// ```
/// use gvozdyana::frame::{read, Record};
/// use gvozdyana::{Edition, Refusal, Tuner};
///
/// let read = |frame: &[u8]| read(Edition::First, Tuner::Main, frame);
/// let mut frame = [0; 26];
/// assert_eq!(read(&frame), Err(Refusal::NoPattern));
/// // Pattern 0 with all else zero is a real warning for all areas.
/// (frame[0], frame[1]) = (0x1A, 0xF7);
/// let clean = read(&frame)?;
/// assert_eq!((clean.record.tuner, clean.record.repaired), (Tuner::Main, 0));
/// assert_eq!(clean.record.warned_areas().count(), 56);
/// // B203 is hit, and B1 to B3 are received wrongly: the same but for the count.
/// (frame[0], frame[25]) = (0x6A, 0x10);
/// let damaged = read(&frame)?;
/// assert_eq!(damaged.record, Record { repaired: 1, ..clean.record });
/// assert_eq!((clean.differing, damaged.differing), (0, 3));
/// // Four bits from both patterns are refused.
/// frame[0] ^= 0x08;
/// assert_eq!(read(&frame), Err(Refusal::NoPattern));
/// # Ok::<(), Refusal>(())
/// ```
pub fn read(edition: Edition, tuner: Tuner, frame: &[u8]) -> Result<Reading, Refusal> {
    let mut values = [0; FRAME_VALUES];
    let status = calls::frame_read(edition.number(), tuner.number(), frame, &mut values);
    let [_, differing, ..] = told(status)?.to_le_bytes();
    Ok(Reading {
        record: Record::from_values(values),
        differing,
    })
}

/// Reads a frame with its doubtful marks, which [`repair_marked`](crate::repair_marked) explains; marks on B1 to B16 change nothing. The record's
/// number of repaired places is that of the unmarked ones. All else is as in [`read`]. Refuses 1, for the frame or for the marks, then 2 to 9.
///
/// ```
/// use gvozdyana::frame::{read, read_marked, write, Record};
/// use gvozdyana::{Edition, Refusal, Tuner};
///
/// let read_marked = |frame: &[u8], marks: &[u8]| {
///     read_marked(Edition::First, Tuner::Main, frame, marks)
/// };
/// let mut frame = write(Edition::First, &Record::no_information(5))?;
/// let clean = read(Edition::First, Tuner::Main, &frame)?;
/// let mut marks = [0; 26];
/// assert_eq!(read_marked(&frame, &marks), Ok(clean));
/// // Bits that cannot be made out, sixteen of them in a row, are marked.
/// (frame[10], frame[11]) = (0, 0);
/// (marks[10], marks[11]) = (0xFF, 0xFF);
/// assert_eq!(read_marked(&frame, &marks), Ok(clean));
/// assert_eq!(read(Edition::First, Tuner::Main, &frame), Err(Refusal::BeyondRepair));
/// assert_eq!(read_marked(&frame, &marks[..25]), Err(Refusal::WrongLength));
/// # Ok::<(), Refusal>(())
/// ```
pub fn read_marked(
    edition: Edition,
    tuner: Tuner,
    frame: &[u8],
    marks: &[u8],
) -> Result<Reading, Refusal> {
    let mut values = [0; FRAME_VALUES];
    let (edition, tuner) = (edition.number(), tuner.number());
    let status = calls::frame_read_marked(edition, tuner, frame, marks, &mut values);
    let [_, differing, ..] = told(status)?.to_le_bytes();
    Ok(Reading {
        record: Record::from_values(values),
        differing,
    })
}

/// What was put right in an accepted frame.
#[derive(Clone, Copy, Debug, PartialEq, Eq)]
pub struct Judgment {
    /// How many unmarked places of B17 to B203 were repaired, 0 to 8.
    pub repaired: u8,
    /// How many bits of B1 to B16 differed from the pattern, 0 to 3. They are not among the repaired places.
    pub differing: u8,
}

/// Judges a frame with its doubtful marks by the first edition, without making a record: refuses as [`read_marked`] does.
///
/// ```
/// use gvozdyana::frame::{judge_marked, Judgment};
/// use gvozdyana::Refusal;
///
/// // A warning for all areas. B203 is hit, B1 is received wrongly, and B195 to B202 are doubtful.
/// let (mut frame, mut marks) = ([0; 26], [0; 26]);
/// (frame[0], frame[1], frame[25]) = (0x5A, 0xF7, 0x10);
/// (marks[24], marks[25]) = (0x1F, 0xE0);
/// let judged = judge_marked(&frame, &marks)?;
/// assert_eq!(judged, Judgment { repaired: 1, differing: 1 });
/// assert_eq!(judge_marked(&frame, &[0xFF; 26]), Err(Refusal::BeyondRepair));
/// # Ok::<(), Refusal>(())
/// ```
pub fn judge_marked(frame: &[u8], marks: &[u8]) -> Result<Judgment, Refusal> {
    let [repaired, differing, ..] = told(calls::frame_judge_marked(frame, marks))?.to_le_bytes();
    Ok(Judgment {
        repaired,
        differing,
    })
}

/// Writes a record, by the edition named; its tuner and its number of repaired places are not looked at. Refuses 6, then 10, then 9.
///
/// ```
/// use gvozdyana::frame::{read, write, Record};
/// use gvozdyana::{Edition, Refusal, Tuner};
///
/// let mut record = Record::no_information(2047);
/// record.repaired = 7;
/// let frame = write(Edition::First, &record)?;
/// let again = read(Edition::First, Tuner::Main, &frame)?.record;
/// assert!(again.same_fields(&record));
/// assert_eq!((again.tuner, again.repaired), (Tuner::Main, 0));
/// record.broadcaster = 2048;
/// assert_eq!(write(Edition::First, &record), Err(Refusal::Field));
/// record.identification = 4;
/// assert_eq!(write(Edition::First, &record), Err(Refusal::Identification));
/// # Ok::<(), Refusal>(())
/// ```
pub fn write(edition: Edition, record: &Record) -> Result<[u8; FRAME_BYTES], Refusal> {
    let mut frame = [0; FRAME_BYTES];
    write_into(edition, record, &mut frame)?;
    Ok(frame)
}

/// The same into a buffer of 26 bytes, which a refusal leaves as it was. A buffer of another length is refusal 1.
pub fn write_into(edition: Edition, record: &Record, frame: &mut [u8]) -> Result<(), Refusal> {
    told(calls::frame_write(
        edition.number(),
        &record.values(),
        frame,
    ))
    .map(|_| ())
}
