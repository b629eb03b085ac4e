//! The place in degrees and kilometres, and the desk's place as field values.
use crate::frame::Record;
use crate::{calls, told, Edition, Refusal};

/// A place in degrees and kilometres.
#[derive(Clone, Copy, Debug, PartialEq)]
pub struct Place {
    /// Degrees, negative for south; minus zero is a southern 0.
    pub latitude: f64,
    /// Degrees, negative for west.
    pub longitude: f64,
    /// Kilometres.
    pub depth: f64,
}

/// A place as the record's fields of the same names.
#[derive(Clone, Copy, Debug, PartialEq, Eq, Hash)]
pub struct Fields {
    /// 1 bit: 0 north, 1 south.
    pub south: u64,
    /// 10 bits: tenths of a degree, 0 to 900.
    pub latitude: u64,
    /// 1 bit: 0 east, 1 west.
    pub west: u64,
    /// 11 bits: tenths of a degree, 0 to 1800.
    pub longitude: u64,
    /// 10 bits: kilometres.
    pub depth: u64,
}

/// What a record reports.
#[derive(Clone, Copy, Debug, PartialEq)]
pub enum Report {
    /// Of no information.
    Nothing,
    /// Of page 1, kind 0.
    Place(Place),
    /// Of page 1, kind 1.
    Cancellation,
    /// Of page 0: [`Record::warned_areas`] tells them.
    AreasOnly,
    /// Of area safety information and its test, which only the area safety edition has.
    AreaSafety,
}

/// What a record reports, by the edition named. Refuses 6, then 10, then 9, as the writer does.
///
/// ```
/// use gvozdyana::follower::Update;
/// use gvozdyana::frame::{Identification, Record, Warning};
/// use gvozdyana::place::{report, Fields, Place, Report};
/// use gvozdyana::{Edition, Refusal};
///
/// let warning = Warning {
///     identification: Identification::WarningWithArea,
///     update: Update::new(0).unwrap(),
///     time: 1000,
/// };
/// let fields = Fields { south: 1, latitude: 356, west: 0, longitude: 1397, depth: 40 };
/// let mut record = Record::at_place(warning, 7, fields, 990);
/// let place = Place { latitude: -35.6, longitude: 139.7, depth: 40.0 };
/// assert_eq!(report(Edition::First, &record), Ok(Report::Place(place)));
/// record.longitude = 1801;
/// assert_eq!(report(Edition::First, &record), Err(Refusal::OverLimit));
/// ```
pub fn report(edition: Edition, record: &Record) -> Result<Report, Refusal> {
    let mut place = [0.0; 3];
    let status = calls::report(edition.number(), &record.values(), &mut place);
    Ok(match told(status)? {
        0 => Report::Nothing,
        1 => {
            let [latitude, longitude, depth] = place;
            Report::Place(Place {
                latitude,
                longitude,
                depth,
            })
        }
        2 => Report::Cancellation,
        3 => Report::AreasOnly,
        4 => Report::AreaSafety,
        case => unreachable!("the archive knows no report of case {case}"),
    })
}

/// The desk's place as fields. Refuses 11 unless each double has the very bits of an allowed field value's image (latitude 0 to 900 tenths, longitude
/// 0 to 1800, both signs; depth 0 to 1023).
///
/// ```
/// use gvozdyana::place::{fields, Fields, Place};
/// use gvozdyana::Refusal;
///
/// let mut place = Place { latitude: -0.0, longitude: 139.7, depth: 40.0 };
/// let expected = Fields { south: 1, latitude: 0, west: 0, longitude: 1397, depth: 40 };
/// assert_eq!(fields(place), Ok(expected));
/// place.depth = 40.5;
/// assert_eq!(fields(place), Err(Refusal::NoImage));
/// ```
pub fn fields(place: Place) -> Result<Fields, Refusal> {
    let mut values = [0; 5];
    told(calls::desk(
        place.latitude,
        place.longitude,
        place.depth,
        &mut values,
    ))?;
    let [south, latitude, west, longitude, depth] = values;
    Ok(Fields {
        south,
        latitude,
        west,
        longitude,
        depth,
    })
}
