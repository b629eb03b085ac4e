//! The place in degrees, and the desk's place as field values (document 01, "The place in degrees"); the desk's record (document 02, j).
use crate::frame::{
    record_refusal, Edition, Record, Tuner, DEPTH, IDENTIFICATION, ITEM, KIND, LATITUDE, LONGITUDE,
    NUMBER, OCCURRED, PAGE, SOUTH, TIME, TOTAL, TUNER, UPDATE, VALUES, WEST,
};

/// "The desk's hand-typed place is one record of three doubles."
#[derive(Clone, Copy, Debug, PartialEq)]
pub struct Place {
    pub latitude: f64,
    pub longitude: f64,
    pub depth: f64,
}

/// The fields of a place.
#[derive(Clone, Copy, Debug, PartialEq, Eq)]
pub struct PlaceFields {
    pub south: u64,
    pub latitude: u64,
    pub west: u64,
    pub longitude: u64,
    pub depth: u64,
}

/// What the desk gives of a warning beside its place.
#[derive(Clone, Copy, Debug, PartialEq, Eq)]
pub struct DeskWarning {
    pub identification: u64,
    pub update: u64,
    pub time: u64,
    pub total: u64,
    pub item: u64,
    pub number: u64,
    pub occurred: u64,
}

/// "A report is a place with its three doubles, a cancellation, or areas only"; "Identification 7 is a fourth case, nothing." For
/// identification 5 and 6 document 02, a): "their report is a fifth case, without data".
#[derive(Clone, Copy, Debug, PartialEq)]
pub enum Report {
    Place(Place),
    Cancellation,
    AreasOnly,
    Nothing,
    AreaSafety,
}

/// "Latitude is the tenths as a double divided by ten, rounded once; longitude likewise"; "South or west negates the quotient".
pub fn degrees(negated: u64, tenths: u64) -> f64 {
    let quotient = tenths as f64 / 10.0;
    if negated == 1 {
        -quotient
    } else {
        quotient
    }
}

/// "Depth is the km as a double."
pub fn kilometres(depth: u64) -> f64 {
    depth as f64
}

/// The flag and the tenths whose image has the very bits of x, sought among all of them.
fn tenths_of(x: f64, limit: u64) -> Option<(u64, u64)> {
    for flag in 0..=1 {
        for tenths in 0..=limit {
            if degrees(flag, tenths).to_bits() == x.to_bits() {
                return Some((flag, tenths));
            }
        }
    }
    None
}

/// "It becomes fields exactly when each double has the very bits of some allowed field value's image (latitude 0 to 900, longitude 0 to
/// 1800, both signs; depth 0 to 1023). Otherwise 11, NaN and infinities too."
pub fn fields_of(place: Place) -> Result<PlaceFields, u8> {
    let (south, latitude) = tenths_of(place.latitude, 900).ok_or(11)?;
    let (west, longitude) = tenths_of(place.longitude, 1800).ok_or(11)?;
    let depth = (0..=1023)
        .find(|&km| kilometres(km).to_bits() == place.depth.to_bits())
        .ok_or(11)?;
    Ok(PlaceFields {
        south,
        latitude,
        west,
        longitude,
        depth,
    })
}

/// The record of what the desk gives: page 1 and kind 0, which hold a place, and 0 in all that is not given. Its tuner is "none, as in a desk
/// record", and no place of it was repaired. The place is tested first (11), then the record as by the writer, by the edition named: 6 or 10, but
/// never 9, for the place's images keep the house limits.
pub fn desk_record(edition: Edition, warning: DeskWarning, place: Place) -> Result<Record, u8> {
    let fields = fields_of(place)?;
    let mut record = [0; VALUES];
    for (field, value) in [
        (IDENTIFICATION, warning.identification),
        (UPDATE, warning.update),
        (TIME, warning.time),
        (PAGE, 1),
        (TOTAL, warning.total),
        (ITEM, warning.item),
        (NUMBER, warning.number),
        (SOUTH, fields.south),
        (LATITUDE, fields.latitude),
        (WEST, fields.west),
        (LONGITUDE, fields.longitude),
        (DEPTH, fields.depth),
        (OCCURRED, warning.occurred),
        (TUNER, Tuner::None.number()),
    ] {
        record[field] = value;
    }
    match record_refusal(edition, &record) {
        0 => Ok(record),
        number => Err(number),
    }
}

/// "For a record that is not legal the answer is the writer's 6, 10 or 9", by the edition named.
pub fn report(edition: Edition, record: &Record) -> Result<Report, u8> {
    match record_refusal(edition, record) {
        0 => {}
        number => return Err(number),
    }
    Ok(match (record[IDENTIFICATION], record[PAGE], record[KIND]) {
        (7, _, _) => Report::Nothing,
        (5 | 6, _, _) => Report::AreaSafety,
        (_, 0, _) => Report::AreasOnly,
        (_, _, 1) => Report::Cancellation,
        _ => Report::Place(Place {
            latitude: degrees(record[SOUTH], record[LATITUDE]),
            longitude: degrees(record[WEST], record[LONGITUDE]),
            depth: kilometres(record[DEPTH]),
        }),
    })
}
