//! The captures of two tuners: frames end to end, frame n at byte 26 n. Whether a frame is accepted goes by the edition named.
//!
//! A frame that is read from two captures has a record that says which tuner it came from: the reader is told the [`source`] of the bytes that
//! [`frame_at`] answers.
//!
//! ```
//! use gvozdyana::capture::{frame_at, numbers, source};
//! use gvozdyana::frame::{read, write, Record};
//! use gvozdyana::{Edition, Refusal, Tuner};
//!
//! let edition = Edition::First;
//! let sent = Record::no_information(5);
//! // Main has nothing, and in spare's frame B71 is hit.
//! let (main, mut spare) = ([0; 26], write(edition, &sent)?);
//! spare[8] ^= 0x01;
//!
//! let record_of = |n| {
//!     let frame = frame_at(edition, &main, &spare, n)?;
//!     let tuner = source(edition, &main, &spare, n);
//!     Some(read(edition, tuner, frame).expect("accepted there").record)
//! };
//! let record = record_of(0).expect("spare has it");
//! assert!(record.same_fields(&sent));
//! assert_eq!((record.tuner, record.repaired), (Tuner::Spare, 1));
//! // Neither has frame 1, and `numbers` says why.
//! assert_eq!(record_of(1), None);
//! let past = Err(Refusal::WrongLength);
//! assert_eq!(numbers(edition, &main, &spare, 1), (past, past));
//! # Ok::<(), Refusal>(())
//! ```
use crate::{calls, Edition, Refusal, Tuner, FRAME_BYTES};

/// The tuner that frame n is taken from: main if it is accepted there, otherwise spare if it is accepted there, and none where neither accepts it.
pub fn source(edition: Edition, main: &[u8], spare: &[u8], n: u64) -> Tuner {
    match calls::capture_source(edition.number(), main, spare, n) {
        0 => Tuner::None,
        1 => Tuner::Main,
        2 => Tuner::Spare,
        tuner => unreachable!("the archive knows no tuner {tuner}"),
    }
}

/// Frame n's own bytes, as received, in the capture that it is taken from; `None` where neither accepts it.
///
/// ```
/// use gvozdyana::capture::{frame_at, numbers};
/// use gvozdyana::frame::{write, Record};
/// use gvozdyana::{Edition, Refusal};
///
/// let spare = write(Edition::First, &Record::no_information(5))?;
/// let main = [0; 26];
/// assert_eq!(frame_at(Edition::First, &main, &spare, 0), Some(&spare[..]));
/// let numbers = numbers(Edition::First, &main, &spare, 0);
/// assert_eq!(numbers, (Err(Refusal::NoPattern), Ok(())));
/// assert_eq!(frame_at(Edition::First, &main, &spare, 1 << 63), None);
/// # Ok::<(), Refusal>(())
/// ```
pub fn frame_at<'a>(edition: Edition, main: &'a [u8], spare: &'a [u8], n: u64) -> Option<&'a [u8]> {
    let capture = match source(edition, main, spare, n) {
        Tuner::None => return None,
        Tuner::Main => main,
        Tuner::Spare => spare,
    };
    capture
        .chunks_exact(FRAME_BYTES)
        .nth(usize::try_from(n).ok()?)
}

/// What each tuner says of frame n, main first; a frame number past a capture is refusal 1 there.
pub fn numbers(
    edition: Edition,
    main: &[u8],
    spare: &[u8],
    n: u64,
) -> (Result<(), Refusal>, Result<(), Refusal>) {
    let status = calls::capture_numbers(edition.number(), main, spare, n);
    let of = |number| Refusal::from_status(number).map_or(Ok(()), Err);
    (of(status), of(status >> 8))
}
