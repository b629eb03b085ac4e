//! The captures of two tuners (document 01, "Two tuners"), whose frames are judged by the edition named. Document 02, j): a record read from them
//! says which tuner's it is.
use crate::frame::{self, Edition, Record, Tuner};
use crate::FRAME_BYTES;

/// "frames end to end, frame n at byte 26n": its bytes, where all 26 lie in the capture.
fn bytes_at(capture: &[u8], n: u64) -> Option<&[u8]> {
    let n = usize::try_from(n).ok()?;
    capture.chunks_exact(FRAME_BYTES).nth(n)
}

/// A tuner's number for frame n, 0 for accepted.
pub fn number(edition: Edition, capture: &[u8], n: u64) -> u8 {
    // "A frame number whose 26 bytes do not all lie in a capture, however large, is 1 there."
    bytes_at(capture, n).map_or(1, |frame| frame::judge(edition, frame).err().unwrap_or(0))
}

/// "Asked for frame n, the box answers with the frame's own bytes in the capture it was taken from: the main one if accepted there,
/// otherwise the spare one if accepted there. Neither: an empty part."
pub fn frame_at<'a>(edition: Edition, main: &'a [u8], spare: &'a [u8], n: u64) -> &'a [u8] {
    for capture in [main, spare] {
        if number(edition, capture, n) == 0 {
            return bytes_at(capture, n).unwrap_or(&[]);
        }
    }
    &[]
}

/// "A separate question gives both tuners' numbers (0 for accepted), main first."
pub fn numbers(edition: Edition, main: &[u8], spare: &[u8], n: u64) -> (u8, u8) {
    (number(edition, main, n), number(edition, spare, n))
}

/// One capture's frame n, as read by a reader that is told the tuner. A frame that is not there is 1, as in `number`.
fn read_from(edition: Edition, tuner: Tuner, capture: &[u8], n: u64) -> Result<(Record, u8), u8> {
    frame::read(edition, tuner, bytes_at(capture, n).ok_or(1)?)
}

/// The record of frame n and its differing synchronising bits, from "the main one if accepted there, otherwise the spare one if accepted there":
/// the tuner told is the one that it was taken from, and the number of repaired places that of its own bytes. Neither: "both tuners' numbers", main
/// first.
pub fn read(edition: Edition, main: &[u8], spare: &[u8], n: u64) -> Result<(Record, u8), (u8, u8)> {
    match read_from(edition, Tuner::Main, main, n) {
        Ok(read) => Ok(read),
        Err(of_main) => {
            read_from(edition, Tuner::Spare, spare, n).map_err(|of_spare| (of_main, of_spare))
        }
    }
}
