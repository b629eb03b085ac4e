//! The listing of a row of frames (document 01, "The listing"), for the area safety edition "a second listing program with document 01's lines", and
//! the listing of frames with their marks (document 02, "Doubtful marks").
use crate::frame::{self, Edition};
use crate::FRAME_BYTES;

/// "After frame 999,999 it stops reading".
pub const MOST: usize = 999_999;

/// "Its listing reads 52 bytes at a time, the frame and then a mark for each of its bits".
pub const MARKED_BYTES: usize = 2 * FRAME_BYTES;

/// "number from 1, refusal or 0, repaired places or `-` when refused".
pub fn line(edition: Edition, number: usize, frame: &[u8]) -> String {
    line_of(number, frame::judge(edition, frame))
}

/// "document 01's lines, first edition, with t as the repaired places; a short last piece is refusal 1": its frame or its marks are not 26 bytes.
pub fn marked_line(number: usize, piece: &[u8]) -> String {
    let (frame, marks) = piece.split_at(piece.len().min(FRAME_BYTES));
    let judged = frame::judge_marked(Edition::First, frame, marks);
    line_of(number, judged.map(|(places, _)| places))
}

/// The line of what was judged so.
fn line_of(number: usize, judged: Result<u8, u8>) -> String {
    match judged {
        Ok(places) => format!("{number} 0 {places}\n"),
        Err(refusal) => format!("{number} {refusal} -\n"),
    }
}

/// The whole listing of an input: "A short last piece is a frame"; "the last line is `end` and the count".
pub fn listing(edition: Edition, input: &[u8]) -> Vec<u8> {
    listing_of(input, FRAME_BYTES, |number, frame| {
        line(edition, number, frame)
    })
}

/// The whole listing of frames with their marks. It stops after as many pieces as document 01's listing after frames.
pub fn marked_listing(input: &[u8]) -> Vec<u8> {
    listing_of(input, MARKED_BYTES, marked_line)
}

/// A line for each piece of this length, the last one perhaps shorter, and the last line.
fn listing_of(input: &[u8], length: usize, line: impl Fn(usize, &[u8]) -> String) -> Vec<u8> {
    let mut text = String::new();
    let mut count = 0;
    for piece in input.chunks(length).take(MOST) {
        count += 1;
        text += &line(count, piece);
    }
    text += &format!("end {count}\n");
    text.into_bytes()
}
