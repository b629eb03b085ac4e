//! The programs over a row of frames whose output is made here: what reading frames answers, a line each, and the listing of the area safety edition.
//! What the listing of the first edition has to write is not made here: it is held to the documents by hand.
use reference::frame::{read, Edition, Tuner, IN_FRAME, REPAIRED};
use reference::listing::listing;

/// A program over a row of frames, the one whose input it is run on, and the lines that it has to write.
pub struct Rows {
    pub name: &'static str,
    /// Itself where its input is not made here.
    pub input: &'static str,
    lines: fn(&[u8]) -> String,
}

pub const ROWS: [Rows; 3] = [
    Rows {
        name: "read_frames",
        input: "read_frames",
        lines: |input| readings(Edition::First, input),
    },
    Rows {
        name: "read_frames_safety",
        input: "read_frames",
        lines: |input| readings(Edition::AreaSafety, input),
    },
    Rows {
        name: "list_frames_safety",
        input: "test_list_samples",
        lines: |input| String::from_utf8(listing(Edition::AreaSafety, input)).expect("text"),
    },
];

impl Rows {
    pub fn stdout(&self, input: &[u8]) -> String {
        (self.lines)(input)
    }
}

/// What reading frame n answers.
fn reading(edition: Edition, n: usize, frame: &[u8]) -> String {
    match read(edition, Tuner::None, frame) {
        Ok((record, differing)) => {
            let fields = record[..IN_FRAME].iter().map(u64::to_string);
            let fields = fields.collect::<Vec<_>>().join(" ");
            format!("{n} accepted {} {differing} {fields}\n", record[REPAIRED])
        }
        Err(number) => format!("{n} refused {number}\n"),
    }
}

/// The lines of a row of frames; a short last piece is a frame.
fn readings(edition: Edition, input: &[u8]) -> String {
    let frames = input.chunks(26).take(999_999).enumerate();
    frames
        .map(|(i, frame)| reading(edition, i + 1, frame))
        .collect()
}
