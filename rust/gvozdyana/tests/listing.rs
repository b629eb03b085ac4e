//! The listing programs, one for each edition and one for marked frames, fed through a pipe, against the plain version.
mod common;
use common::programs::{clean, written};
use reference::frame::{Edition, EDITIONS};
use reference::listing::{line, listing, marked_line, marked_listing, MARKED_BYTES, MOST};
use reference::FRAME_BYTES;

/// The listing program of an edition.
fn of_edition(edition: Edition) -> &'static str {
    match edition {
        Edition::First => "list_frames",
        Edition::AreaSafety => "list_frames_safety",
    }
}

const MARKED: &str = "list_marked_frames";

/// What the edition's program writes when these pieces come through a pipe, one write each.
fn listed(edition: Edition, pieces: Vec<Vec<u8>>) -> Vec<u8> {
    written(of_edition(edition), pieces)
}

#[test]
fn pieces_of_a_pipe_are_put_together() {
    let mut input = clean();
    input.extend([1, 2, 3, 4, 5]);
    for edition in EDITIONS {
        for size in [1, 5, 13, 26, 31] {
            let pieces = input.chunks(size).map(|piece| piece.to_vec()).collect();
            let lines = listed(edition, pieces);
            assert_eq!(lines, b"1 0 0\n2 1 -\nend 2\n", "pieces of {size}");
        }
        assert_eq!(listed(edition, vec![]), b"end 0\n");
    }
}

/// Frames of all sorts, cut to their length so that none moves those after it, noise, and a short last piece.
#[test]
fn frames_of_all_sorts() {
    let mut random = samples::Random::new(11);
    let mut input = vec![];
    for _ in 0..3000 {
        let mut bytes = samples::frames::frame(&mut random).bytes;
        bytes.resize(FRAME_BYTES, 0);
        input.extend(bytes);
    }
    input.extend(random.bytes(26 * 1000 + 7));
    let lines = EDITIONS.map(|edition| listed(edition, vec![input.clone()]));
    assert_eq!(lines, EDITIONS.map(|edition| listing(edition, &input)));
    assert_ne!(lines[0], lines[1]);
}

#[test]
fn it_stops_after_frame_999_999() {
    for (edition, more) in EDITIONS.into_iter().flat_map(|e| [0, 1, 2].map(|m| (e, m))) {
        let output = listed(edition, vec![clean().repeat(1000); 999 + more]);
        let count = (1000 * (999 + more)).min(MOST);
        let text = String::from_utf8(output).expect("text");
        let mut lines = text.lines();
        for number in 1..=count {
            let given = lines.next().expect("a line");
            if number == 1 || number == count {
                assert_eq!(format!("{given}\n"), line(edition, number, &clean()));
            } else {
                assert_eq!(given, format!("{number} 0 0"));
            }
        }
        assert_eq!(lines.next(), Some(format!("end {count}").as_str()));
        assert_eq!(lines.next(), None);
    }
}

/// A clean frame with no bit marked.
fn clean_marked() -> Vec<u8> {
    [clean(), vec![0; FRAME_BYTES]].concat()
}

#[test]
fn marked_pieces_of_a_pipe_are_put_together() {
    let input = [clean_marked(), clean()].concat();
    for size in [1, 5, 26, 51, 52, 78] {
        let pieces: Vec<Vec<u8>> = input.chunks(size).map(|piece| piece.to_vec()).collect();
        let lines = written(MARKED, pieces);
        assert_eq!(lines, b"1 0 0\n2 1 -\nend 2\n", "pieces of {size}");
    }
    assert_eq!(written(MARKED, vec![]), b"end 0\n");
}

/// Every sample that is a whole piece, random ones, noise, and a last piece of each length that is short.
#[test]
fn marked_frames_of_all_sorts() {
    let mut random = samples::Random::new(12);
    let mut samples = samples::marked::systematic(&mut random);
    samples.extend((0..3000).map(|_| samples::marked::marked(&mut random)));
    let pieces = samples.iter().filter_map(|sample| sample.piece());
    let mut input = pieces.collect::<Vec<_>>().concat();
    input.extend(random.bytes(MARKED_BYTES * 200));
    for last in 0..MARKED_BYTES {
        let input = [input.clone(), random.bytes(last)].concat();
        // all of it once, and then its end alone
        let from = if last == 0 {
            0
        } else {
            input.len() / MARKED_BYTES * MARKED_BYTES
        };
        let input = input[from..].to_vec();
        assert_eq!(written(MARKED, vec![input.clone()]), marked_listing(&input));
    }
}

#[test]
fn it_stops_after_marked_frame_999_999() {
    for more in [0, 1, 2] {
        let output = written(MARKED, vec![clean_marked().repeat(1000); 999 + more]);
        let count = (1000 * (999 + more)).min(MOST);
        let text = String::from_utf8(output).expect("text");
        let mut lines = text.lines();
        for number in 1..=count {
            let given = lines.next().expect("a line");
            if number == 1 || number == count {
                assert_eq!(format!("{given}\n"), marked_line(number, &clean_marked()));
            } else {
                assert_eq!(given, format!("{number} 0 0"));
            }
        }
        assert_eq!(lines.next(), Some(format!("end {count}").as_str()));
        assert_eq!(lines.next(), None);
    }
}
