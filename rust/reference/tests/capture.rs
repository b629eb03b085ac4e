//! Two captures, in both editions: which frame is taken, from where, and both numbers.
mod common;
use common::{flipped, frame, in_both, written, ALL_AREAS};
use reference::frame::{EDITIONS, VALUES};
use reference::{capture, flip_bit};

/// What both editions take, from the same place.
fn frame_at<'a>(main: &'a [u8], spare: &'a [u8], n: u64) -> &'a [u8] {
    let taken = EDITIONS.map(|edition| capture::frame_at(edition, main, spare, n));
    assert_eq!(taken[0], taken[1]);
    assert!(taken[0].is_empty() || taken[0].as_ptr() == taken[1].as_ptr());
    taken[0]
}

fn numbers(main: &[u8], spare: &[u8], n: u64) -> (u8, u8) {
    in_both(|edition| capture::numbers(edition, main, spare, n))
}

fn good() -> Vec<u8> {
    written(&[0; VALUES]).to_vec()
}

fn damaged(hits: usize) -> Vec<u8> {
    let mut bytes = good();
    for i in 0..hits {
        flip_bit(&mut bytes, 20 + 19 * i);
    }
    bytes
}

#[test]
fn the_frames_own_bytes() {
    assert_eq!(good(), frame(ALL_AREAS));
    let (main, spare) = (damaged(8), good());
    let taken = frame_at(&main, &spare, 0);
    assert_eq!(taken.as_ptr_range(), main.as_ptr_range());
    let (main, spare) = (damaged(9), damaged(3));
    let taken = frame_at(&main, &spare, 0);
    assert_eq!(taken.as_ptr_range(), spare.as_ptr_range());
    assert_eq!(numbers(&main, &spare, 0), (4, 0));
}

/// Document 02, e): a frame with three differing bits of B1 to B16 is accepted, and its bytes are those of the capture, not the clean ones.
#[test]
fn a_damaged_pattern() {
    let three = flipped(frame(ALL_AREAS), &[2, 3, 16]);
    let four = flipped(frame(ALL_AREAS), &[2, 3, 4, 16]);
    let taken = frame_at(&three, &good(), 0).to_vec();
    assert_eq!(taken, three);
    let taken = frame_at(&four, &three, 0);
    assert_eq!(taken.as_ptr_range(), three.as_ptr_range());
    assert_eq!(taken, three);
    assert_eq!(numbers(&four, &three, 0), (3, 0));
    assert_eq!(numbers(&three, &four, 0), (0, 3));
    assert_eq!(frame_at(&four, &four, 0), &[] as &[u8]);
}

#[test]
fn out_of_range() {
    let two = [good(), good()].concat();
    for (length, n, number) in [
        (0, 0, 1),
        (25, 0, 1),
        (26, 0, 0),
        (26, 1, 1),
        (51, 1, 1),
        (52, 1, 0),
        (52, 2, 1),
        (52, 1 << 63, 1),
        (52, u64::MAX, 1),
    ] {
        let capture = &two[..length];
        assert_eq!(
            numbers(capture, capture, n),
            (number, number),
            "{length} {n}"
        );
        let taken = frame_at(capture, capture, n);
        assert_eq!(taken.len(), if number == 0 { 26 } else { 0 });
    }
}

#[test]
fn main_out_of_range_or_both_refused() {
    let main = good();
    let spare = [vec![0; 26], damaged(1)].concat();
    assert_eq!(frame_at(&main, &spare, 1), &spare[26..]);
    assert_eq!(numbers(&main, &spare, 1), (1, 0));
    assert_eq!(frame_at(&spare, &[], 0), &[] as &[u8]);
    assert_eq!(numbers(&spare, &[], 0), (3, 1));
}
