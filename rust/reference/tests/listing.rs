//! The listing, in both editions: document 01's example, short pieces, refusals, and where it stops.
mod common;
use common::{frame, listing, ALL_AREAS};
use reference::flip_bit;

fn text(input: &[u8]) -> String {
    String::from_utf8(listing(input)).expect("text")
}

#[test]
fn one_clean_frame_and_five_bytes() {
    let mut input = frame(ALL_AREAS).to_vec();
    input.extend([0; 5]);
    assert_eq!(text(&input), "1 0 0\n2 1 -\nend 2\n");
    assert_eq!(text(&input[..27]), "1 0 0\n2 1 -\nend 2\n");
    assert_eq!(text(&input[..26]), "1 0 0\nend 1\n");
    assert_eq!(text(&[]), "end 0\n");
}

#[test]
fn refusals_and_repaired_places() {
    let mut hit = frame(ALL_AREAS);
    flip_bit(&mut hit, 203);
    let wrong_crc = frame("1af7000000000000000000000000004308c01110114014404110");
    let input = [hit, wrong_crc, [0; 26]].concat();
    assert_eq!(text(&input), "1 0 1\n2 5 -\n3 3 -\nend 3\n");
}

#[test]
fn it_stops_after_999999() {
    for length in [25_999_974, 26_000_000] {
        let all = text(&vec![0; length]);
        assert_eq!(all.lines().count(), 1_000_000);
        assert!(all.ends_with("\n999999 3 -\nend 999999\n"));
    }
}
