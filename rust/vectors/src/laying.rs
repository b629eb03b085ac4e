//! A frame laid into a header, and taken out.
use crate::frames::{frame, frames};
use crate::headers::{filled, flipped, model_header, written, Bytes};
use crate::{apart, because, by_both, edition_of, status, Case, Lends, Operation};
use crate::{AREA_SAFETY, FIRST};
use reference::header::{lay_in, take_out};

pub(crate) const OPERATIONS: [Operation; 2] = [
    Operation {
        name: "lay_in",
        lends: Lends::Bytes,
        status: |call| status(lay_in(call.edition(), &mut call.lent, &call.input), 0),
    },
    Operation {
        name: "take_out",
        lends: Lends::Bytes,
        status: |call| status(take_out(&mut call.lent), 0),
    },
];

pub(crate) fn cases() -> Vec<Case> {
    [
        because(
            "each kind of frame, accepted and refused, into one header",
            by_both(&laid()),
        ),
        because(
            "area safety information is laid in by its edition alone; any other number is the first",
            safety(),
        ),
        because(
            "a refused header is left, and is tested before the frame",
            refused(),
        ),
        because(
            "a frame over another one, and taken out twice: nothing else changes",
            turns(),
        ),
    ]
    .concat()
}

fn lay(what: impl Into<String>, header: &[u8], frame: &[u8]) -> Case {
    Case::new("lay_in", what).lent(header).input(frame)
}

/// Each frame of the reader's tables into the model header, and pieces that are no frame.
fn laid() -> Vec<Case> {
    let case = |(frame, what): (Vec<u8>, &str)| {
        let case = lay(format!("model header: {what}"), &model_header(), &frame);
        match what.starts_with("all areas") && !what.contains("B0") {
            true => case.known("by another program", "..b0ac5a53"),
            false => case,
        }
    };
    frames().map(case).collect()
}

fn safety() -> Vec<Case> {
    let case = |name| {
        lay(
            format!("model header: {name}"),
            &model_header(),
            &frame(name),
        )
    };
    [
        apart(case("area safety"), "6:..", "0:.."),
        apart(case("identification 6, eight hits"), "6:..", "0:.."),
        apart(case("identification 5, start/end 01"), "6:..", "7:.."),
        apart(case("identification 4, start/end 00"), "6:..", "6:.."),
    ]
    .concat()
}

/// A good frame, one of area safety information and a refused one into headers that are refused, and taking out of them.
fn refused() -> Vec<Case> {
    let headers: [(&str, &[usize], bool, usize); 6] = [
        ("a header of 187 bytes", &[], true, 187),
        ("a header of none", &[], true, 0),
        ("byte 0 wrong", &[7], true, 188),
        ("CRC wrong", &[1503], false, 188),
        ("form 2", &[54, 55], true, 188),
        ("the fixed bit 0", &[71], true, 188),
    ];
    let mut cases = vec![];
    for (what, places, again, n) in headers {
        let header = &flipped(places, again)[..n];
        let case = |name: &str| lay(format!("{what}, {name}"), header, &frame(name));
        cases.extend(by_both(
            &["all areas", "no pattern", "area safety"].map(case),
        ));
        cases.push(Case::new("take_out", what).lent(header));
    }
    cases
}

/// The headers that frames are laid into in turn.
pub(crate) fn headers() -> [(&'static str, Bytes); 2] {
    [("model", model_header()), ("filled", written(&filled()))]
}

/// Frames laid into a header in turn by the edition with this number, and the header after that.
pub(crate) fn in_turn(edition: u64, name: &str, mut header: Bytes) -> (Vec<Case>, Bytes) {
    let mut cases = vec![];
    for (frame_name, again) in [
        ("place", ""),
        ("place", " again"),
        ("nine hits", ""),
        ("area safety", ""),
        ("pattern 1", ""),
    ] {
        let frame = frame(frame_name);
        let what = format!("{name} header in turn: {frame_name}{again}");
        cases.push(lay(what, &header, &frame).edition(edition));
        lay_in(edition_of(edition), &mut header, &frame);
    }
    (cases, header)
}

fn turns() -> Vec<Case> {
    let mut cases = vec![];
    for (name, header) in headers() {
        cases.extend(in_turn(AREA_SAFETY, name, header).0);
        let (laid, mut header) = in_turn(FIRST, name, header);
        cases.extend(laid);
        for what in ["taken out", "taken out twice"] {
            cases.push(Case::new("take_out", format!("{name} header, {what}")).lent(&header));
            take_out(&mut header);
        }
    }
    cases
}
