//! The cable header: judged, read and written.
use crate::laying;
use crate::{because, status, Call, Case, Lends, Operation, FIRST};
use reference::crc::crc32;
use reference::header::*;
use reference::{flip_bit, put};

pub(crate) type Bytes = [u8; HEADER_BYTES];

pub(crate) const OPERATIONS: [Operation; 6] = [
    operation("refusal", |call| u64::from(refusal(&call.input))),
    operation("header_write", |call| {
        match <&Record>::try_from(&call.fields[..]) {
            Ok(record) => status(write(record, &mut call.lent), 0),
            Err(_) => status(1, 0),
        }
    }),
    operation("seal", |call| {
        seal(&mut call.lent);
        0
    }),
    operation("each_bit", each_bit),
    Operation {
        name: "header_read",
        lends: Lends::Values,
        status: |call| match read(&call.input) {
            _ if call.values.len() != FIELDS => status(1, 0),
            Ok(record) => {
                call.values = record.to_vec();
                status(0, 0)
            }
            Err(number) => status(number, 0),
        },
    },
    Operation {
        name: "read_by_value",
        lends: Lends::Values,
        status: |call| {
            let found = read(&call.input);
            call.values = found
                .as_ref()
                .map_or(vec![0; FIELDS], |record| record.to_vec());
            u64::from(found.err().unwrap_or(0))
        },
    },
];

const fn operation(name: &'static str, status: fn(&mut Call) -> u64) -> Operation {
    Operation {
        name,
        lends: Lends::Bytes,
        status,
    }
}

/// The CRC of a whole header.
fn seal(header: &mut [u8]) {
    if header.len() == HEADER_BYTES {
        let crc = crc32(&header[4..184]);
        header[184..].copy_from_slice(&crc.to_be_bytes());
    }
}

/// The refusal of the header with each bit below a number turned over and, if asked, its CRC made again; 255 for one that is accepted and does not come back. The program
/// says 254 where the reader answers another number.
fn each_bit(call: &mut Call) -> u64 {
    let [end, again, _] = call.numbers;
    for k in 0..end as usize {
        let mut header = call.lent.clone();
        flip_bit(&mut header, k);
        if again == 1 {
            seal(&mut header);
        }
        let number = match read(&header) {
            Ok(record) if written(&record)[..] != header[..] => 255,
            Ok(_) => 0,
            Err(number) => number,
        };
        call.told.push(u64::from(number));
    }
    0
}

// ---- records and headers

/// All fields at their lowest legal value.
fn lowest() -> Record {
    let mut record = [0; FIELDS];
    record[PACKET] = 0x4700_0000;
    record[FORM] = 1;
    record
}

/// All streams valid, with the identifiers (i, 1) for stream i, and AC bits that are all ones.
fn model() -> Record {
    let mut record = lowest();
    for i in 0..15 {
        record[VALID + i] = 1;
        record[IDENTIFIERS + 2 * i] = i as u64 + 1;
        record[IDENTIFIERS + 2 * i + 1] = 1;
    }
    record[AC..].fill(0xFF);
    record[FIELDS - 1] = 0xF;
    record
}

/// Different values in the fields.
pub(crate) fn filled() -> Record {
    let mut record: Record =
        std::array::from_fn(|field| (field as u64 * 40_503 + 11) & largest(field));
    record[PACKET] = 0x4712_3456;
    record[FORM] = 1;
    record
}

/// A field's largest legal value.
fn largest(field: usize) -> u64 {
    match field {
        PACKET => 0x47FF_FFFF,
        FORM => 1,
        STATES..CARRIED => 2,
        _ => (1 << width(field)) - 1,
    }
}

fn with(mut record: Record, changes: &[(usize, u64)]) -> Record {
    for &(field, value) in changes {
        record[field] = value;
    }
    record
}

pub(crate) fn written(record: &Record) -> Bytes {
    let mut header = [0; HEADER_BYTES];
    write(record, &mut header);
    header
}

pub(crate) fn model_header() -> Bytes {
    written(&model())
}

pub(crate) fn set_form(header: &mut Bytes, form: u64) {
    put(header, 52..=55, form);
}

/// The model header with these bits turned over and, if asked, its CRC made again.
pub(crate) fn flipped(places: &[usize], again: bool) -> Bytes {
    let mut header = model_header();
    for &k in places {
        flip_bit(&mut header, k);
    }
    if again {
        seal(&mut header);
    }
    header
}

// ---- cases

fn write_case(what: impl Into<String>, record: &[u64]) -> Case {
    Case::new("header_write", what)
        .fields(record)
        .lent(&[0xA5; HEADER_BYTES])
}

/// A header judged, and read, into lent fields and by value.
fn read_cases(what: &str, header: &[u8]) -> [Case; 3] {
    [
        Case::new("refusal", what).input(header),
        Case::new("header_read", what).input(header).values(FIELDS),
        Case::new("read_by_value", what)
            .input(header)
            .values(FIELDS),
    ]
}

/// The model header with these bits turned over: its CRC made again, if asked, and the header judged and read.
fn flipped_cases(what: &str, places: &[usize], again: bool) -> Vec<Case> {
    let mut cases = read_cases(what, &flipped(places, again)).to_vec();
    if again {
        cases.push(Case::new("seal", what).lent(&flipped(places, false)));
    }
    cases
}

pub(crate) fn cases() -> Vec<Case> {
    [
        because(
            "each of the 145 fields at its least, its most and beyond: its place, its width, refusals",
            fields(),
        ),
        because("whole headers, there and back", whole()),
        because("buffers and records of other lengths", lengths()),
        because("every bit is read, or refused, or covered by the CRC", bits()),
        because(
            "each refusal of a header, alone and before others; every reception state",
            refusals(),
        ),
        because("every form", forms()),
        because("the order of a record's refusals", order()),
        because("a header with a frame in it is read as any other", after_laying()),
    ]
    .concat()
}

/// Each field alone in the lowest record.
fn fields() -> Vec<Case> {
    let mut cases = vec![];
    for field in 0..FIELDS {
        let record = |value| with(lowest(), &[(field, value)]);
        let bits = (1 << width(field)) - 1;
        let top = record(largest(field));
        cases.push(write_case(format!("field {field} at its largest"), &top));
        cases.push(
            Case::new(
                "header_read",
                format!("field {field} at its largest, back again"),
            )
            .input(&written(&top))
            .values(FIELDS),
        );
        for (value, what) in [
            (lowest()[field] | 1, "its last bit"),
            (bits, "all its bits"),
            (bits + 1, "one bit too wide"),
            (u64::MAX, "the most"),
        ] {
            cases.push(write_case(format!("field {field}: {what}"), &record(value)));
        }
    }
    cases
}

/// Whole headers, there and back.
fn whole() -> Vec<Case> {
    let mut cases = vec![];
    for (name, record) in [
        ("lowest", lowest()),
        ("model", model()),
        ("filled", filled()),
    ] {
        let case = write_case(format!("the {name} record"), &record);
        cases.push(match name {
            "model" => case.known("by another program", "..e760a571"),
            _ => case,
        });
        cases.extend(read_cases(&format!("the {name} header"), &written(&record)));
    }
    cases
}

/// Lengths about 188, and records that are too short or too long.
fn lengths() -> Vec<Case> {
    let longer = [&model_header()[..], &[0]].concat();
    let mut cases = vec![];
    for n in [0, 187, 188, 189] {
        let [judged, read, by_value] = read_cases(&format!("{n} bytes"), &longer[..n]);
        cases.push(match n {
            187 => judged.known("document 01, example 12", "1"),
            _ => judged,
        });
        cases.extend([read, by_value]);
        for form in [1, 9] {
            let record = with(model(), &[(FORM, form)]);
            cases.push(
                write_case(format!("form {form} into {n} bytes"), &record).lent(&vec![0xA5; n]),
            );
        }
    }
    for n in [0, 144, 146] {
        let what = format!("a record of {n} numbers");
        cases.push(write_case(what.clone(), &vec![0; n]));
        cases.push(
            Case::new("header_read", what)
                .input(&model_header())
                .values(n),
        );
    }
    cases
}

/// Each bit of the model header turned over.
fn bits() -> Vec<Case> {
    let case = |what: &str, end, again| {
        Case::new("each_bit", what)
            .numbers(&[end, again])
            .lent(&model_header())
    };
    vec![
        case("each bit turned over", 1504, 0),
        case(
            "each bit but those of the CRC, which is made again",
            1472,
            1,
        ),
    ]
}

/// One refusal, and several at once: the bits that are turned over, and whether the CRC is made again.
const FAULTS: [(&[usize], bool, &str); 18] = [
    (&[7], true, "byte 0"),
    (&[1503], false, "CRC"),
    (&[54, 55], true, "form 2"),
    (&[55], true, "form 0"),
    (&[71], true, "the fixed bit"),
    (&[996], true, "the first fixed bit of the extension"),
    (&[1000], true, "a fixed bit of the extension"),
    (&[1471], true, "its last fixed bit"),
    (&[7, 1503], false, "byte 0 and CRC"),
    (&[7, 54], true, "byte 0 and form"),
    (&[7, 71], true, "byte 0 and the fixed bit"),
    (&[54, 55], false, "form 2 and CRC"),
    (&[71], false, "the fixed bit and CRC"),
    (&[552, 553], false, "a reception state 11 and CRC"),
    (&[54, 71], true, "form 3 and the fixed bit"),
    (&[54, 552, 553], true, "form 3 and a reception state 11"),
    (&[7, 54, 71], true, "byte 0, form and the fixed bit"),
    (&[7, 54, 71], false, "byte 0, form, the fixed bit and CRC"),
];

fn refusals() -> Vec<Case> {
    let mut cases = vec![];
    for (places, again, what) in FAULTS {
        cases.extend(flipped_cases(what, places, again));
    }
    for stream in 0..15 {
        let state = [552 + 2 * stream, 553 + 2 * stream];
        let invalid = [state[0], state[1], 56 + stream];
        let what = format!("reception state 11 of stream {}", stream + 1);
        cases.extend(flipped_cases(&what, &state, true));
        let what = format!("{what}, which is not valid");
        cases.extend(flipped_cases(&what, &invalid, true));
    }
    cases
}

/// Every form, with the CRC made again.
fn forms() -> Vec<Case> {
    let mut cases = vec![];
    for form in 0..16 {
        let mut header = model_header();
        set_form(&mut header, form);
        let mut sealed = header;
        seal(&mut sealed);
        let made = Case::new("seal", format!("form {form}")).lent(&header);
        let judged = Case::new("refusal", format!("form {form}")).input(&sealed);
        if form == 2 {
            cases.push(made.known("by another program", "..a94b8658"));
            cases.push(judged.known("document 01, example 12", "e"));
        } else {
            cases.extend([made, judged]);
        }
    }
    cases.push(Case::new("seal", "187 bytes, no header: left as they are").lent(&[0xA5; 187]));
    cases
}

/// The writer's refusals and their order.
const CHANGES: [&[(usize, u64)]; 17] = [
    &[(STATES, 3)],
    &[(STATES, 4)],
    &[(64, 3)],
    &[(64, 4)],
    &[(FORM, 16)],
    &[(FORM, 15)],
    &[(FORM, 0)],
    &[(PACKET, 0), (SLOTS, 16)],
    &[(PACKET, 0), (FORM, 2), (STATES, 3)],
    &[(FORM, 2), (STATES, 3)],
    &[(PACKET, 0), (STATES, 3)],
    &[(FORM, 16), (STATES, 3)],
    &[(144, 16)],
    &[(144, 16), (64, 3)],
    &[(AC, 256), (PACKET, 0)],
    &[(PACKET, 0x4600_0000)],
    &[(PACKET, 0x1_4700_0000)],
];

fn order() -> Vec<Case> {
    let case = |changes: &&[(usize, u64)]| {
        let list: Vec<String> = changes
            .iter()
            .map(|(field, value)| format!("field {field} {value}"))
            .collect();
        write_case(
            format!("the model record with {}", list.join(", ")),
            &with(model(), changes),
        )
    };
    CHANGES.iter().map(case).collect()
}

/// Headers into which frames were laid in turn.
fn after_laying() -> Vec<Case> {
    let case = |(name, header): (&str, Bytes)| {
        let (_, header) = laying::in_turn(FIRST, name, header);
        read_cases(&format!("{name} header after frames were laid in"), &header)
    };
    laying::headers().into_iter().flat_map(case).collect()
}
