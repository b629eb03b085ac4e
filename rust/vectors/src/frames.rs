//! Frames and records.
use crate::{apart, because, by, by_both, hex, numbers, rows, status};
use crate::{Call, Case, Lends, Operation, AREA_SAFETY, FIRST};
use reference::frame::{self, Edition, Record, Tuner, IN_FRAME, VALUES};
use reference::frame::{BROADCASTER, IDENTIFICATION, LATITUDE, LONGITUDE, REPAIRED, TUNER, UPDATE};

pub(crate) const OPERATIONS: [Operation; 3] = [
    lending("frame_read", |call| {
        let tuner = Tuner::named(call.numbers[1]);
        let answer = frame::read(call.edition(), tuner, &call.input);
        put_record(answer, call)
    }),
    Operation {
        name: "warned",
        lends: Lends::Bytes,
        status: |call| match record_of(&call.fields) {
            Some(record) => status(0, u8::from(frame::warned(&record, call.numbers[0]))),
            None => status(1, 0),
        },
    },
    Operation {
        name: "frame_write",
        lends: Lends::Bytes,
        status: |call| match record_of(&call.fields) {
            Some(record) => status(frame::write(call.edition(), &record, &mut call.lent), 0),
            None => status(1, 0),
        },
    },
];

pub(crate) const fn lending(name: &'static str, status: fn(&mut Call) -> u64) -> Operation {
    Operation {
        name,
        lends: Lends::Values,
        status,
    }
}

/// A reading's record into the lent numbers where they are as many, and its status.
pub(crate) fn put_record(answer: Result<(Record, u8), u8>, call: &mut Call) -> u64 {
    match answer {
        _ if call.values.len() != VALUES => status(1, 0),
        Ok((record, differing)) => {
            call.values = record.to_vec();
            65536 * u64::from(differing)
        }
        Err(number) => status(number, 0),
    }
}

pub(crate) fn record_of(fields: &[u64]) -> Option<Record> {
    fields.try_into().ok()
}

pub(crate) fn cases() -> Vec<Case> {
    [
        because(
            "each field of each body at its least, its most and beyond: its place, its width, refusals 10, 9, 6, 1, whatever stood in the buffer",
            written(),
        ),
        because(
            "each refusal of a frame, alone and before others, hits, a frame of each body, and its synchronising bits turned over one by one",
            by_both(&read()),
        ),
        because(
            "area safety information, its records and its frames: what the editions answer apart, and that any other number is the first",
            safety(),
        ),
        because(
            "the record has the tuner that the reader is told, and the number of repaired places; a number that no tuner has is none",
            by_both(&tuners()),
        ),
        because(
            "0 means warned: the areas at both ends, about Tokyo, and numbers that no area has",
            areas(),
        ),
    ]
    .concat()
}

// ---- the writer

/// A record of each body.
const BASES: &str = "
areas | 1 0 0 3 1234567890 0 0xfffeffffffffff 0*12
place | 0 1 2 1 5 1 0 1 0 300 0 1 356 1 1397 40 900 0*2
cancellation | 0 0 1 2 5 1 0 1 1 300 1 0*8
no information | 0 0 7 0*14 2047 0
area safety | 1 1 5 2 1234567890 0*13 0x123456789abcdef
area safety test | 0 0 6 1 5 0*13 0x1edcba987654321
";

fn bases() -> impl Iterator<Item = (&'static str, Record)> {
    rows(BASES).map(|[body, fields]| (body, record(fields)))
}

/// A record by the numbers that stand in its frame, which came from no tuner.
pub(crate) fn record(text: &str) -> Record {
    let fields: [u64; IN_FRAME] = numbers(text).try_into().expect("19 numbers");
    let mut record = [0; VALUES];
    record[..IN_FRAME].copy_from_slice(&fields);
    record
}

/// How many bits each field has where it is free.
const WIDTHS: [u32; IN_FRAME] = [
    1, 1, 3, 2, 31, 1, 56, 1, 1, 9, 1, 1, 10, 1, 11, 10, 10, 11, 57,
];

fn with(mut record: Record, field: usize, value: u64) -> Record {
    record[field] = value;
    record
}

fn write(what: impl Into<String>, record: &[u64]) -> Case {
    Case::new("frame_write", what)
        .fields(record)
        .lent(&[0xFF; 26])
}

fn written() -> Vec<Case> {
    let cases: Vec<Case> = bases().flat_map(each_field).chain(others()).collect();
    [
        by_both(&cases),
        by(FIRST, &identifications(0..256)),
        by(AREA_SAFETY, &identifications((0..16).chain([255, 261]))),
    ]
    .concat()
}

/// A record, and each of its fields at its ends.
fn each_field((body, base): (&'static str, Record)) -> Vec<Case> {
    let mut cases = vec![
        write(format!("{body}: the record itself"), &base),
        // what stood in the buffer shows in no bit of the frame
        write(format!("{body}: the record itself, over zeros"), &base).lent(&[0; 26]),
    ];
    for (field, width) in WIDTHS.into_iter().enumerate() {
        let past = 1u64 << width;
        for (value, what) in [
            (1, "1"),
            (past - 1, "all its bits"),
            (past, "one bit too wide"),
        ] {
            cases.push(write(
                format!("{body}, field {field}: {what}"),
                &with(base, field, value),
            ));
        }
    }
    cases.extend(origins(&base).map(|(what, record)| write(format!("{body}{what}"), &record)));
    cases
}

/// Numbers of tuners, and more; and of repaired places, and more: the writer takes any.
const ANY: [u64; 6] = [1, 2, 3, 255, 256, u64::MAX];

/// A record with other origins, and what they are.
pub(crate) fn origins(record: &Record) -> impl Iterator<Item = (String, Record)> + '_ {
    let field = move |(field, name)| {
        ANY.into_iter()
            .map(move |value| (format!(", {name} {value}"), with(*record, field, value)))
    };
    [(TUNER, "tuner"), (REPAIRED, "repaired places")]
        .into_iter()
        .flat_map(field)
}

/// Each record with these identifications.
fn identifications(values: impl Iterator<Item = u64> + Clone) -> Vec<Case> {
    let case = |body, base, value| {
        write(
            format!("{body}, identification {value}"),
            &with(base, IDENTIFICATION, value),
        )
    };
    bases()
        .flat_map(|(body, base)| values.clone().map(move |value| case(body, base, value)))
        .collect()
}

/// The limits, buffers and records of other lengths, and each warning.
fn others() -> Vec<Case> {
    let place = record("0 1 2 1 5 1 0 1 0 300 0 1 356 1 1397 40 900 0*2");
    let limit = |name: &str, field, value| {
        write(format!("place, {name} {value}"), &with(place, field, value))
    };
    let mut cases = vec![
        limit("latitude", LATITUDE, 900).known("document 01, example 8", "0:.."),
        limit("latitude", LATITUDE, 901).known("document 01, example 8", "9:ff*26."),
        limit("longitude", LONGITUDE, 1800),
        limit("longitude", LONGITUDE, 1801).known("document 01, house limits", "9:ff*26."),
    ];
    for n in [0, 25, 27] {
        cases.push(write(format!("place, a buffer of {n}"), &place).lent(&vec![0xFF; n]));
    }
    for n in [0, 19, 20, 22] {
        cases.push(write(format!("a record of {n} numbers"), &vec![0; n]));
    }
    let warnings = (0..16).map(|n| [n / 4, n % 4, 0]);
    let silences = [1, 2, 5, 9].map(|broadcaster| [7, 0, broadcaster]);
    cases.extend(warnings.chain(silences).map(|[identification, update, broadcaster]| {
        let what = format!("identification {identification}, update {update}, broadcaster {broadcaster}, over zeros");
        write(what, &short_record(identification, update, broadcaster)).lent(&[0; 26])
    }));
    cases
}

/// A record that is 0 but for these.
pub(crate) fn short_record(identification: u64, update: u64, broadcaster: u64) -> Record {
    let mut record = [0; VALUES];
    record[IDENTIFICATION] = identification;
    record[UPDATE] = update;
    record[BROADCASTER] = broadcaster;
    record
}

// ---- the reader

/// Frames, each with what reading it answers by document 01's rules and examples, `-` where none is on record.
const FRAMES: &str = "
0000000000000000000000000000000000000000000000000000 | 3 .. | no pattern: all zero (example 10)
1af7000000000000000000000000000000000000000000000000 | 0 0*21 | all areas: pattern 0 with all else zero (example 11)
1af7000000000000000000000000000000000000000000000010 | 0 0*20 1 | all areas, B203 hit: the CRC is tested in the repaired word
1af7400000000000000000000000000000000000000000000000 | 0 0*20 1 | all areas, B17 hit
1af7000000000000000000000000004308c01100000000000000 | 0 0*20 8 | all areas, eight hits
1af7000000000000000000000000004308c01110000000000000 | 4 .. | nine hits
1af7000000000000000000000000004308c01110114014404110 | 5 .. | CRC wrong in a clean code word, the generator
9af7000000000000000000000000000000000000000000000000 | 0 1 0*20 | all areas with B0
0000000000000000000000000000000000000000000000000001 | 2 .. | a filler bit, before the pattern
1af7000000000000000000000000000000000000000000000001 | 2 .. | a filler bit alone
1af7040000000000000000000000dd3571e5e0074536075add60 | 5 .. | identification 4, the CRC wrong
1af7640000000000000000000000dd6ba7e8239c630ae7c28140 | 6 .. | identification 4, start/end 11
1af7077fffffff805fffffffffffcd3b0241c13d6f14b3b28d70 | 7 .. | identification 7, start/end 00 and update 00, a fixed bit 0
1af777ffffffff00bfffffffffff3e583d134b51523b875a54e0 | 7 .. | identification 7, update 2
1af7000000000100070a0000000071fee4dcd9339873b730f150 | 8 .. | a place with B111 0, over its limits
1af70a0000000ba58f0baea14709a335ac25ca42ddbf9efe2c30 | 9 .. | a place of latitude 901
1af77fffffffffffffffffffffff698fbee80b006e0824cd3d10 | 0 0*2 7 0*14 7ff 0*3 | no information, broadcaster 2047
1af70000000001001fffffffffffe43d0ff2f235a3cbf9db1c70 | 0 0*5 1 0*4 1 0*10 | a cancellation
9af70a0000000ba58ac9aea147094cf61e307cb8e3e2d6661040 | - | place, with B0
650893932c05a4fffeffffffffff8c1ebd699253f76e2e73da90 | - | pattern 1, one area
 | 1 .. | no bytes
1af70000000000000000000000000000000000000000000000 | 1 .. | 25 bytes
1af700000000000000000000000000000000000000000000000000 | 1 .. | 27 bytes
";

/// The same of frames whose synchronising bits are damaged, by document 02.
const DAMAGED_PATTERNS: &str = "
5af7000000000000000000000000004308c01110000000000000 | 4 .. | one bit of the pattern and nine hits
62f7000000000000000000000000004308c01110000000000000 | 3 .. | four bits of the pattern and nine hits
5af7000000000000000000000000000000000000000000000000 | 10000 0*21 | all areas, B1 differs
1af7800000000000000000000000000000000000000000000000 | 10000 0*21 | all areas, B16 differs
6af7000000000000000000000000000000000000000000000000 | 30000 0*21 | all areas, B1 to B3 differ
6af7000000000000000000000000004308c01100000000000000 | 30000 0*20 8 | all areas, B1 to B3 differ, eight hits
eaf7000000000000000000000000000000000000000000000000 | 30000 1 0*20 | all areas with B0, B1 to B3 differ
62f7000000000000000000000000000000000000000000000000 | 3 .. | four bits from pattern 0
650f000000000000000000000000000000000000000000000000 | 3 .. | four bits from pattern 1
650b000000000000000000000000000000000000000000000000 | 30000 0 1 0*19 | three bits from pattern 1, all areas
6508800000000000000000000000000000000000000000000000 | 0 0 1 0*19 | pattern 1 with all else zero
62f7000000000000000000000000000000000000000000000001 | 2 .. | a filler bit, and four bits from pattern 0
";

/// The frames that both editions answer alike, each with what reading it answers, `-` where none is on record, and what it is.
pub(crate) fn answers() -> impl Iterator<Item = (Vec<u8>, &'static str, &'static str)> {
    rows(FRAMES)
        .chain(rows(DAMAGED_PATTERNS))
        .map(|[digits, answer, what]| (hex(digits), answer, what))
}

/// All frames, and what they are.
pub(crate) fn frames() -> impl Iterator<Item = (Vec<u8>, &'static str)> {
    let safety = rows(SAFETY_FRAMES).map(|[digits, _, _, what]| (hex(digits), what));
    answers()
        .map(|(frame, _, what)| (frame, what))
        .chain(safety)
}

/// The frame whose description begins so.
pub(crate) fn frame(name: &str) -> Vec<u8> {
    let found = frames().find(|(_, what)| what.starts_with(name));
    found.expect("a frame of that name").0
}

fn read_case(what: impl Into<String>, frame: &[u8]) -> Case {
    Case::new("frame_read", what).input(frame).values(VALUES)
}

/// What both editions answer alike; but what the writer wrote of area safety information is refused by the first.
fn read() -> Vec<Case> {
    let tables = [
        (FRAMES, "document 01's rules"),
        (DAMAGED_PATTERNS, "document 02, e)"),
    ];
    let mut cases = vec![];
    for (table, from) in tables {
        cases.extend(rows(table).map(|[digits, answer, what]| {
            let case = read_case(what, &hex(digits));
            match answer {
                "-" => case,
                _ => case.known(from, answer),
            }
        }));
    }
    for (body, base) in bases() {
        let mut frame = [0; 26];
        frame::write(Edition::AreaSafety, &base, &mut frame);
        cases.push(read_case(format!("{body}: what the writer wrote"), &frame));
        for n in 1..=16 {
            reference::flip_bit(&mut frame, n);
            let what = format!("{body}: synchronising bits turned over, the first {n}");
            cases.push(read_case(what, &frame));
        }
    }
    for n in [0, 19, 20, 22] {
        let what = format!("a record of {n} numbers");
        cases.push(read_case(what, &frame("all areas")).values(n));
    }
    cases
}

// ---- the tuner that the reader is told

/// Frames, and the last two numbers of what is read of them, told main and told spare.
const TOLD: &str = "
all areas: | .. 1 0 | .. 2 0
all areas, B203 hit | .. 1*2 | .. 2 1
all areas, eight hits | .. 1 8 | .. 2 8
all areas, B1 to B3 differ, eight hits | .. 1 8 | .. 2 8
no information | .. 1 0 | .. 2 0
a cancellation | .. 1 0 | .. 2 0
place, with B0 | .. 1 0 | .. 2 0
nine hits | 4 .. | 4 ..
25 bytes | 1 .. | 1 ..
";

/// Numbers that no tuner has.
const NO_TUNER: [u64; 5] = [3, 255, 257, 65538, 0xFFFF_FFFF];

fn tuners() -> Vec<Case> {
    let case = |name: &str, tuner: u64| {
        let what = format!("tuner {tuner} told: {name}");
        read_case(what, &frame(name)).numbers(&[0, tuner])
    };
    let mut cases = vec![];
    for [name, main, spare] in rows(TOLD) {
        cases.push(case(name, 1).known("document 02, j)", main));
        cases.push(case(name, 2).known("document 02, j)", spare));
        cases.extend(NO_TUNER.map(|tuner| case(name, tuner)));
    }
    for name in ["area safety", "identification 6, eight hits"] {
        cases.extend([1, 2, 3].map(|tuner| case(name, tuner)));
    }
    cases
}

// ---- area safety information

/// Records, each with what writing it answers in the first edition and in that of area safety.
const SAFETY_RECORDS: &str = "
identification 5, all else zero | 0 0 5 0*16 | 6:ff*26. | 0:1af70500*11.4f521e5692041479a68c6810
identification 5, update 1 | 0 0 5 1 0*15 | 6:ff*26. | 0:..
identification 5, update 2 | 0 0 5 2 0*15 | 6:ff*26. | 0:..
identification 5, update 3 | 0 0 5 3 0*15 | 6:ff*26. | 0:..
identification 5, update 4 | 0 0 5 4 0*15 | 6:ff*26. | a:ff*26.
identification 6, update 3, the greatest time and region | 0 0 6 3 0x7fffffff 0*13 0x1ffffffffffffff | 6:ff*26. | 0:..
identification 5, region 2^57 - 1 | 0 0 5 0*15 0x1ffffffffffffff | 6:ff*26. | 0:..
identification 5, region 2^57 | 0 0 5 0*15 0x200000000000000 | 6:ff*26. | a:ff*26.
identification 5, region 2^64 - 1 | 0 0 5 0*15 0xffffffffffffffff | 6:ff*26. | a:ff*26.
identification 6, time 2^31 | 0 0 6 0 0x80000000 0*14 | 6:ff*26. | a:ff*26.
identification 5 with page 1 | 0 0 5 0*2 1 0*13 | 6:ff*26. | a:ff*26.
identification 6 with areas 1 | 0 0 6 0*3 1 0*12 | 6:ff*26. | a:ff*26.
identification 6 with kind 1 | 0 0 6 0*7 1 0*8 | 6:ff*26. | a:ff*26.
identification 5 with a latitude over its limit | 0 0 5 0*9 901 0*6 | 6:ff*26. | a:ff*26.
identification 5 with broadcaster 1 | 0 0 5 0*14 1 0 | 6:ff*26. | a:ff*26.
identification 0 with region 1 | 0*18 1 | a:ff*26. | a:ff*26.
identification 7 with region 1 | 0*2 7 0*15 1 | a:ff*26. | a:ff*26.
identification 4 | 0*2 4 0*16 | 6:ff*26. | 6:ff*26.
identification 4 with region 1 | 0*2 4 0*15 1 | 6:ff*26. | 6:ff*26.
identification 13, which is 5 in three bits | 0*2 13 0*16 | 6:ff*26. | 6:ff*26.
";

/// Frames, each with what reading it answers in the two editions.
const SAFETY_FRAMES: &str = "
1af705123456789abcdef01234563dee663d35a7819a35d06b00 | 6 .. | 0 0*2 5 0 91a2b3c 0*13 9abcdef0123456 0*2 | area safety
1af70500000000000000000000004f521e5692041479a68c6810 | 6 .. | 0 0*2 5 0*18 | identification 5, all else zero
1af71500000001000000000000001d6a7918b34f91c2e858c1b0 | 6 .. | 0 0*2 5 2 0*14 100000000000000 0*2 | identification 5, of the region B55 alone
1af7150000000000000000000001c3a96c33089947f421c8f7a0 | 6 .. | 0 0*2 5 2 0*14 1 0*2 | identification 5, of the region B111 alone
1af71efffffffffffffffffffffffbb60756ba98197b6583d440 | 6 .. | 0 0*2 6 3 7fffffff 0*13 1ffffffffffffff 0*2 | identification 6, all ones
e508952468acf00000000000000004eb1eb084b6b3c48181f5b0 | 6 .. | 0 1*2 5 2 12345678 0*16 | identification 5, pattern 1 with B0
1af70e000007d0f0123456789abcb994d4f1264dd410673bf7d0 | 6 .. | 0 0*2 6 1 3e8 0*13 f0123456789abc 0*2 | identification 6
1af706000047d0f1123446789abdb994d4f1064d5410673bf7c0 | 6 .. | 0 0*2 6 1 3e8 0*13 f0123456789abc 0 8 | identification 6, eight hits
6af706000047d0f1123446789abdb994d4f1064d5410673bf7c0 | 6 .. | 30000 0*2 6 1 3e8 0*13 f0123456789abc 0 8 | identification 6, eight hits, B1 to B3 differ
1af706000047d0f1123446589abdb994d4f1064d5410673bf7c0 | 4 .. | 4 .. | identification 6, nine hits
1af70500000000000000000000004f11169683140539b2cc2900 | 5 .. | 5 .. | identification 5, the CRC wrong
1af70500000000000000000000004f521e5692041479a68c6811 | 2 .. | 2 .. | identification 5, a filler bit
1af77d00000000000000000000004f79f17838e1e22a605242a0 | 6 .. | 7 .. | identification 5, start/end 11 and update 11, as 7 has them
1af72500000000000000000000004f5954122382f9520ac46300 | 6 .. | 7 .. | identification 5, start/end 01
1af74e000000000000000000000075a6680ca7df8ddc81a58bb0 | 6 .. | 7 .. | identification 6, start/end 10, update 1
1af7040000000000000000000000dd767925f1175476131a9c70 | 6 .. | 6 .. | identification 4, start/end 00
";

/// What the tables say, by both editions and by numbers that no edition has.
fn safety() -> Vec<Case> {
    let records = rows(SAFETY_RECORDS).flat_map(|[what, fields, first, safety]| {
        apart(write(what, &record(fields)), first, safety)
    });
    let frames = rows(SAFETY_FRAMES).flat_map(|[digits, first, safety, what]| {
        apart(read_case(what, &hex(digits)), first, safety)
    });
    records.chain(frames).collect()
}

// ---- areas

fn areas() -> Vec<Case> {
    let tokyo = with([0; VALUES], frame::AREAS, (1 << 56) - 1 - (1 << 40));
    let case = |what: &str, record: &[u64], area| {
        Case::new("warned", format!("{what}, area {area}"))
            .numbers(&[area])
            .fields(record)
    };
    let mut cases = vec![];
    for area in [0, 14, 15, 16, 55] {
        let only = if area == 15 { "100" } else { "0" };
        cases.push(case("all areas", &[0; VALUES], area).known("document 01, example 11", "100"));
        cases.push(case("Tokyo alone", &tokyo, area).known("document 01: Tokyo is area 15", only));
    }
    for area in [56, 64, u64::MAX] {
        cases.push(case("all areas", &[0; VALUES], area).known("there are 56 areas", "0"));
        cases.push(case("Tokyo alone", &tokyo, area).known("there are 56 areas", "0"));
    }
    for (body, base) in bases() {
        cases.push(case(body, &base, 15));
    }
    for n in [0, 19, 20, 22] {
        cases.push(case(&format!("a record of {n} numbers"), &vec![0; n], 15));
    }
    for (what, record) in origins(&tokyo) {
        let case = case(&format!("Tokyo alone{what}"), &record, 15);
        cases.push(case.known("document 01: Tokyo is area 15", "100"));
    }
    cases
}
