//! The day's ledger. `ledger_count` takes the frame as its input, and the ledger's numbers are lent; `ledger_length` and `ledger_print` take the
//! numbers as their input, and the report's buffer is lent, of which `ledger_length` has none; `ledger_parse` takes a text, and the numbers are lent.
use crate::frames::{answers, frame, frames, lending};
use crate::receiver::hits;
use crate::{apart, because, by_both, bytes_of, edition_of, numbers, rows, status};
use crate::{Call, Case, Lends, Operation, AREA_SAFETY, FIRST};
use reference::ledger::{self, Ledger, MOST, NUMBERS};

pub(crate) const OPERATIONS: [Operation; 4] = [
    lending("ledger_count", |call| {
        let counted = |ledger| ledger::count(call.edition(), ledger, &call.input);
        let answer = ledger_of(&call.values).and_then(counted);
        put_ledger(answer, call)
    }),
    operation("ledger_length", |call| {
        match ledger_of(&call.fields).and_then(ledger::report) {
            Ok(text) => 256 * text.len() as u64,
            Err(number) => status(number, 0),
        }
    }),
    operation("ledger_print", |call| match ledger_of(&call.fields) {
        Ok(ledger) => status(ledger::print(ledger, &mut call.lent), 0),
        Err(number) => status(number, 0),
    }),
    lending("ledger_parse", |call| {
        // What the lent ledger holds does not matter, but it has to be one by its length.
        let answer = ledger_of(&call.values).and_then(|_| ledger::parse(&call.input));
        put_ledger(answer, call)
    }),
];

const fn operation(name: &'static str, status: fn(&mut Call) -> u64) -> Operation {
    Operation {
        name,
        lends: Lends::Bytes,
        status,
    }
}

/// The ledger of twelve numbers; another count of them is 1.
fn ledger_of(values: &[u64]) -> Result<Ledger, u8> {
    let numbers = values.try_into().map_err(|_| 1)?;
    Ok(Ledger::from_numbers(numbers))
}

/// An answer's ledger into the lent numbers, and its status; a refusal leaves them.
fn put_ledger(answer: Result<Ledger, u8>, call: &mut Call) -> u64 {
    match answer {
        Ok(ledger) => {
            call.values = ledger.numbers().to_vec();
            0
        }
        Err(number) => status(number, 0),
    }
}

/// Makes cases that are there for one reason.
type Make = fn() -> Vec<Case>;

/// The reasons, and the cases of each.
const CASES: [(&str, Make); 9] = [
    (
        "document 02's sample and the fresh ledger: counted, measured, printed and read again",
        sample,
    ),
    (
        "each frame of the reader's tables counted from a fresh ledger: every refusal, its own bytes, and what the editions judge apart",
        each_frame,
    ),
    (
        "every number of repaired places added to those before",
        places,
    ),
    (
        "frames of both editions in one ledger, one after the other",
        in_a_row,
    ),
    (
        "the last frame that is counted, and 19 for the next, which leaves the ledger; of each sort, and whatever the frame is",
        full,
    ),
    (
        "possible ledgers with numbers of every count of digits: measured, printed into buffers of their size and of others, read again, counted",
        possible,
    ),
    (
        "impossible ledgers: 18 before 19 and 27, and so is a text of their form; sums and products that are right only when cut to 64 bits or to 32",
        impossible,
    ),
    (
        "texts that are no report: labels, spaces, signs, zeros, newlines, lines and numbers that are not as they should be; the lent ledger stays",
        texts,
    ),
    (
        "a ledger of another count of numbers is 1 before everything else, and everything is left",
        lengths,
    ),
];

pub(crate) fn cases() -> Vec<Case> {
    let cases = CASES.iter();
    cases
        .flat_map(|(why, cases)| because(why, cases()))
        .collect()
}

fn count(what: impl Into<String>, ledger: &[u64], frame: &[u8]) -> Case {
    Case::new("ledger_count", what)
        .input(frame)
        .lent(&bytes_of(ledger))
}

fn length(what: impl Into<String>, ledger: &[u64]) -> Case {
    Case::new("ledger_length", what).fields(ledger)
}

/// Into a buffer of so many bytes.
fn print(what: impl Into<String>, ledger: &[u64], size: usize) -> Case {
    Case::new("ledger_print", what)
        .fields(ledger)
        .lent(&vec![0xA5; size])
}

fn parse(what: impl Into<String>, text: &[u8]) -> Case {
    Case::new("ledger_parse", what).input(text).values(NUMBERS)
}

/// What the reader answers where the lent numbers of `parse` stay.
const REFUSED: &str = "12 a5a5a5a5a5a5a5a5*12";

/// These numbers in the form of a report.
fn form(ledger: &[u64]) -> String {
    let line = |(place, number): (usize, &u64)| match place {
        0 => format!("seen {number}\n"),
        10 => format!("accepted {number}\n"),
        11 => format!("repaired {number}\n"),
        k => format!("refused {k} {number}\n"),
    };
    ledger.iter().enumerate().map(line).collect()
}

/// The ledger with another number in one place.
fn with(ledger: &[u64], place: usize, number: u64) -> Vec<u64> {
    let mut ledger = ledger.to_vec();
    ledger[place] = number;
    ledger
}

// ---- document 02's sample

const TWO_PIECES: [u64; NUMBERS] = [2, 1, 0, 0, 0, 0, 0, 0, 0, 0, 1, 0];

const TWO_PIECES_TEXT: &str = "\
seen 2\n\
refused 1 1\n\
refused 2 0\n\
refused 3 0\n\
refused 4 0\n\
refused 5 0\n\
refused 6 0\n\
refused 7 0\n\
refused 8 0\n\
refused 9 0\n\
accepted 1\n\
repaired 0\n";

/// The same as an answer, line by line.
const TWO_PIECES_PRINTED: &str = concat!(
    "0:",
    "7365*2.6e20320a",
    "72656675736564203120310a",
    "72656675736564203220300a",
    "72656675736564203320300a",
    "72656675736564203420300a",
    "72656675736564203520300a",
    "72656675736564203620300a",
    "72656675736564203720300a",
    "72656675736564203820300a",
    "72656675736564203920300a",
    "6163*2.657074656420310a",
    "726570616972656420300a",
);

fn sample() -> Vec<Case> {
    let from = "document 02, l)";
    let first = [1, 0, 0, 0, 0, 0, 0, 0, 0, 0, 1, 0];
    let all_areas = frame("all areas:");
    let what = "the two pieces of document 01's listing";
    let fresh = "the fresh ledger";
    vec![
        count(format!("{what}, the first"), &[0; NUMBERS], &all_areas).known(from, "0 1 0*9 1 0"),
        count(format!("{what}, the second"), &first, &[0; 5]).known(from, "0 2 1 0*8 1 0"),
        length(what, &TWO_PIECES).known(from, "8900"),
        print(what, &TWO_PIECES, 137).known(from, TWO_PIECES_PRINTED),
        parse(what, TWO_PIECES_TEXT.as_bytes()).known(from, "0 2 1 0*8 1 0"),
        length(fresh, &[0; NUMBERS]).known(from, "8900"),
        print(fresh, &[0; NUMBERS], 137).known(from, "0:7365*2.6e20300a72656675736564203120300a.."),
        parse(fresh, form(&[0; NUMBERS]).as_bytes()).known(from, "0 0*12"),
        // The lent numbers do not matter: a ledger that is possible, full or impossible.
        parse(
            format!("{what}, over the fresh ledger"),
            TWO_PIECES_TEXT.as_bytes(),
        )
        .lent(&[0; 8 * NUMBERS])
        .known(from, "0 2 1 0*8 1 0"),
        parse(
            format!("{what}, over the greatest numbers"),
            TWO_PIECES_TEXT.as_bytes(),
        )
        .lent(&[0xFF; 8 * NUMBERS])
        .known(from, "0 2 1 0*8 1 0"),
    ]
}

// ---- frames

/// What counting one frame from a fresh ledger answers that is refused with 1 to 9.
const COUNTED: [&str; 9] = [
    "0 1*2 0*10",
    "0 1 0 1 0*9",
    "0 1 0*2 1 0*8",
    "0 1 0*3 1 0*7",
    "0 1 0*4 1 0*6",
    "0 1 0*5 1 0*5",
    "0 1 0*6 1 0*4",
    "0 1 0*7 1 0*3",
    "0 1 0*8 1 0*2",
];

/// The same by what reading the frame answers: a refusal's number before two points, or a record, which ends in its repaired places.
fn counted(read: &str) -> &'static str {
    let refused = read.strip_suffix(" ..").map(str::parse::<usize>);
    match (refused, read.rsplit(' ').next()) {
        (Some(Ok(number @ 1..)), _) => COUNTED[number - 1],
        (_, Some("8")) => "0 1 0*9 1 8",
        (_, Some("1")) => "0 1 0*9 1*2",
        _ => "0 1 0*9 1 0",
    }
}

/// Frames that the editions judge apart, and what counting them from a fresh ledger answers in the two.
const SAFETY: &str = "
area safety | 0 1 0*5 1 0*5 | 0 1 0*9 1 0
identification 6, all ones | 0 1 0*5 1 0*5 | 0 1 0*9 1 0
identification 6, eight hits | 0 1 0*5 1 0*5 | 0 1 0*9 1 8
identification 5, start/end 01 | 0 1 0*5 1 0*5 | 0 1 0*6 1 0*4
";

fn each_frame() -> Vec<Case> {
    let fresh = [0; NUMBERS];
    let mut cases = vec![];
    for (frame, answer, what) in answers() {
        let case = count(what, &fresh, &frame);
        cases.push(match answer {
            "-" => case,
            _ => case.known("document 01's and 02's rules", counted(answer)),
        });
    }
    for [name, first, safety] in rows(SAFETY) {
        cases.extend(apart(count(name, &fresh, &frame(name)), first, safety));
    }
    let safety = |what: &str| what.starts_with("identification") || what.starts_with("area safety");
    for (frame, what) in frames().filter(|(_, what)| safety(what)) {
        cases.extend(by_both(&[count(what, &fresh, &frame)]));
    }
    for n in [1, 52, 188, 4064] {
        let case = count(format!("{n} zero bytes"), &fresh, &vec![0; n]);
        cases.push(case.known("document 01, refusal 1", COUNTED[0]));
    }
    cases
}

/// One of each sort and five repaired places, and then a frame with so many hits.
const PLACES: [&str; 10] = [
    "0 b 1*9 2 5",
    "0 b 1*9 2 6",
    "0 b 1*9 2 7",
    "0 b 1*9 2 8",
    "0 b 1*9 2 9",
    "0 b 1*9 2 a",
    "0 b 1*9 2 b",
    "0 b 1*9 2 c",
    "0 b 1*9 2 d",
    "0 b 1*3 2 1*6 5",
];

fn places() -> Vec<Case> {
    let before = numbers("10 1*10 5");
    let case = |(n, answer)| {
        let hit = hits(&frame("all areas:"), n);
        count(format!("all areas, {n} hits"), &before, &hit).known("document 02, l)", answer)
    };
    let cases: Vec<Case> = (0..).zip(PLACES).map(case).collect();
    by_both(&cases)
}

/// Frames by their names, each in the edition that it is judged by.
const IN_A_ROW: [(u64, &str); 16] = [
    (FIRST, "all areas:"),
    (FIRST, "all areas, eight hits"),
    (AREA_SAFETY, "identification 6, eight hits"),
    (FIRST, "identification 6, eight hits"),
    (AREA_SAFETY, "area safety"),
    (FIRST, "25 bytes"),
    (FIRST, "a filler bit alone"),
    (AREA_SAFETY, "no pattern"),
    (FIRST, "nine hits"),
    (FIRST, "CRC wrong"),
    (AREA_SAFETY, "identification 4, start/end 00"),
    (AREA_SAFETY, "identification 5, start/end 01"),
    (FIRST, "a place with B111 0"),
    (FIRST, "a place of latitude 901"),
    (FIRST, "all areas, B1 to B3 differ, eight hits"),
    (FIRST, "no bytes"),
];

fn in_a_row() -> Vec<Case> {
    let mut ledger = Ledger::default();
    let mut cases = vec![];
    for (edition, name) in IN_A_ROW {
        let what = format!("in a row: {name}");
        cases.push(count(what, &ledger.numbers(), &frame(name)).edition(edition));
        let next = ledger::count(edition_of(edition), ledger, &frame(name));
        ledger = next.expect("a possible ledger that is not full");
    }
    // Two refused with 1 and two with 6, one with each other number, and five accepted, of which three with eight places.
    let last = cases.pop().expect("a case");
    cases.push(last.known("document 02, l)", "0 10 2 1*4 2 1*3 5 18"));
    cases
}

// ---- where it stops

/// All frames of one sort.
fn of_one_sort(sort: usize, seen: u64) -> Vec<u64> {
    with(&with(&[0; NUMBERS], 0, seen), sort, seen)
}

/// What counting a clean frame as the last answers, by the sort of all those before.
const LAST: [&str; 10] = [
    "0 3d0900 3d08ff 0*8 1 0",
    "0 3d0900 0 3d08ff 0*7 1 0",
    "0 3d0900 0*2 3d08ff 0*6 1 0",
    "0 3d0900 0*3 3d08ff 0*5 1 0",
    "0 3d0900 0*4 3d08ff 0*4 1 0",
    "0 3d0900 0*5 3d08ff 0*3 1 0",
    "0 3d0900 0*6 3d08ff 0*2 1 0",
    "0 3d0900 0*7 3d08ff 0 1 0",
    "0 3d0900 0*8 3d08ff 1 0",
    "0 3d0900 0*9 3d0900 0",
];

fn full() -> Vec<Case> {
    let from = "document 02, l)";
    let all_areas = frame("all areas:");
    let mut cases = vec![];
    for (sort, answer) in (1..).zip(LAST) {
        let what = format!("number {sort} of 3999999 frames, and a clean one");
        let before = of_one_sort(sort, MOST - 1);
        cases.push(count(what, &before, &all_areas).known(from, answer));
        let what = format!("number {sort} of 4000000 frames, and a clean one");
        let before = of_one_sort(sort, MOST);
        cases.push(count(what, &before, &all_areas).known(from, "13 .."));
    }
    let most = with(&of_one_sort(10, MOST - 1), 11, 8 * (MOST - 1));
    let last = "3999999 accepted with eight places each";
    let eight = frame("all areas, eight hits");
    let case = count(format!("{last}, and one more"), &most, &eight);
    cases.push(case.known(from, "0 3d0900 0*9 3d0900 1e84800"));
    let case = count(format!("{last}, and five bytes"), &most, &[0; 5]);
    cases.push(case.known(from, "0 3d0900 1 0*8 3d08ff 1e847f8"));
    let most = with(&of_one_sort(10, MOST), 11, 8 * MOST);
    let after = "4000000 accepted with eight places each";
    for name in ["all areas:", "area safety", "no bytes", "nine hits"] {
        let case = count(format!("{after}, {name}"), &most, &frame(name));
        cases.extend(by_both(&[case.known(from, "13 3d0900 0*9 3d0900 1e84800")]));
    }
    cases
}

// ---- possible ledgers

/// Possible ledgers, and the status of their reports' lengths.
const POSSIBLE: &str = "
one accepted with eight places | 1 0*9 1 8 | 8900
nine frames of one sort | 9 0 9 0*9 | 8900
ten frames of one sort | 10 0 10 0*9 | 8b00
ten frames of two sorts | 10 5 0*8 5 0 | 8a00
ten accepted with ten places | 10 0*9 10 10 | 8c00
as many of each sort as its number | 55 1 2 3 4 5 6 7 8 9 10 80 | 8c00
every digit | 2408299 123456 234567 345678 456789 567890 678901 0 9 10 999 7992 | b300
3999999 frames | 3999999 999999*4 0*5 3 24 | a400
4000000 refused with 1 | 4000000 4000000 0*10 | 9500
4000000 refused with 9 | 4000000 0*8 4000000 0*2 | 9500
4000000 accepted as they are | 4000000 0*9 4000000 0 | 9500
4000000 accepted with one place | 4000000 0*9 4000000 1 | 9500
4000000 accepted with eight places each but one | 4000000 0*9 4000000 31999999 | 9c00
4000000 accepted with eight places each | 4000000 0*9 4000000 32000000 | 9c00
the longest report | 3950000 1000000*2 100000*7 1250000 10000000 | cb00
";

fn possible() -> Vec<Case> {
    let from = "document 02, l)";
    let mut cases = vec![];
    for [what, ledger, size] in rows(POSSIBLE) {
        let ledger = numbers(ledger);
        cases.push(length(what, &ledger).known(from, size));
        cases.extend(printed(what, &ledger));
        cases.push(count(what, &ledger, &[0; 26]));
    }
    for size in [0, 1, 136, 138, 203, 4064] {
        let case = print(
            format!("the fresh ledger, a buffer of {size}"),
            &[0; NUMBERS],
            size,
        );
        cases.push(match size {
            0 => case.known(from, "1b"),
            _ => case.known(from, "1b:a5.."),
        });
    }
    // Before and after one digit more.
    for power in (1..=6).map(|i| 10u64.pow(i)) {
        for seen in [power - 1, power] {
            let what = format!("{seen} accepted with as many places");
            let ledger = with(&of_one_sort(10, seen), 11, seen);
            let size = form(&ledger).len();
            cases.push(length(&*what, &ledger));
            cases.push(print(&*what, &ledger, size));
            cases.push(parse(&*what, form(&ledger).as_bytes()));
        }
    }
    cases
}

/// Printed into a buffer of its size and of others, and read again.
fn printed(what: &str, ledger: &[u64]) -> Vec<Case> {
    let text = form(ledger);
    let size = text.len();
    let mut cases = vec![print(what, ledger, size), parse(what, text.as_bytes())];
    for other in [size - 1, size + 1] {
        let what = format!("{what}, a buffer of {other}");
        cases.push(print(what, ledger, other).known("document 02, l)", "1b:a5*.."));
    }
    cases
}

// ---- impossible ledgers

const IMPOSSIBLE: &str = "
one seen, and of no sort | 1 0*11
one seen, and two refused | 1 1*2 0*9
three seen, one refused and one accepted | 3 1 0*8 1 0
one refused, and none seen | 0 1 0*10
one accepted, and none seen | 0*10 1 0
one place repaired in no frame | 0*11 1
refused frames alone, and one place repaired | 4 1*4 0*6 1
one accepted with nine places | 1 0*9 1 9
one accepted with 2^32 places | 1 0*9 1 0x100000000
4000000 accepted with 32000001 places | 4000000 0*9 4000000 32000001
4000001 refused with 1 | 4000001*2 0*10
4000001 refused with 9 | 4000001 0*8 4000001 0*2
4000001 accepted | 4000001 0*9 4000001 0
4000001 of all sorts | 4000001 400000*9 400001 8
4000000 seen, and 4000001 in the sum | 4000000 400000*9 400001 8
4000000 seen, and 3999999 in the sum | 4000000 400000*9 399999 8
2^32 seen, and the sum is right | 0x100000000*2 0*10
2^32 and one seen, one refused | 0x100000001 1 0*10
one seen, 2^32 and one refused | 1 0x100000001 0*10
none seen, 2^31 refused twice | 0 0x80000000*2 0*9
none seen, 2^63 refused twice | 0 0x8000000000000000*2 0*9
two seen, 2^63 refused and 2^63 and two accepted | 2 0x8000000000000000 0*8 0x8000000000000002 0
two seen, 2^64 - 1 refused and three accepted | 2 0*8 0xffffffffffffffff 3 0
none seen, 2^61 accepted and the rest refused | 0*9 0xe000000000000000 0x2000000000000000 0
2^61 accepted, as many seen, and no place | 0x2000000000000000 0*9 0x2000000000000000 0
2^61 accepted, as many seen, and 2^64 - 1 places | 0x2000000000000000 0*9 0x2000000000000000 0xffffffffffffffff
2^64 - 1 seen and refused | 0xffffffffffffffff*2 0*10
every number 1 | 1*12
every number 2^32 - 1 | 0xffffffff*12
every number 2^64 - 1 | 0xffffffffffffffff*12
";

fn impossible() -> Vec<Case> {
    let from = "document 02, l)";
    let mut cases = vec![];
    for (i, [what, ledger]) in rows(IMPOSSIBLE).enumerate() {
        let ledger = numbers(ledger);
        cases.extend(not_possible(what, &ledger));
        if i % 3 == 0 {
            let what = format!("{what}, an empty buffer");
            cases.push(print(what, &ledger, 0).known(from, "12"));
        }
    }
    let base = numbers("55 1 2 3 4 5 6 7 8 9 10 80");
    for (place, &number) in base.iter().enumerate() {
        let greatest = with(&base, place, u64::MAX);
        let what = format!("number {place} 2^64 - 1");
        cases.push(count(&*what, &greatest, &[]).known(from, "12 .."));
        cases.push(length(&*what, &greatest).known(from, "12"));
        if (1..=10).contains(&place) {
            let what = format!("number {place} left out of the sum");
            cases.push(count(what, &with(&base, place, 0), &[]).known(from, "12 .."));
            let what = format!("number {place} one over");
            cases.push(length(what, &with(&base, place, number + 1)).known(from, "12"));
        }
    }
    cases
}

/// Counted, measured, printed into a buffer of the size that its form has, and its form read.
fn not_possible(what: &str, ledger: &[u64]) -> Vec<Case> {
    let from = "document 02, l)";
    let text = form(ledger);
    vec![
        count(what, ledger, &frame("all areas:")).known(from, "12 .."),
        length(what, ledger).known(from, "12"),
        print(what, ledger, text.len()).known(from, "12:a5*.."),
        parse(what, text.as_bytes()).known(from, REFUSED),
    ]
}

// ---- texts

/// What is wrong, and what stands in the sample's report instead of what.
const EDITS: [(&str, &str, &str); 50] = [
    ("a 0 before seen's number", "seen 2", "seen 02"),
    ("a 0 before 0", "refused 2 0", "refused 2 00"),
    ("a 0 before accepted's number", "accepted 1", "accepted 01"),
    ("a 0 before repaired's number", "repaired 0", "repaired 00"),
    ("a plus", "seen 2", "seen +2"),
    ("a minus", "seen 2", "seen -2"),
    ("minus 0", "repaired 0", "repaired -0"),
    ("two spaces", "seen 2", "seen  2"),
    (
        "two spaces behind a label's number",
        "refused 1 1",
        "refused 1  1",
    ),
    ("two spaces inside a label", "refused 1 1", "refused  1 1"),
    ("a space before a line", "seen 2", " seen 2"),
    ("a space behind a number", "seen 2", "seen 2 "),
    ("a tab", "seen 2", "seen\t2"),
    ("no space", "seen 2", "seen2"),
    (
        "no space behind a label's number",
        "refused 1 1",
        "refused 11",
    ),
    ("a colon", "seen 2", "seen: 2"),
    ("no digits", "seen 2", "seen "),
    ("no space and no digits", "repaired 0", "repaired"),
    ("a point", "seen 2", "seen 2.0"),
    ("hexadecimal", "seen 2", "seen 0x2"),
    ("a capital", "seen 2", "Seen 2"),
    ("capitals", "accepted 1", "ACCEPTED 1"),
    ("another label", "accepted 1", "received 1"),
    ("a label cut short", "accepted 1", "accept 1"),
    ("a label's number with a 0", "refused 2 0", "refused 02 0"),
    ("no refusal 9, but 10", "refused 9 0", "refused 10 0"),
    ("carriage return", "seen 2\n", "seen 2\r\n"),
    (
        "carriage return in the last line",
        "repaired 0\n",
        "repaired 0\r\n",
    ),
    ("a line end of another kind", "seen 2\n", "seen 2\r"),
    ("an empty line in front", "seen 2\n", "\nseen 2\n"),
    ("an empty line", "accepted 1\n", "accepted 1\n\n"),
    ("an empty line at the end", "repaired 0\n", "repaired 0\n\n"),
    ("no newline at the end", "repaired 0\n", "repaired 0"),
    ("a byte behind", "repaired 0\n", "repaired 0\n0"),
    ("a zero byte behind", "repaired 0\n", "repaired 0\n\0"),
    ("a zero byte in front", "seen 2\n", "\0seen 2\n"),
    (
        "two lines exchanged",
        "refused 2 0\nrefused 3 0\n",
        "refused 3 0\nrefused 2 0\n",
    ),
    (
        "accepted and repaired exchanged",
        "accepted 1\nrepaired 0\n",
        "repaired 0\naccepted 1\n",
    ),
    ("a line left out", "refused 9 0\n", ""),
    (
        "a line twice",
        "refused 9 0\n",
        "refused 9 0\nrefused 9 0\n",
    ),
    (
        "a line too many",
        "accepted 1\n",
        "refused 10 0\naccepted 1\n",
    ),
    ("seen not the sum", "seen 2", "seen 1"),
    ("a ninth place", "repaired 0", "repaired 9"),
    ("seen and 2^32", "seen 2", "seen 4294967298"),
    ("seen and 2^64", "seen 2", "seen 18446744073709551618"),
    (
        "accepted and 2^64",
        "accepted 1",
        "accepted 18446744073709551617",
    ),
    ("2^64 places", "repaired 0", "repaired 18446744073709551616"),
    (
        "2^64 - 1 refused",
        "refused 5 0",
        "refused 5 18446744073709551615",
    ),
    (
        "twenty nines",
        "refused 5 0",
        "refused 5 99999999999999999999",
    ),
    (
        "2^128 places",
        "repaired 0",
        "repaired 340282366920938463463374607431768211456",
    ),
];

fn texts() -> Vec<Case> {
    let from = "document 02, l)";
    let refused = |what: String, text: &[u8]| parse(what, text).known(from, REFUSED);
    let mut cases = vec![];
    for (what, old, new) in EDITS {
        let text = TWO_PIECES_TEXT.replacen(old, new, 1);
        assert!(text != TWO_PIECES_TEXT, "{what}");
        cases.push(refused(what.to_owned(), text.as_bytes()));
    }
    let all = |what: &str, newline: &str| {
        let text = TWO_PIECES_TEXT.replace('\n', newline);
        refused(format!("every newline {what}"), text.as_bytes())
    };
    cases.extend([
        all("after a carriage return", "\r\n"),
        all("a carriage return", "\r"),
        all("a space", " "),
        refused("no bytes".to_owned(), &[]),
        refused("a newline alone".to_owned(), b"\n"),
        refused("twelve newlines".to_owned(), &[b'\n'; 12]),
        refused("the last line of a listing".to_owned(), b"end 0\n"),
        refused("137 zero bytes".to_owned(), &[0; 137]),
        refused("137 bytes 255".to_owned(), &[255; 137]),
        refused(
            "the report twice".to_owned(),
            TWO_PIECES_TEXT.repeat(2).as_bytes(),
        ),
    ]);
    for digit in ["0", "9"] {
        let text = TWO_PIECES_TEXT.replace("seen ", &format!("seen {}", digit.repeat(3_900)));
        let what = format!("3900 times {digit} before seen's number");
        cases.push(refused(what, text.as_bytes()));
    }
    // Up to eight places of one accepted frame.
    for (places, answer) in [(1, "0 2 1 0*8 1*2"), (8, "0 2 1 0*8 1 8")] {
        let text = TWO_PIECES_TEXT.replace("repaired 0", &format!("repaired {places}"));
        cases.push(parse(format!("{places} repaired"), text.as_bytes()).known(from, answer));
    }
    let case = parse("a refusal over the fresh ledger", b"seen 0\n").lent(&[0; 8 * NUMBERS]);
    cases.push(case.known(from, "12 0*12"));
    cases.extend(each_byte());
    cases
}

/// The sample's report with each byte of the first two lines and of the last two changed in its lowest bit, with each byte of the first line and of
/// the last removed, and cut off behind each line.
fn each_byte() -> Vec<Case> {
    let text = TWO_PIECES_TEXT.as_bytes();
    let mut cases = vec![];
    for at in (0..19).chain(115..137) {
        let mut changed = text.to_vec();
        changed[at] ^= 1;
        let case = parse(format!("byte {at} changed"), &changed);
        cases.push(match at {
            // The repaired places, of which there is then one.
            135 => case.known("document 02, l)", "0 2 1 0*8 1*2"),
            _ => case.known("document 02, l)", REFUSED),
        });
    }
    for at in (0..7).chain(126..137) {
        let removed = [&text[..at], &text[at + 1..]].concat();
        let case = parse(format!("byte {at} removed"), &removed);
        cases.push(case.known("document 02, l)", REFUSED));
    }
    let lines: Vec<&str> = TWO_PIECES_TEXT.split_inclusive('\n').collect();
    for n in 1..NUMBERS {
        let cut = parse(
            format!("the first {n} lines alone"),
            lines[..n].concat().as_bytes(),
        );
        cases.push(cut.known("document 02, l)", REFUSED));
    }
    cases
}

// ---- lengths

/// Counts of numbers that no ledger has, and the number that stands in all of them: as far as they go a possible ledger, or an impossible one.
const OTHER_LEDGERS: [(usize, u64); 7] = [
    (0, 0),
    (1, 0),
    (11, 0),
    (11, u64::MAX),
    (13, 0),
    (13, u64::MAX),
    (24, 0),
];

fn lengths() -> Vec<Case> {
    let from = "a ledger has twelve numbers";
    let mut cases = vec![];
    for (n, value) in OTHER_LEDGERS {
        let ledger = vec![value; n];
        let what = format!("{n} numbers {value}");
        let lent = |case: Case| match n {
            0 => case.known(from, "1"),
            _ => case.known(from, "1 .."),
        };
        let read = |what: &str, text: &str| {
            let case = parse(what, text.as_bytes());
            lent(case.lent(&bytes_of(&ledger)))
        };
        cases.extend([
            lent(count(&*what, &ledger, &frame("all areas:"))),
            lent(count(format!("{what}, no frame"), &ledger, &[])),
            length(&*what, &ledger).known(from, "1"),
            print(&*what, &ledger, 137).known(from, "1:a5*137."),
            print(format!("{what}, an empty buffer"), &ledger, 0).known(from, "1"),
            read(&what, TWO_PIECES_TEXT),
            read(&format!("{what}, no text"), ""),
        ]);
    }
    cases
}
