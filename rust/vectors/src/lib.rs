//! The cases that the test programs are run on, and what they have to answer, made by the plain version: a table of operations and the cases of each family.
//! `crates/test_cases` says how a case and an answer are written. The third number of a case names the edition, where its operation takes one.
mod codes;
mod frames;
mod headers;
mod laying;
mod ledgers;
mod marked;
mod places;
mod reading;
mod receiver;
mod records;

pub use reading::{Rows, ROWS};

use reference::frame::Edition;
use std::fmt::Write;

/// A program that runs cases: its crate, its operations by their numbers, and its cases.
pub struct Program {
    pub name: &'static str,
    operations: &'static [Operation],
    cases: fn() -> Vec<Case>,
}

pub const PROGRAMS: [Program; 9] = [
    Program {
        name: "test_codes",
        operations: &codes::OPERATIONS,
        cases: codes::cases,
    },
    Program {
        name: "test_frames",
        operations: &frames::OPERATIONS,
        cases: frames::cases,
    },
    Program {
        name: "test_places",
        operations: &places::OPERATIONS,
        cases: places::cases,
    },
    Program {
        name: "test_receiver",
        operations: &receiver::OPERATIONS,
        cases: receiver::cases,
    },
    Program {
        name: "test_records",
        operations: &records::OPERATIONS,
        cases: records::cases,
    },
    Program {
        name: "test_headers",
        operations: &headers::OPERATIONS,
        cases: headers::cases,
    },
    Program {
        name: "test_laying",
        operations: &laying::OPERATIONS,
        cases: laying::cases,
    },
    Program {
        name: "test_marked",
        operations: &marked::OPERATIONS,
        cases: marked::cases,
    },
    Program {
        name: "test_ledgers",
        operations: &ledgers::OPERATIONS,
        cases: ledgers::cases,
    },
];

/// What an operation lends to be written.
#[derive(Clone, Copy, PartialEq, Eq)]
enum Lends {
    Bytes,
    Values,
}

/// An operation, and what the plain version answers: the status, with the call's lent slice written.
struct Operation {
    name: &'static str,
    lends: Lends,
    status: fn(&mut Call) -> u64,
}

/// A case in the hands of an operation. Both slices are there as bytes and as the numbers that these make up; `told` goes before the status.
struct Call {
    numbers: [u64; 3],
    input: Vec<u8>,
    fields: Vec<u64>,
    lent: Vec<u8>,
    values: Vec<u64>,
    told: Vec<u64>,
}

/// The numbers of the editions, and some that no edition has.
const FIRST: u64 = 0;
const AREA_SAFETY: u64 = 1;
const NEITHER: [u64; 4] = [2, 257, 65537, 0xFFFF_FFFF];

/// The edition with a number: one that no edition has is taken for the first.
fn edition_of(number: u64) -> Edition {
    match number {
        AREA_SAFETY => Edition::AreaSafety,
        _ => Edition::First,
    }
}

impl Call {
    /// The edition that the third number names.
    fn edition(&self) -> Edition {
        edition_of(self.numbers[2])
    }
}

#[derive(Clone)]
struct Case {
    /// Why it and those beside it are there.
    why: &'static str,
    operation: &'static str,
    /// The edition in words, if it is not the first.
    edition: String,
    what: String,
    numbers: [u64; 3],
    input: Vec<u8>,
    lent: Vec<u8>,
    /// Where the answer is known from, if not from the plain version alone, and the answer: `..` for what is not told in front or behind.
    known: Option<(&'static str, &'static str)>,
}

impl Case {
    fn new(operation: &'static str, what: impl Into<String>) -> Case {
        Case {
            why: "",
            operation,
            edition: String::new(),
            what: what.into(),
            numbers: [0; 3],
            input: vec![],
            lent: vec![],
            known: None,
        }
    }

    /// The edition by its number, which is the third number.
    fn edition(mut self, number: u64) -> Case {
        self.numbers[2] = number;
        self.edition = match number {
            FIRST => String::new(),
            AREA_SAFETY => ", area safety edition".to_owned(),
            _ => format!(", edition {number}"),
        };
        self
    }

    /// The numbers from the first on.
    fn numbers(mut self, numbers: &[u64]) -> Case {
        self.numbers[..numbers.len()].copy_from_slice(numbers);
        self
    }

    fn input(mut self, bytes: &[u8]) -> Case {
        self.input = bytes.to_vec();
        self
    }

    fn fields(mut self, values: &[u64]) -> Case {
        self.input = bytes_of(values);
        self
    }

    fn lent(mut self, bytes: &[u8]) -> Case {
        self.lent = bytes.to_vec();
        self
    }

    /// So many numbers that stand in no answer.
    fn values(mut self, n: usize) -> Case {
        self.lent = vec![0xA5; 8 * n];
        self
    }

    fn known(mut self, from: &'static str, answer: &'static str) -> Case {
        self.known = Some((from, answer));
        self
    }

    fn same_call(&self, other: &Case) -> bool {
        self.operation == other.operation
            && self.numbers == other.numbers
            && self.input == other.input
            && self.lent == other.lent
    }

    /// The case as the program reads it.
    fn bytes(&self, number: usize) -> Vec<u8> {
        let length = |slice: &[u8]| u16::try_from(slice.len()).expect("a length").to_be_bytes();
        let front = [bytes_of(&self.numbers), self.input.clone()].concat();
        [
            vec![u8::try_from(number).expect("an operation")],
            length(&self.input).to_vec(),
            length(&self.lent).to_vec(),
            in_runs(&front),
            in_runs(&self.lent),
        ]
        .concat()
    }

    /// The answer's line without the case's number.
    fn answer(&self, operation: &Operation) -> String {
        let mut call = Call {
            numbers: self.numbers,
            input: self.input.clone(),
            fields: values_of(&self.input),
            lent: self.lent.clone(),
            values: values_of(&self.lent),
            told: vec![],
        };
        let status = (operation.status)(&mut call);
        let told: String = call.told.iter().map(|n| format!("{n:x} ")).collect();
        let lent = match operation.lends {
            Lends::Bytes => bytes_text(&call.lent),
            Lends::Values => values_text(&call.values),
        };
        let answer = format!("{told}{status:x}{lent}");
        if let Some((from, known)) = self.known {
            assert!(agrees(&answer, known), "{from}: {known}, here {answer}");
        }
        answer
    }

    /// What the list says of it.
    fn text(&self) -> String {
        let known = self.known.map(|(from, end)| format!(" [{from}: {end}]"));
        format!(
            "{}{}: {}{}",
            self.operation,
            self.edition,
            self.what,
            known.unwrap_or_default()
        )
    }
}

/// A program's input, its output, and what its cases are.
pub struct Files {
    pub stdin: Vec<u8>,
    pub stdout: String,
    pub list: String,
}

impl Program {
    pub fn files(&self) -> Files {
        let mut files = Files {
            stdin: vec![],
            stdout: String::new(),
            list: format!("{}\n", self.name),
        };
        let mut why = "";
        for (i, case) in merged((self.cases)()).iter().enumerate() {
            if case.why != why {
                why = case.why;
                writeln!(files.list, "\n  {why}").unwrap();
            }
            let number = self
                .operations
                .iter()
                .position(|o| o.name == case.operation);
            let number = number.unwrap_or_else(|| panic!("no operation {}", case.operation));
            files.stdin.extend(case.bytes(number));
            let answer = case.answer(&self.operations[number]);
            writeln!(files.stdout, "{} {answer}", i + 1).unwrap();
            writeln!(files.list, "{} {}", i + 1, case.text()).unwrap();
        }
        files
    }
}

/// Cases that are there for one reason.
fn because(why: &'static str, cases: Vec<Case>) -> Vec<Case> {
    let case = |case| Case { why, ..case };
    cases.into_iter().map(case).collect()
}

/// Cases of an edition.
fn by(edition: u64, cases: &[Case]) -> Vec<Case> {
    let case = |case: &Case| case.clone().edition(edition);
    cases.iter().map(case).collect()
}

/// Each case by both editions. What is known of its answer is known of both.
fn by_both(cases: &[Case]) -> Vec<Case> {
    [by(FIRST, cases), by(AREA_SAFETY, cases)].concat()
}

/// A case whose answers are known by document 02, a): that of the first edition, also by numbers that no edition has, and that of area safety.
fn apart(case: Case, first: &'static str, safety: &'static str) -> Vec<Case> {
    let known = |number, answer| {
        case.clone()
            .edition(number)
            .known("document 02, a)", answer)
    };
    let mut cases = vec![known(FIRST, first), known(AREA_SAFETY, safety)];
    cases.extend(NEITHER.map(|number| known(number, first)));
    cases
}

/// Cases that make the same call are one, which is what each of them is.
fn merged(cases: Vec<Case>) -> Vec<Case> {
    let mut merged: Vec<Case> = vec![];
    for case in cases {
        match merged.iter_mut().find(|before| before.same_call(&case)) {
            Some(before) => {
                if before.what != case.what {
                    before.what = format!("{}; {}", before.what, case.what);
                }
                before.known = before.known.or(case.known);
            }
            None => merged.push(case),
        }
    }
    merged
}

/// What stands above the list.
const HEAD: &str = "Where an operation takes an edition, it is named beside the operation if it is not the first. A case names it by its third number: 0 the first,
1 area safety, and any other is taken for the first.
";

/// The list of all cases.
pub fn list() -> String {
    let lists = PROGRAMS.map(|program| program.files().list);
    format!("{HEAD}\n{}", lists.join("\n"))
}

/// The refusal's number, and what else is told.
fn status(number: u8, more: u8) -> u64 {
    u64::from(number) + 256 * u64::from(more)
}

fn bytes_of(values: &[u64]) -> Vec<u8> {
    values
        .iter()
        .flat_map(|value| value.to_be_bytes())
        .collect()
}

fn values_of(bytes: &[u8]) -> Vec<u64> {
    let eight = |piece: &[u8]| u64::from_be_bytes(piece.try_into().expect("eight bytes"));
    bytes.chunks_exact(8).map(eight).collect()
}

/// What stands how often in a row.
fn runs<T: Copy + PartialEq>(s: &[T]) -> impl Iterator<Item = (T, usize)> + '_ {
    s.chunk_by(|a, b| a == b).map(|run| (run[0], run.len()))
}

fn in_runs(bytes: &[u8]) -> Vec<u8> {
    let pieces = runs(bytes).flat_map(|(byte, mut left)| {
        std::iter::from_fn(move || {
            let count = left.min(255);
            left -= count;
            (count > 0).then_some([count as u8, byte])
        })
    });
    pieces.flatten().collect()
}

fn bytes_text(bytes: &[u8]) -> String {
    let text = runs(bytes).map(|(byte, n)| match n {
        1 => format!("{byte:02x}"),
        _ => format!("{byte:02x}*{n}."),
    });
    format!(":{}", text.collect::<String>())
}

fn values_text(values: &[u64]) -> String {
    runs(values)
        .map(|(value, n)| match n {
            1 => format!(" {value:x}"),
            _ => format!(" {value:x}*{n}"),
        })
        .collect()
}

/// Whether an answer is the known one.
fn agrees(answer: &str, known: &str) -> bool {
    // A colon with nothing behind it is an empty slice.
    let answer = answer.trim_end_matches(':');
    match (known.strip_prefix(".."), known.strip_suffix("..")) {
        (Some(end), _) => answer.ends_with(end),
        (_, Some(start)) => answer.starts_with(start),
        _ => answer == known,
    }
}

/// The rows of a table: a line each, its columns parted by bars.
fn rows<const N: usize>(table: &'static str) -> impl Iterator<Item = [&'static str; N]> {
    let row = |line: &'static str| -> [&str; N] {
        let columns: Vec<_> = line.split('|').map(str::trim).collect();
        columns.try_into().expect("as many columns")
    };
    table.trim().lines().map(row)
}

/// Numbers, decimal or after `0x`, with `*n` where one stands n times.
fn numbers(text: &str) -> Vec<u64> {
    let number = |digits: &str| match digits.strip_prefix("0x") {
        Some(digits) => u64::from_str_radix(digits, 16),
        None => digits.parse(),
    };
    let run = |word: &str| {
        let (digits, n) = word.split_once('*').unwrap_or((word, "1"));
        vec![number(digits).expect("a number"); n.parse().expect("a count")]
    };
    text.split_whitespace().flat_map(run).collect()
}

/// Bytes from their digits.
fn hex(digits: &str) -> Vec<u8> {
    (0..digits.len() / 2)
        .map(|i| u8::from_str_radix(&digits[2 * i..2 * i + 2], 16).expect("a byte"))
        .collect()
}
