//! The day's ledger (document 02, "The day's ledger"): what a list of frames says in numbers, and the report that is printed of it and read again.
use crate::frame::{self, Edition};
use crate::FRAME_BYTES;

/// "For any sequence of at most 4,000,000 frames from a fresh ledger".
pub const MOST: u64 = 4_000_000;

/// How many numbers a ledger has, and how many lines its report has: "`seen`, then `refused 1` to `refused 9`, `accepted` and `repaired`, a line
/// each".
pub const NUMBERS: usize = 12;

/// Document 01, refusal 4: "no code word within eight places". So an accepted frame has eight repaired places at most.
const MOST_PLACES: u64 = 8;

/// "refusal 18 exactly when the bytes are not a report of some possible ledger"; "an impossible ledger handed in is 18 too".
const IMPOSSIBLE: u8 = 18;

/// "At 4,000,000 frames the next is refused with 19".
const FULL: u8 = 19;

/// "27, a report buffer of another size".
const OTHER_SIZE: u8 = 27;

/// "frames seen, frames by refusal number, accepted, and places repaired in all". The default is the fresh one: "an emptied ledger starts a new
/// list".
#[derive(Clone, Copy, Debug, PartialEq, Eq, Default)]
pub struct Ledger {
    pub seen: u64,
    /// Those refused with 1 first: "the frame is tested 1 to 9", so that no frame has another number.
    pub refused: [u64; 9],
    pub accepted: u64,
    /// "the repaired total being the sum of each accepted frame's repaired places".
    pub repaired: u64,
}

impl Ledger {
    /// The ledger that has these numbers, in the order of the report. They may be any, and then it may be an impossible one.
    pub fn from_numbers(numbers: [u64; NUMBERS]) -> Ledger {
        let [seen, refused @ .., accepted, repaired] = numbers;
        Ledger {
            seen,
            refused,
            accepted,
            repaired,
        }
    }

    /// Its numbers in the order of the report.
    pub fn numbers(self) -> [u64; NUMBERS] {
        let mut numbers = [0; NUMBERS];
        numbers[0] = self.seen;
        numbers[1..=9].copy_from_slice(&self.refused);
        numbers[10] = self.accepted;
        numbers[11] = self.repaired;
        numbers
    }

    /// Whether some list of at most 4,000,000 frames gives it. Any numbers may be asked; the sums are made where they cannot overflow.
    ///
    /// What a list gives has these three properties. Each of its frames is seen once, and is either accepted or refused with one of 1 to 9, so that
    /// the ten counts sum up to the frames seen; these are 4,000,000 at most; and no accepted frame has more than eight repaired places.
    ///
    /// Whatever has them is given by a list. Each of 1 to 9 is some frame's refusal, so that a list may have as many frames of each as it likes. A
    /// clean frame, hit in any number of its places up to eight, is accepted with that number; so the accepted ones are taken with eight repaired
    /// places while as many are left to be had, one with the rest, and the others with none: since the total is at most eight times their number,
    /// they suffice.
    pub fn possible(self) -> bool {
        let counts = self.refused.iter().chain([&self.accepted]);
        let sum: u128 = counts.map(|&count| u128::from(count)).sum();
        let most_repaired = u128::from(MOST_PLACES) * u128::from(self.accepted);
        self.seen <= MOST
            && sum == u128::from(self.seen)
            && u128::from(self.repaired) <= most_repaired
    }
}

/// What the ledger is after one more frame, which is judged by the edition named and may be any bytes; or the refusal's number, "18 too, before 19".
/// The frame's own refusal is none here: it is counted.
pub fn count(edition: Edition, ledger: Ledger, frame: &[u8]) -> Result<Ledger, u8> {
    if !ledger.possible() {
        return Err(IMPOSSIBLE);
    }
    if ledger.seen == MOST {
        return Err(FULL);
    }
    let mut next = ledger;
    next.seen += 1;
    match frame::judge(edition, frame) {
        Ok(places) => {
            next.accepted += 1;
            next.repaired += u64::from(places);
        }
        Err(number) => next.refused[usize::from(number) - 1] += 1,
    }
    Ok(next)
}

/// "each number must equal what the list of frames itself says by the rules": each is counted or summed up over the whole list. A list of more than
/// 4,000,000 frames may be asked too; what it says is then no possible ledger.
pub fn of_list<F: AsRef<[u8]>>(frames: &[(Edition, F)]) -> Ledger {
    let judged = |(edition, frame): &(Edition, F)| frame::judge(*edition, frame.as_ref());
    of_judged(&frames.iter().map(judged).collect::<Vec<_>>())
}

/// The same of what the frames were judged, the repaired places or the refusal's number.
pub fn of_judged(judged: &[Result<u8, u8>]) -> Ledger {
    let count = |which: &dyn Fn(Result<u8, u8>) -> bool| {
        judged.iter().filter(|&&frame| which(frame)).count() as u64
    };
    let places = judged.iter().flatten();
    Ledger {
        seen: count(&|_| true),
        refused: [1, 2, 3, 4, 5, 6, 7, 8, 9].map(|number| count(&|frame| frame == Err(number))),
        accepted: count(&|frame| frame.is_ok()),
        repaired: places.map(|&places| u64::from(places)).sum(),
    }
}

/// What stands in each line before the space and the number.
const LABELS: [&str; NUMBERS] = [
    "seen",
    "refused 1",
    "refused 2",
    "refused 3",
    "refused 4",
    "refused 5",
    "refused 6",
    "refused 7",
    "refused 8",
    "refused 9",
    "accepted",
    "repaired",
];

/// The printed report, "a line each with one space and a plain decimal number", or the refusal's number. Each line ends in one newline, the last one
/// too, as in document 01's listing.
pub fn report(ledger: Ledger) -> Result<Vec<u8>, u8> {
    if !ledger.possible() {
        return Err(IMPOSSIBLE);
    }
    let lines = LABELS.iter().zip(ledger.numbers());
    let text: String = lines
        .map(|(label, number)| format!("{label} {number}\n"))
        .collect();
    Ok(text.into_bytes())
}

/// Prints the report into a buffer of its size; a refusal leaves it: 18 "before 27, a report buffer of another size".
pub fn print(ledger: Ledger, buffer: &mut [u8]) -> u8 {
    match report(ledger) {
        Err(number) => number,
        Ok(text) if text.len() != buffer.len() => OTHER_SIZE,
        Ok(text) => {
            buffer.copy_from_slice(&text);
            0
        }
    }
}

/// "Its reader gives refusal 18 exactly when the bytes are not a report of some possible ledger, else that ledger".
pub fn parse(text: &[u8]) -> Result<Ledger, u8> {
    let numbers = numbers_of(text).ok_or(IMPOSSIBLE)?;
    let ledger = Ledger::from_numbers(numbers);
    match ledger.possible() {
        true => Ok(ledger),
        false => Err(IMPOSSIBLE),
    }
}

/// The numbers of twelve lines with their labels, which have all to be there in their order and nothing else.
fn numbers_of(text: &[u8]) -> Option<[u64; NUMBERS]> {
    let without_last_newline = text.strip_suffix(b"\n")?;
    let lines: Vec<&[u8]> = without_last_newline.split(|&byte| byte == b'\n').collect();
    let lines: [&[u8]; NUMBERS] = lines.try_into().ok()?;
    let mut numbers = [0; NUMBERS];
    for (i, line) in lines.into_iter().enumerate() {
        let after_label = line.strip_prefix(LABELS[i].as_bytes())?;
        numbers[i] = decimal(after_label.strip_prefix(b" ")?)?;
    }
    Some(numbers)
}

/// "a plain decimal number": digits only, at least one, and no 0 before another. Nothing for a number from 2^64 on, which no possible ledger has.
fn decimal(digits: &[u8]) -> Option<u64> {
    if digits.is_empty() || (digits.len() > 1 && digits[0] == b'0') {
        return None;
    }
    let mut number: u64 = 0;
    for digit in digits {
        if !digit.is_ascii_digit() {
            return None;
        }
        number = number
            .checked_mul(10)?
            .checked_add(u64::from(digit - b'0'))?;
    }
    Some(number)
}

/// What the program that reads frames and prints their report writes, first edition. As in document 01's listing the input is taken in pieces of 26
/// bytes and "A short last piece is a frame"; after 4,000,000 frames it stops reading. Of an empty input it is the fresh ledger's report.
pub fn ledger_report_of_input(input: &[u8]) -> Vec<u8> {
    let pieces = input.chunks(FRAME_BYTES).take(MOST as usize);
    let frames: Vec<(Edition, &[u8])> = pieces.map(|frame| (Edition::First, frame)).collect();
    report(of_list(&frames)).expect("what a list of at most 4,000,000 frames says is possible")
}
