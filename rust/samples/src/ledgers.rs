//! Ledgers, possible and impossible, lists of frames that give them, and texts that are a report or nearly one (document 02, l).
use crate::frames::{self, hit, written, Expected};
use crate::records::{bodies, legal_record};
use crate::Random;
use reference::frame::{Edition, EDITIONS};
use reference::ledger::{MOST, NUMBERS};
use std::ops::Range;

/// A ledger's numbers in the order of its report.
pub type Numbers = [u64; NUMBERS];

/// Where they stand: the frames seen, the ten sorts of frames, which are those refused with 1 to 9 and those accepted, and the repaired places.
pub const SEEN: usize = 0;
pub const SORTS: [usize; 10] = [1, 2, 3, 4, 5, 6, 7, 8, 9, 10];
pub const ACCEPTED: usize = 10;
pub const REPAIRED: usize = 11;

#[derive(Clone, Debug, PartialEq, Eq)]
pub struct Sample {
    pub numbers: Numbers,
    /// Whether its making says that some list of at most 4,000,000 frames gives it; none where it says nothing.
    pub possible: Option<bool>,
}

fn possible(numbers: Numbers) -> Sample {
    Sample {
        numbers,
        possible: Some(true),
    }
}

fn impossible(numbers: Numbers) -> Sample {
    Sample {
        numbers,
        possible: Some(false),
    }
}

/// The ledger with another number in one place.
fn with(mut numbers: Numbers, place: usize, number: u64) -> Numbers {
    numbers[place] = number;
    numbers
}

// ---- possible ledgers

/// How many frames are seen: none, few, about half of the most, and the most.
pub const SIZES: [u64; 12] = [
    0,
    1,
    2,
    9,
    10,
    99,
    65_536,
    1_999_999,
    2_000_000,
    MOST - 2,
    MOST - 1,
    MOST,
];

/// A possible ledger of so many frames, which are divided among some of the sorts in any way.
pub fn of_size(seen: u64, random: &mut Random) -> Numbers {
    // One sort, all, two, or any number of them.
    let count = 1 + random.up_to(9) as usize;
    let sorts = random.choose(count, &SORTS);
    let mut numbers = with([0; NUMBERS], SEEN, seen);
    let mut left = seen;
    for &sort in &sorts[1..] {
        numbers[sort] = random.up_to(left);
        left -= numbers[sort];
    }
    numbers[sorts[0]] = left;
    numbers[REPAIRED] = random.up_to(8 * numbers[ACCEPTED]);
    numbers
}

/// A possible ledger of any size.
pub fn possible_ledger(random: &mut Random) -> Numbers {
    let seen = match random.below(3) {
        0 => random.pick(&SIZES),
        1 => random.up_to(MOST),
        _ => {
            let bits = random.below(21);
            random.up_to(1 << bits)
        }
    };
    of_size(seen, random)
}

/// All frames of one sort.
fn of_one_sort(sort: usize, seen: u64, repaired: u64) -> Numbers {
    let numbers = with([0; NUMBERS], SEEN, seen);
    with(with(numbers, sort, seen), REPAIRED, repaired)
}

/// Possible ledgers at their ends: every size in every sort alone, with accepted frames no repaired place, one, all, and one less than all; a ledger
/// whose report has the most digits; and some that are divided in any way.
pub fn every_possible(random: &mut Random) -> Vec<Numbers> {
    let mut ledgers = vec![];
    for seen in SIZES {
        ledgers.extend(SORTS.map(|sort| of_one_sort(sort, seen, 0)));
        let all = 8 * seen;
        for repaired in [all.min(1), all.saturating_sub(1), all] {
            ledgers.push(of_one_sort(ACCEPTED, seen, repaired));
        }
        ledgers.extend((0..10).map(|_| of_size(seen, random)));
    }
    ledgers.extend(every_length());
    ledgers
}

/// The longest report: three sorts of seven digits leave six for each of the others, and four would leave nothing.
const LONGEST: Numbers = [
    3_950_000, 1_000_000, 1_000_000, 100_000, 100_000, 100_000, 100_000, 100_000, 100_000, 100_000,
    1_250_000, 10_000_000,
];

/// Possible ledgers whose reports have every length, from 137 bytes to 203.
pub fn every_length() -> Vec<Numbers> {
    let mut ledgers = vec![LONGEST];
    // Each number is cut digit by digit, the repaired places first.
    let mut shorter = LONGEST;
    for place in (1..NUMBERS).rev() {
        while shorter[place] > 0 {
            shorter[place] /= 10;
            shorter[SEEN] = SORTS.iter().map(|&sort| shorter[sort]).sum();
            ledgers.push(shorter);
        }
    }
    // Two sorts, whose sum has a digit more, and one.
    for power in (0..=5).map(|i| 10u64.pow(i)) {
        let half = of_one_sort(ACCEPTED, 5 * power, 0);
        let both = with(with(half, 1, 5 * power), SEEN, 10 * power);
        ledgers.extend([both, with(both, REPAIRED, power.min(10))]);
        ledgers.push(of_one_sort(ACCEPTED, power, power));
    }
    ledgers
}

// ---- impossible ledgers

/// Makes impossible ledgers of a possible one.
type Edit = fn(&Numbers) -> Vec<Numbers>;

const EDITS: [Edit; 6] = [
    one_place_more,
    one_off,
    left_out,
    too_great,
    wrapped,
    too_many,
];

/// Whatever is impossible beside a possible ledger.
pub fn edits(base: &Numbers) -> Vec<Numbers> {
    EDITS.iter().flat_map(|edit| edit(base)).collect()
}

/// One repaired place too many.
fn one_place_more(base: &Numbers) -> Vec<Numbers> {
    vec![with(*base, REPAIRED, 8 * base[ACCEPTED] + 1)]
}

/// The frames seen or one sort one off, either way.
fn one_off(base: &Numbers) -> Vec<Numbers> {
    let places = [SEEN].into_iter().chain(SORTS);
    places
        .flat_map(|place| {
            let number = base[place];
            [number.wrapping_add(1), number.wrapping_sub(1)].map(|other| with(*base, place, other))
        })
        .collect()
}

/// A sort that has frames left out of the sum, or twice in it.
fn left_out(base: &Numbers) -> Vec<Numbers> {
    let sorts = SORTS.into_iter().filter(|&sort| base[sort] > 0);
    sorts
        .flat_map(|sort| [0, 2 * base[sort]].map(|other| with(*base, sort, other)))
        .collect()
}

/// In each place a number that is too great for any: the greatest, and some of which the low 32 bits or the low 63 are right.
fn too_great(base: &Numbers) -> Vec<Numbers> {
    let mut ledgers = vec![];
    for (place, &number) in base.iter().enumerate() {
        for other in [
            u64::MAX,
            u64::from(u32::MAX),
            number + (1 << 32),
            number + (1 << 63),
        ] {
            ledgers.push(with(*base, place, other));
        }
    }
    ledgers
}

/// The sorts sum up to the frames seen only when the sum is cut to 64 bits, and so is eight times those accepted.
fn wrapped(base: &Numbers) -> Vec<Numbers> {
    let moved = |from: usize, to: usize, count: u64| {
        let less = with(*base, from, base[from].wrapping_sub(count));
        with(less, to, base[to].wrapping_add(count))
    };
    let mut ledgers = vec![];
    for (from, to) in SORTS.iter().flat_map(|&a| SORTS.map(|b| (a, b))) {
        if from != to {
            // One more than there are.
            ledgers.push(moved(from, to, base[from] + 1));
        }
        if from < to {
            ledgers.push(moved(from, to, 1 << 63));
        }
        if to == ACCEPTED && from != to {
            ledgers.push(moved(from, to, 1 << 61));
        }
    }
    ledgers
}

/// More frames than the most, and the sum is right.
fn too_many(base: &Numbers) -> Vec<Numbers> {
    let sizes = [MOST + 1, MOST + 2, 1 << 32, base[SEEN] + (1 << 32), 1 << 63];
    let mut ledgers = vec![];
    for seen in sizes.into_iter().chain([u64::MAX]) {
        for sort in SORTS {
            let more = seen - base[SEEN];
            ledgers.push(with(with(*base, SEEN, seen), sort, base[sort] + more));
        }
    }
    ledgers
}

/// One frame counted under another sort: the sum stays right, and the ledger possible, but for an accepted frame that takes with it the places that
/// were repaired in it.
pub fn one_moved(base: &Numbers) -> Vec<Sample> {
    let mut samples = vec![];
    for (from, to) in SORTS.iter().flat_map(|&a| SORTS.map(|b| (a, b))) {
        if from != to && base[from] > 0 {
            let less = with(*base, from, base[from] - 1);
            let numbers = with(less, to, base[to] + 1);
            samples.push(match from {
                ACCEPTED if base[REPAIRED] > 8 * (base[ACCEPTED] - 1) => impossible(numbers),
                _ => possible(numbers),
            });
        }
    }
    samples
}

/// Ledgers of which all numbers are the same, but for the fresh one.
pub fn all_alike() -> Vec<Numbers> {
    let numbers = [1, 8, MOST, u64::from(u32::MAX), 1 << 32, 1 << 63, u64::MAX];
    numbers.map(|number| [number; NUMBERS]).to_vec()
}

/// Any numbers, of all lengths in bits, if asked with the sum of the sorts, cut to 64 bits, as the frames seen.
fn noise(summed: bool, random: &mut Random) -> Sample {
    let mut numbers: Numbers = std::array::from_fn(|_| random.number() >> random.below(64));
    if random.below(2) == 0 {
        numbers = numbers.map(|number| number % 500_000);
    }
    if summed {
        let sum = |sum: u64, &sort: &usize| sum.wrapping_add(numbers[sort]);
        numbers[SEEN] = SORTS.iter().fold(0, sum);
    }
    Sample {
        numbers,
        possible: None,
    }
}

/// A ledger of any sort.
pub fn ledger(random: &mut Random) -> Sample {
    match random.below(8) {
        0 => noise(false, random),
        1 => noise(true, random),
        2 | 3 => {
            let base = possible_ledger(random);
            let edits = random.pick(&EDITS)(&base);
            match edits[..] {
                // The fresh ledger has no sort to leave out.
                [] => possible(base),
                _ => impossible(random.pick(&edits)),
            }
        }
        4 => {
            let base = possible_ledger(random);
            let moved = one_moved(&base);
            let moved = moved.get(random.below(moved.len() + 1)).cloned();
            moved.unwrap_or(possible(base))
        }
        _ => possible(possible_ledger(random)),
    }
}

/// Every list above: the possible ledgers, and all that is beside some of them.
pub fn systematic(random: &mut Random) -> Vec<Sample> {
    let ledgers = every_possible(random);
    let mut samples: Vec<Sample> = ledgers.iter().copied().map(possible).collect();
    samples.extend(all_alike().into_iter().map(impossible));
    let bases = SIZES.map(|seen| of_size(seen, random));
    let full = SIZES.map(|seen| of_one_sort(ACCEPTED, seen, 8 * seen));
    for base in bases.iter().chain(&full).chain([&LONGEST]) {
        samples.extend(edits(base).into_iter().map(impossible));
        samples.extend(one_moved(base));
    }
    samples
}

// ---- lists of frames

/// A list of frames, each with the edition that it is judged by, and the numbers that its making says.
#[derive(Clone, Debug, PartialEq, Eq)]
pub struct List {
    pub frames: Vec<(Edition, Vec<u8>)>,
    pub numbers: Numbers,
}

/// Everything that a frame can be judged: the refusal's number, or the repaired places.
pub fn every_judgment() -> Vec<Result<u8, u8>> {
    (1..=9).map(Err).chain((0..=8).map(Ok)).collect()
}

/// A frame that in this edition is judged so.
pub fn frame_judged(edition: Edition, judged: Result<u8, u8>, random: &mut Random) -> Vec<u8> {
    match judged {
        Ok(places) => {
            let body = random.pick(bodies(edition));
            let mut frame = written(&legal_record(body, random));
            hit(&mut frame, usize::from(places), random);
            let flips = random.below(4);
            frames::flip_pattern(&mut frame, flips, random);
            frame.to_vec()
        }
        Err(number) => loop {
            // With more than nine places hit the making does not say whether it is 4.
            let sample = frames::faulty(edition, &[number], random);
            if sample.expected(edition) == Expected::Refused(number) {
                return sample.bytes;
            }
        },
    }
}

/// A list of so many frames of all sorts, by both editions.
pub fn list(length: usize, random: &mut Random) -> List {
    let judgments = every_judgment();
    let mut list = List {
        frames: vec![],
        numbers: [0; NUMBERS],
    };
    for _ in 0..length {
        let (edition, judged) = (random.pick(&EDITIONS), random.pick(&judgments));
        let frame = frame_judged(edition, judged, random);
        list.frames.push((edition, frame));
        list.numbers[SEEN] += 1;
        match judged {
            Ok(places) => {
                list.numbers[ACCEPTED] += 1;
                list.numbers[REPAIRED] += u64::from(places);
            }
            Err(number) => list.numbers[usize::from(number)] += 1,
        }
    }
    list
}

// ---- texts

#[derive(Clone, Debug, PartialEq, Eq)]
pub struct Text {
    pub bytes: Vec<u8>,
    /// What its making says of its reading: the ledger, or the refusal's number; none where it says nothing.
    pub expected: Option<Result<Numbers, u8>>,
}

fn refused(bytes: impl Into<Vec<u8>>) -> Text {
    Text {
        bytes: bytes.into(),
        expected: Some(Err(18)),
    }
}

/// The twelve lines, without their newlines.
fn lines(numbers: &Numbers) -> Vec<String> {
    let line = |(place, number): (usize, &u64)| match place {
        SEEN => format!("seen {number}"),
        ACCEPTED => format!("accepted {number}"),
        REPAIRED => format!("repaired {number}"),
        k => format!("refused {k} {number}"),
    };
    numbers.iter().enumerate().map(line).collect()
}

/// Lines with a newline after each.
fn joined(lines: &[String]) -> String {
    lines.iter().map(|line| format!("{line}\n")).collect()
}

/// These numbers in the form of a report. It is one if the ledger is possible.
pub fn form(numbers: &Numbers) -> Vec<u8> {
    joined(&lines(numbers)).into_bytes()
}

/// The form of a ledger; where its making says nothing of the ledger, it says nothing of the text.
pub fn text_of(sample: &Sample) -> Text {
    let expected = match sample.possible {
        Some(true) => Some(Ok(sample.numbers)),
        Some(false) => Some(Err(18)),
        None => None,
    };
    Text {
        bytes: form(&sample.numbers),
        expected,
    }
}

/// Where the digits of the repaired places stand in a report: with other digits it may be the report of another ledger. With other digits in any
/// other number it is none, since then the sum is wrong, or a 0 stands before another digit, or nothing is left.
fn repaired_digits(numbers: &Numbers) -> Range<usize> {
    let end = form(numbers).len() - 1;
    end - numbers[REPAIRED].to_string().len()..end
}

/// Bytes that are put in the place of others, or between them.
const BYTES: [u8; 16] = [
    b'0', b'1', b'2', b'9', b' ', b'\n', b'\r', b'\t', 0, b'+', b'-', b'.', b'e', b'R', 0x80, 0xFF,
];

/// The report of a possible ledger with each byte removed, doubled, exchanged with the next, changed in one bit, and changed to others; and with
/// others before each byte and behind the last. Nothing is said of digits among those of the repaired places.
pub fn each_byte(base: &Numbers) -> Vec<Text> {
    let text = form(base);
    let digits = repaired_digits(base);
    let mut texts = vec![];
    let mut add = |bytes: Vec<u8>, open: bool| {
        if bytes != text {
            let expected = (!open).then_some(Err(18));
            texts.push(Text { bytes, expected });
        }
    };
    for at in 0..text.len() {
        let (before, byte, after) = (&text[..at], text[at], &text[at + 1..]);
        let inside = digits.contains(&at);
        add([before, after].concat(), inside);
        add([before, &[byte, byte], after].concat(), inside);
        let flipped = (0..8).map(|bit| byte ^ 1 << bit);
        for other in flipped.chain(BYTES) {
            let open = inside && other.is_ascii_digit();
            add([before, &[other], after].concat(), open);
        }
        if let [next, after @ ..] = after {
            let open = inside && digits.contains(&(at + 1));
            add([before, &[*next, byte], after].concat(), open);
        }
    }
    for at in 0..=text.len() {
        for other in BYTES {
            let among = digits.start <= at && at <= digits.end;
            let open = among && other.is_ascii_digit();
            add([&text[..at], &[other], &text[at..]].concat(), open);
        }
    }
    texts
}

/// The report of a possible ledger cut off at every length, from the front and from the end.
pub fn each_cut(base: &Numbers) -> Vec<Text> {
    let text = form(base);
    let front = (0..text.len()).map(|length| refused(&text[..length]));
    let end = (1..text.len()).map(|length| refused(&text[length..]));
    front.chain(end).collect()
}

/// What is written for a number instead of it.
fn other_numbers(number: u64) -> Vec<String> {
    let number = u128::from(number);
    let word = 1u128 << 64;
    let mut texts: Vec<String> = [
        number + word,
        number + 10 * word,
        number + (1 << 32),
        number + (1 << 63),
        word - 1,
        word,
        10u128.pow(19),
        10u128.pow(20) - 1,
        u128::MAX,
    ]
    .map(|other| other.to_string())
    .to_vec();
    for zeros in [1, 2, 7, 20, 1_000] {
        texts.push(format!("{}{number}", "0".repeat(zeros)));
    }
    texts.push("9".repeat(1_000));
    for before in ["+", "-", " ", "\t", "0x", "\u{2212}", "'"] {
        texts.push(format!("{before}{number}"));
    }
    for after in [" ", "\r", "\t", ".", ".0", ",0", "e0", "\0", "_", "\n"] {
        texts.push(format!("{number}{after}"));
    }
    texts.extend(["", "-", "x", "NaN", "\u{0661}", "\u{ff11}"].map(str::to_owned));
    texts
}

/// The report of a possible ledger with something else in each number's place.
pub fn each_number(base: &Numbers) -> Vec<Text> {
    let lines = lines(base);
    let mut texts = vec![];
    for (place, &number) in base.iter().enumerate() {
        let label = lines[place].rsplit_once(' ').expect("a space").0;
        for other in other_numbers(number) {
            let mut lines = lines.clone();
            lines[place] = format!("{label} {other}");
            texts.push(refused(joined(&lines)));
        }
    }
    texts
}

/// A line of a report in some other form.
fn other_lines(line: &str) -> Vec<String> {
    let last_space = line.rsplit_once(' ').expect("a space");
    vec![
        format!(" {line}"),
        format!("{line} "),
        format!("{line}\r"),
        format!("{line}\n"),
        format!("\n{line}"),
        format!("{line}\n{line}"),
        format!("# {line}"),
        line.to_uppercase(),
        format!("{}{}", line[..1].to_uppercase(), &line[1..]),
        line.replace(' ', "  "),
        line.replace(' ', "\t"),
        line.replace(' ', "\u{a0}"),
        line.replace(' ', ""),
        line.replacen(' ', ": ", 1),
        format!("{}  {}", last_space.0, last_space.1),
        format!("{}{}", last_space.0, last_space.1),
        format!("{} {}", last_space.1, last_space.0),
        last_space.0.to_owned(),
        last_space.1.to_owned(),
        String::new(),
    ]
}

/// The report of a possible ledger with a line in another form, left out or in another line's place, with other newlines, with more before and
/// behind it; and texts that are far from one.
pub fn each_line(base: &Numbers) -> Vec<Text> {
    let lines = lines(base);
    let text = joined(&lines);
    let mut texts = vec![];
    for place in 0..NUMBERS {
        for other in other_lines(&lines[place]) {
            let mut lines = lines.clone();
            lines[place] = other;
            texts.push(refused(joined(&lines)));
        }
        let mut without = lines.clone();
        without.remove(place);
        texts.push(refused(joined(&without)));
        // Without the newline after it.
        let (before, after) = (joined(&lines[..place]), joined(&lines[place + 1..]));
        texts.push(refused(format!("{before}{}{after}", lines[place])));
        for other in 0..place {
            let mut swapped = lines.clone();
            swapped.swap(place, other);
            texts.push(refused(joined(&swapped)));
            // The same with the numbers of the two alone left where they were: it is the labels that are exchanged.
            let mut labels = lines.clone();
            for (at, label) in [(place, other), (other, place)] {
                let (label, _) = lines[label].rsplit_once(' ').expect("a space");
                labels[at] = format!("{label} {}", base[at]);
            }
            texts.push(refused(joined(&labels)));
        }
    }
    let mut turned = lines.clone();
    turned.reverse();
    texts.push(refused(joined(&turned)));
    for newline in ["\r\n", "\n\r", "\r", "\n\n", " ", "", "\0", "\\n"] {
        texts.push(refused(text.replace('\n', newline)));
    }
    for more in [
        "\n",
        " ",
        "\0",
        "\r",
        "0",
        "\u{feff}",
        "end 0\n",
        "refused 10 0\n",
        &text,
    ] {
        texts.push(refused(format!("{text}{more}")));
        texts.push(refused(format!("{more}{text}")));
    }
    texts.extend(["", "\n", "0", "seen", "seen 0\n", "end 0\n"].map(refused));
    texts.push(refused("\n".repeat(12)));
    texts.push(refused("0\n".repeat(12)));
    texts.push(refused(vec![0; text.len()]));
    texts
}

/// A report with a few bytes changed, removed or put in, of which nothing is said.
fn blurred(random: &mut Random) -> Text {
    let mut bytes = form(&possible_ledger(random));
    for _ in 0..=random.below(3) {
        let at = random.below(bytes.len());
        let byte = match random.below(2) {
            0 => random.pick(&BYTES),
            _ => random.number() as u8,
        };
        match random.below(3) {
            0 => bytes[at] = byte,
            1 => bytes.insert(at, byte),
            _ => drop(bytes.remove(at)),
        }
    }
    Text {
        bytes,
        expected: None,
    }
}

/// Another number of repaired places: the report of a possible ledger up to eight for each accepted frame, and of none beyond.
fn other_repaired(random: &mut Random) -> Text {
    let base = possible_ledger(random);
    let most = 8 * base[ACCEPTED];
    let number = match random.below(3) {
        0 => most + 1 + random.up_to(most),
        _ => random.up_to(most),
    };
    let numbers = with(base, REPAIRED, number);
    text_of(&match number <= most {
        true => possible(numbers),
        false => impossible(numbers),
    })
}

/// A text of any sort.
pub fn text(random: &mut Random) -> Text {
    match random.below(10) {
        0..=2 => text_of(&ledger(random)),
        3 => other_repaired(random),
        4 => blurred(random),
        5 => {
            let length = random.below(250);
            // Bytes without a pattern have no label.
            refused(random.bytes(length))
        }
        which => {
            let lists = [each_byte, each_cut, each_number, each_line];
            let texts = lists[which - 6](&possible_ledger(random));
            texts[random.below(texts.len())].clone()
        }
    }
}

/// Every list of texts above, of some possible ledgers, and the forms of all ledgers of `systematic`.
pub fn systematic_texts(random: &mut Random) -> Vec<Text> {
    let mut texts: Vec<Text> = systematic(random).iter().map(text_of).collect();
    let mut bases = vec![[0; NUMBERS], TWO_PIECES, LONGEST];
    bases.extend([1, 10, MOST].map(|seen| of_size(seen, random)));
    bases.push(of_one_sort(ACCEPTED, MOST, 8 * MOST));
    for base in bases {
        for list in [each_byte, each_cut, each_number, each_line] {
            texts.extend(list(&base));
        }
    }
    texts
}

/// "the two pieces of document 01's listing give `seen 2`, `refused 1 1`, `refused 2 0` and so on to `refused 9 0`, `accepted 1`, `repaired 0`".
pub const TWO_PIECES: Numbers = [2, 1, 0, 0, 0, 0, 0, 0, 0, 0, 1, 0];
