//! The program that prints the ledger of the frames that it reads, fed through a pipe, against the plain version.
mod common;
use common::programs::{clean, written, written_without_end};
use reference::frame::Edition;
use reference::ledger::{ledger_report_of_input, of_list, report, Ledger, MOST};
use reference::FRAME_BYTES;
use samples::ledgers::{every_judgment, frame_judged};
use samples::Random;
use std::iter;

const PROGRAM: &str = "print_ledger";

/// The report of the frames in an input, as the program prints it when the input comes in writes of this size.
fn printed(input: &[u8], size: usize) -> Vec<u8> {
    let pieces: Vec<Vec<u8>> = input.chunks(size).map(<[u8]>::to_vec).collect();
    written(PROGRAM, pieces)
}

/// Document 02's sample: a clean frame and then five bytes.
const TWO_PIECES: &str = "\
seen 2\n\
refused 1 1\n\
refused 2 0\n\
refused 3 0\n\
refused 4 0\n\
refused 5 0\n\
refused 6 0\n\
refused 7 0\n\
refused 8 0\n\
refused 9 0\n\
accepted 1\n\
repaired 0\n";

#[test]
fn pieces_of_a_pipe_are_put_together() {
    let input = [clean(), vec![1, 2, 3, 4, 5]].concat();
    for size in [1, 5, 13, 26, 31] {
        let text = printed(&input, size);
        assert_eq!(text, TWO_PIECES.as_bytes(), "pieces of {size}");
    }
}

#[test]
fn an_empty_input() {
    let fresh = report(Ledger::default()).expect("possible");
    assert_eq!(printed(&[], 1), fresh);
    assert_eq!(ledger_report_of_input(&[]), fresh);
}

/// Frames of 26 bytes of every judgment by the first edition, so many of each, in any order.
fn frames_of_every_judgment(each: usize, random: &mut Random) -> Vec<Vec<u8>> {
    let judgments = every_judgment();
    // Those that are refused with 1 have another length, and would move all that follow.
    let whole = judgments.iter().filter(|&&judged| judged != Err(1));
    let mut frames: Vec<Vec<u8>> = whole
        .flat_map(|&judged| iter::repeat_n(judged, each))
        .map(|judged| frame_judged(Edition::First, judged, random))
        .collect();
    for i in 1..frames.len() {
        frames.swap(i, random.below(i + 1));
    }
    frames
}

/// Frames of every judgment, frames of all sorts, cut to their length, noise, and a last piece of each length that is short.
#[test]
fn frames_of_all_sorts() {
    let mut random = Random::new(13);
    let mut input = frames_of_every_judgment(100, &mut random).concat();
    for _ in 0..3000 {
        let mut bytes = samples::frames::frame(&mut random).bytes;
        bytes.resize(FRAME_BYTES, 0);
        input.extend(bytes);
    }
    input.extend(random.bytes(FRAME_BYTES * 1000));
    for size in [1000, input.len()] {
        let text = printed(&input, size);
        assert_eq!(text, ledger_report_of_input(&input), "pieces of {size}");
    }
    let end = input.len() - FRAME_BYTES * 10;
    for last in 1..FRAME_BYTES {
        let input = [&input[end..], &clean()[..last]].concat();
        let text = printed(&input, input.len());
        assert_eq!(text, ledger_report_of_input(&input), "{last} bytes");
    }
}

/// Inputs that end about where a turn of 65,520 bytes ends, which is 2,520 frames, and about where a pipe of 65,536 bytes is full.
#[test]
fn the_ends_of_turns() {
    let mut random = Random::new(14);
    let input = frames_of_every_judgment(300, &mut random).concat();
    for turns in [1, 2] {
        for past in [0, 1, 5, 15, 16, 17, 25, 26, 27, 52] {
            for length in [65_520 * turns - past, 65_520 * turns + past] {
                let input = &input[..length];
                for size in [4_096, length] {
                    let text = printed(input, size);
                    assert_eq!(text, ledger_report_of_input(input), "{length} bytes");
                }
            }
        }
    }
}

/// A thousand frames or so, again and again, up to this number of bytes.
fn repeated(block: &[u8], bytes: usize) -> impl Iterator<Item = Vec<u8>> {
    let rest = block[..bytes % block.len()].to_vec();
    let whole = iter::repeat_n(block.to_vec(), bytes / block.len());
    whole.chain([rest])
}

/// What the frames of such an input say, without judging each as often as it comes: the program reads no more than 4,000,000 of them.
fn report_of_repeated(block: &[u8], bytes: usize) -> Vec<u8> {
    let bytes = bytes.min(FRAME_BYTES * MOST as usize);
    let numbers = |input: &[u8]| {
        let pieces = input.chunks(FRAME_BYTES);
        let frames: Vec<(Edition, &[u8])> = pieces.map(|piece| (Edition::First, piece)).collect();
        of_list(&frames).numbers()
    };
    let (whole, rest) = (bytes / block.len(), bytes % block.len());
    let (whole_numbers, rest_numbers) = (numbers(block), numbers(&block[..rest]));
    let sum = std::array::from_fn(|i| whole as u64 * whole_numbers[i] + rest_numbers[i]);
    report(Ledger::from_numbers(sum)).expect("possible")
}

#[test]
fn it_stops_after_4000000_frames() {
    let mut random = Random::new(15);
    let block = frames_of_every_judgment(60, &mut random).concat();
    let small = 2 * block.len() + 105;
    let input = repeated(&block, small).collect::<Vec<_>>().concat();
    let text = report_of_repeated(&block, small);
    assert_eq!(text, ledger_report_of_input(&input));

    let most = FRAME_BYTES * MOST as usize;
    let (fewer, more) = (most - FRAME_BYTES, most + FRAME_BYTES);
    for bytes in [fewer, most - 1, most, most + 1, more] {
        let text = written(PROGRAM, repeated(&block, bytes));
        assert_eq!(text, report_of_repeated(&block, bytes), "{bytes} bytes");
    }
    // It wants no byte more, and reads none of an input that goes on and on.
    let full = report_of_repeated(&block, most);
    let text = written_without_end(PROGRAM, repeated(&block, most));
    assert_eq!(text, full);
    assert_eq!(written(PROGRAM, iter::repeat(block)), full);
}
