//! The exported functions as the archive has them, over numbers and slices. Each but [`capture_source`], [`capture_numbers`] and [`crc32`], which
//! refuse nothing, returns a status: the refusal's number in the low 8 bits, 0 where nothing was refused, and above them what else it tells.
//! A refusal leaves every buffer as it was, and a buffer of another length than the one named is refusal 1. The edition is a number: 0 the first, 1
//! area safety, and any other is taken for the first. So is the tuner: 0 none, 1 main, 2 spare, and any other is taken for none. The other modules
//! say the same with types.

mod archive {
    extern "C" {
        pub fn gvz_repair(
            frame: *const u8,
            frame_len: usize,
            word: *mut u8,
            word_len: usize,
        ) -> u32;
        pub fn gvz_repair_register(
            frame: *const u8,
            frame_len: usize,
            word: *mut u8,
            word_len: usize,
        ) -> u32;
        pub fn gvz_repair_marked(
            frame: *const u8,
            frame_len: usize,
            marks: *const u8,
            marks_len: usize,
            word: *mut u8,
            word_len: usize,
        ) -> u32;
        pub fn gvz_frame_read(
            edition: u32,
            tuner: u32,
            frame: *const u8,
            frame_len: usize,
            record: *mut u64,
            record_len: usize,
        ) -> u32;
        pub fn gvz_frame_read_marked(
            edition: u32,
            tuner: u32,
            frame: *const u8,
            frame_len: usize,
            marks: *const u8,
            marks_len: usize,
            record: *mut u64,
            record_len: usize,
        ) -> u32;
        pub fn gvz_frame_judge_marked(
            frame: *const u8,
            frame_len: usize,
            marks: *const u8,
            marks_len: usize,
        ) -> u32;
        pub fn gvz_frame_write(
            edition: u32,
            record: *const u64,
            record_len: usize,
            frame: *mut u8,
            frame_len: usize,
        ) -> u32;
        pub fn gvz_warned(record: *const u64, record_len: usize, area: u64) -> u32;
        pub fn gvz_report(
            edition: u32,
            record: *const u64,
            record_len: usize,
            place: *mut f64,
            place_len: usize,
        ) -> u32;
        pub fn gvz_desk(
            latitude: f64,
            longitude: f64,
            depth: f64,
            fields: *mut u64,
            fields_len: usize,
        ) -> u32;
        pub fn gvz_follow(edition: u32, state: u32, frame: *const u8, frame_len: usize) -> u32;
        pub fn gvz_capture_source(
            edition: u32,
            main: *const u8,
            main_len: usize,
            spare: *const u8,
            spare_len: usize,
            n: u64,
        ) -> u32;
        pub fn gvz_capture_numbers(
            edition: u32,
            main: *const u8,
            main_len: usize,
            spare: *const u8,
            spare_len: usize,
            n: u64,
        ) -> u32;
        pub fn gvz_ledger_count(
            edition: u32,
            ledger: *mut u64,
            ledger_len: usize,
            frame: *const u8,
            frame_len: usize,
        ) -> u32;
        pub fn gvz_ledger_length(ledger: *const u64, ledger_len: usize) -> u32;
        pub fn gvz_ledger_print(
            ledger: *const u64,
            ledger_len: usize,
            text: *mut u8,
            text_len: usize,
        ) -> u32;
        pub fn gvz_ledger_parse(
            text: *const u8,
            text_len: usize,
            ledger: *mut u64,
            ledger_len: usize,
        ) -> u32;
        pub fn gvz_header_read(
            header: *const u8,
            header_len: usize,
            record: *mut u64,
            record_len: usize,
        ) -> u32;
        pub fn gvz_header_write(
            record: *const u64,
            record_len: usize,
            header: *mut u8,
            header_len: usize,
        ) -> u32;
        pub fn gvz_lay_in(
            edition: u32,
            header: *mut u8,
            header_len: usize,
            frame: *const u8,
            frame_len: usize,
        ) -> u32;
        pub fn gvz_lay_in_marked(
            edition: u32,
            header: *mut u8,
            header_len: usize,
            frame: *const u8,
            frame_len: usize,
            marks: *const u8,
            marks_len: usize,
        ) -> u32;
        pub fn gvz_take_out(header: *mut u8, header_len: usize) -> u32;
        pub fn gvz_crc32(bytes: *const u8, bytes_len: usize) -> u32;
    }
}

// SAFETY, of every call below: each pointer is that of a slice, beside its length, and a `&mut` slice overlaps no other.

/// The number and 256 times the repaired places; `word` has 26 bytes.
pub fn repair(frame: &[u8], word: &mut [u8]) -> u32 {
    unsafe { archive::gvz_repair(frame.as_ptr(), frame.len(), word.as_mut_ptr(), word.len()) }
}

/// The same as [`repair`], by the second engine.
pub fn repair_register(frame: &[u8], word: &mut [u8]) -> u32 {
    unsafe {
        archive::gvz_repair_register(frame.as_ptr(), frame.len(), word.as_mut_ptr(), word.len())
    }
}

/// The same as [`repair`] with doubtful marks, 26 bytes.
pub fn repair_marked(frame: &[u8], marks: &[u8], word: &mut [u8]) -> u32 {
    unsafe {
        archive::gvz_repair_marked(
            frame.as_ptr(),
            frame.len(),
            marks.as_ptr(),
            marks.len(),
            word.as_mut_ptr(),
            word.len(),
        )
    }
}

/// The number and 65536 times the bits of B1 to B16 that differed; `record` has 21 values, of which the last two are the tuner told and the repaired
/// places.
pub fn frame_read(edition: u32, tuner: u32, frame: &[u8], record: &mut [u64]) -> u32 {
    unsafe {
        archive::gvz_frame_read(
            edition,
            tuner,
            frame.as_ptr(),
            frame.len(),
            record.as_mut_ptr(),
            record.len(),
        )
    }
}

/// The same as [`frame_read`] with doubtful marks, 26 bytes.
pub fn frame_read_marked(
    edition: u32,
    tuner: u32,
    frame: &[u8],
    marks: &[u8],
    record: &mut [u64],
) -> u32 {
    unsafe {
        archive::gvz_frame_read_marked(
            edition,
            tuner,
            frame.as_ptr(),
            frame.len(),
            marks.as_ptr(),
            marks.len(),
            record.as_mut_ptr(),
            record.len(),
        )
    }
}

/// The number, 256 times the repaired places and 65536 times the bits of B1 to B16 that differed, by the first edition.
pub fn frame_judge_marked(frame: &[u8], marks: &[u8]) -> u32 {
    unsafe {
        archive::gvz_frame_judge_marked(frame.as_ptr(), frame.len(), marks.as_ptr(), marks.len())
    }
}

/// The number; `record` has 21 values, of which the last two are not looked at, and `frame` 26 bytes.
pub fn frame_write(edition: u32, record: &[u64], frame: &mut [u8]) -> u32 {
    unsafe {
        archive::gvz_frame_write(
            edition,
            record.as_ptr(),
            record.len(),
            frame.as_mut_ptr(),
            frame.len(),
        )
    }
}

/// The number and 256 times 1 for a warned area; `record` has 21 values.
pub fn warned(record: &[u64], area: u64) -> u32 {
    unsafe { archive::gvz_warned(record.as_ptr(), record.len(), area) }
}

/// The number and 256 times the case; `record` has 21 values and `place`, which is written for a place alone, 3.
pub fn report(edition: u32, record: &[u64], place: &mut [f64]) -> u32 {
    unsafe {
        archive::gvz_report(
            edition,
            record.as_ptr(),
            record.len(),
            place.as_mut_ptr(),
            place.len(),
        )
    }
}

/// The number; `fields` has 5 values.
pub fn desk(latitude: f64, longitude: f64, depth: f64, fields: &mut [u64]) -> u32 {
    unsafe {
        archive::gvz_desk(
            latitude,
            longitude,
            depth,
            fields.as_mut_ptr(),
            fields.len(),
        )
    }
}

/// The number, 256 times the event and 65536 times the new state.
pub fn follow(edition: u32, state: u32, frame: &[u8]) -> u32 {
    unsafe { archive::gvz_follow(edition, state, frame.as_ptr(), frame.len()) }
}

/// 0 for neither, 1 for main, 2 for spare.
pub fn capture_source(edition: u32, main: &[u8], spare: &[u8], n: u64) -> u32 {
    unsafe {
        archive::gvz_capture_source(
            edition,
            main.as_ptr(),
            main.len(),
            spare.as_ptr(),
            spare.len(),
            n,
        )
    }
}

/// Main's number and 256 times spare's.
pub fn capture_numbers(edition: u32, main: &[u8], spare: &[u8], n: u64) -> u32 {
    unsafe {
        archive::gvz_capture_numbers(
            edition,
            main.as_ptr(),
            main.len(),
            spare.as_ptr(),
            spare.len(),
            n,
        )
    }
}

/// The number; `ledger` has 12 values and is changed in place.
pub fn ledger_count(edition: u32, ledger: &mut [u64], frame: &[u8]) -> u32 {
    unsafe {
        archive::gvz_ledger_count(
            edition,
            ledger.as_mut_ptr(),
            ledger.len(),
            frame.as_ptr(),
            frame.len(),
        )
    }
}

/// The number and 256 times the bytes of the report; `ledger` has 12 values.
pub fn ledger_length(ledger: &[u64]) -> u32 {
    unsafe { archive::gvz_ledger_length(ledger.as_ptr(), ledger.len()) }
}

/// The number: 18 for an impossible ledger, then 27 unless `text` has as many bytes as the report; `ledger` has 12 values.
pub fn ledger_print(ledger: &[u64], text: &mut [u8]) -> u32 {
    unsafe {
        archive::gvz_ledger_print(ledger.as_ptr(), ledger.len(), text.as_mut_ptr(), text.len())
    }
}

/// The number; `ledger` has 12 values.
pub fn ledger_parse(text: &[u8], ledger: &mut [u64]) -> u32 {
    unsafe {
        archive::gvz_ledger_parse(text.as_ptr(), text.len(), ledger.as_mut_ptr(), ledger.len())
    }
}

/// The number; `record` has 145 values.
pub fn header_read(header: &[u8], record: &mut [u64]) -> u32 {
    unsafe {
        archive::gvz_header_read(
            header.as_ptr(),
            header.len(),
            record.as_mut_ptr(),
            record.len(),
        )
    }
}

/// The number; `record` has 145 values and `header` 188 bytes.
pub fn header_write(record: &[u64], header: &mut [u8]) -> u32 {
    unsafe {
        archive::gvz_header_write(
            record.as_ptr(),
            record.len(),
            header.as_mut_ptr(),
            header.len(),
        )
    }
}

/// The number; `header` is changed in place.
pub fn lay_in(edition: u32, header: &mut [u8], frame: &[u8]) -> u32 {
    unsafe {
        archive::gvz_lay_in(
            edition,
            header.as_mut_ptr(),
            header.len(),
            frame.as_ptr(),
            frame.len(),
        )
    }
}

/// The same as [`lay_in`] with doubtful marks, 26 bytes.
pub fn lay_in_marked(edition: u32, header: &mut [u8], frame: &[u8], marks: &[u8]) -> u32 {
    unsafe {
        archive::gvz_lay_in_marked(
            edition,
            header.as_mut_ptr(),
            header.len(),
            frame.as_ptr(),
            frame.len(),
            marks.as_ptr(),
            marks.len(),
        )
    }
}

/// The number; `header` is changed in place.
pub fn take_out(header: &mut [u8]) -> u32 {
    unsafe { archive::gvz_take_out(header.as_mut_ptr(), header.len()) }
}

/// The CRC-32 itself.
pub fn crc32(bytes: &[u8]) -> u32 {
    unsafe { archive::gvz_crc32(bytes.as_ptr(), bytes.len()) }
}
