//! The line sheet of include/hasfandur.h.
use second::sheet::{Counted, Record, COUNTS};

#[repr(C)]
struct RawCounts {
    number: u8,
    counts: [u64; COUNTS],
}

/// A record as C has it: a struct of its counts alone, so it lies in memory as they do.
#[repr(C)]
struct RawTally {
    counts: Record,
}

// the archive is named in the file above
extern "C" {
    fn hasfandur_sheet_count(level: u8, capture: *const u8, length: usize) -> RawCounts;
    fn hasfandur_sheet_tally(
        level: u8,
        capture: *const u8,
        length: usize,
        line: usize,
        table: *mut RawTally,
        lines: usize,
    ) -> u8;
    fn hasfandur_sheet_line(line: usize, tally: RawTally, out: *mut u8, length: usize) -> usize;
}

pub fn count(level: u8, capture: &[u8]) -> Counted {
    let raw = unsafe { hasfandur_sheet_count(level, capture.as_ptr(), capture.len()) };
    Counted {
        number: raw.number,
        counts: raw.counts,
    }
}

pub fn tally(level: u8, capture: &[u8], line: usize, table: &mut [Record]) -> u8 {
    let (place, lines) = (table.as_mut_ptr().cast(), table.len());
    unsafe { hasfandur_sheet_tally(level, capture.as_ptr(), capture.len(), line, place, lines) }
}

pub fn put_line(number: usize, record: &Record, out: &mut [u8]) -> usize {
    let (place, room) = (out.as_mut_ptr(), out.len());
    let tally = RawTally { counts: *record };
    unsafe { hasfandur_sheet_line(number, tally, place, room) }
}
