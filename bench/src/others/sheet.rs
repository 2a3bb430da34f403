//! The line sheet in plain C (c/plain_sheet.c).
use second::sheet::COUNTS;

#[repr(C)]
struct RawCounts {
    number: u8,
    counts: [u64; COUNTS],
}

extern "C" {
    fn plain_sheet_count(level: u8, capture: *const u8, length: usize) -> RawCounts;
}

pub fn count(level: u8, capture: &[u8]) -> [u64; COUNTS] {
    unsafe { plain_sheet_count(level, capture.as_ptr(), capture.len()) }.counts
}
