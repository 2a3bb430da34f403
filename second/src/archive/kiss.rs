//! KISS and the conversions of include/hasfandur.h.
use super::{written, RawWritten};
use second::kiss::reader::State;
use second::kiss::Converted;
use second::reader::Answer;
use second::Written;

/// The KISS reader's state as C has it: any number but 0 in `synced`, `pending` and `bad_escape` stands for true.
#[repr(C)]
#[derive(Debug, Clone, Copy, PartialEq, Eq)]
pub struct RawReader {
    pub synced: u8,
    pub pending: u8,
    pub count: usize,
    pub type_octet: u8,
    pub bad_escape: u8,
}

impl From<State> for RawReader {
    fn from(state: State) -> Self {
        RawReader {
            synced: state.flag.into(),
            pending: state.pending.into(),
            count: state.count,
            type_octet: state.kind,
            bad_escape: state.bad.into(),
        }
    }
}

#[repr(C)]
struct RawAnswer {
    number: u8,
    taken: usize,
    length: usize,
    reader: RawReader,
}

#[repr(C)]
struct RawConversion {
    number: u8,
    length: usize,
    frames: u64,
    skipped: u64,
    others: u64,
}

// the archive is named in the file above
extern "C" {
    fn hasfandur_kiss_write(
        at_flag: bool,
        payload: *const u8,
        payload_length: usize,
        out: *mut u8,
        out_length: usize,
    ) -> RawWritten;
    fn hasfandur_kiss_fresh() -> RawReader;
    fn hasfandur_kiss_read(
        state: RawReader,
        chunk: *const u8,
        chunk_length: usize,
        buffer: *mut u8,
        buffer_length: usize,
    ) -> RawAnswer;
    fn hasfandur_qaft_to_kiss(
        level: u8,
        capture: *const u8,
        capture_length: usize,
        out: *mut u8,
        out_length: usize,
    ) -> RawConversion;
    fn hasfandur_kiss_to_qaft(
        level: u8,
        capture: *const u8,
        capture_length: usize,
        out: *mut u8,
        out_length: usize,
    ) -> RawConversion;
}

pub fn write(at_flag: bool, payload: &[u8], out: &mut [u8]) -> Written {
    let (place, room) = (out.as_mut_ptr(), out.len());
    written(unsafe { hasfandur_kiss_write(at_flag, payload.as_ptr(), payload.len(), place, room) })
}

pub fn fresh() -> RawReader {
    unsafe { hasfandur_kiss_fresh() }
}

pub fn read(state: RawReader, portion: &[u8], store: &mut [u8]) -> (RawReader, Answer) {
    let (place, room) = (store.as_mut_ptr(), store.len());
    let raw = unsafe { hasfandur_kiss_read(state, portion.as_ptr(), portion.len(), place, room) };
    let answer = Answer {
        number: raw.number,
        taken: raw.taken,
        length: raw.length,
    };
    (raw.reader, answer)
}

fn converted(raw: RawConversion) -> Converted {
    Converted {
        number: raw.number,
        length: raw.length,
        frames: raw.frames as usize,
        skipped: raw.skipped as usize,
        others: raw.others as usize,
    }
}

pub fn from_qaft(level: u8, capture: &[u8], out: &mut [u8]) -> Converted {
    let (place, room) = (out.as_mut_ptr(), out.len());
    converted(unsafe {
        hasfandur_qaft_to_kiss(level, capture.as_ptr(), capture.len(), place, room)
    })
}

pub fn to_qaft(level: u8, capture: &[u8], out: &mut [u8]) -> Converted {
    let (place, room) = (out.as_mut_ptr(), out.len());
    converted(unsafe {
        hasfandur_kiss_to_qaft(level, capture.as_ptr(), capture.len(), place, room)
    })
}
