//! The functions of include/hasfandur.h, with safe wrappers. The only unsafe code of this program: each call passes
//! pointers and lengths of slices, which are what the header asks for (a slice's pointer is never null, and a `&mut` slice
//! overlaps nothing else).
pub mod kiss;
pub mod link;
pub mod sheet;

use second::afp::{Part, Reading};
use second::reader::{Answer, State};
use second::Written;

#[repr(C)]
struct RawWritten {
    number: u8,
    length: usize,
}

#[repr(C)]
struct RawPart {
    place: usize,
    size: usize,
}

/// `unchecked` is C's bool, taken as a number: another value than 0 and 1 must show instead of being undefined here.
#[repr(C)]
struct RawReading {
    number: u8,
    protocol: u8,
    stations: RawPart,
    ids: usize,
    next: usize,
    supplementary: RawPart,
    payload: RawPart,
    unchecked: u8,
}

#[repr(C)]
struct RawReceiver {
    number: u8,
    field: RawPart,
}

/// The reader's state as C has it: any number but 0 in `synced`, `pending` and `bad_pair` stands for true.
#[repr(C)]
#[derive(Debug, Clone, Copy, PartialEq, Eq)]
pub struct RawReader {
    pub level: u8,
    pub check_kind: u8,
    pub synced: u8,
    pub pending: u8,
    pub bad_pair: u8,
    pub check: u16,
    pub count: usize,
}

impl From<State> for RawReader {
    fn from(state: State) -> Self {
        RawReader {
            level: state.level,
            check_kind: state.kind,
            synced: state.flag.into(),
            pending: state.pending.into(),
            count: state.count,
            check: state.check,
            bad_pair: state.bad_pair.into(),
        }
    }
}

#[repr(C)]
struct RawAnswer {
    number: u8,
    taken: usize,
    length: usize,
    reader: RawReader,
}

#[link(name = "hasfandur", kind = "static")]
extern "C" {
    fn hasfandur_qaft_check(octets: *const u8, length: usize) -> u8;
    fn hasfandur_qaft_write(
        level: u8,
        check_kind: u8,
        at_flag: bool,
        data: *const u8,
        data_length: usize,
        out: *mut u8,
        out_length: usize,
    ) -> RawWritten;
    fn hasfandur_qaft_fresh(level: u8, check_kind: u8) -> RawReader;
    fn hasfandur_qaft_read(
        reader: RawReader,
        chunk: *const u8,
        chunk_length: usize,
        buffer: *mut u8,
        buffer_length: usize,
    ) -> RawAnswer;
    fn hasfandur_afp_sum(octets: *const u8, length: usize) -> u8;
    fn hasfandur_afp_next_station_sum(field: *const u8, length: usize) -> u8;
    fn hasfandur_afp_header_sum(octets: *const u8, length: usize) -> u8;
    fn hasfandur_check_sequence(octets: *const u8, length: usize) -> u16;
    fn hasfandur_afp_read(frame: *const u8, length: usize) -> RawReading;
    fn hasfandur_afp_next_receiver(frame: *const u8, length: usize) -> RawReceiver;
    fn hasfandur_afp_write(
        protocol: u8,
        stations: *const u8,
        stations_length: usize,
        next: usize,
        supplementary: *const u8,
        supplementary_length: usize,
        data: *const u8,
        data_length: usize,
        out: *mut u8,
        out_length: usize,
    ) -> RawWritten;
}

fn written(raw: RawWritten) -> Written {
    Written {
        number: raw.number,
        length: raw.length,
    }
}

fn part(raw: RawPart) -> Part {
    Part {
        place: raw.place,
        size: raw.size,
    }
}

pub fn qaft_check(octets: &[u8]) -> u8 {
    unsafe { hasfandur_qaft_check(octets.as_ptr(), octets.len()) }
}

pub fn qaft_write(level: u8, kind: u8, at_flag: bool, data: &[u8], out: &mut [u8]) -> Written {
    let (place, room) = (out.as_mut_ptr(), out.len());
    let (octets, length) = (data.as_ptr(), data.len());
    written(unsafe { hasfandur_qaft_write(level, kind, at_flag, octets, length, place, room) })
}

pub fn qaft_fresh(level: u8, kind: u8) -> RawReader {
    unsafe { hasfandur_qaft_fresh(level, kind) }
}

pub fn qaft_read(reader: RawReader, portion: &[u8], store: &mut [u8]) -> (RawReader, Answer) {
    let (place, room) = (store.as_mut_ptr(), store.len());
    let raw = unsafe { hasfandur_qaft_read(reader, portion.as_ptr(), portion.len(), place, room) };
    let answer = Answer {
        number: raw.number,
        taken: raw.taken,
        length: raw.length,
    };
    (raw.reader, answer)
}

pub fn afp_sum(octets: &[u8]) -> u8 {
    unsafe { hasfandur_afp_sum(octets.as_ptr(), octets.len()) }
}

pub fn afp_next_station_sum(field: &[u8]) -> u8 {
    unsafe { hasfandur_afp_next_station_sum(field.as_ptr(), field.len()) }
}

pub fn afp_header_sum(octets: &[u8]) -> u8 {
    unsafe { hasfandur_afp_header_sum(octets.as_ptr(), octets.len()) }
}

pub fn check_sequence(octets: &[u8]) -> u16 {
    unsafe { hasfandur_check_sequence(octets.as_ptr(), octets.len()) }
}

pub fn afp_read(frame: &[u8]) -> Reading {
    let raw = unsafe { hasfandur_afp_read(frame.as_ptr(), frame.len()) };
    assert!(raw.unchecked < 2, "the archive's bool is {}", raw.unchecked);
    Reading {
        number: raw.number,
        protocol: raw.protocol,
        stations: part(raw.stations),
        ids: raw.ids,
        next: raw.next,
        supplementary: part(raw.supplementary),
        payload: part(raw.payload),
        unchecked: raw.unchecked == 1,
    }
}

/// The number, and the field shown.
pub fn afp_next_receiver(frame: &[u8]) -> (u8, Part) {
    let raw = unsafe { hasfandur_afp_next_receiver(frame.as_ptr(), frame.len()) };
    (raw.number, part(raw.field))
}

pub fn afp_write(
    protocol: u8,
    stations: &[u8],
    next: usize,
    supplementary: &[u8],
    data: &[u8],
    out: &mut [u8],
) -> Written {
    written(unsafe {
        hasfandur_afp_write(
            protocol,
            stations.as_ptr(),
            stations.len(),
            next,
            supplementary.as_ptr(),
            supplementary.len(),
            data.as_ptr(),
            data.len(),
            out.as_mut_ptr(),
            out.len(),
        )
    })
}
