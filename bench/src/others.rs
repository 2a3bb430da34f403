//! The contenders in C, with safe wrappers: plain C (c/plain.c), and packaged libraries where they are there.
pub mod kiss;
pub mod qaft;
pub mod sheet;

use crate::archive::link::{Link, Outcome};
use second::afp::{Part, Reading};
use second::Written;

#[repr(C)]
struct RawWritten {
    number: u8,
    length: usize,
}

#[repr(C)]
struct RawPart {
    place: usize,
    size: usize,
}

#[repr(C)]
struct RawReading {
    number: u8,
    protocol: u8,
    stations: RawPart,
    ids: usize,
    next: usize,
    supplementary: RawPart,
    payload: RawPart,
    unchecked: bool,
}

#[repr(C)]
struct RawReceiver {
    number: u8,
    field: RawPart,
}

extern "C" {
    fn plain_sum_by_octets(octets: *const u8, length: usize) -> u8;
    fn plain_sum_at_end(octets: *const u8, length: usize) -> u8;
    fn plain_dlc_timer(link: Link, reply: *mut u8, reply_length: usize) -> Outcome;
    fn plain_dlc_payload(
        link: Link,
        payload: *const u8,
        length: usize,
        reply: *mut u8,
        reply_length: usize,
    ) -> Outcome;
    fn plain_afp_read(frame: *const u8, length: usize) -> RawReading;
    fn plain_afp_next_receiver(frame: *const u8, length: usize) -> RawReceiver;
    fn plain_afp_write(
        protocol: u8,
        stations: *const u8,
        stations_length: usize,
        next: usize,
        supplementary: *const u8,
        supplementary_length: usize,
        octets: *const u8,
        length: usize,
        out: *mut u8,
        room: usize,
    ) -> RawWritten;
    fn plain_make_table();
    fn plain_check_by_table(octets: *const u8, length: usize) -> u16;
    fn plain_check_by_bits(octets: *const u8, length: usize) -> u16;
}

/// Before any other call.
pub fn start() {
    unsafe { plain_make_table() }
    #[cfg(osmocom)]
    osmocom::start();
}

pub fn dlc_timer(link: Link, reply: &mut [u8]) -> Outcome {
    unsafe { plain_dlc_timer(link, reply.as_mut_ptr(), reply.len()) }
}

pub fn dlc_payload(link: Link, payload: &[u8], reply: &mut [u8]) -> Outcome {
    let (place, room) = (reply.as_mut_ptr(), reply.len());
    unsafe { plain_dlc_payload(link, payload.as_ptr(), payload.len(), place, room) }
}

fn part(raw: RawPart) -> Part {
    Part {
        place: raw.place,
        size: raw.size,
    }
}

pub fn afp_read(frame: &[u8]) -> Reading {
    let raw = unsafe { plain_afp_read(frame.as_ptr(), frame.len()) };
    Reading {
        number: raw.number,
        protocol: raw.protocol,
        stations: part(raw.stations),
        ids: raw.ids,
        next: raw.next,
        supplementary: part(raw.supplementary),
        payload: part(raw.payload),
        unchecked: raw.unchecked,
    }
}

/// The number, and the field shown.
pub fn afp_next_receiver(frame: &[u8]) -> (u8, Part) {
    let raw = unsafe { plain_afp_next_receiver(frame.as_ptr(), frame.len()) };
    (raw.number, part(raw.field))
}

/// The station fields have fewer than 128 IDs.
pub fn afp_write(
    protocol: u8,
    stations: &[u8],
    next: usize,
    supplementary: &[u8],
    data: &[u8],
    out: &mut [u8],
) -> Written {
    assert!(stations.len() < second::afp::MAX_HEADER);
    let raw = unsafe {
        plain_afp_write(
            protocol,
            stations.as_ptr(),
            stations.len(),
            next,
            supplementary.as_ptr(),
            supplementary.len(),
            data.as_ptr(),
            data.len(),
            out.as_mut_ptr(),
            out.len(),
        )
    };
    Written {
        number: raw.number,
        length: raw.length,
    }
}

pub fn sum_by_octets(octets: &[u8]) -> u8 {
    unsafe { plain_sum_by_octets(octets.as_ptr(), octets.len()) }
}

pub fn sum_at_end(octets: &[u8]) -> u8 {
    unsafe { plain_sum_at_end(octets.as_ptr(), octets.len()) }
}

pub fn check_by_table(octets: &[u8]) -> u16 {
    unsafe { plain_check_by_table(octets.as_ptr(), octets.len()) }
}

pub fn check_by_bits(octets: &[u8]) -> u16 {
    unsafe { plain_check_by_bits(octets.as_ptr(), octets.len()) }
}

#[cfg(boost)]
pub mod boost {
    extern "C" {
        fn boost_check_sequence(octets: *const u8, length: usize) -> u16;
    }

    pub fn check_sequence(octets: &[u8]) -> u16 {
        unsafe { boost_check_sequence(octets.as_ptr(), octets.len()) }
    }
}

#[cfg(osmocom)]
pub mod osmocom {
    extern "C" {
        fn osmocom_start();
        fn osmocom_check_sequence(octets: *const u8, length: usize) -> u16;
        fn osmocom_write(octets: *const u8, length: usize, out: *mut u8) -> usize;
        fn osmocom_read(chunk: *const u8, length: usize) -> usize;
    }

    pub(super) fn start() {
        unsafe { osmocom_start() }
    }

    pub fn check_sequence(octets: &[u8]) -> u16 {
        unsafe { osmocom_check_sequence(octets.as_ptr(), octets.len()) }
    }

    /// One frame of sercomm; the octets it takes.
    pub fn write(data: &[u8], out: &mut [u8]) -> usize {
        // two flags, two octets of head, and one more pull that gives nothing
        assert!(out.len() >= 2 * (data.len() + 2) + 3);
        unsafe { osmocom_write(data.as_ptr(), data.len(), out.as_mut_ptr()) }
    }

    /// The data octets of the frames in a chunk of sercomm's line.
    pub fn read(chunk: &[u8]) -> usize {
        unsafe { osmocom_read(chunk.as_ptr(), chunk.len()) }
    }
}
