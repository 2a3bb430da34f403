//! KISS on the line, from change request 2026-05 and TAPR's specification: the frame writer, a reader of whole lines, and the
//! conversions between KISS and QAFT captures.
pub mod reader;
#[cfg(test)]
mod worked;

use crate::check::Check;
use crate::{qaft, Written};

pub const FEND: u8 = 0xC0;
pub const FESC: u8 = 0xDB;
pub const TFEND: u8 = 0xDC;
pub const TFESC: u8 = 0xDD;
/// The longest frame: two flags, the type octet 00, and each octet of the payload escaped.
pub const MAX_FRAME: usize = 2 * qaft::MAX_DATA + 3;

/// Octets as they stand on the line.
pub fn escaped(octets: &[u8]) -> Vec<u8> {
    let mut line = Vec::with_capacity(2 * octets.len());
    for &x in octets {
        match x {
            FEND => line.extend([FESC, TFEND]),
            FESC => line.extend([FESC, TFESC]),
            _ => line.push(x),
        }
    }
    line
}

/// A frame's body: the type octet for data and port 0, then the payload, both escaped.
pub fn body(payload: &[u8]) -> Vec<u8> {
    escaped(&[&[0x00], payload].concat())
}

/// Writes one frame to the front of `out`. Refusals in the order 1, 2, 64.
pub fn write(at_flag: bool, payload: &[u8], out: &mut [u8]) -> Written {
    if payload.is_empty() {
        return Written::refused(1);
    }
    if payload.len() > qaft::MAX_DATA {
        return Written::refused(2);
    }
    let mut frame = Vec::new();
    if !at_flag {
        frame.push(FEND);
    }
    frame.extend(body(payload));
    frame.push(FEND);
    Written::put(&frame, out, 64)
}

/// What is reported of a segment that a flag closed.
#[derive(Debug, Clone, PartialEq, Eq)]
pub enum Report {
    Frame(Vec<u8>),
    BadEscape,
    Short,
    Long,
    Skipped,
}

/// The octets that a segment stands for, or nothing where an escape is bad: FESC before anything but TFEND and TFESC, the
/// closing flag too.
fn unescaped(segment: &[u8]) -> Option<Vec<u8>> {
    let mut octets = Vec::with_capacity(segment.len());
    let mut rest = segment.iter();
    while let Some(&x) = rest.next() {
        octets.push(match x {
            FESC => match *rest.next()? {
                TFEND => FEND,
                TFESC => FESC,
                _ => return None,
            },
            _ => x,
        });
    }
    Some(octets)
}

/// The report on one segment, the first that applies. The segment holds no flag and is not empty.
pub fn report(segment: &[u8]) -> Report {
    let Some(octets) = unescaped(segment) else {
        return Report::BadEscape;
    };
    let (kind, payload) = (octets[0], &octets[1..]);
    let (port, command) = (kind >> 4, kind & 0x0F);
    if payload.is_empty() {
        Report::Short
    } else if payload.len() > qaft::MAX_DATA {
        Report::Long
    } else if (port, command) != (0, 0) {
        Report::Skipped
    } else {
        Report::Frame(payload.to_vec())
    }
}

/// What a whole line says: its reports, and how many octets stand before the first flag and after the last.
#[derive(Debug, PartialEq, Eq)]
pub struct Line {
    pub reports: Vec<Report>,
    pub before: usize,
    pub after: usize,
}

/// Reads a whole line. With no flag all octets are before.
pub fn read_line(line: &[u8]) -> Line {
    let segments: Vec<&[u8]> = line.split(|&x| x == FEND).collect();
    let before = segments[0].len();
    let (closed, after) = match segments[1..].split_last() {
        None => (&[][..], 0),
        Some((last, closed)) => (closed, last.len()),
    };
    let reports = closed
        .iter()
        .filter(|s| !s.is_empty())
        .map(|s| report(s))
        .collect();
    Line {
        reports,
        before,
        after,
    }
}

/// A conversion's answer: octets written, frames, frames of another port or command (63), other reports.
#[derive(Debug, Clone, Copy, PartialEq, Eq)]
pub struct Converted {
    pub number: u8,
    pub length: usize,
    pub frames: usize,
    pub skipped: usize,
    pub others: usize,
}

impl Converted {
    fn refused(number: u8) -> Self {
        Converted {
            number,
            length: 0,
            frames: 0,
            skipped: 0,
            others: 0,
        }
    }

    /// Puts a whole line at the front of `out`, or refuses with `too_small`.
    fn put(line: &[u8], counts: [usize; 3], out: &mut [u8], too_small: u8) -> Self {
        let written = Written::put(line, out, too_small);
        if written.number != 0 {
            return Self::refused(written.number);
        }
        let [frames, skipped, others] = counts;
        Converted {
            number: 0,
            length: written.length,
            frames,
            skipped,
            others,
        }
    }
}

/// One flag, then each body and a flag; an empty list writes nothing.
fn line_of(flag: u8, bodies: &[Vec<u8>]) -> Vec<u8> {
    let mut line = Vec::new();
    for body in bodies {
        if line.is_empty() {
            line.push(flag);
        }
        line.extend(body);
        line.push(flag);
    }
    line
}

/// A QAFT capture as a KISS line. Refusals in the order 6, 64.
pub fn from_qaft(level: u8, capture: &[u8], out: &mut [u8]) -> Converted {
    if level > 1 {
        return Converted::refused(6);
    }
    let reports = qaft::read_line(level, Check::Sum, capture).reports;
    let bodies: Vec<Vec<u8>> = reports
        .iter()
        .filter_map(|r| match r {
            qaft::Report::Frame(data) => Some(body(data)),
            _ => None,
        })
        .collect();
    let counts = [bodies.len(), 0, reports.len() - bodies.len()];
    Converted::put(&line_of(FEND, &bodies), counts, out, 64)
}

/// A KISS capture as a QAFT line. Refusals in the order 6, 3.
pub fn to_qaft(level: u8, capture: &[u8], out: &mut [u8]) -> Converted {
    if level > 1 {
        return Converted::refused(6);
    }
    let reports = read_line(capture).reports;
    let bodies: Vec<Vec<u8>> = reports
        .iter()
        .filter_map(|r| match r {
            Report::Frame(payload) => Some(qaft::body(level, Check::Sum, payload)),
            _ => None,
        })
        .collect();
    let skipped = reports.iter().filter(|r| **r == Report::Skipped).count();
    let counts = [
        bodies.len(),
        skipped,
        reports.len() - bodies.len() - skipped,
    ];
    Converted::put(&line_of(qaft::FLAG, &bodies), counts, out, 3)
}
