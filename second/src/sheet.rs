//! The monthly line sheet of change requests 2026-01, 2026-02 and 2026-04: what a capture counts, a table with one record a line,
//! the printed lines.
#[cfg(test)]
mod worked;

use crate::check::Check;
use crate::link::{Link, DACK, DATA, REPLY};
use crate::qaft::{self, Report};
use std::ops::Range;

/// Lines have the numbers 0 to 63, also where the table is longer.
pub const LINES: usize = 64;
pub const COUNTS: usize = 14;
/// The room that is asked for a printed line: 20 digits for each of its numbers (its own, the counts, two of the share), and the
/// octet behind each.
pub const MAX_LINE: usize = (COUNTS + 3) * (20 + 1);
/// No printed line is longer: a line number of 20 digits, counts of 10, a share of 10 and 11 (all reports are six counts), 15
/// spaces, the stroke, the newline.
pub const LONGEST_LINE: usize = 20 + COUNTS * 10 + 10 + 11 + 15 + 1 + 1;

/// Where in a record the octet counts stand, that of skipped octets last, the reports 10 to 14 and 16, and the bad checks among
/// them.
pub const OCTETS: Range<usize> = 0..5;
pub const REPORTS: Range<usize> = 5..11;
pub const BAD_CHECKS: usize = 9;

/// A line's tallies, in the order in which they are printed (see [`Counts::in_order`]).
pub type Record = [u32; COUNTS];

/// What is counted of one capture.
#[derive(Debug, Clone, Copy, PartialEq, Eq, Default)]
pub struct Counts {
    /// octets before the first flag
    pub before: u64,
    pub flags: u64,
    /// octets in reported segments, as they stand on the line, without those that are skipped
    pub segments: u64,
    /// octets after the last flag
    pub after: u64,
    /// skipped octets between two flags, in reported segments and in empty ones
    pub skipped: u64,
    /// reports of each kind, 10 to 14 and 16
    pub reports: [u64; 6],
    pub data: u64,
    pub dack: u64,
    pub repeats: u64,
}

impl Counts {
    /// The counts as the request names them, kinds by number.
    pub fn in_order(&self) -> [u64; COUNTS] {
        let [frames, aborted, long, short, bad, pairs] = self.reports;
        [
            self.before,
            self.flags,
            self.segments,
            self.after,
            self.skipped,
            frames,
            aborted,
            long,
            short,
            bad,
            pairs,
            self.data,
            self.dack,
            self.repeats,
        ]
    }

    /// A frame's packet, where there is one; `earlier` is the number of the DATA before it in this capture.
    fn add_packet(&mut self, data: &[u8], earlier: &mut Option<u8>) {
        match packet(data) {
            Some((DATA, x)) => {
                self.data += 1;
                self.repeats += u64::from(*earlier == Some(x));
                *earlier = Some(x);
            }
            Some((DACK, _)) => self.dack += 1,
            _ => {}
        }
    }
}

/// Kind and number of the packet that a frame's data is, or nothing where a link would answer 23, which no edition bears on.
fn packet(data: &[u8]) -> Option<(u8, u8)> {
    let control = data.first()?;
    let (_, answer) = Link::fresh(1).packet(data, &mut [0; REPLY]);
    (answer.number != 23).then_some((control & 0xF0, control & 0x0F))
}

/// What a capture counts at a level. A segment is reported where it is closed and has an octet that is not skipped, so the five
/// octet counts add up to the capture's length.
pub fn counts(level: u8, capture: &[u8]) -> Counts {
    let cut = qaft::cut(capture);
    let mut counts = Counts {
        before: cut.before.len() as u64,
        flags: cut.flags as u64,
        after: cut.after.len() as u64,
        ..Counts::default()
    };
    let mut earlier = None;
    for segment in cut.closed {
        let kept = qaft::unskipped(level, segment).len();
        counts.skipped += (segment.len() - kept) as u64;
        counts.segments += kept as u64;
        let Some(report) = qaft::report(level, Check::Sum, segment) else {
            continue;
        };
        let kind = match report {
            Report::Frame(_) => 0,
            Report::Aborted => 1,
            Report::Long => 2,
            Report::Short => 3,
            Report::Bad => 4,
            Report::Pair => 5,
        };
        counts.reports[kind] += 1;
        if let Report::Frame(data) = report {
            counts.add_packet(&data, &mut earlier);
        }
    }
    counts
}

/// What a capture counts at a level, as C is told: 0 or 6, and each count up to 2^32, which stands for all above.
#[derive(Debug, Clone, Copy, PartialEq, Eq)]
pub struct Counted {
    pub number: u8,
    pub counts: [u64; COUNTS],
}

pub fn count(level: u8, capture: &[u8]) -> Counted {
    if level > 1 {
        return Counted {
            number: 6,
            counts: [0; COUNTS],
        };
    }
    Counted {
        number: 0,
        counts: counts(level, capture).in_order().map(|n| n.min(1 << 32)),
    }
}

/// A record with more added to it, or nothing where one of its counts would pass 32 bits.
pub fn added(record: &Record, more: &[u64; COUNTS]) -> Option<Record> {
    let mut sums = *record;
    for (sum, &n) in sums.iter_mut().zip(more) {
        *sum = u32::try_from(u64::from(*sum) + n).ok()?;
    }
    Some(sums)
}

/// Adds a capture to its line's record. Refusals, in the order 6, 50, 51, change no record.
pub fn tally(level: u8, capture: &[u8], line: usize, table: &mut [Record]) -> u8 {
    if level > 1 {
        return 6;
    }
    if line >= LINES || line >= table.len() {
        return 50;
    }
    match added(&table[line], &counts(level, capture).in_order()) {
        None => 51,
        Some(record) => {
            table[line] = record;
            0
        }
    }
}

/// The greatest number that divides both.
fn common_divisor(a: u64, b: u64) -> u64 {
    if b == 0 {
        a
    } else {
        common_divisor(b, a % b)
    }
}

/// The share of bad checks in all reports, in lowest terms; 0 and 1 where nothing was reported.
fn share(record: &Record) -> (u64, u64) {
    let bad = u64::from(record[BAD_CHECKS]);
    let all: u64 = record[REPORTS].iter().copied().map(u64::from).sum();
    match common_divisor(bad, all) {
        0 => (0, 1),
        divisor => (bad / divisor, all / divisor),
    }
}

/// A record as it is printed, with the newline.
pub fn line(number: usize, record: &Record) -> String {
    let (bad, all) = share(record);
    let mut words = vec![number.to_string()];
    words.extend(record.iter().map(u32::to_string));
    words.push(format!("{bad}/{all}\n"));
    words.join(" ")
}

/// Puts a printed line at the front of `out` and gives its length; 0, and nothing put, where `out` has less room than is asked for.
pub fn put_line(number: usize, record: &Record, out: &mut [u8]) -> usize {
    if out.len() < MAX_LINE {
        return 0;
    }
    let text = line(number, record);
    out[..text.len()].copy_from_slice(text.as_bytes());
    text.len()
}

/// A whole sheet: every record of the table, from 0.
pub fn sheet(table: &[Record]) -> String {
    let lines = table.iter().enumerate();
    lines.map(|(number, record)| line(number, record)).collect()
}
