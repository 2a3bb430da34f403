//! QAFT on the line, with its own check or the longer one: the frame writer, and a reader of whole lines.
use crate::check::Check;
use crate::Written;

pub const FLAG: u8 = 0x7E;
pub const ESCAPE: u8 = 0x7D;
/// Flow control of serial cards, where it stands raw on a level 1 line.
pub const FLOW_CONTROL: [u8; 2] = [0x11, 0x13];
pub const MAX_DATA: usize = 2560;

/// QAFT's check octet: the two's complement of the data's sum modulo 256.
pub fn check(data: &[u8]) -> u8 {
    let sum: u64 = data.iter().map(|&x| u64::from(x)).sum();
    ((256 - sum % 256) % 256) as u8
}

/// Whether a level replaces an octet by 7D and another.
fn escapes(level: u8, x: u8) -> bool {
    match x {
        FLAG | ESCAPE => true,
        0x11 | 0x13 => level == 1,
        _ => false,
    }
}

/// Whether 7D and this octet are a pair that the level makes.
pub fn is_good_pair(level: u8, partner: u8) -> bool {
    escapes(level, partner ^ 0x20)
}

/// Data or check octets as they stand on the line at a level.
pub fn escaped(level: u8, octets: &[u8]) -> Vec<u8> {
    let mut line = Vec::with_capacity(2 * octets.len());
    for &x in octets {
        if escapes(level, x) {
            line.extend([ESCAPE, x ^ 0x20]);
        } else {
            line.push(x);
        }
    }
    line
}

/// A frame's body: data, then check, both escaped.
pub fn body(level: u8, check: Check, data: &[u8]) -> Vec<u8> {
    let mut line = escaped(level, data);
    line.extend(escaped(level, &check.octets(data)));
    line
}

/// Writes one frame to the front of `out`. Refusals in the order 6, 7, 1, 2, 3.
pub fn write(level: u8, kind: u8, at_flag: bool, data: &[u8], out: &mut [u8]) -> Written {
    if level > 1 {
        return Written::refused(6);
    }
    let Some(check) = Check::of(kind) else {
        return Written::refused(7);
    };
    if data.is_empty() {
        return Written::refused(1);
    }
    if data.len() > MAX_DATA {
        return Written::refused(2);
    }
    let mut frame = Vec::new();
    if !at_flag {
        frame.push(FLAG);
    }
    frame.extend(body(level, check, data));
    frame.push(FLAG);
    Written::put(&frame, out, 3)
}

/// What is reported of a segment that a flag closed.
#[derive(Debug, Clone, PartialEq, Eq)]
pub enum Report {
    Frame(Vec<u8>),
    Aborted,
    Long,
    Short,
    Bad,
    Pair,
}

impl Report {
    /// The papers' number for it.
    pub fn number(&self) -> u8 {
        match self {
            Report::Frame(_) => 10,
            Report::Aborted => 11,
            Report::Long => 12,
            Report::Short => 13,
            Report::Bad => 14,
            Report::Pair => 16,
        }
    }
}

/// Whether a reader skips an octet of the line, wherever it stands.
pub fn skips(level: u8, x: u8) -> bool {
    level == 1 && FLOW_CONTROL.contains(&x)
}

/// A segment as if no octet that is skipped had come.
pub fn unskipped(level: u8, segment: &[u8]) -> Vec<u8> {
    let kept = segment.iter().filter(|&&x| !skips(level, x));
    kept.copied().collect()
}

/// The octets that a segment stands for, and whether all its pairs are good; nothing where its last 7D dangles.
fn unescaped(level: u8, segment: &[u8]) -> Option<(Vec<u8>, bool)> {
    let mut octets = Vec::with_capacity(segment.len());
    let mut good = true;
    let mut rest = segment.iter();
    while let Some(&x) = rest.next() {
        if x == ESCAPE {
            let &partner = rest.next()?;
            good &= is_good_pair(level, partner);
            octets.push(partner ^ 0x20);
        } else {
            octets.push(x);
        }
    }
    Some((octets, good))
}

/// The report on one segment, the first that applies; an empty one says nothing, nor does one of skipped octets alone. The
/// segment holds no flag. The check is calculated anew from what would be the data.
pub fn report(level: u8, check: Check, segment: &[u8]) -> Option<Report> {
    let segment = unskipped(level, segment);
    if segment.is_empty() {
        return None;
    }
    let Some((octets, good)) = unescaped(level, &segment) else {
        return Some(Report::Aborted);
    };
    if !good {
        return Some(Report::Pair);
    }
    if octets.len() > check.longest() {
        return Some(Report::Long);
    }
    if octets.len() < 1 + check.size() {
        return Some(Report::Short);
    }
    let (data, last) = octets.split_at(octets.len() - check.size());
    if last != check.octets(data) {
        return Some(Report::Bad);
    }
    Some(Report::Frame(data.to_vec()))
}

/// A line cut at its flags, each of which stands alone between two parts.
pub struct Cut<'a> {
    pub before: &'a [u8],
    /// what stands between two flags next to each other, empty ones too
    pub closed: Vec<&'a [u8]>,
    pub after: &'a [u8],
    pub flags: usize,
}

/// Cuts a line. With no flag all octets are before.
pub fn cut(line: &[u8]) -> Cut<'_> {
    let segments: Vec<&[u8]> = line.split(|&x| x == FLAG).collect();
    let (closed, after) = match segments[1..].split_last() {
        None => (&[][..], &[][..]),
        Some((last, closed)) => (closed, *last),
    };
    Cut {
        before: segments[0],
        closed: closed.to_vec(),
        after,
        flags: segments.len() - 1,
    }
}

/// What a whole line says: its reports, and how many octets stand before the first flag and after the last, skipped ones too.
#[derive(Debug, PartialEq, Eq)]
pub struct Line {
    pub reports: Vec<Report>,
    pub before: usize,
    pub after: usize,
}

/// Reads a whole line.
pub fn read_line(level: u8, check: Check, line: &[u8]) -> Line {
    let cut = cut(line);
    let reports = cut.closed.iter().filter_map(|s| report(level, check, s));
    Line {
        reports: reports.collect(),
        before: cut.before.len(),
        after: cut.after.len(),
    }
}
