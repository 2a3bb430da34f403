//! Flow control of change request 2026-02: raw 11 and 13 strewn over lines, and the ways in which they stand there. At level 1 a
//! reader skips them; at level 0, and on KISS lines, they are data.
use super::tally::Tally;
use second::check::Check;
use second::qaft::{self, Report, ESCAPE, FLAG, FLOW_CONTROL};
use second::rng::Rng;

pub fn is_flow(x: u8) -> bool {
    FLOW_CONTROL.contains(&x)
}

fn run(rng: &Rng, size: usize) -> Vec<u8> {
    (0..size).map(|_| rng.pick(&FLOW_CONTROL)).collect()
}

/// A line with flow control put in: anywhere, and often at its ends, around its flags and behind its escapes. At times a run of it is
/// longer than a segment may be; these are few, so that no piece of a capture gets longer than what a program reads at once.
pub fn strewn(rng: &Rng, line: &[u8]) -> Vec<u8> {
    let far = rng.pick(&[2, 8, 32, 128]);
    let size = || match rng.below(32) {
        0 => rng.between(8, 70),
        _ => rng.pick(&[1, 1, 1, 2, 3]),
    };
    let mut more = Vec::with_capacity(2 * line.len());
    let mut last = FLAG;
    for &x in line {
        let near = x == FLAG || last == FLAG || last == ESCAPE;
        if rng.once_in(if near { 3 } else { far }) {
            more.extend(run(rng, size()));
        }
        more.push(x);
        last = x;
    }
    if rng.once_in(3) {
        more.extend(run(rng, size()));
    }
    for _ in 0..(1 + line.len() / 500).min(8) {
        if rng.once_in(4) {
            let place = rng.below(more.len() + 1);
            more.splice(place..place, run(rng, Check::Fcs.many()));
        }
    }
    more
}

/// Whether flow control stands behind a 7D that waits: before its partner, or where none comes.
fn behind_escape(segment: &[u8], partner: bool) -> bool {
    let end = segment.iter().rposition(|&x| !is_flow(x)).unwrap_or(0);
    let mut waits = false;
    segment.iter().enumerate().any(|(i, &x)| {
        if is_flow(x) {
            return waits && partner == (i < end);
        }
        waits = !waits && x == ESCAPE;
        false
    })
}

/// Whether a segment is a frame at level 1, and another report where its flow control is data.
fn saved_from(check: Check, segment: &[u8], other: Report) -> bool {
    let frame = matches!(qaft::report(1, check, segment), Some(Report::Frame(_)));
    frame && qaft::report(0, check, segment) == Some(other)
}

type Way = (&'static str, fn(Check, &[u8]) -> bool);

/// What has to come up at level 1, of closed segments with flow control.
const WAYS: [Way; 8] = [
    ("11 or 13 behind a flag", |_, s| is_flow(s[0])),
    ("11 or 13 before a flag", |_, s| is_flow(s[s.len() - 1])),
    ("11 or 13 in a run", |_, s| {
        s.windows(2)
            .any(|pair| is_flow(pair[0]) && is_flow(pair[1]))
    }),
    ("nothing but 11 or 13", |_, s| s.iter().all(|&x| is_flow(x))),
    ("11 or 13 inside a pair", |_, s| behind_escape(s, true)),
    ("7D, 11 or 13, flag", |_, s| behind_escape(s, false)),
    (
        "frames that would be bad checks with 11 and 13",
        |check, s| saved_from(check, s, Report::Bad),
    ),
    ("frames that would be long with 11 and 13", |check, s| {
        saved_from(check, s, Report::Long)
    }),
];
const BEFORE: &str = "11 or 13 before the first flag";
const AFTER: &str = "11 or 13 after the last flag";
/// At level 0.
const AS_DATA: &str = "segments with 11 or 13 as data";

/// Says what has to come up where lines are read at these levels.
pub fn came_up(levels: &[u8], tally: &mut Tally) {
    if levels.contains(&0) {
        tally.count(AS_DATA, 0);
    }
    if levels.contains(&1) {
        let names = WAYS.iter().map(|way| way.0);
        names
            .chain([BEFORE, AFTER])
            .for_each(|name| tally.count(name, 0));
    }
}

/// Counts the ways in which flow control stands on a line: once for each segment.
pub fn count(level: u8, check: Check, line: &[u8], tally: &mut Tally) {
    let some = |octets: &[u8]| octets.iter().any(|&x| is_flow(x));
    let mut cut = qaft::cut(line);
    cut.closed.retain(|segment| some(segment));
    match level {
        0 => tally.count(AS_DATA, cut.closed.len() as u64),
        1 => {
            tally.count(BEFORE, some(cut.before).into());
            tally.count(AFTER, some(cut.after).into());
            for (name, is) in WAYS {
                let segments = cut.closed.iter().filter(|segment| is(check, segment));
                tally.count(name, segments.count() as u64);
            }
        }
        _ => {}
    }
}
