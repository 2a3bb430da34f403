//! The checks of frames (change request 2026-07): data whose check octets are chosen, segments that are frames with both checks, and
//! how check octets and frames of the other check come up.
use super::make::octets;
use super::tally::Tally;
use second::check::{Check, GENERATOR};
use second::qaft::{self, Report, MAX_DATA};
use second::rng::Rng;

/// The running check of octets.
pub fn running(check: Check, octets: &[u8]) -> u16 {
    let after = |running, &x: &u8| check.after(running, x);
    octets.iter().fold(check.start(), after)
}

/// The two octets that take the register of the check sequence to another: sixteen bits back from there.
fn between(from: u16, to: u16) -> [u8; 2] {
    let back = (0..16).fold(to, |register, _| match register >> 15 {
        0 => register << 1,
        _ => (register ^ GENERATOR) << 1 | 1,
    });
    (from ^ back).to_le_bytes()
}

/// Changes the last octets of data, as many as the check has, so that the check octets are some that may need escapes.
fn choose(rng: &Rng, check: Check, data: &mut [u8]) {
    let special = [0x7E, 0x7D, 0x11, 0x13, 0x5E, 0x31, 0x00, rng.octet()];
    let (first, second) = (rng.pick(&special), rng.pick(&special));
    let Some(place) = data.len().checked_sub(check.size()) else {
        return;
    };
    let before = running(check, &data[..place]);
    let last = match check {
        Check::Sum => vec![(256 * 2 - before - u16::from(first)) as u8],
        Check::Fcs => between(before, !u16::from_le_bytes([first, second])).to_vec(),
    };
    data[place..].copy_from_slice(&last);
}

/// Data and check octets that both checks take for a frame's.
fn of_both(rng: &Rng) -> Vec<u8> {
    let data = octets(rng, rng.below(20));
    let before = running(Check::Fcs, &data);
    loop {
        let value = rng.next() as u16;
        let last = [between(before, !value), value.to_le_bytes()].concat();
        let all = [&data[..], &last].concat();
        if running(Check::Sum, &all) == 0 {
            return all;
        }
    }
}

/// A frame's body of so many data octets: one in six with the other check, one in eight with chosen check octets, a few with both.
pub fn body(rng: &Rng, check: Check, length: usize) -> Vec<u8> {
    let level = rng.below(2) as u8;
    let used = match rng.below(6) {
        0 => check.other(),
        _ => check,
    };
    let mut data = octets(rng, length);
    match rng.below(64) {
        0 => return qaft::escaped(level, &of_both(rng)),
        1..=8 => choose(rng, used, &mut data),
        _ => {}
    }
    qaft::body(level, used, &data)
}

/// What has to come up at each level of frames: which check octets are escaped.
const ONE: [&str; 2] = at_levels!("frames whose check octet is escaped");
const FIRST: [&str; 2] = at_levels!("frames whose first check octet alone is escaped");
const SECOND: [&str; 2] = at_levels!("frames whose second check octet alone is escaped");
const ALL: [&str; 2] = at_levels!("frames whose two check octets are both escaped");
const LONGEST: [&str; 2] = at_levels!("frames of the longest data");

/// And how a segment that is a frame with the other check is reported.
const AS_FRAME: [&str; 2] = at_levels!("frames with both checks");
const AS_BAD: [&str; 2] = at_levels!("bad checks that are frames with the other check");
/// Only with the sum, of which a segment has one octet less, and only with the check sequence.
const AS_LONG: [&str; 2] = at_levels!("long segments that are frames with the other check");
const AS_SHORT: [&str; 2] = at_levels!("short segments that are frames with the other check");

/// Says what has to come up of frames.
pub fn frames_came_up(check: Check, tally: &mut Tally) {
    let escaped = match check {
        Check::Sum => vec![ONE],
        Check::Fcs => vec![FIRST, SECOND, ALL],
    };
    let names = escaped.into_iter().chain([LONGEST]).flatten();
    names.for_each(|name| tally.count(name, 0));
}

/// Says what has to come up of lines.
pub fn came_up(check: Check, tally: &mut Tally) {
    frames_came_up(check, tally);
    let alone = match check {
        Check::Sum => AS_LONG,
        Check::Fcs => AS_SHORT,
    };
    let names = [AS_FRAME, AS_BAD, alone].concat();
    names.into_iter().for_each(|name| tally.count(name, 0));
}

/// Counts what comes up of a frame at level 0 or 1.
pub fn count_frame(level: u8, check: Check, data: &[u8], tally: &mut Tally) {
    let at = usize::from(level);
    let octets = check.octets(data);
    let escaped = octets
        .iter()
        .map(|&x| qaft::escaped(level, &[x]).len() == 2);
    match escaped.collect::<Vec<bool>>()[..] {
        [true] => tally.count(ONE[at], 1),
        [true, false] => tally.count(FIRST[at], 1),
        [false, true] => tally.count(SECOND[at], 1),
        [true, true] => tally.count(ALL[at], 1),
        _ => {}
    }
    tally.count(LONGEST[at], (data.len() == MAX_DATA).into());
}

/// Counts what comes up of a line: once for each segment.
pub fn count(level: u8, check: Check, line: &[u8], tally: &mut Tally) {
    if level > 1 {
        return;
    }
    let at = usize::from(level);
    for segment in qaft::cut(line).closed {
        let report = qaft::report(level, check, segment);
        if let Some(Report::Frame(data)) = &report {
            count_frame(level, check, data, tally);
        }
        let Some(Report::Frame(_)) = qaft::report(level, check.other(), segment) else {
            continue;
        };
        match report {
            Some(Report::Frame(_)) => tally.count(AS_FRAME[at], 1),
            Some(Report::Bad) => tally.count(AS_BAD[at], 1),
            Some(Report::Long) => tally.count(AS_LONG[at], 1),
            Some(Report::Short) => tally.count(AS_SHORT[at], 1),
            _ => {}
        }
    }
}
