//! Lines for the chunk reader: random ones, and those that are all to be met.
use super::super::make::{each as each_of, octets};
use super::super::tally::Tally;
use super::super::{checks, pairs};
use super::{alone, in_portions, read_line};
use second::check::Check;
use second::qaft::{self, ESCAPE, FLAG, MAX_DATA};
use second::rng::Rng;

/// What stands between two flags: a frame, a damaged one, an overlong segment, or nothing.
fn segment(rng: &Rng, check: Check) -> Vec<u8> {
    let length = match rng.below(24) {
        0 => rng.between(MAX_DATA - 2, MAX_DATA + 4),
        _ => rng.between(1, 20),
    };
    let mut segment = checks::body(rng, check, length);
    if rng.once_in(3) {
        let i = rng.below(segment.len());
        segment[i] = rng.octet();
    }
    match rng.below(16) {
        0 => segment.clear(),
        1 | 2 => segment.push(ESCAPE),
        3 if rng.once_in(4) => segment = pairs::near_limit(rng, check),
        _ => {}
    }
    segment
}

/// A line of such segments behind some octets; one in three with odd pairs.
pub fn line(rng: &Rng, check: Check) -> Vec<u8> {
    let mut line = octets(rng, rng.pick(&[0, 0, 1, 5]));
    for _ in 0..rng.between(1, 4) {
        line.push(FLAG);
        line.extend(segment(rng, check));
    }
    if !rng.once_in(3) {
        line.push(FLAG);
    }
    if rng.once_in(3) {
        line = pairs::strewn(rng, &line);
    }
    line
}

/// A line cut into portions, empty ones too.
pub fn cut<'a>(rng: &Rng, line: &'a [u8]) -> Vec<&'a [u8]> {
    let mut portions = Vec::new();
    let mut rest = line;
    while !rest.is_empty() {
        let (portion, later) = rest.split_at(rng.below(rest.len() + 2).min(rest.len()));
        portions.push(portion);
        rest = later;
    }
    portions
}

fn between_flags(segment: &[u8]) -> Vec<u8> {
    [&[FLAG], segment, &[FLAG]].concat()
}

/// Every line of a flag and up to five octets of a few, at both levels. With the check sequence 2A 20 7D 5E is a frame; 86 46 11 is one
/// at level 0, 86 46 7D 31 at level 1.
fn each_short(rng: &Rng, check: Check, tally: &mut Tally) {
    let others: &[u8] = match check {
        Check::Sum => &[0x00, 0x82, 0xEF],
        Check::Fcs => &[0x2A, 0x20, 0x86, 0x46],
    };
    let alphabet = [&[FLAG, ESCAPE, 0x11, 0x13, 0x31, 0x5E], others].concat();
    for octets in each_of(&alphabet, 5) {
        let line = [&[FLAG], &octets[..]].concat();
        for level in [0, 1] {
            read_line(rng, level, check, &line, tally);
        }
    }
}

/// 7D before every octet, in short segments and around the limits; also with the end of a portion between them, at level 1 with flow
/// control on both sides of it.
fn each_pair(rng: &Rng, check: Check, tally: &mut Tally) {
    let partners: Vec<u8> = (0..=255).filter(|&x| x != FLAG).collect();
    for segment in [pairs::each(check), pairs::each_long(check, &partners)].concat() {
        let line = between_flags(&segment);
        let place = line.iter().position(|&x| x == ESCAPE).expect("a 7D");
        let (waits, partner) = line.split_at(place + 1);
        for level in [0, 1] {
            read_line(rng, level, check, &line, tally);
            in_portions(rng, level, check, &[waits, partner], tally);
        }
        let (waits, partner) = ([waits, &[0x11]].concat(), [&[0x13], partner].concat());
        in_portions(rng, 1, check, &[&waits, &[], &partner], tally);
        alone::whole(rng, 1, check, &[waits, partner].concat(), tally);
    }
}

/// Every frame of one or two data octets at both levels: those of two have every check sequence that there is.
fn each_frame(rng: &Rng, check: Check, tally: &mut Tally) {
    let all: Vec<u8> = (0..=255).collect();
    for data in &each_of(&all, 2)[1..] {
        for level in [0, 1] {
            let body = qaft::body(level, check, data);
            read_line(rng, level, check, &between_flags(&body), tally);
        }
    }
}

/// Frames with either check of no data, of a few octets and of those around the limits, each also with a wrong last octet.
fn each_length(rng: &Rng, check: Check, tally: &mut Tally) {
    let lengths: Vec<usize> = (0..=4).chain(MAX_DATA - 3..=MAX_DATA + 4).collect();
    for length in lengths.repeat(4) {
        for level in [0, 1] {
            for used in Check::BOTH {
                let mut octets = octets(rng, length);
                octets.extend(used.octets(&octets));
                for _ in 0..2 {
                    let segment = qaft::escaped(level, &octets);
                    read_line(rng, level, check, &between_flags(&segment), tally);
                    *octets.last_mut().expect("a check") ^= 1 << rng.below(8);
                }
            }
        }
    }
}

/// All lines that are all to be met.
pub fn each(rng: &Rng, check: Check, tally: &mut Tally) {
    each_short(rng, check, tally);
    each_pair(rng, check, tally);
    each_frame(rng, check, tally);
    each_length(rng, check, tally);
}
