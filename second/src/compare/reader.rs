//! The QAFT chunk reader with each check: single calls from states of every kind, and lines handed over in random portions, with flow
//! control and odd pairs and without them.
mod alone;
mod borders;
mod changes;
mod grid;
mod lines;

use super::make::octets;
use super::tally::{hex, Out, Tally};
use super::{checks, flow, pairs, FULL};
use crate::archive::{self, RawReader};
use second::check::Check;
use second::qaft::{FLAG, MAX_DATA};
use second::reader::{self, Answer, State};
use second::rng::Rng;

pub const NUMBERS: [u8; 11] = [4, 5, 6, 7, 10, 11, 12, 13, 14, 15, 16];

/// Around the least size with either check.
const ROOMS: [usize; 6] = [
    0,
    MAX_DATA,
    Check::Sum.longest(),
    Check::Fcs.longest(),
    Check::Fcs.many(),
    MAX_DATA + 100,
];

fn level(rng: &Rng) -> u8 {
    match rng.below(16) {
        0 => rng.octet(),
        n => (n % 2) as u8,
    }
}

/// A running check: most often one that a line leads to.
fn running(rng: &Rng, check: Check, count: usize) -> u16 {
    let any = rng.next() as u16;
    match (rng.below(8), count, check) {
        (0, ..) => rng.pick(&[0, 1, 0xFF, 0x100, 0xFF00, 0xFFFF, check.good(), any]),
        (_, 0, _) => check.start(),
        (_, _, Check::Sum) => rng.pick(&[0, 1, 0xFF, any % 256]),
        (_, _, Check::Fcs) => rng.pick(&[check.good(), check.start(), 0, any]),
    }
}

/// A state: most often one that a line leads to, at the borders of the count too; of the check's kind, or of one that there is not.
fn state(rng: &Rng, check: Check) -> State {
    let count = match rng.below(4) {
        0 if rng.once_in(6) => usize::MAX,
        0 => rng.between(MAX_DATA - 1, MAX_DATA + 4),
        1 => rng.below(check.longest()),
        _ => rng.below(4),
    };
    State {
        level: level(rng),
        kind: match rng.below(16) {
            0 => rng.between(2, 255) as u8,
            _ => check.kind(),
        },
        flag: !rng.once_in(6),
        pending: rng.once_in(3),
        count,
        check: running(rng, check, count),
        bad_pair: rng.once_in(if count == 0 { 8 } else { 4 }),
    }
}

/// One call; the state that the second program goes on with, and how much of the portion it took.
fn one(from: State, portion: &[u8], room: usize, seed: u8, tally: &mut Tally) -> (State, Answer) {
    let (mut ours, mut archive) = (Out::new(room, seed), Out::new(room, seed));
    let given = reader::read(from, portion, ours.room());
    let by_archive = archive::qaft_read(from.into(), portion, archive.room());
    tally.number(given.1.number);
    borders::count(from, portion, given, tally);
    alone::frame(from, portion, by_archive.1, archive.room(), tally);
    tally.input(
        &((RawReader::from(given.0), given.1), ours),
        &(by_archive, archive),
        || format!("{from:X?}, room {room}, portion {}", hex(portion)),
    );
    given
}

/// Numbers for whether a flag has come, a 7D waits and a bad pair came: any but 0 stands for true. What is refused comes back as it
/// is, all else as 0 and 1.
fn numbers_for_bools(rng: &Rng, check: Check, numbers: [u8; 3], tally: &mut Tally) {
    let [synced, pending, bad_pair] = numbers;
    let portion = [rng.pick(&[0x5E, 0x31, 0x41]), 0x82, FLAG, 0x41];
    let from = State {
        flag: synced != 0,
        pending: pending != 0,
        count: rng.pick(&[0, 0, 2]),
        bad_pair: bad_pair != 0,
        ..State::fresh(rng.below(2) as u8, check.kind())
    };
    let raw = RawReader {
        synced,
        pending,
        bad_pair,
        ..from.into()
    };
    let room = check.longest();
    let (mut ours, mut archive) = (Out::new(room, 1), Out::new(room, 1));
    let (next, answer) = reader::read(from, &portion, ours.room());
    let later = match answer.number {
        5 => raw,
        _ => next.into(),
    };
    let by_archive = archive::qaft_read(raw, &portion, archive.room());
    tally.number(answer.number);
    borders::count(from, &portion, (next, answer), tally);
    tally.input(&((later, answer), ours), &(by_archive, archive), || {
        format!("{raw:X?}, portion {}", hex(&portion))
    });
}

/// Every pair of numbers in two of the three, with one of a few in the third.
fn each_pair_of_numbers(rng: &Rng, check: Check, tally: &mut Tally) {
    for pair in 0..=u16::MAX {
        let [a, b] = pair.to_be_bytes();
        let few = rng.pick(&[0, 0, 1, 2, 0x80, 0xFF]);
        for numbers in [[a, b, few], [a, few, b], [few, a, b]] {
            numbers_for_bools(rng, check, numbers, tally);
        }
    }
}

/// A line in portions: after each report the rest of the portion goes into the next call.
fn in_portions(rng: &Rng, level: u8, check: Check, portions: &[&[u8]], tally: &mut Tally) {
    let mut now = State::fresh(level, check.kind());
    grid::fresh(level, check.kind(), tally);
    for portion in portions {
        let mut rest = *portion;
        loop {
            let (next, answer) = one(now, rest, check.longest(), rng.octet(), tally);
            now = next;
            rest = &rest[answer.taken..];
            if answer.number == 15 {
                break;
            }
        }
    }
}

/// A line, whole and in random portions.
fn read_line(rng: &Rng, level: u8, check: Check, line: &[u8], tally: &mut Tally) {
    flow::count(level, check, line, tally);
    pairs::count(level, check, line, tally);
    checks::count(level, check, line, tally);
    in_portions(rng, level, check, &lines::cut(rng, line), tally);
    alone::whole(rng, level, check, line, tally);
}

/// Single calls from states of every kind, and random lines.
fn random(rng: &Rng, check: Check, count: u64, tally: &mut Tally) {
    for _ in 0..count / 2 {
        let portion = match rng.below(6) {
            0 => lines::line(rng, check),
            1 => flow::strewn(rng, &lines::line(rng, check)),
            2 => flow::strewn(rng, &octets(rng, rng.pick(&[0, 1, 2, 3]))),
            _ => octets(rng, rng.pick(&[0, 1, 2, 3, 8, 30])),
        };
        let room = match rng.below(3) {
            0 => rng.pick(&ROOMS),
            _ => check.longest(),
        };
        one(state(rng, check), &portion, room, rng.octet(), tally);
    }
    for _ in 0..count / 4 {
        let line = lines::line(rng, check);
        alone::same_reports(rng, check, &line, tally);
        alone::whole(rng, 0, check, &line, tally);
        let line = match rng.below(2) {
            0 => line,
            _ => flow::strewn(rng, &line),
        };
        read_line(rng, rng.below(2) as u8, check, &line, tally);
    }
}

fn compare(check: Check, rng: &Rng, count: u64, tally: &mut Tally) {
    borders::came_up(check, tally);
    alone::came_up(tally);
    flow::came_up(&[0, 1], tally);
    pairs::came_up(&[0, 1], tally);
    checks::came_up(check, tally);
    grid::each_fresh(tally);
    grid::each_refusal(rng, check, tally);
    each_pair_of_numbers(rng, check, tally);
    lines::each(rng, check, tally);
    for size in 1..=if count >= FULL { 3 } else { 2 } {
        alone::each_segment(rng, check, size, tally);
    }
    random(rng, check, count, tally);
}

pub fn sum(rng: &Rng, count: u64, tally: &mut Tally) {
    compare(Check::Sum, rng, count, tally);
}

pub fn fcs(rng: &Rng, count: u64, tally: &mut Tally) {
    compare(Check::Fcs, rng, count, tally);
    changes::compare(rng, count, tally);
}
