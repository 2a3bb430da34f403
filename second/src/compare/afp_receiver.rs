//! The AFP next receiver (change request 2026-09): what it looks at gone through first, then frames with up to three faults and any
//! octets.
mod alone;
mod borders;
mod each;

use super::tally::{hex, Tally};
use super::{afp_read, afp_write, make};
use crate::archive;
use second::afp;
use second::rng::Rng;
use std::ops::Range;

pub const NUMBERS: [u8; 6] = [0, 30, 34, 35, 36, 37];

/// The refusals in order, as faults to be brought into a frame.
const FAULTS: [u8; 5] = [30, 34, 36, 35, 37];

/// Around the limits, and such as lack some of the octets that are looked at.
const LENGTHS: [usize; 11] = [0, 1, 3, 4, 5, 13, 14, 15, 2559, 2560, 2561];

/// One call, and what the request says of the archive alone.
fn one(rng: &Rng, frame: &[u8], tally: &mut Tally) {
    let (ours, archive) = (afp::next_receiver(frame), archive::afp_next_receiver(frame));
    tally.number(ours.number());
    borders::count(frame, ours, tally);
    alone::like_the_reader(frame, archive, tally);
    alone::whatever_else(rng, frame, archive, tally);
    tally.input(&(ours.number(), ours.field()), &archive, || hex(frame));
}

/// An octet of a frame, 0 where it has none there.
fn octet(frame: &[u8], place: usize) -> u8 {
    frame.get(place).copied().unwrap_or(0)
}

/// Puts octets into a frame, as far as it has a place for them.
fn put(frame: &mut [u8], place: usize, octets: &[u8]) {
    let places = frame.iter_mut().skip(place);
    places.zip(octets).for_each(|(x, &octet)| *x = octet);
}

/// The field that octet 4 points at: its length octet and as many octets as that says, as far as the frame has them. Nothing for 0.
fn pointed_at(frame: &[u8]) -> Range<usize> {
    match usize::from(octet(frame, 4)) {
        place if place == 0 || place >= frame.len() => 0..0,
        place => place..frame.len().min(place + 1 + usize::from(frame[place])),
    }
}

/// Octet 0 as it has to be for what octet 4 points at.
fn right_sum(frame: &[u8]) -> u8 {
    match octet(frame, 4) {
        0 => afp::BROADCAST_SUM,
        _ => afp::next_station_sum(&frame[pointed_at(frame)]),
    }
}

/// Calculates octet 0 again, and with it all that the full reader asks for.
fn set_right(frame: &mut [u8]) {
    put(frame, 0, &[right_sum(frame)]);
    if frame.len() > 4 {
        afp_read::calculate(frame, true, true);
    }
}

/// Brings in a fault for which the answer most often is this number.
fn spoil(rng: &Rng, frame: &mut Vec<u8>, number: u8) {
    let (any, field) = (rng.octet(), pointed_at(frame));
    let before = |n| octet(frame, 3).wrapping_sub(n);
    let near = frame.len().clamp(4, 250) as u8 - 2;
    // the length octet of a field that ends three before the data offset
    let fits = before(3).wrapping_sub(field.start as u8);
    let first = octet(frame, 0);
    let (place, octets) = match number {
        30 => return frame.resize(rng.pick(&LENGTHS), any),
        34 => (3, vec![0, 11, 12, 253, 254, 255, near - 1, near, near + 1]),
        36 => (4, vec![0, 1, 6, 7, before(4), before(2), before(1), 255]),
        35 if field.is_empty() => return,
        35 if rng.once_in(2) => {
            let more = fits.wrapping_add(1);
            (field.start, vec![0, 1, fits, more, more, 255])
        }
        35 => (
            rng.between(field.start, field.end - 1),
            make::BORDERS.into(),
        ),
        _ => (0, vec![0, 0xFF, first.wrapping_add(1), !first]),
    };
    let some = rng.pick(&octets);
    put(frame, place, &[rng.pick(&[some, some, some, any])]);
}

/// A frame of the second program's writer with up to three faults.
fn with_faults(rng: &Rng) -> Vec<u8> {
    let mut frame = afp_write::written(rng);
    for _ in 0..rng.below(4) {
        spoil(rng, &mut frame, rng.pick(&FAULTS));
    }
    frame
}

/// Any octets with a data offset that they have room for; octet 4 points anywhere, in half of them at an ID.
fn anywhere(rng: &Rng) -> Vec<u8> {
    let mut frame = rng.octets(rng.between(14, 300));
    let offset = rng.between(12, 254.min(frame.len() - 2));
    let place = rng.pick(&[rng.below(256), rng.below(offset)]);
    put(&mut frame, 3, &[offset as u8, place as u8]);
    if place > 4 && rng.once_in(2) {
        let id = make::id(rng);
        put(&mut frame, place, &[&[id.len() as u8], &id[..]].concat());
    }
    frame
}

fn random(rng: &Rng) -> Vec<u8> {
    let mut frame = match rng.below(8) {
        0 | 1 => afp_read::random(rng),
        2 => anywhere(rng),
        _ => with_faults(rng),
    };
    if rng.once_in(2) {
        set_right(&mut frame);
    }
    frame
}

pub fn compare(rng: &Rng, count: u64, tally: &mut Tally) {
    borders::came_up(tally);
    alone::came_up(tally);
    each::compare(rng, tally);
    for _ in 0..count {
        one(rng, &random(rng), tally);
    }
}
