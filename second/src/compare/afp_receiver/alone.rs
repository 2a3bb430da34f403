//! Two sentences of the request, checked of the archive alone.
use super::super::make;
use super::super::tally::Tally;
use super::{octet, pointed_at, put};
use crate::archive;
use second::afp::{Part, STATIONS};
use second::rng::Rng;

/// What has to come up.
const TO_ALL: &str = "broadcasts that the full reader accepts";
const TO_SECOND: &str = "frames to the second ID that the full reader accepts";
const TO_LATER: &str = "frames to a later ID that the full reader accepts";

pub fn came_up(tally: &mut Tally) {
    for name in [TO_ALL, TO_SECOND, TO_LATER] {
        tally.count(name, 0);
    }
}

/// The field of an ID, by its number: the source is 1.
fn field_of(frame: &[u8], number: usize) -> Option<Part> {
    let places = make::places(&frame[STATIONS..]);
    let place = STATIONS + places.get(number - 1)?;
    let size = 1 + usize::from(*frame.get(place)?);
    Some(Part { place, size })
}

/// "For each frame that the full reader accepts, both name the same station, or both say broadcast."
pub fn like_the_reader(frame: &[u8], answer: (u8, Part), tally: &mut Tally) {
    let reading = archive::afp_read(frame);
    if reading.number != 0 {
        return;
    }
    let (name, field, claim) = match reading.next {
        0 => (
            TO_ALL,
            Some(Part::default()),
            "where the full reader says broadcast, the next receiver is all",
        ),
        next => (
            if next == 2 { TO_SECOND } else { TO_LATER },
            field_of(frame, next),
            "where the full reader names a station, the next receiver is that station's field",
        ),
    };
    tally.count(name, 1);
    tally.claim(claim, Some(answer) == field.map(|field| (0, field)));
}

/// What an answer of this number can come from, by the order of the refusals: places of octets, and whether the field too; the claim.
fn looked_at(frame: &[u8], number: u8) -> (&'static [usize], bool, &'static str) {
    match number {
        30 => (&[], false, "30 whatever the octets are"),
        34 => (&[3], false, "34 whatever all octets but 3 are"),
        36 => (&[3, 4], false, "36 whatever all octets but 3 and 4 are"),
        35 => (
            &[3, 4],
            true,
            "35 whatever all octets but 3, 4 and the field's are",
        ),
        37 => (
            &[0, 3, 4],
            true,
            "37 whatever all octets but 0, 3, 4 and the field's are",
        ),
        _ if pointed_at(frame).is_empty() => (
            &[0, 3, 4],
            true,
            "a broadcast whatever all octets but 0, 3 and 4 are",
        ),
        _ => (
            &[0, 3, 4],
            true,
            "a station's field whatever all octets but 0, 3, 4 and the field's are",
        ),
    }
}

/// "Frames that agree in length and in those octets get one answer": all others are drawn anew.
pub fn whatever_else(rng: &Rng, frame: &[u8], answer: (u8, Part), tally: &mut Tally) {
    let (places, with_field, claim) = looked_at(frame, answer.0);
    let mut other = rng.octets(frame.len());
    for &place in places {
        put(&mut other, place, &[octet(frame, place)]);
    }
    if with_field {
        let field = pointed_at(frame);
        put(&mut other, field.start, &frame[field]);
    }
    tally.claim(claim, archive::afp_next_receiver(&other) == answer);
}
