//! The DLC link: single calls first, from links of every kind, then two ends and the lines between them, of one edition and of
//! both.
mod call;
mod ends;
mod make;
mod mixed;
mod runs;
mod table;
mod worked;

use super::stored;
use super::tally::Tally;
use crate::archive;
use call::{compare, compare_fresh, view, Event, Place};
use make::{FAULTS, PACKETS, PAYLOADS, ROOMS, SHAPES};
pub use mixed::mixed_editions;
pub use runs::{edition_1, edition_2, NUMBERS as RUN_NUMBERS};
use second::link::{EDITIONS, REPLY};
use second::rng::Rng;

pub const NUMBERS: [u8; 10] = [0, 20, 21, 22, 23, 24, 25, 26, 27, 28];

/// What calls are counted as.
fn at_edition(edition: u8) -> &'static str {
    match edition {
        1 => "calls at edition 1",
        2 => "calls at edition 2",
        _ => "calls at unknown editions",
    }
}

fn one(rng: &Rng, link: &archive::link::Link, event: &Event, room: usize, tally: &mut Tally) {
    let place = Place {
        archive: link,
        second: view(link),
        room,
        seed: rng.octet(),
    };
    tally.count(at_edition(link.edition), 1);
    compare(place, event, tally);
}

/// A fresh link for every number that an edition could be; and every such number in links of every state and queue length.
fn every_edition(rng: &Rng, tally: &mut Tally) {
    for edition in 0..=255 {
        compare_fresh(edition, tally);
        for shape in (0..SHAPES).map(make::shape) {
            let link = make::shaped(rng, shape, edition);
            for event in make::each_event(rng, &link) {
                one(rng, &link, &event, REPLY, tally);
            }
        }
    }
}

/// Every first octet as a packet of its own, in every state with every queue length, with all numbers, of an edition.
fn every_octet(rng: &Rng, edition: u8, tally: &mut Tally) {
    for shape in (0..SHAPES).map(make::shape) {
        for numbers in (0..=255).map(|n| (n / 16, n % 16)) {
            let link = make::link(rng, shape, numbers, edition);
            for first in 0..=255 {
                one(rng, &link, &Event::Arrival(vec![first]), REPLY, tally);
            }
        }
    }
}

/// Start, timer, payloads and packets at the borders of their lengths; each kind of packet with every low nibble.
fn border_events(rng: &Rng) -> Vec<Event> {
    let mut events = vec![Event::Start, Event::Timer, Event::Arrival(Vec::new())];
    events.extend(PAYLOADS.map(|size| Event::Payload(rng.octets(size))));
    for first in 0..=255 {
        for length in PACKETS {
            let packet = [&[first], &rng.octets(length - 1)[..]].concat();
            events.push(Event::Arrival(packet));
        }
    }
    events
}

/// Links of an edition, of every shape and fault, with every reply buffer and every event at a border, so that all refusals
/// meet.
fn grid(rng: &Rng, edition: u8, tally: &mut Tally) {
    let events = border_events(rng);
    for room in ROOMS {
        for kind in 0..SHAPES + FAULTS {
            for event in &events {
                let link = match kind.checked_sub(SHAPES) {
                    None => make::shaped(rng, make::shape(kind), edition),
                    Some(fault) => make::ill_formed(rng, fault, edition),
                };
                one(rng, &link, event, room, tally);
            }
        }
    }
}

pub fn calls(rng: &Rng, count: u64, tally: &mut Tally) {
    every_edition(rng, tally);
    for edition in EDITIONS {
        every_octet(rng, edition, tally);
        grid(rng, edition, tally);
    }
    for _ in 0..count {
        let link = make::any_link(rng);
        one(rng, &link, &make::event(rng, &link), make::room(rng), tally);
    }
}

/// The step table and a worked run, against what is stored.
pub fn table(rng: &Rng, _: u64, tally: &mut Tally) {
    let text = table::text(rng, tally);
    stored::compare(table::NAME, &text, tally);
}

/// Stores what the archive answers now.
pub fn bless(rng: &Rng) {
    stored::write(table::NAME, &table::text(rng, &mut Tally::new("table")));
}
