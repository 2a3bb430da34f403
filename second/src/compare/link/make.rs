//! Makes link values, well formed and ill formed, and events that go with them. Free slots, and octets behind a payload,
//! hold anything.
use super::call::{view, Event};
use crate::archive::link::{Link, Queue, Queued};
use second::link::{EDITIONS, PAYLOAD, QUEUE, REPLY};
use second::rng::Rng;

/// How many states and queue lengths well-formed links have.
pub const SHAPES: usize = 3 + QUEUE;

/// State and queue length number i of a well-formed link: a queue in DLDWAIT alone, and never an empty one there.
pub fn shape(i: usize) -> (u8, usize) {
    match i {
        0..=2 => (i as u8, 0),
        _ => (3, i - 2),
    }
}

/// Sizes of the reply buffer around the least one.
pub const ROOMS: [usize; 5] = [0, 1, REPLY - 1, REPLY, REPLY + 1];

pub const PAYLOADS: [usize; 5] = [0, 1, PAYLOAD - 1, PAYLOAD, PAYLOAD + 1];

/// Lengths of packets that are not empty.
pub const PACKETS: [usize; 4] = [1, 2, PAYLOAD + 1, PAYLOAD + 2];

fn slot(rng: &Rng, queued: bool) -> Queued {
    let length = match queued {
        true => rng.pick(&[0, 1, 2, PAYLOAD - 1, PAYLOAD, rng.below(PAYLOAD)]),
        false => rng.pick(&[0, 1, PAYLOAD, PAYLOAD + 1, usize::MAX, rng.next() as usize]),
    };
    let octets = rng.octets(PAYLOAD);
    Queued {
        length,
        octets: octets.try_into().expect("as many as a slot has"),
    }
}

/// A link with these fields (the numbers are the oldest and the expected one), and payloads of any length up to 256.
pub fn link(rng: &Rng, (state, count): (u8, usize), numbers: (u8, u8), edition: u8) -> Link {
    Link {
        state,
        queue: Queue {
            count,
            slots: std::array::from_fn(|i| slot(rng, i < count)),
        },
        base: numbers.0,
        expected: numbers.1,
        edition,
    }
}

/// A link of this shape, its numbers often where they restart; well formed where the edition is one.
pub fn shaped(rng: &Rng, shape: (u8, usize), edition: u8) -> Link {
    let number = || match shape.0 {
        0 | 1 => 0,
        _ => rng.pick(&[0, 1, 14, 15, rng.below(16) as u8]),
    };
    link(rng, shape, (number(), number()), edition)
}

/// How many ways of not being well formed there are.
pub const FAULTS: usize = 10;

fn number_over_15(rng: &Rng) -> u8 {
    rng.pick(&[16, 17, 128, 255, rng.between(16, 255) as u8])
}

/// Mostly one of those next to the editions, or that a shorter type would cut to one of them.
fn unknown_edition(rng: &Rng) -> u8 {
    rng.pick(&[0, 3, 17, 18, 129, 130, 255, rng.between(3, 255) as u8])
}

/// Queue counts over the limit, and lengths of payloads.
const COUNTS: [usize; 7] = [
    QUEUE + 1,
    QUEUE + 2,
    255,
    256,
    257,
    (1 << 32) + 1,
    usize::MAX,
];
const LENGTHS: [usize; 6] = [
    PAYLOAD + 1,
    PAYLOAD + 2,
    512,
    1 << 16,
    (1 << 32) + 1,
    usize::MAX,
];

/// A link of this edition with one of the faults for which the answer is 27. Numbers are such as a shorter type would cut to a
/// right one, among others.
pub fn ill_formed(rng: &Rng, fault: usize, edition: u8) -> Link {
    let waiting = rng.between(1, QUEUE);
    let closed = (rng.below(2) as u8, 0);
    let mut link = shaped(rng, shape(rng.below(SHAPES)), edition);
    match fault {
        0 => link.state = rng.pick(&[4, 5, 128, 255, rng.between(4, 255) as u8]),
        1 => link.queue.count = rng.pick(&COUNTS),
        2 => {
            link = shaped(rng, (3, waiting), edition);
            link.queue.slots[rng.below(waiting)].length = rng.pick(&LENGTHS);
        }
        3 => link.base = number_over_15(rng),
        4 => link.expected = number_over_15(rng),
        5 => link = shaped(rng, (3, 0), edition),
        6 => link = shaped(rng, (rng.below(3) as u8, waiting), edition),
        7 => link = self::link(rng, closed, (rng.between(1, 15) as u8, 0), edition),
        8 => link = self::link(rng, closed, (0, rng.between(1, 15) as u8), edition),
        _ => link.edition = unknown_edition(rng),
    }
    assert!(!view(&link).is_some_and(|l| l.well_formed()), "{link:X?}");
    link
}

pub fn any_link(rng: &Rng) -> Link {
    let edition = rng.pick(&EDITIONS);
    match rng.below(8) {
        0 => ill_formed(rng, rng.below(FAULTS), edition),
        1..=4 => shaped(rng, (3, rng.between(1, QUEUE)), edition),
        _ => shaped(rng, shape(rng.below(SHAPES)), edition),
    }
}

/// A reply buffer's size, most often enough.
pub fn room(rng: &Rng) -> usize {
    match rng.below(16) {
        0 => rng.pick(&ROOMS),
        1 => rng.below(2 * REPLY),
        _ => REPLY,
    }
}

fn size(rng: &Rng) -> usize {
    match rng.below(4) {
        0 => rng.pick(&PAYLOADS),
        1 => rng.below(PAYLOAD + 40),
        _ => rng.below(12),
    }
}

/// A DACK's number at a distance from the oldest one, as the link's edition reads it.
pub fn dack(link: &Link, distance: u8) -> u8 {
    let next = link.base.wrapping_add(distance);
    match link.edition {
        2 => next.wrapping_sub(1) & 15,
        _ => next & 15,
    }
}

/// A packet: DATA with the expected number, or one near it; DACK at a distance around the queue's length; the two others;
/// any octets.
fn packet(rng: &Rng, link: &Link) -> Vec<u8> {
    let near = |number: u8| number.wrapping_add(rng.pick(&[0, 0, 0, 1, 15, rng.octet()])) & 15;
    let distance = rng.below(link.queue.count.min(QUEUE) + 2) as u8;
    let (first, size) = match rng.below(8) {
        0..=2 => (0x40 | near(link.expected), size(rng)),
        3..=5 => (0x50 | near(dack(link, distance)), 0),
        6 => (rng.pick(&[0x10, 0x20, 0x11, 0x2F]), 0),
        _ => (rng.octet(), rng.pick(&[0, 1, size(rng)])),
    };
    // once in a while a payload where none belongs, or no packet at all
    match rng.below(32) {
        0 => Vec::new(),
        1 => [&[first], &rng.octets(1)[..]].concat(),
        _ => [&[first], &rng.octets(size)[..]].concat(),
    }
}

/// An event of each kind: each packet too, with the number that does something.
pub fn each_event(rng: &Rng, link: &Link) -> Vec<Event> {
    let controls = [0x10, 0x20, 0x40 | link.expected & 15, 0x50 | dack(link, 1)];
    let mut events = vec![Event::Start, Event::Timer];
    events.push(Event::Payload(rng.octets(size(rng))));
    events.extend(controls.map(|control| Event::Arrival(vec![control])));
    events
}

pub fn event(rng: &Rng, link: &Link) -> Event {
    match rng.below(8) {
        0 => Event::Start,
        1 => Event::Timer,
        2 | 3 => Event::Payload(rng.octets(size(rng))),
        _ => Event::Arrival(packet(rng, link)),
    }
}
