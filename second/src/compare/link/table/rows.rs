//! The links and the events of the table.
use super::super::call::Event;
use crate::archive::link::{fresh, Link, Queue, Queued};
use second::link::{PAYLOAD, QUEUE};
use std::array::from_fn;

/// The numbers of an open link of the table, so that both restart after a step or two.
const OLDEST: u8 = 14;
const AWAITED: u8 = 15;

/// How many payloads are queued at the DLDWAIT of the table whose queue is not full.
const SOME: usize = 3;

pub const STATES: [&str; 4] = ["DLIDLE", "DLRESET", "DLDATA", "DLDWAIT"];

/// A link with `count` payloads of 0, 1, 2 .. octets, which are letters; an open one with the table's numbers.
fn link(edition: u8, state: u8, count: usize) -> Link {
    let queued = |i: usize| Queued {
        length: i,
        octets: from_fn(|k| if k < i { b'A' + k as u8 } else { 0 }),
    };
    let opened = state >= 2;
    Link {
        state,
        queue: Queue {
            count,
            slots: from_fn(|i| queued(if i < count { i } else { 0 })),
        },
        base: if opened { OLDEST } else { 0 },
        expected: if opened { AWAITED } else { 0 },
        edition,
    }
}

type Named<T> = (String, T);

/// A link of an edition in each state, and one with a full queue.
pub fn links(edition: u8) -> Vec<Named<Link>> {
    vec![
        ("DLIDLE".into(), fresh(edition).link),
        ("DLRESET".into(), link(edition, 1, 0)),
        ("DLDATA".into(), link(edition, 2, 0)),
        ("DLDWAIT".into(), link(edition, 3, SOME)),
        ("DLDWAIT, full".into(), link(edition, 3, QUEUE)),
    ]
}

/// Links of edition 2, with a name that says so.
pub fn second_links() -> Vec<Named<Link>> {
    let named = |(name, link)| (format!("{name}, edition 2"), link);
    links(2).into_iter().map(named).collect()
}

/// What numbers a fresh link is asked for with.
pub const ASKED: [u8; 5] = [0, 1, 2, 3, 255];

/// Links of no edition.
fn unknown_editions() -> Vec<Named<Link>> {
    let named = |edition| {
        let name = format!("DLDATA with edition {edition}");
        (name, link(edition, 2, 0))
    };
    let mut links: Vec<_> = [0, 3, 255].map(named).into();
    links.push(("all fields 0".to_string(), link(0, 0, 0)));
    links
}

/// A value for each way of not being well formed, of edition 1 where nothing else is said; and last one that is well formed,
/// whose free slots hold anything.
pub fn odd_links() -> Vec<Named<Link>> {
    let link = |state, count| link(1, state, count);
    let with = |name: &str, mut link: Link, change: fn(&mut Link)| {
        change(&mut link);
        (name.to_string(), link)
    };
    let mut odd = vec![
        with("state 4", link(2, 0), |l| l.state = 4),
        with("a payload more than the queue holds", link(3, QUEUE), |l| {
            l.queue.count += 1
        }),
        with("a queued payload of 257 octets", link(3, SOME), |l| {
            l.queue.slots[1].length = PAYLOAD + 1
        }),
        with("oldest 16", link(2, 0), |l| l.base = 16),
        with("awaited 16", link(2, 0), |l| l.expected = 16),
        with("DLDWAIT without a queue", link(3, 0), |_| {}),
        with("DLDATA with a queue", link(2, SOME), |_| {}),
    ];
    for (state, name) in STATES.iter().enumerate().take(2) {
        let closed = |count| link(state as u8, count);
        odd.extend([
            with(&format!("{name} with a queue"), closed(SOME), |_| {}),
            with(&format!("{name} with oldest 1"), closed(0), |l| l.base = 1),
            with(&format!("{name} with awaited 1"), closed(0), |l| {
                l.expected = 1
            }),
        ]);
    }
    odd.extend(unknown_editions());
    odd.push(with("DLDWAIT, 257 in a free slot", link(3, SOME), |l| {
        l.queue.slots[SOME].length = PAYLOAD + 1
    }));
    odd
}

pub fn packet(kind: u8, number: u8, payload: usize) -> Event {
    Event::Arrival([&[kind | (number % 16)], &vec![b'x'; payload][..]].concat())
}

/// The events in the order of the step table's rows, DACKs by the distance that the edition gives them; at last the packet that
/// is none.
pub fn events(edition: u8) -> Vec<Named<Event>> {
    let mut events = vec![
        ("RESET".into(), packet(0x10, 0, 0)),
        ("start".into(), Event::Start),
        ("RESET_ACK".into(), packet(0x20, 0, 0)),
    ];
    for (number, size) in [
        (AWAITED, 3),
        (AWAITED, 0),
        (AWAITED, PAYLOAD),
        (AWAITED, PAYLOAD + 1),
        (AWAITED - 1, 3),
        (AWAITED + 1, 3),
    ] {
        let name = format!("DATA {} with {size} octets", number % 16);
        events.push((name, packet(0x40, number, size)));
    }
    // none is above a full queue: behind 15 comes 0 again
    for distance in [0, 1, SOME, SOME + 1, QUEUE - 1, QUEUE] {
        // what is acknowledged is through the number before, or "through x"
        let number = (OLDEST + distance as u8 + 1 - edition) % 16;
        let name = format!("DACK {number}, distance {distance}");
        events.push((name, packet(0x50, number, 0)));
    }
    events.push(("timer".into(), Event::Timer));
    for size in [0, PAYLOAD, PAYLOAD + 1] {
        let name = format!("payload of {size} octets");
        events.push((name, Event::Payload(vec![b'x'; size])));
    }
    events.push(("empty packet".into(), Event::Arrival(Vec::new())));
    events
}
