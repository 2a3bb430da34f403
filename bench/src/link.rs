//! DLC: the link's timer event with a full queue, which sends every payload again; and payloads that fill an empty queue, each
//! sent as it is queued.
use crate::archive::link as archive;
use crate::others;
use crate::row::Row;
use second::link::{Link, Mode, PAYLOAD, QUEUE, REPLY};
use second::rng::Rng;

pub const ROWS: &[fn() -> Row] = &[timer, payload];

/// The events of a turn. The link that an event gives back goes into the next.
const EVENTS: usize = 64;

/// Of every link: these events are the same with either edition, which says how DACK is read.
const EDITION: u8 = 1;

fn payloads() -> Vec<Vec<u8>> {
    let rng = Rng::new(7);
    (0..QUEUE).map(|_| rng.octets(PAYLOAD)).collect()
}

/// A link that waits, in the form that C has.
fn waiting() -> archive::Link {
    let mut link = archive::fresh(EDITION).link;
    link.state = 3;
    link.queue.count = QUEUE;
    for (slot, payload) in link.queue.slots.iter_mut().zip(payloads()) {
        slot.length = PAYLOAD;
        slot.octets.copy_from_slice(&payload);
    }
    link
}

/// What an answer's packets are, as one number: how many octets, the first and the last of them.
fn sent(lengths: &[usize], reply: &[u8]) -> usize {
    let octets: usize = lengths.iter().sum();
    octets + usize::from(reply[0]) + usize::from(reply[octets - 1])
}

fn by_value(timer: fn(archive::Link, &mut [u8]) -> archive::Outcome) -> impl FnMut() -> usize {
    let (waiting, mut reply) = (waiting(), vec![0; REPLY]);
    move || {
        let (mut link, mut total) = (waiting.clone(), 0);
        for _ in 0..EVENTS {
            let outcome = timer(link, &mut reply);
            link = outcome.link;
            total += sent(&outcome.answer.lengths, &reply);
        }
        total
    }
}

fn by_second() -> impl FnMut() -> usize {
    let mut reply = vec![0; REPLY];
    let mut link = Some(Link {
        mode: Mode::Wait,
        queue: payloads(),
        ..Link::fresh(EDITION)
    });
    move || {
        let mut total = 0;
        for _ in 0..EVENTS {
            let (next, answer) = link.take().expect("a link").timer(&mut reply);
            link = Some(next);
            total += sent(&answer.sent, &reply);
        }
        total
    }
}

type Payload = fn(archive::Link, &[u8], &mut [u8]) -> archive::Outcome;

/// Payloads from an empty queue to a full one, and from an empty one again.
fn queued_by_value(payload: Payload) -> impl FnMut() -> usize {
    let (payloads, mut reply) = (payloads(), vec![0; REPLY]);
    move || {
        let (mut link, mut total) = (archive::fresh(EDITION).link, 0);
        for i in 0..EVENTS {
            if i % QUEUE == 0 {
                link.state = 2;
                link.queue.count = 0;
            }
            let outcome = payload(link, &payloads[i % QUEUE], &mut reply);
            link = outcome.link;
            total += sent(&outcome.answer.lengths, &reply);
        }
        total
    }
}

fn queued_by_second() -> impl FnMut() -> usize {
    let (payloads, mut reply) = (payloads(), vec![0; REPLY]);
    move || {
        let (mut link, mut total) = (Link::fresh(EDITION), 0);
        for i in 0..EVENTS {
            if i % QUEUE == 0 {
                link.mode = Mode::Data;
                link.queue.clear();
            }
            let (next, answer) = link.payload(&payloads[i % QUEUE], &mut reply);
            link = next;
            total += sent(&answer.sent, &reply);
        }
        total
    }
}

fn payload() -> Row {
    let ours = queued_by_value(|link, payload, reply| link.payload(payload, reply));
    Row::new(
        "link's payload of 256, queued and sent",
        "event",
        EVENTS,
        ours,
    )
    .beside("second", queued_by_second())
    .beside("plain C", queued_by_value(others::dlc_payload))
}

fn timer() -> Row {
    let ours = by_value(|link, reply| link.timer(reply));
    Row::new("link's timer, a full queue of 256", "event", EVENTS, ours)
        .beside("second", by_second())
        .beside("plain C", by_value(others::dlc_timer))
}
