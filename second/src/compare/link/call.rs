//! One event at a link, by the archive and by the second program, with all that the two have to agree on.
use super::super::tally::{hex, Out, Tally};
use crate::archive::link as archive;
use second::link::{self, Mode, PAYLOAD, QUEUE};
use std::fmt::{Debug, Formatter};

#[derive(Clone)]
pub enum Event {
    Start,
    Timer,
    Payload(Vec<u8>),
    Arrival(Vec<u8>),
}

impl Debug for Event {
    fn fmt(&self, f: &mut Formatter) -> std::fmt::Result {
        match self {
            Event::Start => write!(f, "start"),
            Event::Timer => write!(f, "timer"),
            Event::Payload(octets) => write!(f, "payload {}", hex(octets)),
            Event::Arrival(octets) => write!(f, "arrival {}", hex(octets)),
        }
    }
}

/// What the second program calls a link value of the header, free slots left out; nothing for a state over 3, which it has
/// no name for. A count and a length over their limits are cut to the first wrong one, and are its own to judge.
pub fn view(link: &archive::Link) -> Option<link::Link> {
    let mode = match link.state {
        0 => Mode::Idle,
        1 => Mode::Reset,
        2 => Mode::Data,
        3 => Mode::Wait,
        _ => return None,
    };
    let payload = |slot: &archive::Queued| match slot.octets.get(..slot.length) {
        Some(octets) => octets.to_vec(),
        None => vec![0; PAYLOAD + 1],
    };
    let count = link.queue.count.min(QUEUE + 1);
    let mut queue: Vec<_> = link.queue.slots.iter().take(count).map(payload).collect();
    queue.resize(count, Vec::new());
    Some(link::Link {
        mode,
        queue,
        oldest: link.base,
        awaited: link.expected,
        edition: link.edition,
    })
}

/// The later link, as far as it is determined: a refusal gives the very value back, free slots and all.
#[derive(Debug, PartialEq)]
enum Later {
    Same(Box<archive::Link>),
    Changed(Option<link::Link>),
}

/// 25 is not a refusal.
pub fn refused(number: u8) -> bool {
    !matches!(number, 0 | 25)
}

fn by_second(
    link: Option<link::Link>,
    event: &Event,
    reply: &mut [u8],
) -> Option<(link::Link, link::Answer)> {
    let link = link?;
    Some(match event {
        Event::Start => link.start(reply),
        Event::Timer => link.timer(reply),
        Event::Payload(payload) => link.payload(payload, reply),
        Event::Arrival(packet) => link.packet(packet, reply),
    })
}

fn by_archive(link: archive::Link, event: &Event, reply: &mut [u8]) -> archive::Outcome {
    match event {
        Event::Start => link.start(reply),
        Event::Timer => link.timer(reply),
        Event::Payload(payload) => link.payload(payload, reply),
        Event::Arrival(packet) => link.arrival(packet, reply),
    }
}

/// The second program's answer in the header's fields.
fn fields(answer: &link::Answer) -> archive::Answer {
    let mut lengths = [0; QUEUE];
    lengths[..answer.sent.len()].copy_from_slice(&answer.sent);
    archive::Answer {
        number: answer.number,
        upper_reset: answer.upper_reset.into(),
        delivered: answer.up.is_some().into(),
        sent: answer.sent.len(),
        lengths,
    }
}

/// Where an event is called: both programs' link, and the reply buffer's size and pattern.
pub struct Place<'a> {
    pub archive: &'a archive::Link,
    pub second: Option<link::Link>,
    pub room: usize,
    pub seed: u8,
}

/// What both programs gave back, each its own; the packets are those in the archive's reply buffer.
pub struct Given {
    pub archive: archive::Outcome,
    pub second: Option<link::Link>,
    pub packets: Vec<Vec<u8>>,
}

/// The packets at the front of a reply buffer, as far as it goes.
fn packets(answer: &archive::Answer, mut reply: &[u8]) -> Vec<Vec<u8>> {
    let mut packets = Vec::new();
    for &length in answer.lengths.iter().take(answer.sent) {
        let (packet, rest) = reply.split_at(length.min(reply.len()));
        packets.push(packet.to_vec());
        reply = rest;
    }
    packets
}

/// Has both make a link, and compares every field of the answer and the link; the archive's and the second program's.
pub fn compare_fresh(edition: u8, tally: &mut Tally) -> (archive::Outcome, link::Link) {
    let (link, answer) = link::Link::make(edition);
    let outcome = archive::fresh(edition);
    tally.number(answer.number);
    tally.input(
        &(fields(&answer), Some(link.clone())),
        &(outcome.answer.clone(), view(&outcome.link)),
        || format!("a fresh link of edition {edition}"),
    );
    (outcome, link)
}

/// Calls both and compares: every field of the answer, the later link, the whole reply buffer. A state over 3 is 27.
pub fn compare(place: Place, event: &Event, tally: &mut Tally) -> Given {
    let Place { room, seed, .. } = place;
    let (mut ours, mut theirs) = (Out::new(room, seed), Out::new(room, seed));
    let outcome = by_archive(place.archive.clone(), event, theirs.room());
    let packets = packets(&outcome.answer, theirs.room());
    let (second, answer) = match by_second(place.second, event, ours.room()) {
        Some((link, answer)) => {
            // what is delivered is all of the packet behind its first octet
            if let (Some(part), Event::Arrival(packet)) = (&answer.up, event) {
                assert_eq!(*part, 1..packet.len());
            }
            (Some(link), fields(&answer))
        }
        None => (
            None,
            archive::Answer {
                number: 27,
                ..Default::default()
            },
        ),
    };
    let later = |number, whole: &archive::Link, link| match refused(number) {
        true => Later::Same(Box::new(whole.clone())),
        false => Later::Changed(link),
    };
    tally.number(answer.number);
    let our_later = later(answer.number, place.archive, second.clone());
    let their_later = later(outcome.answer.number, &outcome.link, view(&outcome.link));
    tally.input(
        &(answer, our_later, ours),
        &(outcome.answer.clone(), their_later, theirs),
        || format!("{event:?}, room {room}, {:X?}", place.archive),
    );
    Given {
        archive: outcome,
        second,
        packets,
    }
}
