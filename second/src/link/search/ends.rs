//! Two ends and the lines between them, which lose packets; what demand 3 says of them, and whether it holds.
use crate::link::{Link, Mode, DACK, DATA, QUEUE, REPLY};

/// The payload of every call; payloads are told apart by how many were accepted before.
const PAYLOAD: [u8; 1] = [0x55];

#[derive(Clone, PartialEq, Eq, Hash)]
pub struct Packet {
    pub octets: Vec<u8>,
    /// of DATA: which of its sender's accepted payloads it carries
    pub payload: Option<usize>,
}

impl Packet {
    fn is_dack(&self) -> bool {
        self.octets[0] & 0xF0 == DACK
    }
}

#[derive(Clone, PartialEq, Eq, Hash)]
pub struct End {
    pub link: Link,
    /// packets on their way to this end
    pub line: Vec<Packet>,
    /// how many payloads were accepted at this end
    pub accepted: usize,
    /// which of the other end's were delivered at this one, in order
    pub delivered: Vec<usize>,
    /// DATA sent by this end, repeats too
    pub sent: usize,
    /// DATA of this end and DACKs to it that were lost
    pub lost: usize,
    /// whether its timer was called only when none of its DATA and no DACK to it was on the line
    pub waited: bool,
}

#[derive(Debug, Clone, Copy, PartialEq, Eq)]
pub enum Act {
    Payload,
    Timer,
    Arrival,
    /// of the packet at an index of the end's line
    Loss(usize),
}
use Act::{Arrival, Loss, Payload, Timer};

pub const ALPHABET: [Act; 6] = [Payload, Timer, Arrival, Loss(0), Loss(1), Loss(2)];

/// An event at an end.
pub type Event = (usize, Act);

#[derive(Clone, PartialEq, Eq, Hash)]
pub struct Ends(pub [End; 2]);

impl Ends {
    pub fn open(editions: [u8; 2]) -> Self {
        Ends(editions.map(|edition| End {
            link: Link {
                mode: Mode::Data,
                ..Link::fresh(edition)
            },
            line: Vec::new(),
            accepted: 0,
            delivered: Vec::new(),
            sent: 0,
            lost: 0,
            waited: true,
        }))
    }

    /// Whether none of an end's DATA and no DACK to it is on the line.
    fn drained(&self, end: usize) -> bool {
        self.0[1 - end].line.iter().all(|p| p.payload.is_none())
            && !self.0[end].line.iter().any(Packet::is_dack)
    }

    /// One event, and the number answered where there was a call.
    pub fn step(&mut self, (end, act): Event) -> Option<u8> {
        let line = &mut self.0[end].line;
        let packet = match act {
            Arrival if !line.is_empty() => Some(line.remove(0)),
            Loss(index) if index < line.len() => {
                let packet = line.remove(index);
                let whose = if packet.is_dack() { end } else { 1 - end };
                self.0[whose].lost += 1;
                return None;
            }
            Arrival | Loss(_) => return None,
            Payload | Timer => None,
        };
        Some(self.call(end, act, packet))
    }

    /// A call at an end, with a reply buffer that is large enough.
    fn call(&mut self, end: usize, act: Act, packet: Option<Packet>) -> u8 {
        self.0[end].waited &= act != Timer || self.drained(end);
        let mut reply = vec![0; REPLY];
        let link = self.0[end].link.clone();
        let (link, answer) = match &packet {
            Some(packet) => link.packet(&packet.octets, &mut reply),
            None if act == Timer => link.timer(&mut reply),
            None => link.payload(&PAYLOAD, &mut reply),
        };
        self.0[end].link = link;
        self.0[end].accepted += usize::from(act == Payload && answer.number == 0);
        if answer.up.is_some() {
            let payload = packet.and_then(|p| p.payload);
            self.0[end].delivered.push(payload.expect("DATA"));
        }
        // a payload call sends the payload that was accepted last, the timer all that are queued
        let newest = self.0[end].accepted;
        let first = newest.saturating_sub(answer.sent.len());
        for (i, length) in answer.sent.into_iter().enumerate() {
            let octets: Vec<u8> = reply.drain(..length).collect();
            let payload = (octets[0] & 0xF0 == DATA).then_some(first + i);
            self.0[end].sent += usize::from(payload.is_some());
            self.0[1 - end].line.push(Packet { octets, payload });
        }
        answer.number
    }

    /// Whether an end whose timer calls all waited has sent more DATA than it accepted payloads, and a queue for each lost.
    pub fn bound_broken(&self, end: usize) -> bool {
        let end = &self.0[end];
        end.waited && end.sent > end.accepted + QUEUE * end.lost
    }

    /// The payloads of an end that are no longer in its queue, were not delivered and are on the line in no DATA.
    pub fn gone(&self, end: usize) -> Vec<usize> {
        let (this, other) = (&self.0[end], &self.0[1 - end]);
        let on_the_line = |i| other.line.iter().any(|p| p.payload == Some(i));
        (0..this.accepted - this.link.queue.len())
            .filter(|i| !other.delivered.contains(i) && !on_the_line(*i))
            .collect()
    }

    /// Whether what was delivered of an end is no initial part of what was accepted at it.
    pub fn order_broken(&self, end: usize) -> bool {
        let delivered = self.0[1 - end].delivered.iter().copied();
        !delivered.eq(0..self.0[1 - end].delivered.len())
    }
}
