//! Two ends and the lines between them, side by side in both programs. In most runs both ends are of one edition and lines only
//! lose packets, and then the paper's demand 3 is checked of the archive: what is delivered is an initial part of what was
//! accepted at the other end since both were opened; where timers wait for a drained line, DATA sent are at most those accepted
//! and a whole queue for each lost packet. And since payloads are sent at once: as long as nothing is lost, all is delivered
//! whenever the line is drained. In the other runs packets are also invented, changed and repeated and ends replaced, or the
//! editions differ; they are compared alone. A line takes any number of packets, and none leaves it uncounted.
use super::super::tally::Tally;
use super::call::{compare, compare_fresh, refused, Event, Given, Place};
use crate::archive::link as archive;
use second::link::{self, QUEUE, REPLY};
use second::rng::Rng;
use std::collections::VecDeque;

const INITIAL_PART: &str = "delivered is an initial part of accepted";
const BOUND: &str = "DATA sent are within the bound";
const COUNTED: &str = "each DATA sent has arrived, was lost or is on its way";
const ALL: &str = "all accepted is delivered once nothing is lost";
const LOSSLESS: &str = "all accepted is delivered on a drained line that has lost nothing";
const FORMED: &str = "27 answers no link of a run";
const KEPT: &str = "no call changes an edition";
const RESTARTS: &str = "number restarts";
pub const RESETS: &str = "RESETs that emptied a queue";

pub struct End {
    pub archive: archive::Link,
    pub second: Option<link::Link>,
    /// packets on their way to this end
    pub line: VecDeque<Vec<u8>>,
    /// payloads accepted at this end since both were opened
    pub accepted: Vec<Vec<u8>>,
    /// payloads of the other end that were delivered at this one since then
    pub delivered: Vec<Vec<u8>>,
    /// DATA sent by this end since then, repeats too
    pub sent: usize,
    /// DATA of this end that has arrived at the other since then, repeats too
    pub arrived: usize,
    /// packets lost since then: DATA of this end, and DACKs to it
    pub lost_data: usize,
    pub lost_dacks: usize,
}

impl End {
    pub fn lost(&self) -> usize {
        self.lost_data + self.lost_dacks
    }

    /// Forgets what has been counted since the ends were opened.
    fn recount(&mut self) {
        self.accepted.clear();
        self.delivered.clear();
        (self.sent, self.arrived) = (0, 0);
        (self.lost_data, self.lost_dacks) = (0, 0);
    }
}

pub struct Ends<'a> {
    pub rng: &'a Rng,
    pub tally: &'a mut Tally,
    pub editions: [u8; 2],
    pub ends: [End; 2],
    /// whether the lines only lose packets and the editions are equal, so that the claims are due
    pub claimed: bool,
    /// whether each end's timer waits until none of its DATA and no DACK to it is on the line
    pub waits: bool,
    /// a packet is lost once in so many steps, or never by itself
    pub loss: Option<usize>,
    /// how many events in 64 are payloads
    pub payloads: usize,
    pub calls: u64,
}

fn fresh_end(edition: u8, tally: &mut Tally) -> End {
    let (outcome, link) = compare_fresh(edition, tally);
    End {
        archive: outcome.link,
        second: Some(link),
        line: VecDeque::new(),
        accepted: Vec::new(),
        delivered: Vec::new(),
        sent: 0,
        arrived: 0,
        lost_data: 0,
        lost_dacks: 0,
    }
}

pub fn is_data(packet: &[u8]) -> bool {
    packet.first().is_some_and(|x| x & 0xF0 == 0x40)
}

pub fn is_dack(packet: &[u8]) -> bool {
    packet.first().is_some_and(|x| x & 0xF0 == 0x50)
}

/// How many events in 64 are payloads, where nothing else is asked for.
pub const PAYLOADS: usize = 11;

impl<'a> Ends<'a> {
    /// Two fresh ends of these editions; nothing is lost by itself, and timers wait.
    pub fn fresh(rng: &'a Rng, tally: &'a mut Tally, editions: [u8; 2]) -> Self {
        Ends {
            editions,
            ends: editions.map(|edition| fresh_end(edition, tally)),
            claimed: editions[0] == editions[1],
            waits: true,
            loss: None,
            payloads: PAYLOADS,
            calls: 0,
            rng,
            tally,
        }
    }
}

impl Ends<'_> {
    /// An end is replaced by a fresh one of its edition, to which nothing is on its way.
    pub fn replace(&mut self, end: usize) {
        self.ends[end] = fresh_end(self.editions[end], self.tally);
    }

    /// One call at an end, whose packets join the other end's line; its number.
    pub fn call(&mut self, end: usize, event: Event, room: usize) -> u8 {
        let place = Place {
            archive: &self.ends[end].archive,
            second: self.ends[end].second.clone(),
            room,
            seed: self.rng.octet(),
        };
        let given = compare(place, &event, self.tally);
        let number = given.archive.answer.number;
        self.calls += 1;
        self.record(end, &event, &given);
        self.tally.claim(FORMED, number != 27);
        let kept = given.archive.link.edition == self.editions[end];
        self.tally.claim(KEPT, kept);
        self.check_bound(end, &given.packets);
        self.ends[1 - end].line.extend(given.packets);
        self.ends[end].archive = given.archive.link;
        self.ends[end].second = given.second;
        number
    }

    /// What was accepted and delivered, as the archive says; and how often numbers restart.
    fn record(&mut self, end: usize, event: &Event, given: &Given) {
        let (before, outcome) = (&self.ends[end].archive, &given.archive);
        if outcome.answer.upper_reset == 0 {
            let restarts = u64::from(outcome.link.base < before.base)
                + u64::from(outcome.link.expected < before.expected);
            self.tally.count(RESTARTS, restarts);
        } else if before.queue.count > 0 {
            self.tally.count(RESETS, 1);
        }
        match event {
            Event::Payload(payload) if !refused(outcome.answer.number) => {
                self.ends[end].accepted.push(payload.clone());
            }
            Event::Arrival(packet) if outcome.answer.delivered != 0 => {
                self.tally.count("delivered", 1);
                let payload = packet.get(1..).unwrap_or_default().to_vec();
                let index = self.ends[end].delivered.len();
                let holds = self.ends[1 - end].accepted.get(index) == Some(&payload);
                if self.claimed {
                    self.tally.claim(INITIAL_PART, holds);
                }
                self.ends[end].delivered.push(payload);
            }
            _ => {}
        }
    }

    /// Counts the DATA that a call has sent, and looks whether there are too many.
    fn check_bound(&mut self, end: usize, packets: &[Vec<u8>]) {
        let data = packets.iter().filter(|packet| is_data(packet)).count();
        self.tally.count("DATA sent", data as u64);
        let end = &mut self.ends[end];
        end.sent += data;
        if self.claimed && self.waits && data > 0 {
            let most = end.accepted.len() + QUEUE * end.lost();
            self.tally.claim(BOUND, end.sent <= most);
        }
    }

    /// The front packet of an end's line arrives, and is answered with a number; with too small a reply buffer it is lost.
    pub fn arrival(&mut self, end: usize, room: usize) -> Option<u8> {
        if let Some(packet) = self.ends[end].line.pop_front() {
            let number = self.call(end, Event::Arrival(packet.clone()), room);
            if number == 26 {
                self.count_lost(end, &packet);
            } else {
                self.ends[1 - end].arrived += usize::from(is_data(&packet));
            }
            return Some(number);
        }
        None
    }

    /// The packet at an index of an end's line is lost, where there is one.
    pub fn lose_at(&mut self, end: usize, index: usize) {
        if let Some(packet) = self.ends[end].line.remove(index) {
            self.count_lost(end, &packet);
            self.tally.count("lost on the line", 1);
        }
    }

    /// Whether no DATA went uncounted: those that an end sent have arrived, were lost, or are on the line.
    fn check_counted(&mut self, end: usize) {
        let line = &self.ends[1 - end].line;
        let on_the_way = line.iter().filter(|packet| is_data(packet)).count();
        let end = &self.ends[end];
        let counted = end.arrived + end.lost_data + on_the_way;
        self.tally.claim(COUNTED, end.sent == counted);
    }

    /// Whether none of an end's DATA and no DACK to it is on the line.
    pub fn drained(&self, end: usize) -> bool {
        !self.ends[1 - end].line.iter().any(|p| is_data(p))
            && !self.ends[end].line.iter().any(|p| is_dack(p))
    }

    /// As long as nothing of an end was lost, a drained line leaves nothing to be delivered and nothing queued. No timer is
    /// asked for.
    pub fn check_lossless(&mut self, end: usize) {
        let (this, other) = (&self.ends[end], &self.ends[1 - end]);
        if this.lost() == 0 && self.drained(end) {
            let all = other.delivered.len() == this.accepted.len();
            self.tally
                .claim(LOSSLESS, all && this.archive.queue.count == 0);
        }
    }

    /// A packet on its way to an end is lost: DATA counts for its sender, a DACK for the end it was sent to.
    fn count_lost(&mut self, end: usize, packet: &[u8]) {
        self.ends[1 - end].lost_data += usize::from(is_data(packet));
        self.ends[end].lost_dacks += usize::from(is_dack(packet));
    }

    /// Arrivals until both lines are empty, or for so many calls as can't be needed.
    fn drain(&mut self) {
        for _ in 0..10_000 {
            let Some(end) = (0..2).find(|&end| !self.ends[end].line.is_empty()) else {
                return;
            };
            self.arrival(end, REPLY);
        }
        panic!("lines that don't become empty");
    }

    /// One end starts afresh, over lines that may lose the packets; at last both are open and the lines empty.
    pub fn open(&mut self, end: usize) {
        self.ends[0].line.clear();
        self.ends[1].line.clear();
        self.replace(end);
        self.call(end, Event::Start, REPLY);
        // more often than losses can ask for
        for _ in 0..1_000 {
            if self.ends[end].archive.state != 1 {
                break;
            }
            self.call(end, Event::Timer, REPLY);
            self.lose(1 - end);
            self.arrival(1 - end, REPLY);
            self.lose(end);
            self.arrival(end, REPLY);
        }
        self.drain();
        self.ends.iter_mut().for_each(End::recount);
        self.tally.count("openings", 1);
    }

    /// Once in a while a packet of an end's line is lost.
    pub fn lose(&mut self, end: usize) {
        let packets = self.ends[end].line.len();
        if packets > 0 && self.loss.is_some_and(|n| self.rng.once_in(n)) {
            self.lose_at(end, self.rng.below(packets));
        }
    }

    /// Without loss: what is on the line arrives, then each end's queue is sent and acknowledged.
    pub fn settle(&mut self) {
        (0..2).for_each(|end| self.check_counted(end));
        self.drain();
        for end in 0..2 {
            self.call(end, Event::Timer, REPLY);
            self.drain();
        }
        for end in 0..2 {
            let all = self.ends[1 - end].delivered.len() == self.ends[end].accepted.len();
            self.tally
                .claim(ALL, all && self.ends[end].archive.state == 2);
            self.check_counted(end);
        }
    }
}
