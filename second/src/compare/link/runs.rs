//! Runs of random events at two ends of one edition, from one opening to the next. Lines lose packets; in one run in four they
//! are disturbed besides.
use super::super::tally::Tally;
use super::call::{compare, Event, Place};
use super::ends::{Ends, PAYLOADS, RESETS};
use super::make;
use second::link::PAYLOAD;
use second::rng::Rng;

/// The numbers that runs have to bring up.
pub const NUMBERS: [u8; 6] = [0, 21, 22, 24, 25, 26];

/// Calls between two openings of the ends.
const STRETCH: u64 = 400;

impl Ends<'_> {
    /// A payload that tells its place, so that two of them are seldom the same, and with mixed editions never.
    pub fn payload(&self) -> Event {
        let mut payload = self.calls.to_le_bytes().to_vec();
        let mixed = self.editions[0] != self.editions[1];
        match self.rng.below(16) {
            0 if !mixed => payload.truncate(self.rng.below(2)),
            1 => payload.resize(self.rng.between(PAYLOAD - 1, PAYLOAD + 1), 0x5A),
            _ => {}
        }
        Event::Payload(payload)
    }

    /// One event at random. Timers are few while packets are on their way, so that lines don't fill up with repeats.
    pub fn step(&mut self) {
        let (end, room) = (self.rng.below(2), make::room(self.rng));
        self.lose(end);
        let quiet = self.ends.iter().all(|end| end.line.is_empty());
        let idle = self.ends[end].archive.state == 0;
        let event = match self.rng.below(64) {
            _ if idle && self.rng.once_in(4) => Event::Start,
            0 => Event::Start,
            1 if !self.waits || self.drained(end) => Event::Timer,
            2 => return self.probe(end),
            n if (3..3 + self.payloads).contains(&n) => self.payload(),
            _ if quiet => Event::Timer,
            _ => {
                self.arrival(end, room);
                return;
            }
        };
        self.call(end, event, room);
    }

    /// A call of any kind from the link as it is, whose outcome nobody goes on with.
    fn probe(&mut self, end: usize) {
        let place = Place {
            archive: &self.ends[end].archive,
            second: self.ends[end].second.clone(),
            room: make::room(self.rng),
            seed: self.rng.octet(),
        };
        let event = make::event(self.rng, place.archive);
        compare(place, &event, self.tally);
        self.calls += 1;
    }

    /// What no line does that only loses: a packet invented, changed, repeated or overtaken; an end replaced.
    fn disturb(&mut self) {
        let (place, rng) = (self.rng.below(2), self.rng);
        let end = &mut self.ends[place];
        match (rng.below(400), end.line.front().cloned()) {
            (0 | 1, _) => self.replace(place),
            (2..=9, _) => {
                if let Event::Arrival(packet) = make::event(rng, &end.archive) {
                    end.line.push_front(packet);
                }
            }
            (10..=19, Some(packet)) => end.line.push_back(packet),
            (20..=29, Some(mut packet)) if !packet.is_empty() => {
                packet[0] = rng.pick(&[packet[0] ^ 1, packet[0] ^ 16, rng.octet()]);
                end.line[0] = packet;
            }
            (30..=39, Some(_)) => end.line.rotate_left(1),
            _ => {}
        }
    }
}

/// One run from an opening to the next.
fn run(rng: &Rng, edition: u8, claimed: bool, tally: &mut Tally) -> u64 {
    let mut ends = Ends {
        claimed,
        waits: rng.once_in(2),
        loss: Some(rng.pick(&[4, 20, 100, 1000])),
        payloads: rng.pick(&[PAYLOADS, PAYLOADS, 4 * PAYLOADS]),
        ..Ends::fresh(rng, tally, [edition; 2])
    };
    ends.open(rng.below(2));
    for _ in 0..rng.pick(&[1, 2, 4]) {
        let until = ends.calls + STRETCH;
        while ends.calls < until {
            if !claimed {
                ends.disturb();
            }
            ends.step();
            if claimed {
                (0..2).for_each(|end| ends.check_lossless(end));
            }
        }
        if claimed {
            ends.settle();
            ends.open(rng.below(2));
        }
    }
    ends.calls
}

/// Runs of four times `count` calls in all, or a few more: calls are quick, and what goes wrong may take many. One run in four
/// is disturbed.
fn two_ends(rng: &Rng, edition: u8, count: u64, tally: &mut Tally) {
    tally.count(RESETS, 0);
    let mut calls = 0;
    while calls < 4 * count {
        calls += run(rng, edition, !rng.once_in(4), tally);
    }
    tally.count("calls", calls);
}

pub fn edition_1(rng: &Rng, count: u64, tally: &mut Tally) {
    two_ends(rng, 1, count, tally);
}

pub fn edition_2(rng: &Rng, count: u64, tally: &mut Tally) {
    two_ends(rng, 2, count, tally);
}
