//! Runs at two ends of different editions, whose lines only lose packets. Calls are compared as everywhere. Demand 3 has the
//! premise that the editions are equal, so nothing of it is claimed here: it is counted how often what it says does not hold, and
//! how often a payload is gone.
use super::super::tally::Tally;
use super::ends::{is_data, Ends, PAYLOADS, RESETS};
use second::link::{QUEUE, REPLY};
use second::rng::Rng;

/// Calls between two openings of the ends.
const STRETCH: u64 = 100;

/// By the edition of the end that sends, less 1.
const ORDER: [&str; 2] = [
    "openings with the order broken from edition 1 to 2",
    "openings with the order broken from edition 2 to 1",
];
const BOUND: [&str; 2] = [
    "openings with the bound broken at edition 1",
    "openings with the bound broken at edition 2",
];
const GONE: [&str; 2] = [
    "payloads gone from edition 1 to 2",
    "payloads gone from edition 2 to 1",
];
const WAIT: &str = "openings with timers that wait";

/// What was seen of an end's payloads since both ends were opened.
#[derive(Default)]
struct Seen {
    order_broken: bool,
    bound_broken: bool,
    /// how many have left the queue
    removed: usize,
    /// which of these were not delivered so far and are not counted as gone
    missing: Vec<usize>,
}

impl Seen {
    /// Looks at what an end has sent, after each step.
    fn look(&mut self, ends: &mut Ends, end: usize) {
        let name = usize::from(ends.editions[end] - 1);
        let (this, other) = (&ends.ends[end], &ends.ends[1 - end]);
        if !self.order_broken && !this.accepted.starts_with(&other.delivered) {
            self.order_broken = true;
            count_order(ends.tally, name, 1);
        }
        let most = this.accepted.len() + QUEUE * this.lost();
        if !self.bound_broken && ends.waits && this.sent > most {
            self.bound_broken = true;
            ends.tally.count(BOUND[name], 1);
        }
        let gone = self.gone(ends, end);
        ends.tally.count(GONE[name], gone);
    }

    /// How many payloads of an end are gone since the last look: they have left its queue, were not delivered, and no DATA on
    /// the line has them. No two payloads of a run are the same.
    fn gone(&mut self, ends: &Ends, end: usize) -> u64 {
        let (this, other) = (&ends.ends[end], &ends.ends[1 - end]);
        let removed = this.accepted.len() - this.archive.queue.count;
        self.missing.extend(self.removed..removed);
        self.removed = removed;
        let delivered = |i: usize| other.delivered.contains(&this.accepted[i]);
        self.missing.retain(|&i| !delivered(i));
        let missing = self.missing.len();
        self.missing.retain(|&i| {
            let mut data = other.line.iter().filter(|packet| is_data(packet));
            data.any(|packet| packet[1..] == this.accepted[i])
        });
        (missing - self.missing.len()) as u64
    }
}

/// Counts the order broken, which has to come up from edition 1 to 2 alone.
fn count_order(tally: &mut Tally, name: usize, times: u64) {
    match name {
        0 => tally.count(ORDER[0], times),
        _ => tally.note(ORDER[name], times),
    }
}

/// Payloads enough for a whole queue at an end, while nothing arrives: some of their DATA may be lost.
fn burst(ends: &mut Ends, end: usize) {
    for _ in 0..QUEUE {
        ends.call(end, ends.payload(), REPLY);
        ends.lose(1 - end);
    }
}

/// One run of one opening or a few; in half of them a burst comes first.
fn run(rng: &Rng, tally: &mut Tally) -> u64 {
    let mut ends = Ends {
        waits: rng.once_in(2),
        loss: Some(rng.pick(&[4, 4, 20, 100])),
        payloads: rng.pick(&[PAYLOADS, 4 * PAYLOADS]),
        ..Ends::fresh(rng, tally, rng.pick(&[[1, 2], [2, 1]]))
    };
    for _ in 0..rng.pick(&[1, 2, 4]) {
        ends.open(rng.below(2));
        ends.tally.count(WAIT, ends.waits.into());
        let mut seen = [Seen::default(), Seen::default()];
        let until = ends.calls + STRETCH;
        if rng.once_in(2) {
            burst(&mut ends, rng.below(2));
        }
        while ends.calls < until {
            ends.step();
            (0..2).for_each(|end| seen[end].look(&mut ends, end));
        }
    }
    ends.calls
}

/// Runs of twice `count` calls in all, or a few more.
pub fn mixed_editions(rng: &Rng, count: u64, tally: &mut Tally) {
    for (name, bound) in BOUND.into_iter().enumerate() {
        count_order(tally, name, 0);
        tally.count(bound, 0);
    }
    tally.count(RESETS, 0);
    let mut calls = 0;
    while calls < 2 * count {
        calls += run(rng, tally);
    }
    tally.count("calls", calls);
}
