//! A worked run at two open ends of one edition: a full queue, each payload sent as it is accepted, each refusal, a loss and its
//! repeat, a loss by too small a reply buffer, and as many payloads as make the numbers restart. Its counts follow from the
//! queue's limit alone.
mod mixed;

use super::super::tally::Tally;
use super::call::Event;
use super::ends::Ends;
use second::link::{EDITIONS, PAYLOAD, QUEUE, REPLY};
use second::rng::Rng;

/// Three queues are accepted and delivered; sent are all but four payloads of five queues, since the first two of the first
/// queue are not repeated.
const COUNTS: &str = "the worked run's counts are those of its script";

const SAME: &str = "the worked run is the same with either edition";

const LEFT: usize = 0;
const RIGHT: usize = 1;

#[derive(Clone, Copy)]
enum Act {
    /// at the left end: the size of the payload, and of the reply buffer
    Payload(usize, usize),
    /// at the left end: the size of the reply buffer
    Timer(usize),
    /// at an end: the size of the reply buffer
    Arrival(usize, usize),
    /// on the line from the left end: the packet at an index is lost
    Loss(usize),
}

type Step = (&'static str, usize, Act);

/// What each step does, how often, and how.
fn script() -> Vec<Step> {
    let payload = |times| ("payload", times, Act::Payload(3, REPLY));
    let timer = ("timer", 1, Act::Timer(REPLY));
    let arrive = |times| {
        [
            ("arrival at the right", times, Act::Arrival(RIGHT, REPLY)),
            ("arrival at the left", times, Act::Arrival(LEFT, REPLY)),
        ]
    };
    let mut steps = vec![
        payload(QUEUE + 1),
        ("payload, small reply buffer", 1, Act::Payload(3, REPLY - 1)),
        ("payload too long", 1, Act::Payload(PAYLOAD + 1, REPLY)),
        ("arrival, nothing on the line", 1, Act::Arrival(LEFT, REPLY)),
        ("the third DATA is lost", 1, Act::Loss(2)),
        ("a loss where there is no packet", 1, Act::Loss(QUEUE)),
    ];
    steps.extend(arrive(QUEUE - 1));
    steps.push(("timer, small reply buffer", 1, Act::Timer(REPLY - 1)));
    steps.push(timer);
    steps.push((
        "arrival, small reply buffer",
        1,
        Act::Arrival(RIGHT, REPLY - 1),
    ));
    steps.extend(arrive(QUEUE - 3));
    steps.push(timer);
    steps.extend(arrive(QUEUE - 2));
    steps.push(("timer, nothing queued", 1, Act::Timer(REPLY)));
    for _ in 0..2 {
        steps.push(payload(QUEUE));
        steps.extend(arrive(QUEUE));
    }
    steps
}

/// One act; its number, where there was a call.
fn act(ends: &mut Ends, act: Act) -> Option<u8> {
    match act {
        Act::Payload(size, room) => {
            // it begins with how many came before, so that no two are the same
            let mut payload = ends.ends[LEFT].accepted.len().to_le_bytes().to_vec();
            payload.resize(size, 0);
            Some(ends.call(LEFT, Event::Payload(payload), room))
        }
        Act::Timer(room) => Some(ends.call(LEFT, Event::Timer, room)),
        Act::Arrival(end, room) => ends.arrival(end, room),
        Act::Loss(index) => {
            ends.lose_at(RIGHT, index);
            None
        }
    }
}

/// Plays a script: a line for each step, with its numbers.
fn play(ends: &mut Ends, script: &[Step]) -> String {
    ends.open(LEFT);
    let mut text = String::new();
    for &(name, times, what) in script {
        let numbers: Vec<_> = (0..times)
            .filter_map(|_| act(ends, what))
            .map(|n| n.to_string())
            .collect();
        text += format!("  {name:<32} {}", numbers.join(" ")).trim_end();
        text.push('\n');
    }
    text
}

fn events(script: &[Step]) -> usize {
    script.iter().map(|(_, times, _)| times).sum()
}

/// The run at two ends of an edition as text: the numbers of each step, and what it came to.
fn worked_run(rng: &Rng, tally: &mut Tally, edition: u8) -> String {
    let mut ends = Ends::fresh(rng, tally, [edition; 2]);
    let text = play(&mut ends, &script());
    let came_to = came_to(&mut ends);
    ends.settle();
    text + &came_to
}

fn came_to(ends: &mut Ends) -> String {
    let [left, right] = &ends.ends;
    let counts = [
        left.accepted.len(),
        right.delivered.len(),
        left.sent,
        left.lost(),
    ];
    let [accepted, delivered, sent, lost] = counts;
    let (oldest, awaited) = (left.archive.base, right.archive.expected);
    let holds = counts == [3 * QUEUE, 3 * QUEUE, 5 * QUEUE - 4, 2];
    ends.tally.claim(COUNTS, holds);
    format!("\naccepted {accepted}, delivered {delivered}, DATA sent {sent}, lost {lost}; oldest {oldest}, awaited {awaited}\n")
}

/// All runs as text: the one of two ends of one edition, and those of mixed editions.
pub fn worked_runs(rng: &Rng, tally: &mut Tally) -> String {
    let [first, second] = EDITIONS.map(|edition| worked_run(rng, tally, edition));
    tally.claim(SAME, first == second);
    let events = events(&script());
    let title = format!("\n\nA run of {events} events at two open ends of edition 1, and of edition 2 as well, with the numbers answered. Payloads and timers are the left end's\n\n");
    title + &first + &mixed::worked_runs(rng, tally)
}
