//! Worked runs at two open ends of different editions, for which demand 3 says nothing: short ones after which what it says does
//! not hold.
use super::super::super::tally::Tally;
use super::super::ends::Ends;
use super::{events, play, Act, Step, LEFT, RIGHT};
use second::link::{QUEUE, REPLY};
use second::rng::Rng;

/// What a run shows, the editions of its ends, and its script.
struct Run {
    shows: &'static str,
    editions: [u8; 2],
    script: Vec<Step>,
}

fn payload(times: usize) -> Step {
    ("payload", times, Act::Payload(3, REPLY))
}

fn arrival(end: usize, times: usize) -> Step {
    let name = ["arrival at the left", "arrival at the right"][end];
    (name, times, Act::Arrival(end, REPLY))
}

fn runs() -> Vec<Run> {
    let repeats = |editions| Run {
        shows: "nothing is lost, and the timer sends what was delivered again",
        editions,
        script: vec![
            payload(1),
            arrival(RIGHT, 1),
            arrival(LEFT, 1),
            ("timer", 1, Act::Timer(REPLY)),
        ],
    };
    let gone = Run {
        shows: "the DACK for one payload removes two, of which one was lost",
        editions: [2, 1],
        script: vec![
            payload(2),
            ("the second DATA is lost", 1, Act::Loss(1)),
            arrival(RIGHT, 1),
            arrival(LEFT, 1),
        ],
    };
    let order = Run {
        shows: "a DACK for nothing empties a full queue, and the seventeenth payload is delivered as the first",
        editions: [1, 2],
        script: vec![
            payload(QUEUE),
            ("the first DATA is lost", 1, Act::Loss(0)),
            arrival(RIGHT, 1),
            arrival(LEFT, 1),
            payload(2),
            arrival(RIGHT, QUEUE),
        ],
    };
    vec![repeats([1, 2]), repeats([2, 1]), gone, order]
}

/// What a run came to: the counts of the left end's payloads, and which of them were delivered, from 1.
fn came_to(ends: &Ends) -> String {
    let [left, right] = &ends.ends;
    let (accepted, queued) = (left.accepted.len(), left.archive.queue.count);
    let (sent, lost, on_the_line) = (left.sent, left.lost(), right.line.len());
    // a payload begins with how many were accepted before it
    let up: Vec<_> = right
        .delivered
        .iter()
        .map(|p| format!("{}", p[0] + 1))
        .collect();
    format!(
        "accepted {accepted}, queued {queued}, delivered [{}], DATA sent {sent}, lost {lost}, on the line {on_the_line}\n",
        up.join(" ")
    )
}

/// The runs as text.
pub fn worked_runs(rng: &Rng, tally: &mut Tally) -> String {
    let mut text =
        "\n\nRuns at two open ends of different editions, for which demand 3 says nothing. Delivered are the payloads with these numbers, from 1\n"
            .to_string();
    for Run {
        shows,
        editions,
        script,
    } in runs()
    {
        let mut ends = Ends::fresh(rng, tally, editions);
        let ([left, right], events) = (editions, events(&script));
        text += &format!(
            "\n{events} events, left of edition {left}, right of edition {right}: {shows}\n"
        );
        text += &play(&mut ends, &script);
        text += &came_to(&ends);
    }
    text
}
