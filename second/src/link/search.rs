//! Two open ends, of which every list of a few events is played: payload and timer calls, arrivals and losses at either end.
//! What demand 3 says is watched, also where the ends are of different editions and it need not hold.
mod ends;

use super::{DACK, DATA, EDITIONS, QUEUE};
use ends::Act::{self, Arrival, Loss, Payload, Timer};
use ends::{Ends, Event, ALPHABET};
use std::collections::HashSet;

/// Every event that changes something, and what it leads to. In a list of the fewest events no other stands.
fn changes(ends: &Ends) -> impl Iterator<Item = (Event, Ends)> + '_ {
    let events = (0..2).flat_map(|end| ALPHABET.map(|act| (end, act)));
    events.filter_map(|event| {
        let mut after = ends.clone();
        after.step(event);
        (after != *ends).then_some((event, after))
    })
}

/// All lists of the fewest events after which something holds, where that is at most `most` events; none otherwise.
fn fewest(editions: [u8; 2], most: usize, holds: impl Fn(&Ends) -> bool) -> Vec<Vec<Event>> {
    let mut level = vec![(Vec::new(), Ends::open(editions))];
    for _ in 0..most {
        let mut next = Vec::new();
        for (list, ends) in &level {
            next.extend(
                changes(ends).map(|(event, after)| ([&list[..], &[event]].concat(), after)),
            );
        }
        let found = next.iter().filter(|(_, ends)| holds(ends));
        let lists: Vec<_> = found.map(|(list, _)| list.clone()).collect();
        if !lists.is_empty() {
            return lists;
        }
        level = next;
    }
    Vec::new()
}

/// Looks at all that one to `most` events lead to, each once; how many these are.
fn all(editions: [u8; 2], most: usize, mut look: impl FnMut(&Ends)) -> usize {
    let mut level = HashSet::from([Ends::open(editions)]);
    let mut met = level.clone();
    for _ in 0..most {
        let mut next = HashSet::new();
        for ends in &level {
            next.extend(changes(ends).map(|(_, after)| after));
        }
        next.retain(|ends| !met.contains(ends));
        next.iter().for_each(&mut look);
        met.extend(next.iter().cloned());
        level = next;
    }
    met.len() - 1
}

/// The ends where their editions differ.
const EDITION_1: usize = 0;
const EDITION_2: usize = 1;
const MIXED: [u8; 2] = EDITIONS;

/// How far the searches go that find nothing.
const FAR: usize = 8;

/// A payload is sent, arrives and is acknowledged; the DACK answers 24, and the timer sends the payload again.
#[test]
fn fewest_events_to_break_the_bound() {
    for (end, other) in [(EDITION_1, EDITION_2), (EDITION_2, EDITION_1)] {
        let list = vec![
            (end, Payload),
            (other, Arrival),
            (end, Arrival),
            (end, Timer),
        ];
        let lists = fewest(MIXED, FAR, |ends| ends.bound_broken(end));
        assert_eq!(lists, [list]);
    }
}

/// Of two payloads sent by edition 2 one is lost, and the DACK of the other removes both, or the one that was lost.
#[test]
fn fewest_events_until_a_payload_is_gone() {
    let payload = (EDITION_2, Payload);
    let dack = (EDITION_2, Arrival);
    let [data, first, second] = [Arrival, Loss(0), Loss(1)].map(|act| (EDITION_1, act));
    let lists = [
        [payload, data, payload, first, dack],
        [payload, data, payload, dack, first],
        [payload, first, payload, data, dack],
        [payload, payload, data, first, dack],
        [payload, payload, data, dack, first],
        [payload, payload, first, data, dack],
        [payload, payload, second, data, dack],
    ];
    let found = fewest(MIXED, FAR, |ends| !ends.gone(EDITION_2).is_empty());
    assert_eq!(found, lists);
}

/// From edition 1 to 2 no payload is gone after few events, and either way what is delivered is an initial part.
#[test]
fn what_few_events_keep_with_mixed_editions() {
    let met = all(MIXED, FAR, |ends| {
        assert!(ends.gone(EDITION_1).is_empty());
        assert!(!ends.order_broken(EDITION_1) && !ends.order_broken(EDITION_2));
    });
    assert!(met > 20_000, "{met}");
}

#[test]
fn equal_editions_break_nothing() {
    for edition in EDITIONS {
        let met = all([edition; 2], FAR, |ends| {
            for end in 0..2 {
                assert!(!ends.bound_broken(end));
                assert!(ends.gone(end).is_empty());
                assert!(!ends.order_broken(end));
            }
        });
        assert!(met > 20_000, "{met}");
    }
}

/// A run of 35 events from the first end to the second. A full queue is sent, and its first DATA lost; the next arrives, and its
/// DACK too; two more payloads come; what is on the line ahead of the last of them arrives or is lost; at last this arrives.
fn run(ahead: Act) -> Vec<Event> {
    let mut events = vec![(0, Payload); QUEUE];
    events.extend([(1, Loss(0)), (1, Arrival), (0, Arrival)]);
    events.extend([(0, Payload); 2]);
    events.extend([(1, ahead); QUEUE - 1]);
    events.push((1, Arrival));
    events
}

/// DACK 15 of edition 2 acknowledges nothing, and empties a queue of edition 1. The seventeenth payload has number 0 again, and
/// is delivered as the first.
#[test]
fn order_broken_by_35_events() {
    for ahead in [Arrival, Loss(0)] {
        let mut numbers = vec![Some(0); QUEUE];
        numbers.extend([None, Some(25), Some(0), Some(0), Some(0)]);
        numbers.extend([(ahead == Arrival).then_some(25); QUEUE - 1]);
        numbers.push(Some(0));
        let mut ends = Ends::open(MIXED);
        for (i, (event, number)) in (1..=35).zip(run(ahead).into_iter().zip(numbers)) {
            assert!(!ends.order_broken(EDITION_1), "before event {i}");
            assert_eq!(ends.step(event), number, "event {i}");
            assert_eq!(ends.gone(EDITION_1).is_empty(), i < 18, "event {i}");
            let [sender, receiver] = &ends.0;
            match i {
                17 => assert_eq!(sender.line[0].octets, [DACK | 15]),
                18 => assert_eq!((sender.link.queue.len(), sender.link.oldest), (0, 15)),
                19 => assert_eq!(receiver.line[13].octets[0], DATA | 15),
                20 => assert_eq!(receiver.line[14].octets[0], DATA),
                _ => {}
            }
        }
        assert_eq!(ends.0[EDITION_2].delivered, [16]);
        assert!(ends.order_broken(EDITION_1));
    }
}

/// The same events where the editions are equal: the DACK answers 24, and the queue stays full.
#[test]
fn order_kept_by_equal_editions() {
    for (edition, ahead) in EDITIONS
        .into_iter()
        .flat_map(|e| [(e, Arrival), (e, Loss(0))])
    {
        let mut ends = Ends::open([edition; 2]);
        let numbers: Vec<_> = run(ahead).into_iter().map(|e| ends.step(e)).collect();
        assert_eq!(numbers[16..20], [Some(25), Some(24), Some(22), Some(22)]);
        assert_eq!(ends.0[1].delivered, [0; 0]);
        assert_eq!(ends.0[0].link.queue.len(), QUEUE);
        // and the timer brings all of it to the other end
        ends.step((0, Timer));
        for _ in 0..QUEUE {
            ends.step((1, Arrival));
        }
        assert!(ends.0[1].delivered.iter().copied().eq(0..QUEUE));
    }
}
