//! Worked cases of the two editions (2026-08), against this program alone.
use super::{Answer, Link, Mode, DACK, DATA, EDITIONS, QUEUE, REPLY, RESET, RESET_ACK};

/// An open link whose queue has so many payloads of one octet each.
fn open(edition: u8, queued: usize, oldest: u8, awaited: u8) -> Link {
    Link {
        mode: if queued == 0 { Mode::Data } else { Mode::Wait },
        queue: (0..queued).map(|i| vec![i as u8]).collect(),
        oldest,
        awaited,
        edition,
    }
}

/// What a packet leads to: the link, the number, and the first octet sent where one packet was.
fn arrive(link: Link, packet: &[u8]) -> (Link, u8, Option<u8>) {
    let mut reply = [0; REPLY];
    let (link, answer) = link.packet(packet, &mut reply);
    assert!(answer.sent.is_empty() || answer.sent == [1]);
    (link, answer.number, answer.sent.first().map(|_| reply[0]))
}

/// Number answered, payloads left and oldest number after a DACK at a queue.
fn dack(edition: u8, queued: usize, oldest: u8, x: u8) -> (u8, usize, u8) {
    let link = open(edition, queued, oldest, 0);
    let (after, number, sent) = arrive(link.clone(), &[DACK | x]);
    assert_eq!(sent, None);
    assert!(number == 0 || after == link);
    assert_eq!(after.mode == Mode::Data, after.queue.is_empty());
    // what is left are the newest
    assert_eq!(after.queue, link.queue[queued - after.queue.len()..]);
    (number, after.queue.len(), after.oldest)
}

#[test]
fn maker() {
    for edition in 0..=255 {
        let (link, answer) = Link::make(edition);
        let known = edition == 1 || edition == 2;
        let number = if known { 0 } else { 28 };
        assert_eq!(answer, Answer::of(number));
        assert_eq!(link, Link::fresh(if known { edition } else { 1 }));
        assert!(link.well_formed());
    }
}

/// Every event answers 27 at a link of an unknown edition, in every state, and before 26.
#[test]
fn unknown_editions() {
    let links = |edition| {
        let opening = Link {
            mode: Mode::Reset,
            ..Link::fresh(edition)
        };
        let wait = open(edition, 1, 0, 0);
        [Link::fresh(edition), opening, open(edition, 0, 0, 0), wait]
    };
    for link in (0..=255).flat_map(links) {
        let known = EDITIONS.contains(&link.edition);
        assert_eq!(link.well_formed(), known);
        for room in [REPLY - 1, REPLY] {
            let mut reply = vec![0; room];
            let mut outcomes = vec![
                link.clone().start(&mut reply),
                link.clone().timer(&mut reply),
                link.clone().payload(&[], &mut reply),
            ];
            for packet in [&[RESET][..], &[RESET_ACK], &[DATA], &[DACK], &[]] {
                outcomes.push(link.clone().packet(packet, &mut reply));
            }
            for (after, answer) in outcomes {
                assert_eq!(answer.number == 27, !known);
                assert!(known || after == link && answer == Answer::of(27));
            }
        }
    }
}

/// The DACK for each DATA at the start: "the awaited number less 1 (15 at the start)", and "numbers in the link stay 0".
#[test]
fn dacks_sent_at_the_start() {
    for x in 0..16 {
        let (link, number, sent) = arrive(open(2, 0, 0, 0), &[DATA | x, b'A']);
        let (awaited, answer) = if x == 0 { (1, 0) } else { (0, 25) };
        assert_eq!((link.oldest, link.awaited, number), (0, awaited, answer));
        assert_eq!(sent, Some(if x == 0 { 0x50 } else { 0x5F }));
        let (_, number, sent) = arrive(open(1, 0, 0, 0), &[DATA | x, b'A']);
        assert_eq!((number, sent), (answer, Some(DACK | awaited)));
    }
}

/// The DACK of every awaited number, for the DATA that is awaited and for the one before it.
#[test]
fn dacks_sent() {
    for awaited in 0..16 {
        let next = (awaited + 1) % 16;
        let before = (awaited + 15) % 16;
        for (edition, taken, repeated) in [(1, next, awaited), (2, awaited, before)] {
            let (link, number, sent) = arrive(open(edition, 0, 5, awaited), &[DATA | awaited]);
            assert_eq!((link.awaited, number, sent), (next, 0, Some(DACK | taken)));
            let (link, number, sent) = arrive(open(edition, 0, 5, awaited), &[DATA | before]);
            assert_eq!(link, open(edition, 0, 5, awaited));
            assert_eq!((number, sent), (25, Some(DACK | repeated)));
        }
    }
}

/// Document 01's queue with the numbers 14 and 15.
#[test]
fn numbers_14_and_15() {
    assert_eq!(dack(1, 2, 14, 0), (0, 0, 0));
    assert_eq!(dack(1, 2, 14, 15), (0, 1, 15));
    assert_eq!(dack(1, 2, 14, 1).0, 24);
    assert_eq!(dack(1, 2, 14, 14).0, 24);
    assert_eq!(dack(2, 2, 14, 15), (0, 0, 0));
    assert_eq!(dack(2, 2, 14, 14), (0, 1, 15));
    assert_eq!(dack(2, 2, 14, 13).0, 24);
    assert_eq!(dack(2, 2, 14, 0).0, 24);
}

/// A full queue from number 0: all DACKs but one remove something.
#[test]
fn fifteen_from_0() {
    assert_eq!(dack(2, QUEUE, 0, 14), (0, 0, 15));
    assert_eq!(dack(2, QUEUE, 0, 13), (0, 1, 14));
    assert_eq!(dack(2, QUEUE, 0, 0), (0, 14, 1));
    assert_eq!(dack(2, QUEUE, 0, 15).0, 24);
    assert_eq!(dack(1, QUEUE, 0, 15), (0, 0, 15));
    assert_eq!(dack(1, QUEUE, 0, 0).0, 24);
}

/// Every DACK at every queue: it removes as many as it acknowledges, counted one by one from the oldest number.
#[test]
fn every_distance() {
    for (queued, oldest) in (1..=QUEUE).flat_map(|n| (0..16).map(move |oldest| (n, oldest))) {
        let mut expected = [(24, queued, oldest); 16];
        for removed in 1..=queued {
            let last = (usize::from(oldest) + removed - 1) % 16;
            expected[last] = (0, queued - removed, (last as u8 + 1) % 16);
        }
        for (through, expected) in (0..16).zip(expected) {
            assert_eq!(dack(2, queued, oldest, through), expected);
            assert_eq!(dack(1, queued, oldest, (through + 1) % 16), expected);
        }
    }
}

/// What an end of an edition sends for a whole queue removes all of it at the other end.
#[test]
fn a_queue_is_acknowledged() {
    for (edition, oldest) in EDITIONS
        .into_iter()
        .flat_map(|e| (0..16).map(move |n| (e, n)))
    {
        let mut sender = open(edition, QUEUE, oldest, 0);
        let mut receiver = open(edition, 0, 0, oldest);
        for i in 0..QUEUE as u8 {
            let (after, number, sent) = arrive(receiver, &[DATA | ((oldest + i) % 16), i]);
            let sent = sent.expect("a DACK");
            let (left, answer, _) = arrive(sender, &[sent]);
            assert_eq!((number, answer), (0, 0));
            (sender, receiver) = (left, after);
        }
        assert_eq!((sender.mode, sender.queue.len()), (Mode::Data, 0));
        assert_eq!(sender.oldest, receiver.awaited);
    }
}

/// "The edition is set when a fresh link is made and survives RESET": in every state; and opening keeps it.
#[test]
fn reset_keeps_the_edition() {
    for edition in EDITIONS {
        let idle = Link::make(edition).0;
        let opening = idle.clone().start(&mut [0; REPLY]).0;
        let (opened, number, _) = arrive(opening.clone(), &[RESET_ACK]);
        assert_eq!((opened, number), (open(edition, 0, 0, 0), 0));
        let full = open(edition, QUEUE, 14, 15);
        for link in [idle, opening, open(edition, 0, 3, 4), full] {
            let (after, number, sent) = arrive(link, &[RESET]);
            assert_eq!(after, open(edition, 0, 0, 0));
            assert_eq!((number, sent), (0, Some(RESET_ACK)));
            let (_, number, sent) = arrive(after, &[DATA | 1]);
            assert_eq!(
                (number, sent),
                (25, Some(if edition == 1 { 0x50 } else { 0x5F }))
            );
        }
    }
}
