//! Runs of the chunk reader and the link against what the paper says of whole lines and of lists of events.
use crate::check::Check;
use crate::link::{Link, Mode, EDITIONS, PAYLOAD, QUEUE, REPLY};
use crate::qaft::{body, read_line, Report, FLAG, FLOW_CONTROL};
use crate::reader::{read, State};
use crate::rng::Rng;

/// A line of frames written at a level with a check, damaged frames, flags and noise.
fn line(rng: &Rng, level: u8, check: Check) -> Vec<u8> {
    let mut line = rng.octets(rng.below(3));
    for _ in 0..rng.below(8) {
        let size = rng.pick(&[0, 1, 2, 5, 30, 30, 30, 2559, 2560, 2561, 2562, 2563]);
        let data: Vec<u8> = (0..size)
            .map(|_| rng.pick(&[0x7D, 0x7E, 0x11, 0, rng.octet()]))
            .collect();
        line.push(FLAG);
        line.extend(body(level, check, &data));
        if rng.once_in(3) {
            let i = rng.below(line.len());
            line[i] = rng.pick(&[0x7D, 0x7E, rng.octet()]);
        }
    }
    line
}

/// All reports of a line that is handed over in portions of random lengths.
fn reports(rng: &Rng, level: u8, check: Check, line: &[u8]) -> Vec<Report> {
    let mut store = vec![0xAA; check.longest()];
    let mut state = State::fresh(level, check.kind());
    let mut reports = Vec::new();
    let most = rng.pick(&[1, 3, 100, 9000]);
    let mut place = 0;
    while place < line.len() {
        let end = line.len().min(place + rng.between(1, most));
        let (next, answer) = read(state, &line[place..end], &mut store);
        state = next;
        place += answer.taken;
        match answer.number {
            10 => reports.push(Report::Frame(store[..answer.length].to_vec())),
            11 => reports.push(Report::Aborted),
            12 => reports.push(Report::Long),
            13 => reports.push(Report::Short),
            14 => reports.push(Report::Bad),
            16 => reports.push(Report::Pair),
            number => assert_eq!((number, place), (15, end)),
        }
    }
    reports
}

/// Lines with either check, read with either.
#[test]
fn portions_don_t_matter() {
    let rng = Rng::new(1);
    for i in 0..6000 {
        let (level, check) = (rng.below(2) as u8, Check::BOTH[i % 2]);
        let written = rng.pick(&[check, check, check, check.other()]);
        let line = line(&rng, level, written);
        let whole = read_line(level, check, &line).reports;
        assert_eq!(reports(&rng, level, check, &line), whole);
    }
}

/// Flow control put anywhere into a level 1 line, however it is cut, changes no report.
#[test]
fn flow_control_changes_no_report() {
    let rng = Rng::new(4);
    for i in 0..2000 {
        let check = Check::BOTH[i % 2];
        let line = line(&rng, 1, check);
        let mut more = Vec::new();
        for &x in &line {
            while rng.once_in(4) {
                more.push(rng.pick(&FLOW_CONTROL));
            }
            more.push(x);
        }
        let without = read_line(1, check, &line).reports;
        assert_eq!(reports(&rng, 1, check, &more), without);
    }
}

#[test]
fn reader_refusals() {
    let number = |state, room| {
        let (after, answer) = read(state, &[FLAG, 1], &mut vec![0; room]);
        assert!(answer.number > 9 || after == state && answer.taken == 0);
        answer.number
    };
    for check in Check::BOTH {
        let store = check.longest();
        let fresh = State::fresh(0, check.kind());
        let bad = State { check: 1, ..fresh };
        let unknown = State { kind: 2, ..bad };
        let mut no_level = unknown;
        no_level.level = 2;
        assert_eq!(number(no_level, 0), 6);
        assert_eq!(number(unknown, 0), 7);
        assert_eq!(number(bad, store - 1), 4);
        assert_eq!(number(bad, store), 5);
        assert_eq!(number(State { count: 1, ..fresh }, store), 5);
        let in_frame = State {
            flag: true,
            ..fresh
        };
        let count = |count| State { count, ..in_frame };
        assert_eq!(number(count(store + 1), store), 12);
        assert_eq!(number(count(store + 2), store), 5);
        let pending = State {
            pending: true,
            ..fresh
        };
        assert_eq!(number(pending, store), 5);
        assert_eq!(number(fresh, store), 15);
    }
}

fn opened(edition: u8) -> Link {
    Link {
        mode: Mode::Data,
        ..Link::fresh(edition)
    }
}

#[test]
fn dack_after_15() {
    let mut reply = [0; REPLY];
    let link = Link {
        mode: Mode::Wait,
        queue: vec![vec![1], vec![2]],
        oldest: 14,
        awaited: 3,
        edition: 1,
    };
    let (after, answer) = link.clone().packet(&[0x51], &mut reply);
    assert_eq!((after, answer.number), (link.clone(), 24));
    let (after, answer) = link.packet(&[0x50], &mut reply);
    assert_eq!(
        (after.mode, after.oldest, answer.number),
        (Mode::Data, 0, 0)
    );
    assert!(after.queue.is_empty());
}

#[test]
fn link_limits() {
    let mut reply = [0; REPLY];
    let mut link = opened(1);
    assert_eq!(
        link.clone().payload(&[0; PAYLOAD + 1], &mut reply).1.number,
        21
    );
    for i in 0..=QUEUE {
        let (after, answer) = link.payload(&[0; PAYLOAD], &mut reply);
        assert_eq!(answer.number, if i < QUEUE { 0 } else { 22 });
        link = after;
    }
    let (link, answer) = link.timer(&mut reply);
    assert_eq!(answer.sent, vec![PAYLOAD + 1; QUEUE]);
    assert_eq!(link.clone().timer(&mut reply[1..]).1.number, 26);
    assert_eq!(link.packet(&[0x11], &mut reply).1.number, 23);
    let idle = Link::fresh(1);
    assert_eq!(idle.clone().packet(&[], &mut reply).1.number, 23);
    assert_eq!(idle.clone().payload(&[], &mut reply).1.number, 20);
    let wrong = Link { oldest: 1, ..idle };
    assert_eq!(wrong.timer(&mut []).1.number, 27);
}

/// "A seventh payload is queued, an eighth answers 22": with 2026-06 the fifteenth and the sixteenth. 26 and 27 follow.
#[test]
fn sixteenth_payload() {
    let mut reply = [0; 3855];
    let mut link = opened(1);
    for i in 1..=16 {
        let (after, answer) = link.payload(&[i], &mut reply);
        assert_eq!(answer.number, if i <= 15 { 0 } else { 22 });
        link = after;
    }
    assert_eq!(link.queue.len(), 15);
    assert_eq!(link.clone().timer(&mut reply).1.sent, [2; 15]);
    assert_eq!(link.clone().timer(&mut reply[..3854]).1.number, 26);
    link.queue.push(vec![16]);
    assert_eq!(link.timer(&mut reply).1.number, 27);
}

/// What was handed up is an initial part of what was accepted, and enough came through for that to say something.
fn initial_part(up: &[Vec<u8>], accepted: &[Vec<u8>]) {
    assert!(accepted.starts_with(up));
    assert!(up.len() > 1_000, "{}", up.len());
}

/// Two ends of one edition whose lines lose packets: what is handed up is always an initial part of what was accepted at the
/// other end.
#[test]
fn nothing_twice_nothing_out_of_order() {
    EDITIONS.into_iter().for_each(in_order);
}

fn in_order(edition: u8) {
    let rng = Rng::new(2);
    let mut ends = [opened(edition), opened(edition)];
    // by end: packets on their way to it, payloads accepted at it, payloads handed up at it
    let mut lines: [Vec<Vec<u8>>; 2] = Default::default();
    let mut accepted: [Vec<Vec<u8>>; 2] = Default::default();
    let mut up: [Vec<Vec<u8>>; 2] = Default::default();
    for i in 0..100_000_u32 {
        // timers are few, so that the lines don't fill up with repeats
        let (end, event) = (rng.below(2), rng.below(32));
        let mut reply = vec![0; REPLY];
        let link = ends[end].clone();
        let (link, answer) = match event {
            0 => link.timer(&mut reply),
            1..=4 => link.payload(&i.to_le_bytes(), &mut reply),
            _ if lines[end].is_empty() => continue,
            5 | 6 => {
                lines[end].remove(rng.below(lines[end].len()));
                continue;
            }
            _ => {
                let packet = lines[end].remove(0);
                let (link, answer) = link.packet(&packet, &mut reply);
                up[end].extend(answer.up.clone().map(|part| packet[part].to_vec()));
                (link, answer)
            }
        };
        if (1..=4).contains(&event) && answer.number == 0 {
            accepted[end].push(i.to_le_bytes().to_vec());
        }
        for length in answer.sent {
            lines[1 - end].push(reply.drain(..length).collect());
        }
        ends[end] = link;
    }
    for end in [0, 1] {
        initial_part(&up[end], &accepted[1 - end]);
    }
}
