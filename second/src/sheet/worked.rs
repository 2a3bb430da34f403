//! Cases of the line sheet that the papers work out or that their sentences decide.
mod printed;

use super::*;
use crate::link::{PAYLOAD, RESET};
use crate::qaft::{ESCAPE, FLAG, MAX_DATA};
use crate::rng::Rng;

const MOST: u32 = u32::MAX;
const PAPER: [u8; 13] = [
    0xAA, 0x7E, 0x40, 0x41, 0x7F, 0x7E, 0x10, 0x7D, 0x7E, 0x7E, 0x05, 0x7E, 0x33,
];

/// A line of one flag, then each frame's body and a flag.
fn frames(all: &[&[u8]]) -> Vec<u8> {
    let mut line = vec![FLAG];
    for data in all {
        line.extend(qaft::body(0, Check::Sum, data));
        line.push(FLAG);
    }
    line
}

/// DATA, DACK and repeats of a line of frames.
fn packets(all: &[&[u8]]) -> (u64, u64, u64) {
    let counts = counts(0, &frames(all));
    assert_eq!(counts.reports, [all.len() as u64, 0, 0, 0, 0, 0]);
    (counts.data, counts.dack, counts.repeats)
}

/// The octet counts of a capture at a level, and how many reports it has.
fn octets(level: u8, capture: &[u8]) -> ([u64; 5], u64) {
    let counts = counts(level, capture);
    let octets = &counts.in_order()[OCTETS];
    let reports = counts.reports.iter().sum();
    (octets.try_into().expect("five octet counts"), reports)
}

#[test]
fn capture_of_the_paper() {
    let mut table = [[0; COUNTS]; LINES];
    assert_eq!(tally(0, &PAPER, 0, &mut table), 0);
    assert_eq!(line(0, &table[0]), "0 1 5 6 1 0 1 1 0 1 0 0 1 0 0 0/1\n");
    assert_eq!(table[1..], [[0; COUNTS]; LINES - 1]);
    assert_eq!(tally(1, &PAPER, 0, &mut table), 0);
    assert_eq!(line(0, &table[0]), "0 2 10 12 2 0 2 2 0 2 0 0 2 0 0 0/1\n");
}

#[test]
fn octets_before_and_after() {
    let octets = |capture: &[u8]| octets(0, capture);
    assert_eq!(octets(b""), ([0, 0, 0, 0, 0], 0));
    // no flag: all before, whatever they are
    assert_eq!(octets(&[0x41, ESCAPE, 0x41]), ([3, 0, 0, 0, 0], 0));
    // one flag: none in segments
    assert_eq!(octets(&[0x41, FLAG, 0x41, ESCAPE]), ([1, 1, 0, 2, 0], 0));
    assert_eq!(octets(&[FLAG]), ([0, 1, 0, 0, 0], 0));
    // only flags: empty segments say nothing
    assert_eq!(octets(&[FLAG; 7]), ([0, 7, 0, 0, 0], 0));
    // raw octets of the line: both of an escape's count
    assert_eq!(octets(&frames(&[&[FLAG]])), ([0, 2, 3, 0, 0], 1));
}

/// Flow control at level 1 stands in the fifth count between two flags, and before and after outside; at level 0 it is data.
#[test]
fn skipped_octets() {
    let one = |capture: &[u8], level_0, level_1| {
        assert_eq!(octets(0, capture), level_0, "{capture:X?}");
        assert_eq!(octets(1, capture), level_1, "{capture:X?}");
    };
    let outside = [0x11, 0x41, FLAG, 0x13, 0x11];
    one(&outside, ([2, 1, 0, 2, 0], 0), ([2, 1, 0, 2, 0], 0));
    one(&[0x13; 3], ([3, 0, 0, 0, 0], 0), ([3, 0, 0, 0, 0], 0));
    let alone = [FLAG, 0x11, 0x13, FLAG, FLAG, 0x13, FLAG];
    one(&alone, ([0, 4, 3, 0, 0], 2), ([0, 4, 0, 0, 3], 0));
    // between 7D and its partner, and between 7D and the flag
    let pair = [FLAG, ESCAPE, 0x11, 0x5E, 0x82, FLAG];
    one(&pair, ([0, 2, 4, 0, 0], 1), ([0, 2, 3, 0, 1], 1));
    let aborted = [FLAG, 0x11, ESCAPE, 0x13, FLAG, 0x13];
    one(&aborted, ([0, 2, 3, 1, 0], 1), ([0, 2, 1, 1, 2], 1));
    // a DATA, and a repeat of it
    let mut line = frames(&[&[0x43]]);
    line.extend([0x43, 0x11, 0xBD, FLAG]);
    let mut table = [[0; COUNTS]; 2];
    assert_eq!(tally(0, &line, 0, &mut table), 0);
    assert_eq!(tally(1, &line, 1, &mut table), 0);
    assert_eq!(
        sheet(&table),
        "0 0 3 5 0 0 1 0 0 0 1 0 1 0 0 1/2\n1 0 3 4 0 1 2 0 0 0 0 0 2 0 1 0/1\n"
    );
}

#[test]
fn reports_by_kind() {
    let mut line = frames(&[&[0x41]]);
    let pair = [ESCAPE, 0x41, 0x9F];
    for segment in [
        &[0x10, ESCAPE][..],
        &[0; MAX_DATA + 2],
        &[0],
        &[0x41, 0xBE],
        &pair,
    ] {
        line.extend(segment);
        line.push(FLAG);
        line.extend(segment);
        line.push(FLAG);
    }
    let counts = counts(0, &line);
    assert_eq!(counts.reports, [1, 2, 2, 2, 2, 2]);
    assert_eq!(counts.segments, 2 + 2 * (2 + 2562 + 1 + 2 + 3));
    assert_eq!(counts.flags, 12);
}

/// Change request 2026-04: a DATA that is written with a bad pair is no frame, so it is neither DATA nor the DATA before. 16 is
/// printed behind 14, and is among all reports.
#[test]
fn bad_pairs() {
    let bad = [ESCAPE, 0x43 ^ 0x20, 0xBD, FLAG];
    let mut line = frames(&[&[0x43]]);
    line.extend(bad);
    let mut table = [[0; COUNTS]; 4];
    assert_eq!(tally(0, &line, 0, &mut table), 0);
    // a check that is one off behind it, and the DATA again
    line.extend([0x43, 0xBE, FLAG]);
    line.extend(frames(&[&[0x43]]));
    assert_eq!(tally(1, &line, 1, &mut table), 0);
    // a DATA 3 with the payload 11, as level 1 writes it
    let pair = [FLAG, 0x43, ESCAPE, 0x31, 0xAC, FLAG];
    assert_eq!(tally(0, &pair, 2, &mut table), 0);
    assert_eq!(tally(1, &pair, 3, &mut table), 0);
    let lines = [
        "0 0 3 5 0 0 1 0 0 0 0 1 1 0 0 0/1",
        "1 0 6 9 0 0 2 0 0 0 1 1 2 0 1 1/4",
        "2 0 2 4 0 0 0 0 0 0 0 1 0 0 0 0/1",
        "3 0 2 4 0 0 1 0 0 0 0 0 1 0 0 0/1",
    ];
    assert_eq!(sheet(&table), lines.join("\n") + "\n");
}

#[test]
fn data_and_dack() {
    assert_eq!(packets(&[&[0x40], &[0x5F]]), (1, 1, 0));
    // a DACK of two octets is none, nor is any other first octet
    assert_eq!(packets(&[&[0x50, 0x00]]), (0, 0, 0));
    assert_eq!(packets(&[&[0x10], &[0x20], &[0x30], &[0x60]]), (0, 0, 0));
    let longest = [0x43; PAYLOAD + 1];
    assert_eq!(packets(&[&longest]), (1, 0, 0));
    assert_eq!(packets(&[&[0x43; PAYLOAD + 2]]), (0, 0, 0));
}

#[test]
fn repeats() {
    assert_eq!(packets(&[&[0x43], &[0x43], &[0x43, 9]]), (3, 0, 2));
    assert_eq!(packets(&[&[0x43], &[0x44], &[0x43]]), (3, 0, 0));
    // a queue that is sent again
    let queue: [&[u8]; 3] = [&[0x40], &[0x41], &[0x42]];
    assert_eq!(packets(&[queue, queue].concat()), (6, 0, 0));
    assert_eq!(packets(&[&[0x4F], &[0x40], &[0x40]]), (3, 0, 1));
    // whatever was reported between
    assert_eq!(packets(&[&[0x43], &[0x53], &[RESET], &[0x43]]), (2, 1, 1));
    let mut line = frames(&[&[0x43]]);
    line.extend([0x44, 0xBB, FLAG, 0x44, ESCAPE, FLAG, 0x44, FLAG]);
    line.extend(frames(&[&[0x43]]));
    let found = counts(0, &line);
    assert_eq!(found.reports, [2, 1, 0, 1, 1, 0]);
    assert_eq!((found.data, found.repeats), (2, 1));
}

/// A 4x frame that is too long for a packet is neither DATA nor the DATA before.
#[test]
fn long_data_is_no_data() {
    let (three, four) = ([0x43; PAYLOAD + 2], [0x44; PAYLOAD + 2]);
    assert_eq!(packets(&[&three, &[0x43]]), (1, 0, 0));
    assert_eq!(packets(&[&[0x43], &four, &[0x43]]), (2, 0, 1));
    assert_eq!(packets(&[&[0x43], &three]), (1, 0, 0));
}

/// Nothing carries over from one capture to the next.
#[test]
fn no_repeat_across_captures() {
    let capture = frames(&[&[0x43]]);
    let mut table = [[0; COUNTS]; 2];
    assert_eq!(tally(0, &capture, 1, &mut table), 0);
    assert_eq!(tally(0, &capture, 1, &mut table), 0);
    assert_eq!(line(1, &table[1]), "1 0 4 4 0 0 2 0 0 0 0 0 2 0 0 0/1\n");
}

#[test]
fn refusals_in_order() {
    let mut full = vec![[MOST; COUNTS]; 70];
    let table = full.clone();
    let mut number = |level, line, lines| tally(level, &PAPER, line, &mut full[..lines]);
    assert_eq!(number(2, 64, 0), 6);
    assert_eq!(number(255, 0, 70), 6);
    assert_eq!(number(0, 0, 0), 50);
    assert_eq!(number(0, 5, 5), 50);
    assert_eq!(number(1, 64, 70), 50);
    assert_eq!(number(1, usize::MAX, 70), 50);
    assert_eq!(number(0, 4, 5), 51);
    assert_eq!(number(0, 63, 70), 51);
    assert_eq!(full, table);
    // a capture of no octets adds nothing, and passes no limit
    assert_eq!(tally(0, &[], 63, &mut full), 0);
    assert_eq!(full, table);
}

/// Each count of a capture that has all of them, up to the highest number and one above.
#[test]
fn counts_at_the_limit() {
    let mut capture = PAPER.to_vec();
    capture.extend([FLAG, 0x13, 0x41, 0xBE, 0x11, FLAG, ESCAPE, 0x41, FLAG]);
    capture.extend([0; MAX_DATA + 2]);
    capture.extend(frames(&[&[0x40], &[0x50]]));
    capture.push(0x33);
    let more = counts(1, &capture).in_order();
    for (i, &n) in more.iter().enumerate() {
        assert!(n > 0, "count {i}");
        let mut table = [[7; COUNTS]];
        table[0][i] = MOST - n as u32;
        let mut later = table[0].map(u64::from);
        for (count, n) in later.iter_mut().zip(more) {
            *count += n;
        }
        assert_eq!(later[i], 4_294_967_295);
        assert_eq!(tally(1, &capture, 0, &mut table), 0);
        assert_eq!(table[0].map(u64::from), later);
        table[0] = [7; COUNTS];
        table[0][i] = MOST - n as u32 + 1;
        let before = table;
        assert_eq!(tally(1, &capture, 0, &mut table), 51);
        assert_eq!(table, before);
    }
}

#[test]
fn counts_of_a_level() {
    assert_eq!(
        count(2, &PAPER),
        Counted {
            number: 6,
            counts: [0; COUNTS]
        }
    );
    assert_eq!(
        count(1, &PAPER),
        Counted {
            number: 0,
            counts: [1, 5, 6, 1, 0, 1, 1, 0, 1, 0, 0, 1, 0, 0]
        }
    );
}

/// What a capture adds to the five octet counts adds up to its length.
#[test]
fn octet_counts_add_up() {
    let rng = Rng::new(3);
    for _ in 0..3_000 {
        let few = [FLAG, FLAG, ESCAPE, 0x40, 0x00, 0x11, 0x13, rng.octet()];
        let capture: Vec<u8> = (0..rng.below(40)).map(|_| rng.pick(&few)).collect();
        for level in [0, 1] {
            let (counts, _) = octets(level, &capture);
            assert_eq!(counts.iter().sum::<u64>(), capture.len() as u64);
        }
    }
}
