//! Makes captures of DLC packets, damaged ones and noise, and records with counts of every size.
use super::super::make::{each, octets};
use super::super::pairs;
use second::check::Check;
use second::link::{DACK, DATA, PAYLOAD, RESET, RESET_ACK};
use second::qaft::{self, ESCAPE, FLAG, MAX_DATA};
use second::rng::Rng;
use second::sheet::{Record, COUNTS};

/// A payload: most often a few octets; around the longest rarely, so that DATA is one octet too long to be a packet.
fn payload(rng: &Rng) -> Vec<u8> {
    let size = match rng.below(64) {
        0 => rng.between(PAYLOAD - 1, PAYLOAD + 2),
        1..=20 => 0,
        _ => rng.below(8),
    };
    octets(rng, size)
}

/// A frame's data: most often a packet. `last` is the number of the DATA before, which often comes again or counts on.
fn data(rng: &Rng, last: &mut u8) -> Vec<u8> {
    let (any, x) = (rng.octet(), rng.octet() % 16);
    match rng.below(16) {
        0..=7 => {
            *last = rng.pick(&[*last, *last, (*last + 1) % 16, x]);
            [&[DATA | *last], &payload(rng)[..]].concat()
        }
        8..=10 => vec![DACK | x],
        11 => [&[DACK | x], &octets(rng, 1)[..]].concat(),
        12 => vec![rng.pick(&[RESET, RESET_ACK, RESET | x, any])],
        // any first octet, that of the DATA before among them
        13 => [&[rng.pick(&[any, DATA | *last, DACK])], &payload(rng)[..]].concat(),
        _ => octets(rng, rng.between(1, 20)),
    }
}

/// One octet of some changed, put in or taken out.
fn damage(rng: &Rng, piece: &mut Vec<u8>) {
    let i = rng.below(piece.len());
    match rng.below(3) {
        0 => piece[i] = rng.octet(),
        1 => piece.insert(i, rng.pick(&[ESCAPE, FLAG, 0x11, 0x13])),
        _ => drop(piece.remove(i)),
    }
}

/// A piece of a capture: a frame and its closing flag, a damaged one, one of another report, flags, or octets without a rule.
fn piece(rng: &Rng, last: &mut u8) -> Vec<u8> {
    let mut piece = qaft::body(rng.below(2) as u8, Check::Sum, &data(rng, last));
    match rng.below(24) {
        0 => piece.push(ESCAPE),
        1 => piece.truncate(1),
        2 => piece.clear(),
        3 => piece = octets(rng, rng.below(8)),
        4..=6 => damage(rng, &mut piece),
        9..=11 => piece = pairs::strewn(rng, &piece),
        12 if rng.once_in(24) => piece = pairs::near_limit(rng, Check::Sum),
        7 if rng.once_in(24) => {
            piece = rng.octets(rng.pick(&[MAX_DATA + 1, MAX_DATA + 2, 2 * MAX_DATA]));
        }
        // a frame of the longest data, or of one octet more
        8 if rng.once_in(24) => {
            let data = octets(rng, rng.between(MAX_DATA, MAX_DATA + 1));
            piece = qaft::body(0, Check::Sum, &data);
        }
        _ => {}
    }
    // without a flag the piece runs into the next one
    if !rng.once_in(32) {
        piece.push(FLAG);
    }
    piece
}

/// A capture of so many pieces. Most begin at a flag, so that the first frame is one; some end behind their last flag.
pub fn capture(rng: &Rng, pieces: usize) -> Vec<u8> {
    let mut capture = match rng.below(4) {
        0 => octets(rng, rng.below(6)),
        _ => vec![FLAG],
    };
    let mut last = rng.octet() % 16;
    for _ in 0..pieces {
        capture.extend(piece(rng, &mut last));
    }
    if rng.once_in(3) {
        capture.extend(octets(rng, rng.below(6)));
    }
    capture
}

/// Every capture of up to five octets of a small alphabet: flag, escape, DATA 0 and DACK 0 with their check octets, an octet that
/// stands for DATA 0 behind an escape, 00, and 11.
pub fn each_short() -> Vec<Vec<u8>> {
    let data = [DATA, 0xC0, DATA ^ 0x20];
    each(
        &[&[FLAG, ESCAPE, DACK, 0xB0, 0x00, 0x11], &data[..]].concat(),
        5,
    )
}

/// Every sequence of up to four segments that bear on repeats: DATA of two numbers, one of them of the longest payload and of one
/// octet more, DACK, RESET, each report that is no frame but a long one, a DATA with a bad pair in it, and at level 1 one with flow
/// control.
pub fn each_sequence() -> Vec<Vec<u8>> {
    let frame = |data: &[u8]| qaft::body(0, Check::Sum, data);
    let segments = [
        frame(&[DATA | 3]),
        frame(&[DATA | 4, 0x41]),
        frame(&[DATA | 3; PAYLOAD + 1]),
        frame(&[DATA | 3; PAYLOAD + 2]),
        frame(&[DACK | 3]),
        frame(&[RESET]),
        vec![DATA | 4, 0x00],
        vec![DATA | 4, ESCAPE],
        vec![DATA | 4],
        vec![ESCAPE, (DATA | 3) ^ 0x20, 0xBD],
        vec![DATA | 3, 0x11, 0xBD],
    ];
    let mut all = vec![vec![FLAG]];
    let mut longest = all.clone();
    for _ in 0..4 {
        longest = longest
            .iter()
            .flat_map(|line| segments.iter().map(|s| [line, &s[..], &[FLAG]].concat()))
            .collect();
        all.extend(longest.clone());
    }
    all
}

/// 7D before every octet, in short segments, and before some around the limits.
pub fn each_pair() -> Vec<Vec<u8>> {
    let capture = |segment: &Vec<u8>| [&[FLAG], &segment[..], &[FLAG]].concat();
    pairs::each_of_qaft().iter().map(capture).collect()
}

/// A capture of which every count is over 0 at level 1.
pub fn each_count() -> Vec<u8> {
    let frame = |data: &[u8]| [&qaft::body(0, Check::Sum, data)[..], &[FLAG]].concat();
    let (data, dack) = (frame(&[DATA]), frame(&[DACK]));
    let others = [0x41, 0xBE, FLAG, 0x41, FLAG, 0x41, ESCAPE, FLAG];
    let pair = [ESCAPE, 0x41, 0x9F, FLAG];
    let skipped = [0x11, 0x13, FLAG, 0x13, 0x41, 0xBF, FLAG];
    let long = [0; MAX_DATA + 2];
    [
        &[0x41, FLAG],
        &data[..],
        &data,
        &dack,
        &others,
        &pair,
        &skipped,
        &long,
        &[FLAG, 0x41],
    ]
    .concat()
}

/// A record: all counts small, nearly full or any, or each of its own kind.
pub fn record(rng: &Rng) -> Record {
    let count = |kind| match kind {
        0 => 0,
        1 => rng.below(12) as u32,
        2 => rng.below(100_000) as u32,
        3 => u32::MAX - rng.below(3) as u32,
        4 => u32::MAX - rng.below(60) as u32,
        _ => rng.next() as u32,
    };
    let kind = rng.below(8);
    [0; COUNTS].map(|_| count(if kind > 5 { rng.below(6) } else { kind }))
}

/// A table: most often of a few records, at times of up to 70.
pub fn table(rng: &Rng) -> Vec<Record> {
    let lines = match rng.below(24) {
        0 => rng.between(0, 70),
        1 => rng.pick(&[62, 63, 64, 65, 70]),
        _ => rng.pick(&[0, 1, 1, 2, 2, 3, 4, 5]),
    };
    (0..lines).map(|_| record(rng)).collect()
}

/// A line: most often one of the table; past it, past 63, or such that only some of its bits are a line of the table.
pub fn line(rng: &Rng, lines: usize) -> usize {
    match rng.below(32) {
        0 => rng.pick(&[lines, lines + 1, 63, 64, 65]),
        1 => rng.below(72),
        2 => {
            let bits = rng.pick(&[6, 8, 16, 32, 63]);
            (1 << bits) + rng.below(lines + 1)
        }
        3 => rng.pick(&[usize::MAX, usize::MAX - 1, lines.saturating_sub(1)]),
        _ => rng.below(lines.max(1)),
    }
}
