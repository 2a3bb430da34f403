//! Changes of bits in frames with the check sequence, checked of the archive alone: data and check octets as they are after undoing
//! escapes, in the order of their bits on the line, the low bit of each octet first; their number stays.
use super::super::make::octets;
use super::super::tally::Tally;
use super::alone::by_archive;
use crate::archive;
use second::check::Check;
use second::qaft::{self, FLAG, MAX_DATA};
use second::rng::Rng;

const FCS: Check = Check::Fcs;

const READ: &str = "a frame that is written is read again, with its check in the buffer";
const BITS: &str = "one or two bits changed in a frame are a bad check";
const BURST: &str = "a change within sixteen bits in a row of a frame is a bad check";

/// Data and check octets of a frame, as the archive writes it and reads it again.
fn frame(level: u8, data: &[u8], tally: &mut Tally) -> Vec<u8> {
    let (mut line, mut store) = (vec![0; FCS.max_frame()], vec![0; FCS.longest()]);
    let written = archive::qaft_write(level, FCS.kind(), false, data, &mut line);
    let fresh = archive::qaft_fresh(level, FCS.kind());
    let (_, answer) = archive::qaft_read(fresh, &line[..written.length], &mut store);
    store.truncate(data.len() + FCS.size());
    let check = archive::check_sequence(data).to_le_bytes();
    tally.claim(
        READ,
        answer.number == 10 && answer.length == data.len() && store == [data, &check].concat(),
    );
    store
}

/// The octets with up to sixteen bits from a place on changed where the pattern has ones.
fn changed(octets: &[u8], place: usize, pattern: u16) -> Vec<u8> {
    let mut octets = octets.to_vec();
    let shifted = u32::from(pattern) << (place % 8);
    for (x, bits) in octets[place / 8..].iter_mut().zip(shifted.to_le_bytes()) {
        *x ^= bits;
    }
    octets
}

/// Claims that a frame with its octets so changed is reported as a bad check.
fn is_bad(rng: &Rng, level: u8, octets: &[u8], claim: &'static str, tally: &mut Tally) {
    let line = [&[FLAG], &qaft::escaped(level, octets)[..], &[FLAG]].concat();
    let reports = by_archive(rng, level, FCS, &line, tally).reports;
    tally.claim(claim, reports == [(14, vec![])]);
}

/// Every change of one or two bits.
fn each_bits(rng: &Rng, level: u8, data: &[u8], tally: &mut Tally) {
    let good = frame(level, data, tally);
    for i in 0..8 * good.len() {
        let one = changed(&good, i, 1);
        is_bad(rng, level, &one, BITS, tally);
        for j in 0..i {
            is_bad(rng, level, &changed(&one, j, 1), BITS, tally);
        }
    }
}

/// Every change within sixteen bits in a row: its first bit is the place's.
fn each_burst(rng: &Rng, level: u8, data: &[u8], tally: &mut Tally) {
    let good = frame(level, data, tally);
    for place in 0..8 * good.len() {
        let bits = (8 * good.len() - place).min(16);
        for pattern in (1..1_u32 << bits).step_by(2) {
            let octets = changed(&good, place, pattern as u16);
            is_bad(rng, level, &octets, BURST, tally);
        }
    }
}

/// A change within sixteen bits in a row, anywhere in a frame.
fn burst(rng: &Rng, tally: &mut Tally) {
    let level = rng.below(2) as u8;
    let length = match rng.below(64) {
        0 => rng.between(1, MAX_DATA),
        1 => MAX_DATA,
        _ => rng.between(1, 40),
    };
    let good = frame(level, &octets(rng, length), tally);
    let place = rng.below(8 * good.len());
    let bits = (8 * good.len() - place).min(16);
    let pattern = (rng.next() as u16 | 1) & (u16::MAX >> (16 - bits));
    let octets = changed(&good, place, pattern);
    is_bad(rng, level, &octets, BURST, tally);
}

pub fn compare(rng: &Rng, count: u64, tally: &mut Tally) {
    for level in [0, 1] {
        for length in 1..=16 {
            each_bits(rng, level, &octets(rng, length), tally);
        }
        each_burst(rng, level, &octets(rng, 1), tally);
    }
    for _ in 0..count / 4 {
        burst(rng, tally);
    }
}
