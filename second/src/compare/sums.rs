//! The QAFT check, AFP's sums and the check sequence: functions from octets to a number.
use super::make::octets;
use super::tally::{hex, Tally};
use crate::archive;
use second::rng::Rng;
use second::{afp, qaft};

/// Lengths at which something may change: none, one, the words in which a fast version may take octets, and the limits.
fn length(rng: &Rng) -> usize {
    match rng.below(10) {
        0 => rng.pick(&[0, 1, 2, 7, 8, 9, 15, 16, 17, 255, 256, 257]),
        1 => rng.pick(&[2304, 2305, 2559, 2560, 2561, 2562]),
        2 => rng.below(2_600),
        _ => rng.below(64),
    }
}

/// Octets for a sum: mixed, or of the values at which carries come in rows.
fn summed(rng: &Rng) -> Vec<u8> {
    let n = length(rng);
    if rng.once_in(4) {
        return (0..n)
            .map(|_| rng.pick(&[0, 0, 1, 0x80, 0xFE, 0xFF]))
            .collect();
    }
    let mut octets = octets(rng, n);
    // sums that are 0 or FF are written in another way: bring them up more often than once in 256
    if n > 0 && rng.once_in(4) {
        octets[n - 1] = 0xFF - afp::sum(&octets[..n - 1]);
    }
    octets
}

/// Every input of up to two octets, then `count` others.
fn each(rng: &Rng, count: u64, mut compare: impl FnMut(&[u8])) {
    compare(&[]);
    for x in 0..=255 {
        compare(&[x]);
        for y in 0..=255 {
            compare(&[x, y]);
        }
    }
    for _ in 0..count {
        compare(&summed(rng));
    }
}

pub fn qaft_check(rng: &Rng, count: u64, tally: &mut Tally) {
    each(rng, count, |octets| {
        let (ours, archive) = (qaft::check(octets), archive::qaft_check(octets));
        tally.input(&ours, &archive, || hex(octets));
    });
}

pub fn afp_sums(rng: &Rng, count: u64, tally: &mut Tally) {
    each(rng, count, |octets| {
        let ours = [
            afp::sum(octets),
            afp::next_station_sum(octets),
            afp::header_sum(octets),
        ];
        let archive = [
            archive::afp_sum(octets),
            archive::afp_next_station_sum(octets),
            archive::afp_header_sum(octets),
        ];
        tally.input(&ours, &archive, || hex(octets));
    });
}

pub fn check_sequence(rng: &Rng, count: u64, tally: &mut Tally) {
    each(rng, count, |octets| {
        let ours = afp::check_sequence(octets);
        let archive = archive::check_sequence(octets);
        tally.input(&ours, &archive, || hex(octets));
    });
}
