//! The chunk reader's refusals, on a grid where all of them meet, and its fresh states.
use super::super::tally::Tally;
use super::{one, ROOMS};
use crate::archive::{self, RawReader};
use second::check::Check;
use second::qaft::FLAG;
use second::reader::State;
use second::rng::Rng;

/// The state before any flag.
pub fn fresh(level: u8, kind: u8, tally: &mut Tally) {
    let ours = RawReader::from(State::fresh(level, kind));
    tally.input(&ours, &archive::qaft_fresh(level, kind), || {
        format!("fresh of level {level} and kind {kind}")
    });
}

/// The fresh state of every level and kind.
pub fn each_fresh(tally: &mut Tally) {
    for both in 0..=u16::MAX {
        let [level, kind] = both.to_be_bytes();
        fresh(level, kind, tally);
    }
}

/// States with each count and running check at which something changes, each with every mark, whether or not a line leads there.
fn states(check: Check) -> Vec<State> {
    let (longest, many) = (check.longest(), check.many());
    let running = [0, 0xFF, 0x100, 0xFFFF, check.good()];
    let mut states = Vec::new();
    for count in [0, 1, longest, many, many + 1, usize::MAX] {
        for check in running {
            for marks in 0..8 {
                let mark = |i: u8| marks >> i & 1 == 1;
                states.push(State {
                    level: 0,
                    kind: 0,
                    flag: mark(0),
                    pending: mark(1),
                    count,
                    check,
                    bad_pair: mark(2),
                });
            }
        }
    }
    states
}

/// Every such state with every level, kind and size of the buffer at which something changes.
pub fn each_refusal(rng: &Rng, check: Check, tally: &mut Tally) {
    let portions: [&[u8]; 4] = [&[], &[FLAG], &[0x41, FLAG], &[0x5E, 0x82, FLAG, 0x41]];
    for state in states(check) {
        for level in [0, 1, 2, 128, 255] {
            for kind in [check.kind(), 2, 3, 128, 255] {
                let from = State {
                    level,
                    kind,
                    ..state
                };
                for room in ROOMS {
                    one(from, rng.pick(&portions), room, rng.octet(), tally);
                }
            }
        }
    }
}
