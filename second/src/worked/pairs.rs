//! Cases of change request 2026-04: a pair is good only if it stands for an octet that the level escapes.
use super::{hex, ways};
use crate::check::Check;
use crate::kiss;
use crate::listing::listing;
use crate::qaft::{self, Report, ESCAPE, FLAG};
use crate::reader::{read, Answer, State};

const STORE: usize = Check::Sum.longest();
const MANY: usize = Check::Sum.many();

fn frame(data: &str) -> Option<Report> {
    Some(Report::Frame(hex(data)))
}

/// A segment, and what is reported of it at each level.
#[test]
fn segments() {
    let case = |segment: &str, level_0, level_1| {
        let report = |level| qaft::report(level, Check::Sum, &hex(segment));
        assert_eq!(report(0), level_0, "{segment}");
        assert_eq!(report(1), level_1, "{segment}");
    };
    let both = |segment: &str, report: Option<Report>| case(segment, report.clone(), report);
    let pair = Some(Report::Pair);
    // that of the splitter box: 61 and its check
    both("7D 41 9F", pair.clone());
    both("7D 5E 82", frame("7E"));
    both("7D 5D 83", frame("7D"));
    case("7D 31 EF", pair.clone(), frame("11"));
    case("7D 33 ED", pair.clone(), frame("13"));
    case("ED 7D 33", pair.clone(), frame("ED"));
    // a 7D left over comes first
    both("7D 41 7D", Some(Report::Aborted));
    // neither short nor a bad check
    both("7D 41", pair.clone());
    both("7D 41 41", pair.clone());
    both("7D 5E", Some(Report::Short));
    // 7D 7D is a pair, and leaves no 7D over
    both("7D 7D", pair.clone());
    both("7D 7D A3", pair.clone());
    both("7D 7D 7D", Some(Report::Aborted));
    both("7D 7D 5E", pair.clone());
    // after skipping
    case("7D 11", pair.clone(), Some(Report::Aborted));
    case("7D 13 5E 11 82", pair.clone(), frame("7E"));
    case("7D 11 41 9F", pair.clone(), pair);
}

#[test]
fn every_partner() {
    for x in (0..=255).filter(|&x| x != FLAG) {
        let octet = x ^ 0x20;
        for (level, check) in ways() {
            let last = qaft::escaped(level, &check.octets(&[octet]));
            let segment = [&[ESCAPE, x], &last[..]].concat();
            let good = matches!((level, x), (_, 0x5D | 0x5E) | (1, 0x31 | 0x33));
            // at level 1 a 7D before 11 or 13 still waits, and takes the check octet for its partner
            let expected = match good {
                true => Report::Frame(vec![octet]),
                false => Report::Pair,
            };
            let report = qaft::report(level, check, &segment);
            assert_eq!(report, Some(expected), "{x:X}");
        }
    }
}

/// Behind 2,560 octets and more: a bad pair is judged before long, also where its octet is not stored.
#[test]
fn long_segments() {
    for (level, check) in ways() {
        for before in [2_559, 2_560, 2_561, 2_562, 5_000] {
            let segment = |end: &str| [vec![0; before], hex(end)].concat();
            let report = |end: &str| qaft::report(level, check, &segment(end));
            assert_eq!(report("7D 41"), Some(Report::Pair));
            assert_eq!(report("7D 41 7D"), Some(Report::Aborted));
            let good = match (before, check) {
                (2_559 | 2_560, _) | (2_561, Check::Fcs) => Report::Bad,
                _ => Report::Long,
            };
            assert_eq!(report("7D 5E"), Some(good));
        }
    }
}

fn behind_flag(level: u8) -> State {
    State {
        flag: true,
        ..State::fresh(level, 0)
    }
}

/// One call, with a store that has nothing but AA.
fn call(state: State, portion: &str) -> (State, Answer, Vec<u8>) {
    let mut store = vec![0xAA; STORE];
    let (next, answer) = read(state, &hex(portion), &mut store);
    (next, answer, store)
}

/// The octet counts, sums and is stored; the mark stays until the flag, and is gone behind it.
#[test]
fn reader_marks() {
    let (next, answer, store) = call(State::fresh(0, 0), "7E 00 7D 41");
    let marked = State {
        count: 2,
        check: 0x61,
        bad_pair: true,
        ..behind_flag(0)
    };
    assert_eq!((next, answer.number, answer.taken), (marked, 15, 4));
    assert_eq!(store[..3], [0x00, 0x61, 0xAA]);
    let (next, answer, store) = call(marked, "7D 5E 21 7E 41");
    assert_eq!(next, behind_flag(0));
    assert_eq!((answer.number, answer.taken, answer.length), (16, 4, 0));
    assert_eq!(store[..5], [0xAA, 0xAA, 0x7E, 0x21, 0xAA]);
    let (_, answer, _) = call(marked, "7D 7E");
    assert_eq!(answer.number, 11);
    // where the count stands for all above, nothing is stored, and the pair is seen all the same
    let many = State {
        count: MANY,
        ..behind_flag(1)
    };
    let (next, _, store) = call(many, "7D 41");
    assert!(next.bad_pair && next.count == MANY);
    assert_eq!(store, [0xAA; STORE]);
    assert_eq!(call(next, "7E").1.number, 16);
    assert_eq!(call(many, "7E").1.number, 12);
}

/// A 7D at the end of a portion; its partner is judged in the next, at level 1 behind flow control.
#[test]
fn pair_across_portions() {
    for (level, partner, number) in [
        (0, "31", 16),
        (1, "31", 13),
        (0, "5D", 13),
        (1, "13 11 5D", 13),
        (0, "13", 16),
        (1, "13", 11),
        (1, "11 13 51", 16),
        (1, "41", 16),
    ] {
        let (pending, _, _) = call(State::fresh(level, 0), "7E 7D");
        assert!(pending.pending && !pending.bad_pair);
        let (next, answer, _) = call(pending, partner);
        assert_eq!((next.bad_pair, answer.number), (number == 16, 15));
        assert_eq!(call(next, "7E").1.number, number, "{level}, {partner}");
    }
}

/// The mark at count 0 is refused by 5, before a flag too, with and without a 7D that waits.
#[test]
fn mark_at_count_0() {
    let marked = |state| State {
        bad_pair: true,
        ..state
    };
    let waiting = State {
        pending: true,
        ..behind_flag(1)
    };
    for state in [State::fresh(0, 0), behind_flag(0), waiting] {
        let (next, answer, store) = call(marked(state), "7E 41");
        assert_eq!((next, answer.number, answer.taken), (marked(state), 5, 0));
        assert_eq!(store, [0xAA; STORE]);
        assert_ne!(call(state, "7E 41").1.number, 5);
    }
    let one = State {
        count: 1,
        ..waiting
    };
    assert_eq!(call(marked(one), "").1.number, 15);
    let before = State {
        count: 1,
        ..State::fresh(0, 0)
    };
    assert_eq!(call(marked(before), "").1.number, 5);
}

#[test]
fn listings() {
    let capture = hex("7E 7D 41 9F 7E 7D 31 EF 7E 7D 41 7D 7E");
    let text = "QAFT listing level 0\n1 pair\n2 pair\n3 aborted\nend 3 before 0 after 0\n";
    assert_eq!(listing(0, &capture), text);
    let text = "QAFT listing level 1\n1 pair\n2 frame 1 11\n3 aborted\nend 3 before 0 after 0\n";
    assert_eq!(listing(1, &capture), text);
}

/// A conversion counts it like any other report.
#[test]
fn conversions() {
    let capture = hex("7E 7D 41 9F 7E 7D 31 EF 7E 41 BF 7E");
    let told = |level| {
        let told = kiss::from_qaft(level, &capture, &mut [0; 16]);
        (told.number, told.frames, told.skipped, told.others)
    };
    assert_eq!(told(0), (0, 1, 0, 2));
    assert_eq!(told(1), (0, 2, 0, 1));
}

/// What reads as a frame is, skipped octets set aside, the body that the writer makes of it: every segment of up to six octets of
/// some that bear on it. How many frames there were at each level.
fn bodies(check: Check, alphabet: [u8; 9]) -> [usize; 2] {
    let mut frames = [0; 2];
    for size in 1..=6 {
        for n in 0..9_usize.pow(size) {
            let octet = |place| alphabet[n / 9_usize.pow(place) % 9];
            let segment: Vec<u8> = (0..size).map(octet).collect();
            for level in [0, 1] {
                if let Some(Report::Frame(data)) = qaft::report(level, check, &segment) {
                    let kept = qaft::unskipped(level, &segment);
                    assert_eq!(kept, qaft::body(level, check, &data));
                    frames[usize::from(level)] += 1;
                }
            }
        }
    }
    frames
}

#[test]
fn one_frame_one_body() {
    let octets = [ESCAPE, 0x5D, 0x5E, 0x31, 0x11, 0x83, 0x82, 0xEF, 0x41];
    let [level_0, level_1] = bodies(Check::Sum, octets);
    assert!(level_0 > 100 && level_1 > level_0 / 2);
    // 2A 20 7D 5E is a frame at both levels, 86 46 11 at level 0, 86 46 7D 31 at level 1
    let octets = [ESCAPE, 0x5E, 0x31, 0x11, 0x13, 0x2A, 0x20, 0x86, 0x46];
    let [level_0, level_1] = bodies(Check::Fcs, octets);
    assert!(level_0 > 1 && level_1 > 50, "{level_0}, {level_1}");
}
