//! Cases of change request 2026-07: frames with the two check octets of ISO 3309.
use super::{framed, hex, ways};
use crate::afp::check_sequence;
use crate::check::Check;
use crate::longest;
use crate::qaft::{self, Report, FLAG};
use crate::reader::{read, Answer, State};
use crate::rng::Rng;

const LONGEST: usize = 2_562;
/// The count that stands for all above.
const MANY: usize = 2_563;

fn report(level: u8, segment: &[u8]) -> Option<Report> {
    qaft::report(level, Check::Fcs, segment)
}

/// Source document 000: high 73 and low 88 on the line are 11CE, all sixteen bits the other way round; 88 comes first.
#[test]
fn example_of_the_source() {
    let data = hex("21 04");
    assert_eq!(check_sequence(&data), 0x7388);
    assert_eq!(0x7388_u16.reverse_bits(), 0x11CE);
    for level in [0, 1] {
        let line = framed(level, Check::Fcs, false, &data);
        assert_eq!(line, hex("7E 21 04 88 73 7E"));
        assert_eq!(framed(level, Check::Fcs, true, &data), line[1..]);
        assert_eq!(
            report(level, &line[1..5]),
            Some(Report::Frame(data.clone()))
        );
        // the other order of the two
        assert_eq!(report(level, &hex("21 04 73 88")), Some(Report::Bad));
    }
}

/// CRC-16/X-25 as it is published.
#[test]
fn published_value() {
    let line = framed(0, Check::Fcs, false, b"123456789");
    assert_eq!(line[10..], hex("6E 90 7E"));
}

/// Check octets are escaped like data: the first, the second, both, at level 1 also 11 and 13.
#[test]
fn escaped_checks() {
    let line = |level, data: &str| framed(level, Check::Fcs, false, &hex(data));
    assert_eq!(line(0, "60"), hex("7E 60 7D 5E 93 7E"));
    assert_eq!(line(0, "2A"), hex("7E 2A 20 7D 5E 7E"));
    assert_eq!(line(0, "86"), hex("7E 86 46 11 7E"));
    assert_eq!(line(1, "86"), hex("7E 86 46 7D 31 7E"));
    assert_eq!(line(1, "A4"), hex("7E A4 56 7D 33 7E"));
    for level in [0, 1] {
        let line = framed(level, Check::Fcs, false, &longest::data(Check::Fcs));
        assert!(line.ends_with(&hex("7D 5E 7D 5D 7E")));
    }
}

/// One frame takes at most 5,126 octets, and one does; with QAFT's check 5,124.
#[test]
fn longest_frames() {
    for (level, check) in ways() {
        let data = longest::data(check);
        let most = match check {
            Check::Sum => 5_124,
            Check::Fcs => 5_126,
        };
        let line = framed(level, check, false, &data);
        assert_eq!(line.len(), most);
        let number = |room| qaft::write(level, check.kind(), false, &data, &mut vec![0; room]);
        assert_eq!(number(most - 1).number, 3);
        let reports = qaft::read_line(level, check, &line).reports;
        assert_eq!(reports, [Report::Frame(data)]);
    }
}

/// Short is under 3, long over 2,562, whatever the check octets are.
#[test]
fn limits() {
    for level in [0, 1] {
        let body = |size| qaft::body(level, Check::Fcs, &vec![0x41; size]);
        assert_eq!(report(level, &[]), None);
        assert_eq!(report(level, &hex("41")), Some(Report::Short));
        assert_eq!(body(0), hex("00 00"));
        assert_eq!(report(level, &body(0)), Some(Report::Short));
        assert_eq!(report(level, &hex("7D 5E 41")), Some(Report::Short));
        assert_eq!(report(level, &body(1)), Some(Report::Frame(vec![0x41])));
        assert_eq!(report(level, &hex("41 00 00")), Some(Report::Bad));
        let full = Some(Report::Frame(vec![0x41; 2_560]));
        assert_eq!(report(level, &body(2_560)), full);
        assert_eq!(report(level, &[0x41; LONGEST]), Some(Report::Bad));
        assert_eq!(report(level, &body(2_561)), Some(Report::Long));
        assert_eq!(report(level, &[0x41; MANY]), Some(Report::Long));
    }
}

/// Frames with one check read with the other; E5 DB 40 is a frame with both, of two data octets and of one.
#[test]
fn the_other_check() {
    let both = |segment: &str| Check::BOTH.map(|check| qaft::report(0, check, &hex(segment)));
    let frame = |data: &str| Some(Report::Frame(hex(data)));
    assert_eq!(both("41 BF"), [frame("41"), Some(Report::Short)]);
    assert_eq!(both("41 41 7D 5E"), [frame("41 41"), Some(Report::Bad)]);
    assert_eq!(both("60 7D 5E 93"), [Some(Report::Bad), frame("60")]);
    assert_eq!(both("E5 DB 40"), [frame("E5 DB"), frame("E5")]);
    let body = |check| qaft::body(0, check, &[0; 2_560]);
    let long = qaft::report(0, Check::Sum, &body(Check::Fcs));
    assert_eq!(long, Some(Report::Long));
    let bad = qaft::report(0, Check::Fcs, &body(Check::Sum));
    assert_eq!(bad, Some(Report::Bad));
}

fn behind_flag() -> State {
    State {
        flag: true,
        ..State::fresh(0, 1)
    }
}

/// One call, with a store that has nothing but AA.
fn call(state: State, portion: &[u8]) -> (State, Answer, Vec<u8>) {
    let mut store = vec![0xAA; LONGEST];
    let (next, answer) = read(state, portion, &mut store);
    (next, answer, store)
}

/// The register is all ones before any octet, is that before the complement after some, and is all ones again after a report.
#[test]
fn running_check() {
    assert_eq!(State::fresh(0, 1).check, 0xFFFF);
    assert_eq!(State::fresh(0, 0).check, 0);
    let (next, answer, store) = call(State::fresh(0, 1), &hex("7E 21 04"));
    assert_eq!((next.count, next.check, answer.number), (2, !0x7388, 15));
    assert_eq!(store[..3], [0x21, 0x04, 0xAA]);
    let (next, answer, _) = call(next, &hex("88 73"));
    assert_eq!((next.count, next.check, answer.number), (4, 0xF0B8, 15));
    let (next, answer, store) = call(next, &hex("7E 41"));
    assert_eq!((answer.number, answer.taken, answer.length), (10, 1, 2));
    assert_eq!((next, store), (behind_flag(), vec![0xAA; LONGEST]));
    for (segment, number) in [("41", 13), ("41 41 41", 14), ("7D", 11), ("7D 41", 16)] {
        let line = [&hex(segment)[..], &[FLAG]].concat();
        let (next, answer, _) = call(behind_flag(), &line);
        assert_eq!((next, answer.number), (behind_flag(), number));
    }
}

/// Segments of random octets: the register after it is that of the check sequence, beyond the highest count too, where nothing
/// is stored any more.
#[test]
fn beyond_the_count() {
    let rng = Rng::new(7);
    for size in [0, 1, 2, 2_560, 2_561, 2_562, 2_563, 2_564, 6_000] {
        let octets: Vec<u8> = (0..size).map(|_| rng.octet() & 0x0F).collect();
        let (next, answer, store) = call(behind_flag(), &octets);
        assert_eq!(answer.number, 15);
        assert_eq!(
            (next.count, next.check),
            (size.min(MANY), !check_sequence(&octets))
        );
        let stored = size.min(LONGEST);
        assert_eq!(store[..stored], octets[..stored]);
        let number = call(next, &[FLAG]).1.number;
        let expected = match size {
            0 => 15,
            1 | 2 => 13,
            3..=2_562 => 14,
            _ => 12,
        };
        assert_eq!(number, expected, "{size}");
    }
}

/// Each number but 0 and 1 is no kind, whatever else is wrong; with kind 1 a store of 2,561 octets is too small.
#[test]
fn kinds() {
    let number = |state, room: usize| read(state, &[], &mut vec![0; room]).1.number;
    for kind in 2..=255 {
        assert_eq!(number(State::fresh(1, kind), LONGEST), 7);
        let bad = State {
            count: MANY + 1,
            ..State::fresh(1, kind)
        };
        assert_eq!(number(bad, 0), 7);
    }
    assert_eq!(number(State::fresh(0, 1), 2_561), 4);
    assert_eq!(number(State::fresh(0, 0), 2_561), 15);
}

/// 5 where the running check is not all ones at count 0, before a flag and behind one; and for a count over 2,563.
#[test]
fn bad_states() {
    let number = |state| call(state, &[]).1.number;
    for state in [State::fresh(0, 1), behind_flag()] {
        for check in [0, 1, 0xF0B8, 0x7FFF, 0xFFFE] {
            assert_eq!(number(State { check, ..state }), 5);
        }
        assert_eq!(number(state), 15);
    }
    for (count, expected) in [(1, 15), (MANY, 15), (MANY + 1, 5)] {
        for check in [0, 0xFFFF] {
            let state = State {
                count,
                check,
                ..behind_flag()
            };
            assert_eq!(number(state), expected);
        }
    }
}

/// A sum that does not fit in eight bits is refused by 5, whatever the count.
#[test]
fn wide_sums() {
    for count in [0, 1, 2_561, 2_562] {
        for check in [0x100, 0xFF00, 0xFFFF] {
            let state = State {
                kind: 0,
                count,
                check,
                ..behind_flag()
            };
            assert_eq!(call(state, &[FLAG]).1.number, 5);
        }
    }
}
