//! Worked KISS lines: the examples of TAPR's specification and the sentences of change request 2026-05, and the readers of this
//! program against each other.
use super::reader::{self, State, MANY, STORE};
use super::{from_qaft, read_line, to_qaft, write, Report, FEND, FESC, MAX_FRAME};
use crate::qaft;
use crate::rng::Rng;

fn written(at_flag: bool, payload: &[u8], room: usize) -> (u8, Vec<u8>) {
    let mut out = vec![0xAA; room];
    let w = write(at_flag, payload, &mut out);
    (w.number, out[..w.length].to_vec())
}

#[test]
fn examples_of_the_specification() {
    let test = [0xC0, 0x00, 0x54, 0x45, 0x53, 0x54, 0xC0];
    let hello = [0xC0, 0x50, 0x48, 0x65, 0x6C, 0x6C, 0x6F, 0xC0];
    let transposed = [0xC0, 0x00, 0xDB, 0xDC, 0xDB, 0xDD, 0xC0];
    assert_eq!(written(false, b"TEST", 7), (0, test.to_vec()));
    assert_eq!(written(false, &[FEND, FESC], 7), (0, transposed.to_vec()));
    let line = [&test[..], &hello, &transposed].concat();
    let frames = [
        Report::Frame(b"TEST".to_vec()),
        Report::Skipped,
        Report::Frame(vec![FEND, FESC]),
    ];
    assert_eq!(read_line(&line).reports, frames);
}

#[test]
fn every_report() {
    use Report::{BadEscape, Long, Short, Skipped};
    let reports = |line: &[u8]| read_line(line).reports;
    // AA before the flag; DB; nothing; 00; 00 DB 41; 00 DB DB DC; 10 alone; DB DC 41 has type C0; 33 not closed
    let line = [
        0xAA, 0xC0, 0xDB, 0xC0, 0xC0, 0x00, 0xC0, 0x00, 0xDB, 0x41, 0xC0, 0x00, 0xDB, 0xDB, 0xDC,
        0xC0, 0x10, 0xC0, 0xDB, 0xDC, 0x41, 0xC0, 0x33,
    ];
    assert_eq!(
        reports(&line),
        [BadEscape, Short, BadEscape, BadEscape, Short, Skipped]
    );
    // a long frame of another port is long, and a bad escape in it beats that
    let mut long = vec![0xC0, 0x10];
    long.extend([0; STORE]);
    long.push(0xC0);
    assert_eq!(reports(&long), [Long]);
    long.splice(2..4, [FESC, 0x41]);
    assert_eq!(reports(&long), [BadEscape]);
}

#[test]
fn writer_refuses_in_order() {
    assert_eq!(written(false, &[], 0).0, 1);
    assert_eq!(written(false, &[0; qaft::MAX_DATA + 1], 0).0, 2);
    assert_eq!(written(false, &[0x41], 3).0, 64);
    assert_eq!(written(true, &[0x41], 3), (0, vec![0x00, 0x41, 0xC0]));
    assert_eq!(written(false, &[FEND; qaft::MAX_DATA], MAX_FRAME - 1).0, 64);
    assert_eq!(
        written(false, &[FEND; qaft::MAX_DATA], MAX_FRAME).1.len(),
        MAX_FRAME
    );
}

#[test]
fn reader_refuses_in_order() {
    let number = |state, room: usize| reader::read(state, &[], &mut vec![0; room]).1.number;
    let synced = State {
        flag: true,
        ..State::default()
    };
    let bad = |state| number(state, STORE) == 5;
    assert_eq!(
        number(
            State {
                count: MANY + 1,
                ..synced
            },
            STORE - 1
        ),
        4
    );
    assert!(bad(State {
        count: MANY + 1,
        ..synced
    }));
    assert!(
        bad(State { kind: 1, ..synced })
            && bad(State {
                bad: true,
                ..synced
            })
    );
    for state in [
        State {
            pending: true,
            ..State::default()
        },
        State {
            count: 1,
            ..State::default()
        },
        State {
            kind: 1,
            ..State::default()
        },
        State {
            bad: true,
            ..State::default()
        },
    ] {
        assert!(bad(state), "{state:?}");
    }
    assert_eq!(
        number(
            State {
                count: MANY,
                kind: 7,
                bad: true,
                pending: true,
                ..synced
            },
            STORE
        ),
        15
    );
}

/// Octets among which flags, escapes and what stands behind them are common.
fn noise(rng: &Rng, length: usize) -> Vec<u8> {
    (0..length)
        .map(|_| match rng.below(3) {
            0 => rng.pick(&[0xC0, 0xDB, 0xDC, 0xDD, 0x00, 0x7E, 0x7D]),
            _ => rng.octet(),
        })
        .collect()
}

/// The reports of a line that is handed over in portions.
fn in_portions(rng: &Rng, line: &[u8]) -> Vec<Report> {
    let (mut state, mut at, mut store, mut found) =
        (State::default(), 0, vec![0; STORE], Vec::new());
    while at < line.len() {
        let end = at + rng.between(1, line.len() - at);
        let (next, answer) = reader::read(state, &line[at..end], &mut store);
        (state, at) = (next, at + answer.taken);
        found.extend(match answer.number {
            10 => Some(Report::Frame(store[1..=answer.length].to_vec())),
            60 => Some(Report::BadEscape),
            61 => Some(Report::Short),
            62 => Some(Report::Long),
            63 => Some(Report::Skipped),
            _ => None,
        });
    }
    found
}

#[test]
fn portions_report_what_the_line_reports() {
    let rng = Rng::new(5);
    for i in 0..4_000 {
        let mut line = noise(&rng, rng.below(60));
        if i % 40 == 0 {
            line.push(FEND);
            line.extend(
                noise(&rng, rng.between(STORE - 2, 2 * STORE))
                    .iter()
                    .filter(|&&x| x != FEND),
            );
            line.push(FEND);
        }
        assert_eq!(
            in_portions(&rng, &line),
            read_line(&line).reports,
            "{line:X?}"
        );
    }
}

/// Flow control on a level 1 line is no part of what is converted; on a KISS line it is data.
#[test]
fn flow_control() {
    let capture = [0x7E, 0x13, 0x7E, 0x41, 0x11, 0xBF, 0x7E, 0x41, 0xBF];
    let mut out = [0; 16];
    let told = |level, out: &mut [u8]| {
        let told = from_qaft(level, &capture, out);
        (told.number, told.length, told.frames, told.others)
    };
    assert_eq!(told(0, &mut out), (0, 0, 0, 2));
    assert_eq!(told(1, &mut out), (0, 4, 1, 0));
    assert_eq!(out[..4], [FEND, 0x00, 0x41, FEND]);
    let line = [FEND, 0x00, 0x11, FEND];
    assert_eq!(read_line(&line).reports, [Report::Frame(vec![0x11])]);
    assert_eq!(to_qaft(1, &line, &mut out).length, 5);
    assert_eq!(out[..5], [0x7E, 0x7D, 0x31, 0xEF, 0x7E]);
}

#[test]
fn there_and_back() {
    let rng = Rng::new(6);
    for _ in 0..2_000 {
        let level = rng.below(2) as u8;
        let mut line = noise(&rng, rng.below(12));
        for _ in 0..rng.below(5) {
            line.push(FEND);
            line.extend(super::body(&noise(&rng, rng.between(1, 30))));
        }
        line.push(FEND);
        let reports = read_line(&line).reports;
        let frames: Vec<_> = reports
            .iter()
            .filter(|r| matches!(r, Report::Frame(_)))
            .cloned()
            .collect();
        let mut out = vec![0; 4 * line.len()];
        let there = to_qaft(level, &line, &mut out);
        assert_eq!((there.number, there.frames), (0, frames.len()));
        assert_eq!(there.frames + there.skipped + there.others, reports.len());
        let middle = out[..there.length].to_vec();
        let back = from_qaft(level, &middle, &mut out);
        assert_eq!(
            (back.number, back.frames, back.skipped, back.others),
            (0, frames.len(), 0, 0)
        );
        assert_eq!(read_line(&out[..back.length]).reports, frames);
        // one octet less than is needed: a refusal, and nothing else in the answer
        if there.length > 0 {
            let short = to_qaft(level, &line, &mut vec![0; there.length - 1]);
            assert_eq!(
                (short.number, short.length, short.frames, short.others),
                (3, 0, 0, 0)
            );
            assert_eq!(
                from_qaft(level, &middle, &mut vec![0; back.length - 1]).number,
                64
            );
        }
    }
    assert_eq!(to_qaft(2, &[], &mut []).number, 6);
    assert_eq!(from_qaft(2, &[], &mut []).number, 6);
    assert_eq!(from_qaft(0, &[0x7E], &mut []).number, 0);
}
