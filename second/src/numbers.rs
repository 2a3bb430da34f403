//! The numbers of include/hasfandur.h against this program's: for each number given back an input that the papers give it for,
//! for each size the constant here, for each kind of packet one that this program sends. No constant of the header may be left out.
mod link_numbers;

use crate::afp::{self, check_sequence};
use crate::check::Check;
use crate::kiss;
use crate::link;
use crate::qaft;
use crate::reader::{self, State};
use crate::sheet;
use std::collections::BTreeMap;

/// The constants of the header's enums and its plain macros, by what stands behind HASFANDUR_.
fn header() -> BTreeMap<String, usize> {
    let text = include_str!("../../include/hasfandur.h");
    let mut found = BTreeMap::new();
    for line in text.lines() {
        let words: Vec<&str> = line.split_whitespace().collect();
        let (name, number) = match words[..] {
            ["#define", name, number, ..] => (name, number),
            [name, "=", number, ..] => (name, number.trim_end_matches(',')),
            _ => continue,
        };
        let number = match number.strip_prefix("0x") {
            Some(digits) => usize::from_str_radix(digits, 16).ok(),
            None => number.parse().ok(),
        };
        if let (Some(name), Some(number)) = (name.strip_prefix("HASFANDUR_"), number) {
            found.insert(name.to_owned(), number);
        }
    }
    found.remove("VERSION_NUMBER");
    found
}

fn qaft_numbers() -> Vec<(&'static str, usize)> {
    let write = |level, kind, length, room: usize| {
        qaft::write(level, kind, false, &vec![0; length], &mut vec![0; room]).number
    };
    let read = |state, portion: &[u8], room: usize| {
        reader::read(state, portion, &mut vec![0; room]).1.number
    };
    let (fresh, store) = (State::fresh(0, 0), Check::Sum.longest());
    let line = |segment: &[u8]| {
        let line = [&[qaft::FLAG], segment, &[qaft::FLAG]].concat();
        read(fresh, &line, store)
    };
    let unsynced = State { count: 1, ..fresh };
    [
        ("DONE", write(0, 0, 1, 4)),
        ("QAFT_NO_DATA", write(0, 0, 0, 4)),
        ("QAFT_DATA_TOO_LONG", write(0, 0, qaft::MAX_DATA + 1, 0)),
        ("QAFT_OUT_TOO_SMALL", write(0, 0, 1, 3)),
        ("QAFT_BUFFER_TOO_SMALL", read(fresh, &[], store - 1)),
        ("QAFT_BAD_STATE", read(unsynced, &[], store)),
        ("QAFT_BAD_LEVEL", write(2, 0, 1, 4)),
        ("QAFT_BAD_KIND", write(0, 2, 1, 4)),
        ("QAFT_FRAME", line(&[0x41, 0xBF])),
        ("QAFT_ABORTED", line(&[0x10, qaft::ESCAPE])),
        ("QAFT_LONG", line(&[0; Check::Sum.many()])),
        ("QAFT_SHORT", line(&[0])),
        ("QAFT_BAD_CHECK", line(&[0x41, 0xBE])),
        ("QAFT_USED_UP", line(&[])),
        ("QAFT_BAD_PAIR", line(&[qaft::ESCAPE, 0x41, 0x9F])),
    ]
    .map(|(name, number)| (name, number.into()))
    .to_vec()
}

/// The kinds of check.
fn check_kinds() -> Vec<(&'static str, usize)> {
    vec![
        ("QAFT_SUM", Check::Sum.kind().into()),
        ("QAFT_FCS", Check::Fcs.kind().into()),
    ]
}

fn kiss_numbers() -> Vec<(&'static str, usize)> {
    let line = |segment: &[u8]| {
        let flag = &[kiss::FEND][..];
        let line = [flag, segment, flag].concat();
        let mut store = [0; kiss::reader::STORE];
        kiss::reader::read(kiss::reader::State::default(), &line, &mut store)
            .1
            .number
    };
    [
        ("KISS_BAD_ESCAPE", line(&[0x00, kiss::FESC, 0x41])),
        ("KISS_SHORT", line(&[0x00])),
        ("KISS_LONG", line(&[0x41; kiss::reader::MANY])),
        ("KISS_SKIPPED", line(&[0x10, 0x41])),
        (
            "KISS_OUT_TOO_SMALL",
            kiss::write(false, &[0x41], &mut [0; 3]).number,
        ),
    ]
    .map(|(name, number)| (name, number.into()))
    .to_vec()
}

/// The number for a frame of these octets and their check octets.
fn afp_number(octets: &[u8]) -> u8 {
    let check = check_sequence(octets).to_le_bytes();
    afp::read(&[octets, &check].concat()).number
}

/// The broadcast that the scope paper works out, with one octet of its header changed.
fn afp_changed(place: usize, octet: u8) -> u8 {
    let mut header = *b"\xFF\x01\xF0\x0C\x00\x04AB1C\x00\xF9";
    header[place] = octet;
    afp_number(&header)
}

fn afp_numbers() -> Vec<(&'static str, usize)> {
    let write =
        |room: usize| afp::write(0xF0, b"\x04AB1C\0", 0, b"", b"", &mut vec![0; room]).number;
    let long = [
        &b"\xFF\x01\xF0\x0C\x00\x04AB1C\x00\xF9"[..],
        &[0; afp::MAX_DATA + 1],
    ]
    .concat();
    [
        ("AFP_BAD_LENGTH", afp::read(&[]).number),
        ("AFP_BAD_CHECK", afp::read(&[0; 14]).number),
        ("AFP_BAD_VERSION", afp_changed(1, 2)),
        ("AFP_BAD_PROTOCOL", afp_changed(2, 0xFE)),
        ("AFP_BAD_OFFSET", afp_changed(3, 0x0D)),
        ("AFP_BAD_STATIONS", afp_changed(6, b'a')),
        ("AFP_BAD_NEXT", afp_changed(4, 5)),
        ("AFP_BAD_NEXT_SUM", afp_changed(0, 0)),
        (
            "AFP_BAD_SUPPLEMENTARY",
            afp_number(b"\xFF\x01\xF0\x0D\x00\x04AB1C\x00\x01\x00"),
        ),
        ("AFP_BAD_HEADER_SUM", afp_changed(11, 0xF8)),
        ("AFP_BAD_DATA", afp_number(&long)),
        ("AFP_OUT_TOO_SMALL", write(13)),
    ]
    .map(|(name, number)| (name, number.into()))
    .to_vec()
}

/// The next receiver's number for a frame to BC that has 0 wherever it is not looked at, with one octet changed.
fn receiver_changed(place: usize, octet: u8) -> u8 {
    let mut frame = *b"\x87\0\0\x0C\x07\0\0\x02BC\0\0\0\0";
    frame[place] = octet;
    afp::next_receiver(&frame).number()
}

/// Those of the reader's numbers that the next receiver has too.
fn receiver_numbers() -> [(&'static str, u8); 6] {
    [
        ("DONE", receiver_changed(1, 2)),
        ("AFP_BAD_LENGTH", afp::next_receiver(&[]).number()),
        ("AFP_BAD_OFFSET", receiver_changed(3, 0x0D)),
        ("AFP_BAD_NEXT", receiver_changed(4, 5)),
        ("AFP_BAD_STATIONS", receiver_changed(8, b'b')),
        ("AFP_BAD_NEXT_SUM", receiver_changed(0, 0)),
    ]
}

fn sizes() -> Vec<(&'static str, usize)> {
    vec![
        ("QAFT_MAX_DATA", qaft::MAX_DATA),
        ("QAFT_MAX_SEGMENT", Check::Sum.longest()),
        ("QAFT_MAX_FRAME", Check::Sum.max_frame()),
        ("QAFT_FCS_MAX_SEGMENT", Check::Fcs.longest()),
        ("QAFT_FCS_MAX_FRAME", Check::Fcs.max_frame()),
        ("KISS_MAX_SEGMENT", kiss::reader::STORE),
        ("KISS_MAX_FRAME", kiss::MAX_FRAME),
        ("DLC_MAX_PAYLOAD", link::PAYLOAD),
        ("DLC_MAX_PACKET", link::PAYLOAD + 1),
        ("DLC_SLOTS", link::QUEUE),
        ("DLC_REPLY_SIZE", link::REPLY),
        ("AFP_MIN_FRAME", afp::MIN_FRAME),
        ("AFP_MAX_FRAME", afp::MAX_FRAME),
        ("AFP_MIN_HEADER", afp::MIN_HEADER),
        ("AFP_MAX_HEADER", afp::MAX_HEADER),
        ("AFP_MAX_DATA", afp::MAX_DATA),
    ]
}

/// Of the line sheet.
fn sheet_numbers() -> Vec<(&'static str, usize)> {
    let full = || vec![[u32::MAX; sheet::COUNTS]];
    let number = |line| sheet::tally(0, &[qaft::FLAG], line, &mut full()).into();
    vec![
        ("SHEET_NO_LINE", number(1)),
        ("SHEET_COUNT_TOO_LARGE", number(0)),
        ("SHEET_LINES", sheet::LINES),
        ("SHEET_COUNTS", sheet::COUNTS),
        ("SHEET_MAX_LINE", sheet::MAX_LINE),
    ]
}

/// Where each count of a line stands: counts that all differ, looked for among those that are printed.
fn sheet_places() -> Vec<(&'static str, usize)> {
    let counts = sheet::Counts {
        before: 1,
        flags: 2,
        segments: 3,
        after: 4,
        skipped: 8,
        reports: [10, 11, 12, 13, 14, 16],
        data: 5,
        dack: 6,
        repeats: 7,
    };
    let printed = counts.in_order();
    let place = |n| printed.iter().position(|x| *x == n).expect("a count");
    [
        ("SHEET_BEFORE", 1),
        ("SHEET_FLAGS", 2),
        ("SHEET_IN_SEGMENTS", 3),
        ("SHEET_AFTER", 4),
        ("SHEET_SKIPPED", 8),
        ("SHEET_FRAMES", 10),
        ("SHEET_ABORTED", 11),
        ("SHEET_LONG", 12),
        ("SHEET_SHORT", 13),
        ("SHEET_BAD_CHECKS", 14),
        ("SHEET_BAD_PAIRS", 16),
        ("SHEET_DATA", 5),
        ("SHEET_DACK", 6),
        ("SHEET_REPEATS", 7),
    ]
    .map(|(name, n)| (name, place(n)))
    .to_vec()
}

#[test]
fn numbers_of_the_header() {
    let mut ours = qaft_numbers();
    ours.extend(check_kinds());
    ours.extend(kiss_numbers());
    ours.extend(link_numbers::numbers());
    ours.extend(link_numbers::packets_and_states());
    ours.extend(link_numbers::editions());
    ours.extend(afp_numbers());
    ours.extend(sizes());
    ours.extend(sheet_numbers());
    ours.extend(sheet_places());
    let ours: BTreeMap<String, usize> = ours
        .into_iter()
        .map(|(name, number)| (name.to_owned(), number))
        .collect();
    assert_eq!(header(), ours);
}

#[test]
fn numbers_of_the_next_receiver() {
    let header = header();
    for (name, number) in receiver_numbers() {
        assert_eq!(header[name], usize::from(number), "{name}");
    }
}
