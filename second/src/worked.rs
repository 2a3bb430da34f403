//! The cases that the scope paper works out, and published vectors, against this program alone.
mod longer;
mod pairs;
mod receiver;

use crate::afp::{self, check_sequence, is_id, is_supplementary, Part};
use crate::check::Check;
use crate::listing::listing;
use crate::qaft::{self, Report};
use crate::Written;

fn hex(text: &str) -> Vec<u8> {
    let octet = |s: &str| u8::from_str_radix(s, 16).expect("hex");
    text.split_whitespace().map(octet).collect()
}

/// Each level with each check.
fn ways() -> impl Iterator<Item = (u8, Check)> {
    let levels = |check| [(0, check), (1, check)];
    Check::BOTH.into_iter().flat_map(levels)
}

/// One frame into a buffer that has room for any, cut to what was written.
fn framed(level: u8, check: Check, at_flag: bool, data: &[u8]) -> Vec<u8> {
    let mut out = vec![0xAA; check.max_frame()];
    let written = qaft::write(level, check.kind(), at_flag, data, &mut out);
    assert_eq!(written.number, 0);
    assert!(out[written.length..].iter().all(|&x| x == 0xAA));
    out.truncate(written.length);
    out
}

#[test]
fn qaft_frames() {
    let frame = |level, at_flag, data: &str| framed(level, Check::Sum, at_flag, &hex(data));
    assert_eq!(frame(0, false, "41"), hex("7E 41 BF 7E"));
    assert_eq!(frame(0, false, "7E"), hex("7E 7D 5E 82 7E"));
    assert_eq!(frame(0, false, "82"), hex("7E 82 7D 5E 7E"));
    assert_eq!(frame(0, false, "00"), hex("7E 00 00 7E"));
    assert_eq!(frame(0, false, "11"), hex("7E 11 EF 7E"));
    assert_eq!(frame(1, false, "11"), hex("7E 7D 31 EF 7E"));
    assert_eq!(frame(1, false, "ED"), hex("7E ED 7D 33 7E"));
    assert_eq!(frame(0, true, "41"), hex("41 BF 7E"));
}

#[test]
fn qaft_writer_refusals() {
    let write = |level, kind, length, room| {
        let mut out = vec![0xAA; room];
        let written = qaft::write(level, kind, false, &vec![0; length], &mut out);
        assert!(written.number == 0 || out.iter().all(|&x| x == 0xAA));
        (written.number, written.length)
    };
    assert_eq!(write(2, 2, 0, 0), (6, 0));
    for kind in [2, 3, 128, 255] {
        assert_eq!(write(0, kind, 0, 0), (7, 0));
        assert_eq!(write(1, kind, 1, 99), (7, 0));
    }
    // a flag before and one behind, and the check octets
    for (kind, more) in [(0, 3), (1, 4)] {
        assert_eq!(write(2, kind, 0, 0), (6, 0));
        assert_eq!(write(0, kind, 0, 0), (1, 0));
        assert_eq!(write(1, kind, 2561, 0), (2, 0));
        assert_eq!(write(1, kind, 2560, 2559 + more), (3, 0));
        assert_eq!(write(1, kind, 2560, 2560 + more), (0, 2560 + more));
    }
}

#[test]
fn qaft_segments() {
    for level in [0, 1] {
        let report = |segment: &[u8]| qaft::report(level, Check::Sum, segment);
        assert_eq!(report(&[]), None);
        assert_eq!(report(&hex("10 7D")), Some(Report::Aborted));
        assert_eq!(report(&hex("7D")), Some(Report::Aborted));
        assert_eq!(report(&hex("00")), Some(Report::Short));
        assert_eq!(report(&hex("41 BE")), Some(Report::Bad));
        assert_eq!(report(&[0; 2561]), Some(Report::Frame(vec![0; 2560])));
        assert_eq!(report(&[0; 2562]), Some(Report::Long));
    }
}

/// Change request 2026-02: a segment, and what is reported of it at level 0, where 11 and 13 are data, and at level 1.
#[test]
fn flow_control() {
    let frame = |data: &str| Some(Report::Frame(hex(data)));
    let case = |segment: &str, level_0, level_1| {
        let report = |level| qaft::report(level, Check::Sum, &hex(segment));
        assert_eq!(report(0), level_0, "{segment}");
        assert_eq!(report(1), level_1, "{segment}");
    };
    case("11", Some(Report::Short), None);
    case("13 11 13", Some(Report::Bad), None);
    case("11 EF", frame("11"), Some(Report::Short));
    case("7D 31 EF", Some(Report::Pair), frame("11"));
    case("13 41 BF", Some(Report::Bad), frame("41"));
    case("41 11 BF", Some(Report::Bad), frame("41"));
    case("41 BF 13", Some(Report::Bad), frame("41"));
    // between 7D and its partner: 7D 11 is a pair at level 0, and a bad one
    case("7D 11 5E 82", Some(Report::Pair), frame("7E"));
    case("7D 13 11 33 ED", Some(Report::Pair), frame("13"));
    case("7D 11 CF", Some(Report::Pair), Some(Report::Pair));
    case("7D 11 7D A3", Some(Report::Pair), Some(Report::Pair));
    case("7D 11", Some(Report::Pair), Some(Report::Aborted));
    case("11 7D 13 11", Some(Report::Pair), Some(Report::Aborted));
    case("11 05", Some(Report::Bad), Some(Report::Short));
    let full = ["00 "; 2561].concat();
    case(
        &(full.clone() + "11"),
        Some(Report::Long),
        frame(&full[3..]),
    );
}

#[test]
fn listing_of_the_paper() {
    let capture = hex("AA 7E 40 41 7F 7E 10 7D 7E 7E 05 7E 33");
    let text = "QAFT listing level 0\n1 frame 2 4041\n2 aborted\n3 short\nend 3 before 1 after 1\n";
    assert_eq!(listing(0, &capture), text);
    assert_eq!(
        listing(1, b"AB"),
        "QAFT listing level 1\nend 0 before 2 after 0\n"
    );
}

/// Before and after count every octet, skipped ones too.
#[test]
fn listing_of_flow_control() {
    let capture = hex("11 AA 7E 13 7E 40 11 41 7F 7E 10 7D 13 7E 13 33 11");
    let text = "QAFT listing level 1\n1 frame 2 4041\n2 aborted\nend 2 before 2 after 3\n";
    assert_eq!(listing(1, &capture), text);
    let text = "QAFT listing level 0\n1 short\n2 bad\n3 pair\nend 3 before 2 after 3\n";
    assert_eq!(listing(0, &capture), text);
}

/// The capture of examples/ that takes two reads has an escape as the last octet of the first.
#[test]
fn capture_of_two_reads() {
    let path = concat!(env!("CARGO_MANIFEST_DIR"), "/../examples/two_reads.cap");
    let capture = std::fs::read(path).expect("a capture");
    assert_eq!(capture.get(0xFFFF), Some(&qaft::ESCAPE));
    assert!(capture.len() > 0x1_0000);
}

#[test]
fn sums() {
    assert_eq!(afp::sum(&hex("04 41 42 31 43")), 0xFB);
    assert_eq!(afp::sum(&[]), 0);
    assert_eq!(afp::sum(&hex("FF FF")), 0xFF);
    assert_eq!(afp::sum(&hex("FF 01")), 0x01);
    assert_eq!(afp::next_station_sum(&hex("F0 0F")), 0);
    assert_eq!(afp::header_sum(&hex("00")), 0xFF);
}

/// CRC-16/X-25 as it is published: its check value and its residue.
#[test]
fn published_check_sequence() {
    assert_eq!(check_sequence(b"123456789"), 0x906E);
    assert_eq!(check_sequence(&[]), 0);
    let mut line = b"123456789".to_vec();
    line.extend(check_sequence(&line).to_le_bytes());
    // the register before its complement is taken
    assert_eq!(!check_sequence(&line), 0xF0B8);
}

#[test]
fn afp_broadcast() {
    let mut out = [0xAA; 15];
    let written = afp::write(0xF0, b"\x04AB1C\0", 0, &[], &[], &mut out);
    assert_eq!(
        written,
        Written {
            number: 0,
            length: 14
        }
    );
    assert_eq!(
        out.to_vec(),
        hex("FF 01 F0 0C 00 04 41 42 31 43 00 F9 85 DA AA")
    );
    let reading = afp::read(&out[..14]);
    assert_eq!((reading.number, reading.protocol), (0, 0xF0));
    assert_eq!((reading.ids, reading.next), (1, 0));
    assert_eq!(reading.stations, Part { place: 5, size: 6 });
    assert_eq!(reading.payload, Part { place: 12, size: 0 });
    assert_eq!(reading.supplementary.size, 0);
    assert!(!reading.unchecked);
}

#[test]
fn ids() {
    for id in ["A", "/", "AB1C", "N2DSY-3B1", "W2VY-DIGI", "A--", "A-~!"] {
        assert!(is_id(id.as_bytes()), "{id}");
    }
    for id in ["", "-", "AB-", "-A", "ab", "A B", "A- ", "A-\x7F", "A.B"] {
        assert!(!is_id(id.as_bytes()), "{id}");
    }
}

#[test]
fn supplementary_headers() {
    for text in ["", "00", "02 00 00", "04 00 00 00 00", "03 07 01 FF"] {
        assert!(is_supplementary(&hex(text)), "{text}");
    }
    for text in ["01", "00 00", "01 00", "02 07 01", "06 00 00 00 00 00 00"] {
        assert!(!is_supplementary(&hex(text)), "{text}");
    }
}

#[test]
fn afp_writer_refusals() {
    let write = |protocol, stations: &[u8], next, supplementary: &[u8], data, room| {
        let data = vec![0; data];
        let mut out = vec![0xAA; room];
        let written = afp::write(protocol, stations, next, supplementary, &data, &mut out);
        assert!(written.number == 0 || out.iter().all(|&x| x == 0xAA));
        written.number
    };
    assert_eq!(write(0xFE, b"\0", 9, &[1], 2305, 0), 33);
    assert_eq!(write(0, b"\0", 9, &[1], 2305, 0), 35);
    assert_eq!(write(0, b"\x01A\0\0", 0, &[], 0, 99), 35);
    assert_eq!(write(0, b"\x01A\0", 1, &[1], 2305, 0), 36);
    assert_eq!(write(0, b"\x01A\x01B\0", 0, &[1], 2305, 0), 36);
    assert_eq!(write(0, b"\x01A\x01B\0", 258, &[1], 2305, 0), 36);
    assert_eq!(write(0, b"\x01A\0", 0, &[1], 2305, 0), 38);
    assert_eq!(write(0, b"\x01A\0", 0, &[], 2305, 0), 34);
    assert_eq!(write(0, b"\x04AB1C\0", 0, &[], 2305, 0), 40);
    assert_eq!(write(0, b"\x04AB1C\0", 0, &[], 2304, 2317), 41);
    assert_eq!(write(0, b"\x04AB1C\0", 0, &[], 2304, 2318), 0);
}
