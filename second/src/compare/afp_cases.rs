//! Cases of AFP that are stored with their answers in tables/afp.txt, which says how they are written. Each is run on the
//! archive and on the second program.
use super::afp_write::Writer;
use super::stored;
use super::tally::{Out, Tally};
use crate::archive;
use second::afp::{self, Part, Reading};
use second::rng::Rng;
use std::fmt::Write;

pub const NUMBERS: [u8; 13] = [0, 30, 31, 32, 33, 34, 35, 36, 37, 38, 39, 40, 41];

/// The functions of AFP.
struct Program {
    check_sequence: fn(&[u8]) -> u16,
    sum: fn(&[u8]) -> u8,
    next_station_sum: fn(&[u8]) -> u8,
    header_sum: fn(&[u8]) -> u8,
    read: fn(&[u8]) -> Reading,
    write: Writer,
}

const SECOND: Program = Program {
    check_sequence: afp::check_sequence,
    sum: afp::sum,
    next_station_sum: afp::next_station_sum,
    header_sum: afp::header_sum,
    read: afp::read,
    write: afp::write,
};

const ARCHIVE: Program = Program {
    check_sequence: archive::check_sequence,
    sum: archive::afp_sum,
    next_station_sum: archive::afp_next_station_sum,
    header_sum: archive::afp_header_sum,
    read: archive::afp_read,
    write: archive::afp_write,
};

fn octet(text: &str) -> u8 {
    u8::from_str_radix(text, 16).unwrap_or_else(|_| panic!("no octet: {text}"))
}

fn number(text: &str) -> usize {
    text.parse().unwrap_or_else(|_| panic!("no number: {text}"))
}

/// Octets of the table: pieces joined by dots.
fn octets(text: &str) -> Vec<u8> {
    match text {
        "-" => Vec::new(),
        _ => text.split('.').flat_map(piece).collect(),
    }
}

/// Octets one by one; or a first one, by how much they grow, and how many there are.
fn piece(text: &str) -> Vec<u8> {
    let Some((first, count)) = text.split_once('*') else {
        assert!(text.len().is_multiple_of(2), "half an octet: {text}");
        return (0..text.len() / 2)
            .map(|i| octet(&text[2 * i..2 * i + 2]))
            .collect();
    };
    let (first, step) = first.split_once('+').unwrap_or((first, "0"));
    let (first, step) = (usize::from(octet(first)), number(step));
    (0..number(count))
        .map(|i| (first + i * step) as u8)
        .collect()
}

/// Octets one by one in hexadecimal.
fn plain(octets: &[u8]) -> String {
    octets.iter().fold(String::new(), |mut text, x| {
        write!(text, "{x:02X}").expect("a String takes all text");
        text
    })
}

fn sums(program: &Program, octets: &[u8]) -> String {
    let check = (program.check_sequence)(octets);
    let sums = [program.sum, program.next_station_sum, program.header_sum].map(|sum| sum(octets));
    format!(
        "{check:04X} {:02X} {:02X} {:02X}",
        sums[0], sums[1], sums[2]
    )
}

fn read(program: &Program, frame: &[u8]) -> String {
    let reading = (program.read)(frame);
    let refused = Reading {
        number: reading.number,
        ..Reading::default()
    };
    if reading.number != 0 && reading == refused {
        return reading.number.to_string();
    }
    let part = |Part { place, size }| format!("{place}+{size}");
    let Reading {
        number,
        protocol,
        ids,
        next,
        ..
    } = reading;
    let mut text = format!(
        "{number} {protocol:02X} ids {ids} next {next} stations {}",
        part(reading.stations)
    );
    text += &format!(
        " supplementary {} data {}",
        part(reading.supplementary),
        part(reading.payload)
    );
    text + if reading.unchecked { " unchecked" } else { "" }
}

/// Protocol, stations, next, supplementary header, data and room. The frame written is shown, and whether anything beside it
/// has changed.
fn write(program: &Program, given: &[&str]) -> String {
    let [protocol, stations, next, supplementary, data, room] = given else {
        panic!("not what a writer is given: {given:?}");
    };
    let new = || Out::new(number(room), 0xEE);
    let (mut out, mut expected) = (new(), new());
    let (stations, supplementary, data) = (octets(stations), octets(supplementary), octets(data));
    let written = (program.write)(
        octet(protocol),
        &stations,
        number(next),
        &supplementary,
        &data,
        out.room(),
    );
    let frame = out.room()[..written.length].to_vec();
    expected.room()[..frame.len()].copy_from_slice(&frame);
    let mut text = written.number.to_string();
    if !frame.is_empty() {
        text += &format!(" {}", plain(&frame));
    }
    text + if out == expected {
        ""
    } else {
        " and other octets changed"
    }
}

fn answer(program: &Program, case: &[&str]) -> String {
    match case {
        ["sums", _, given] => sums(program, &octets(given)),
        ["read", _, frame] => read(program, &octets(frame)),
        ["write", _, given @ ..] => write(program, given),
        _ => panic!("no case: {case:?}"),
    }
}

/// A stored answer, with the frame of a writer octet by octet.
fn stored_answer(case: &[&str], answer: &str) -> String {
    match (case[0], answer.split_once(' ')) {
        ("write", Some((number, frame))) => format!("{number} {}", plain(&octets(frame))),
        _ => answer.to_string(),
    }
}

pub fn compare(_: &Rng, _: u64, tally: &mut Tally) {
    for line in stored::read("afp.txt").lines() {
        if line.is_empty() || line.starts_with('#') {
            continue;
        }
        let (given, expected) = line
            .split_once(" = ")
            .unwrap_or_else(|| panic!("no answer: {line}"));
        let case: Vec<&str> = given.split(' ').collect();
        let archive = answer(&ARCHIVE, &case);
        if case[0] != "sums" {
            let number = expected.split(' ').next().and_then(|n| n.parse().ok());
            tally.number(number.expect("an answer begins with its number"));
        }
        tally.stored(&stored_answer(&case, expected), &archive, || {
            line.to_string()
        });
        tally.input(&answer(&SECOND, &case), &archive, || line.to_string());
    }
}
