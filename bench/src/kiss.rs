//! KISS: the frame writer and the chunk reader, with few octets that are escaped and with many.
use crate::archive::kiss as archive;
use crate::frames::{self, writing_line, Line};
use crate::others::kiss as others;
use crate::row::Row;
use second::kiss::reader::State;
use second::kiss::{self, FEND, FESC};
use second::rng::Rng;

/// The payload octets of a turn are about this many. Of an eighth of them the machine learns many places of escapes from turn to
/// turn, where one octet in a hundred is escaped, and foretells its branches better than it could on a new line.
const OCTETS: usize = 1 << 20;
/// One octet in so many is escaped.
const FEW: usize = 100;
const MANY: usize = 2;

pub const ROWS: &[fn() -> Row] = &[
    || writer("KISS wrap, 2,560 octets, 1 % escapes", 2560, FEW),
    || writer("KISS wrap, 2,560 octets, 50 % escapes", 2560, MANY),
    || writer("KISS wrap, 20 octets, 1 % escapes", 20, FEW),
    || writer("KISS wrap, 20 octets, 50 % escapes", 20, MANY),
    || reader("KISS unwrap, frames of 2,560, 1 % escapes", 2560, FEW),
    || reader("KISS unwrap, frames of 2,560, 50 % escapes", 2560, MANY),
    || reader("KISS unwrap, frames of 20, 1 % escapes", 20, FEW),
    || reader("KISS unwrap, frames of 20, 50 % escapes", 20, MANY),
];

/// An octet that is escaped once in so many times, and else any other.
fn octet(rng: &Rng, once_in: usize) -> u8 {
    if rng.once_in(once_in) {
        return rng.pick(&[FEND, FESC]);
    }
    loop {
        let x = rng.octet();
        if x != FEND && x != FESC {
            return x;
        }
    }
}

fn payloads(size: usize, once_in: usize) -> Vec<Vec<u8>> {
    frames::payloads(OCTETS, size, |rng, n| {
        (0..n).map(|_| octet(rng, once_in)).collect()
    })
}

/// Frames have both flags here, since direwolf always writes both.
fn writer(what: &'static str, size: usize, once_in: usize) -> Row {
    let payloads = payloads(size, once_in);
    let second = |p: &[u8], out: &mut [u8]| kiss::write(false, p, out).length;
    let line = frames::line(&[], &payloads, second);
    let ours = writing_line(&payloads, &line, |p, out| {
        archive::write(false, p, out).length
    });
    let row = Row::new(what, "octet", OCTETS / size * size, ours)
        .beside("second", writing_line(&payloads, &line, second))
        .beside(
            "plain C",
            writing_line(&payloads, &line, |p, out| others::write(false, p, out)),
        );
    #[cfg(direwolf)]
    let row = row.beside("direwolf", direwolf_writing(&payloads, &line));
    row
}

/// direwolf wants the type octet before the payload. Putting it there is no part of direwolf's time.
#[cfg(direwolf)]
fn direwolf_writing(payloads: &[Vec<u8>], line: &[u8]) -> impl FnMut() -> usize {
    let typed: Vec<_> = payloads.iter().map(|p| [&[0], &p[..]].concat()).collect();
    writing_line(&typed, line, others::direwolf::write)
}

/// One flag between two frames. In a store the type octet stands before the payload.
fn reader(what: &'static str, size: usize, once_in: usize) -> Row {
    let payloads = payloads(size, once_in);
    let octets = frames::line(&[FEND], &payloads, |p, out| {
        kiss::write(true, p, out).length
    });
    let line = Line {
        octets: &octets,
        chunk: octets.len(),
        data: &payloads,
        place: 1,
    };
    let ours = line.read_by(archive::fresh(), archive::read);
    let fresh = State::default();
    let row = Row::new(what, "octet", octets.len(), ours)
        .beside("second", line.read_by(fresh, kiss::reader::read))
        .beside("plain C", line.read_by(fresh.into(), others::read));
    #[cfg(direwolf)]
    let row = row.beside("direwolf", line.read_by((), others::direwolf::read));
    row
}
