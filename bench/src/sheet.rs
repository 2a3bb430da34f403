//! The line sheet: what a capture counts, held whole, with few octets that are escaped and with many.
use crate::archive::{qaft_fresh, qaft_read, sheet as archive};
use crate::frames::{self, escaped};
use crate::others::sheet as others;
use crate::row::Row;
use second::check::Check;
use second::link::{DACK, DATA};
use second::qaft::FLAG;
use second::rng::Rng;
use second::sheet::{self, COUNTS};

/// The data octets of a capture are about this many: what a turn learns of a short one helps it in the next (kiss.rs).
const OCTETS: usize = 1 << 20;
/// The line sheet is of QAFT alone.
const SUM: u8 = Check::Sum.kind();

// a line each, the longer ones too
#[rustfmt::skip]
pub const ROWS: &[fn() -> Row] = &[
    || row("sheet count, frames of 2,560", 0, 2560, Rng::octet),
    || row("sheet count, frames of 2,560, 50 % escapes", 0, 2560, escaped),
    || row("sheet count, frames of 20", 0, 20, Rng::octet),
    || row("sheet count, frames of 20, 50 % escapes", 0, 20, escaped),
    || row("sheet count at level 1, frames of 2,560", 1, 2560, Rng::octet),
    || row("sheet count at level 1, frames of 20", 1, 20, Rng::octet),
];

/// A packet: DATA with a number that counts on or comes again, one in eight with the first octet of a DACK.
fn packet(rng: &Rng, size: usize, octet: fn(&Rng) -> u8) -> Vec<u8> {
    let mut data: Vec<u8> = (0..size).map(|_| octet(rng)).collect();
    let kind = if rng.once_in(8) { DACK } else { DATA };
    data[0] = kind | rng.pick(&[0, 1, 1, 2]);
    data
}

/// The counts as one number that depends on each.
fn weighed(counts: [u64; COUNTS]) -> usize {
    let each = counts.into_iter().zip(1..);
    each.map(|(count, weight)| count as usize * weight).sum()
}

/// Plain C must count the line with flow control strewn in as ours does, too, before a row is timed.
fn row(what: &'static str, level: u8, size: usize, octet: fn(&Rng) -> u8) -> Row {
    let packets = frames::payloads(OCTETS, size, |rng, n| packet(rng, n, octet));
    let line = frames::line(&[FLAG], &packets, |d, out| {
        second::qaft::write(level, SUM, true, d, out).length
    });
    let strewn = frames::strewn(&line);
    let counts = archive::count(level, &strewn).counts;
    assert_eq!(others::count(level, &strewn), counts, "{what}: strewn in");
    let (ours, by_second, plain) = (line.clone(), line.clone(), line.clone());
    let reading = frames::reading(&line, usize::MAX, qaft_fresh(level, SUM), qaft_read);
    Row::new(what, "octet", line.len(), move || {
        weighed(archive::count(level, &ours).counts)
    })
    .beside("second", move || {
        weighed(sheet::count(level, &by_second).counts)
    })
    .beside("plain C", move || weighed(others::count(level, &plain)))
    .part("our reader alone", reading)
}
