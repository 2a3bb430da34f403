//! The listing programs, run as processes.
use super::captures::{Framing, KISS, QAFT};
use super::process::{by_datagrams, by_pipe, examples, program, run, Run};
use super::tally::{hex, Tally};
use super::{flow, pairs};
use second::check::Check;
use second::rng::Rng;
use second::{kiss, listing, qaft};
use std::fs::File;

pub const NUMBERS: [u8; 6] = [10, 11, 12, 13, 14, 16];
pub const KISS_NUMBERS: [u8; 5] = [10, 60, 61, 62, 63];

/// The request's number for a report.
fn kiss_number(report: &kiss::Report) -> u8 {
    match report {
        kiss::Report::Frame(_) => 10,
        kiss::Report::BadEscape => 60,
        kiss::Report::Short => 61,
        kiss::Report::Long => 62,
        kiss::Report::Skipped => 63,
    }
}

/// A listing program: its name and level, what its captures are made of, what is counted of a capture and of its reads, and the
/// listing.
struct Program {
    name: &'static str,
    level: u8,
    framing: Framing,
    count: Count,
    reads: Reads,
    listing: fn(u8, &[u8]) -> String,
}

/// Counts what comes up in a capture that is read at a level.
pub type Count = fn(u8, &[u8], &mut Tally);
/// Counts how the reads of one end.
pub type Reads = fn(u8, &[Vec<u8>], &mut Tally);

/// The reads that end inside a bad pair.
pub fn count_reads(level: u8, portions: &[Vec<u8>], tally: &mut Tally) {
    let parted = pairs::parted_by_portions(level, portions);
    tally.count(
        "reads that end between a 7D and the partner of a bad pair",
        parted,
    );
}

/// The numbers of a capture's reports, and how flow control and pairs stand in it.
pub fn count_qaft(level: u8, capture: &[u8], tally: &mut Tally) {
    for report in &qaft::read_line(level, Check::Sum, capture).reports {
        tally.number(report.number());
    }
    flow::count(level, Check::Sum, capture, tally);
    pairs::count(level, Check::Sum, capture, tally);
}

/// The numbers of a capture's reports; KISS has no level.
pub fn count_kiss(_level: u8, capture: &[u8], tally: &mut Tally) {
    for report in &kiss::read_line(capture).reports {
        tally.number(kiss_number(report));
    }
}

impl Program {
    /// Compares what it has printed of a capture; it has nothing to say on standard error.
    fn one(&self, pieces: u64, capture: &[u8], archive: Run, tally: &mut Tally) {
        (self.count)(self.level, capture, tally);
        let text = String::from_utf8_lossy(&archive.output).into_owned();
        let archive = (archive.good, text, archive.messages);
        let ours = (true, (self.listing)(self.level, capture), String::new());
        tally.inputs(pieces, &ours, &archive, || hex(capture));
    }

    fn compare(&self, rng: &Rng, count: u64, tally: &mut Tally) {
        // any octets are a capture, of either framing
        for path in examples(&["cap", "kiss"]) {
            let capture = std::fs::read(&path).expect("a capture");
            let file = File::open(&path).expect("a capture");
            let archive = run(program(self.name), file, || Ok(()));
            self.one(1, &capture, archive, tally);
            tally.count("captures of examples/", 1);
        }
        let (pieces, portions) = self.framing.many_reads(rng);
        (self.reads)(self.level, &portions, tally);
        let archive = by_datagrams(self.name, &portions);
        self.one(pieces, &portions.concat(), archive, tally);
        let (pieces, capture) = self.framing.each_segment();
        let archive = by_pipe(self.name, std::slice::from_ref(&capture));
        self.one(pieces, &capture, archive, tally);
        for (pieces, portions) in self.framing.captures(rng, count) {
            let archive = by_pipe(self.name, &portions);
            self.one(pieces, &portions.concat(), archive, tally);
        }
    }
}

fn qaft(name: &'static str, level: u8, rng: &Rng, count: u64, tally: &mut Tally) {
    flow::came_up(&[level], tally);
    pairs::came_up(&[level], tally);
    Program {
        name,
        level,
        framing: QAFT,
        count: count_qaft,
        reads: count_reads,
        listing: listing::listing,
    }
    .compare(rng, count, tally);
}

pub fn level_0(rng: &Rng, count: u64, tally: &mut Tally) {
    qaft("list_level0", 0, rng, count, tally);
}

pub fn level_1(rng: &Rng, count: u64, tally: &mut Tally) {
    qaft("list_level1", 1, rng, count, tally);
}

pub fn kiss(rng: &Rng, count: u64, tally: &mut Tally) {
    Program {
        name: "list_kiss",
        level: 0,
        framing: KISS,
        count: count_kiss,
        reads: |_, _, _| {},
        listing: |_, capture| listing::kiss_listing(capture),
    }
    .compare(rng, count, tally);
}
