//! The line sheet: what captures count, and the tables to which they are added, with their printed lines.
mod files;
mod lines;
mod make;
mod program;

pub use lines::compare as lines;
pub use program::{compare as program, NUMBERS as RUN_NUMBERS};

use super::tally::{hex, Tally};
use super::{flow, pairs, FULL};
use crate::archive::sheet as archive;
use second::check::Check;
use second::rng::Rng;
use second::sheet::{self, Counted, Record, COUNTS, LINES, OCTETS};

pub const NUMBERS: [u8; 4] = [0, 6, 50, 51];

/// By the order of the counts: refused since this one alone would pass 32 bits.
const ALONE: [&str; COUNTS] = [
    "51 by octets before alone",
    "51 by flags alone",
    "51 by octets in segments alone",
    "51 by octets after alone",
    "51 by skipped octets alone",
    "51 by frames alone",
    "51 by aborted alone",
    "51 by long alone",
    "51 by short alone",
    "51 by bad checks alone",
    "51 by bad pairs alone",
    "51 by DATA alone",
    "51 by DACK alone",
    "51 by repeats alone",
];

/// What else has to come up.
const AT_LIMIT: &str = "counts that become 4,294,967,295";
const PAST_TABLE: &str = "50 for a line under 64";
const PAST_LINES: &str = "50 for a line of the table";

fn came_up(names: &[&'static str], tally: &mut Tally) {
    for name in names {
        tally.count(name, 0);
    }
}

fn level(rng: &Rng) -> u8 {
    match rng.below(16) {
        0 => rng.octet(),
        n => (n % 2) as u8,
    }
}

/// What a call is given.
struct Call<'a> {
    level: u8,
    capture: &'a [u8],
    line: usize,
    table: Vec<Record>,
}

impl Call<'_> {
    /// Moves a count of the line's record to where the capture brings it just to the highest number, or one above.
    fn near_limit(&mut self, rng: &Rng) {
        let Some(record) = self.table.get_mut(self.line) else {
            return;
        };
        if !rng.once_in(4) {
            *record = record.map(|n| n % 1000);
        }
        let more = sheet::counts(self.level, self.capture).in_order();
        let some: Vec<usize> = (0..COUNTS).filter(|&i| more[i] > 0).collect();
        if !some.is_empty() {
            let i = rng.pick(&some);
            record[i] = u32::MAX - more[i] as u32 + rng.below(2) as u32;
        }
    }

    /// Counts the second program's answer, and how it came about.
    fn count(&self, number: u8, later: &[Record], tally: &mut Tally) {
        tally.number(number);
        flow::count(self.level, Check::Sum, self.capture, tally);
        pairs::count(self.level, Check::Sum, self.capture, tally);
        let more = sheet::counts(self.level, self.capture).in_order();
        match number {
            0 => {
                let full = |i: &usize| later[self.line][*i] == u32::MAX && more[*i] > 0;
                tally.count(AT_LIMIT, (0..COUNTS).filter(full).count() as u64);
            }
            50 if self.line < LINES => tally.count(PAST_TABLE, 1),
            50 if self.line < later.len() => tally.count(PAST_LINES, 1),
            51 => {
                let over = |i: &usize| u64::from(later[self.line][*i]) + more[*i] > u32::MAX.into();
                if let [i] = (0..COUNTS).filter(over).collect::<Vec<_>>()[..] {
                    tally.count(ALONE[i], 1);
                }
            }
            _ => {}
        }
    }

    /// Sentences of the request, checked of the archive alone.
    fn claims(&self, counted: &Counted, number: u8, later: &[Record], tally: &mut Tally) {
        if counted.number == 0 {
            let octets: u64 = counted.counts[OCTETS].iter().sum();
            let adds_up = octets == self.capture.len() as u64;
            tally.claim("the five octet counts add up to the capture", adds_up);
        }
        let kept = |i: usize| later[i] == self.table[i] || number == 0 && i == self.line;
        let own = (0..later.len()).all(kept);
        tally.claim("a capture changes no record but its own line's", own);
    }

    /// Compares counts, answer, every record afterwards with one on each side of the table, and the printed lines of all records.
    /// The table that the second program goes on with.
    fn compare(self, rng: &Rng, tally: &mut Tally) -> Vec<Record> {
        let (level, capture, line) = (self.level, self.capture, self.line);
        let around = [make::record(rng)];
        let mut ours = [&around[..], &self.table, &around].concat();
        let mut archive = ours.clone();
        let end = self.table.len() + 1;
        let counted = sheet::count(level, capture);
        let by_archive = archive::count(level, capture);
        let number = sheet::tally(level, capture, line, &mut ours[1..end]);
        let told = archive::tally(level, capture, line, &mut archive[1..end]);
        self.count(number, &ours[1..end], tally);
        self.claims(&by_archive, told, &archive[1..end], tally);
        let (mut text, mut their_text) = (Vec::new(), Vec::new());
        for i in 1..end {
            let [one, other] = lines::printed(rng, i - 1, [&ours[i], &archive[i]], tally);
            text.push(one);
            their_text.push(other);
        }
        let table = ours[1..end].to_vec();
        tally.input(
            &(counted, number, ours, text),
            &(by_archive, told, archive, their_text),
            || {
                let capture = hex(capture);
                format!(
                    "level {level}, line {line}, capture {capture}, {:X?}",
                    self.table
                )
            },
        );
        table
    }
}

/// A capture with a table of its own, or with that of the capture before.
fn one(
    rng: &Rng,
    level: u8,
    capture: &[u8],
    before: Vec<Record>,
    tally: &mut Tally,
) -> Vec<Record> {
    let table = match rng.below(3) {
        0 => before,
        _ => make::table(rng),
    };
    let line = make::line(rng, table.len());
    let mut call = Call {
        level,
        capture,
        line,
        table,
    };
    if rng.once_in(3) {
        call.near_limit(rng);
    }
    call.compare(rng, tally)
}

/// Each count, brought to the highest number by a capture, and to one above, at a level. The skipped octets of level 0 are none, and
/// pass no limit.
fn limits(rng: &Rng, level: u8, tally: &mut Tally) {
    let capture = make::each_count();
    let more = sheet::counts(level, &capture).in_order();
    for (i, more) in more.into_iter().enumerate() {
        for above in [0, 1] {
            let mut table = vec![[9; COUNTS]; 2];
            table[1][i] = u32::MAX - (more as u32).saturating_sub(above);
            let call = Call {
                level,
                capture: &capture,
                line: 1,
                table,
            };
            call.compare(rng, tally);
        }
    }
}

/// Flow control put into a level 1 capture, of the archive alone: what is counted of flags, reported segments, reports and packets is
/// the same.
fn same_counts(rng: &Rng, capture: &[u8], tally: &mut Tally) {
    let [without, with] = [capture, &flow::strewn(rng, capture)].map(|capture| {
        let mut counted = archive::count(1, capture);
        let [before, _, _, after, skipped] = &mut counted.counts[OCTETS] else {
            unreachable!("five octet counts");
        };
        [*before, *after, *skipped] = [0; 3];
        counted
    });
    tally.claim(
        "11 and 13 put into a level 1 capture change before, after and skipped alone",
        without == with,
    );
}

/// Captures whose counts reach 2^32. Zeros that nobody writes to take no memory; a copy of them would, and the second program
/// makes one of each segment, so what they count is said by hand.
fn longest(tally: &mut Tally) {
    const MOST: u64 = u32::MAX as u64;
    let mut octets = vec![0_u8; MOST as usize + 4];
    let before = |n| [n, 0, 0, 0, 0, 0, 0, 0, 0, 0, 0, 0, 0, 0];
    let long = |n| [0, 2, n, 0, 0, 0, 0, 1, 0, 0, 0, 0, 0, 0];
    let mut one = |octets: &[u8], counts: [u64; COUNTS]| {
        let mut table = [[0; COUNTS]; 2];
        let number = archive::tally(0, octets, 1, &mut table);
        let given = (archive::count(0, octets), number, table);
        let later = sheet::added(&[0; COUNTS], &counts);
        let number = if later.is_some() { 0 } else { 51 };
        let stops = counts.map(|n| n.min(MOST + 1));
        let counted = Counted {
            number: 0,
            counts: stops,
        };
        tally.number(number);
        let table = [[0; COUNTS], later.unwrap_or_default()];
        tally.input(&(counted, number, table), &given, || {
            format!("{} octets: {counts:?}", octets.len())
        });
    };
    one(&octets[..MOST as usize], before(MOST));
    one(&octets[..MOST as usize + 2], before(MOST + 2));
    octets[0] = second::qaft::FLAG;
    octets[MOST as usize + 3] = second::qaft::FLAG;
    one(&octets, long(MOST + 2));
}

pub fn captures(rng: &Rng, count: u64, tally: &mut Tally) {
    came_up(&ALONE, tally);
    came_up(&[AT_LIMIT, PAST_TABLE, PAST_LINES], tally);
    came_up(&lines::COUNTED, tally);
    flow::came_up(&[0, 1], tally);
    pairs::came_up(&[0, 1], tally);
    limits(rng, 0, tally);
    limits(rng, 1, tally);
    let mut table = Vec::new();
    for capture in make::each_short().into_iter().chain(make::each_sequence()) {
        table = one(rng, level(rng), &capture, table, tally);
    }
    for capture in make::each_pair() {
        for level in [0, 1] {
            table = one(rng, level, &capture, table, tally);
        }
    }
    for _ in 0..count {
        let pieces = match rng.below(2_000) {
            0 => 4_000,
            1..=20 => rng.below(200),
            _ => rng.below(8),
        };
        let mut capture = make::capture(rng, pieces);
        same_counts(rng, &capture, tally);
        if rng.once_in(3) {
            capture = flow::strewn(rng, &capture);
        }
        table = one(rng, level(rng), &capture, table, tally);
    }
    if count >= FULL {
        longest(tally);
    }
}
