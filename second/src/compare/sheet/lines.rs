//! Printed lines of the sheet.
use super::super::tally::{Out, Tally};
use super::{came_up, make};
use crate::archive::sheet as archive;
use second::rng::Rng;
use second::sheet::{self, Record, BAD_CHECKS, COUNTS, LINES, LONGEST_LINE, MAX_LINE, REPORTS};

const PRINTED: &str = "lines printed";
const NO_ROOM: &str = "lines for which out is too small";
/// What has to come up wherever lines are printed.
pub const COUNTED: [&str; 2] = [PRINTED, NO_ROOM];
/// What has to come up where lines of any number are.
const LONGEST: &str = "lines of 198 octets";

/// Room for a printed line: most often what is asked for.
fn room(rng: &Rng) -> usize {
    match rng.below(16) {
        0 => rng.pick(&[0, 1, LONGEST_LINE, MAX_LINE - 2, MAX_LINE - 1]),
        1 => rng.below(MAX_LINE),
        2 => MAX_LINE + rng.between(1, 50),
        _ => MAX_LINE,
    }
}

/// A printed line of each program, each with its own record: the length told, and the whole out buffer.
pub fn printed(
    rng: &Rng,
    number: usize,
    records: [&Record; 2],
    tally: &mut Tally,
) -> [(usize, Out); 2] {
    let (room, seed) = (room(rng), rng.octet());
    let (mut ours, mut archive) = (Out::new(room, seed), Out::new(room, seed));
    let length = sheet::put_line(number, records[0], ours.room());
    let by_archive = archive::put_line(number, records[1], archive.room());
    tally.count(if length == 0 { NO_ROOM } else { PRINTED }, 1);
    tally.claim(
        "no line is longer than 198 octets",
        by_archive <= LONGEST_LINE,
    );
    [(length, ours), (by_archive, archive)]
}

/// Prints a record alone, with a line of any number.
fn print_one(rng: &Rng, number: usize, record: &Record, tally: &mut Tally) {
    let [ours, archive] = printed(rng, number, [record, record], tally);
    tally.count(LONGEST, (ours.0 == LONGEST_LINE).into());
    tally.input(&ours, &archive, || format!("line {number}, {record:?}"));
}

/// A record of so many bad checks and so many reports of another kind, and of nothing else.
fn two_kinds(rng: &Rng, others: u32, bad: u32) -> Record {
    let kinds: Vec<usize> = REPORTS.filter(|&kind| kind != BAD_CHECKS).collect();
    let mut record = [0; COUNTS];
    (record[rng.pick(&kinds)], record[BAD_CHECKS]) = (others, bad);
    record
}

/// Shares that take the most steps to lowest terms: two Fibonacci numbers next to each other.
fn many_steps(rng: &Rng, tally: &mut Tally) {
    let (mut a, mut b) = (1_u32, 1_u32);
    while let Some(sum) = a.checked_add(b) {
        for (others, bad) in [(a, b), (b, a), (a + b, a + b)] {
            let record = two_kinds(rng, others, bad);
            print_one(rng, rng.below(LINES), &record, tally);
        }
        (a, b) = (b, sum);
    }
}

pub fn compare(rng: &Rng, count: u64, tally: &mut Tally) {
    came_up(&COUNTED, tally);
    came_up(&[LONGEST], tally);
    for others in 0..100 {
        for bad in 0..100 {
            let record = two_kinds(rng, others, bad);
            print_one(rng, rng.below(LINES), &record, tally);
        }
    }
    many_steps(rng, tally);
    for _ in 0..count {
        let mut record = make::record(rng);
        // reports that have a divisor in common
        if rng.once_in(4) {
            let divisor = rng.between(1, 1 << rng.below(32)) as u32;
            for n in &mut record[REPORTS] {
                *n -= *n % divisor;
            }
        }
        let digits = rng.below(64);
        let number = rng.pick(&[rng.below(LINES), rng.next() as usize >> digits, usize::MAX]);
        print_one(rng, number, &record, tally);
    }
}
