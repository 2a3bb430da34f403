//! The program line_sheet, run as a process over files of captures: its standard output is the second program's sheet, and its
//! standard error names the files that it did not count.
use super::super::process::{program, run, Run};
use super::super::tally::{hex, Tally};
use super::super::{flow, pairs};
use super::files::{
    across_reads, all_examples, at_limits, each_refusal, set, Entry, Files, PIPE, READ,
};
use super::FULL;
use second::check::Check;
use second::qaft::FLAG;
use second::rng::Rng;
use second::sheet::{self, COUNTS, LINES};
use std::fs::File;
use std::io::{self, Write};

pub const NUMBERS: [u8; 2] = [0, 50];

const NAME: &str = "line_sheet";

/// What has to come up.
const SAME_LINE: &str = "captures on a line that had one";
const SEVERAL_READS: &str = "captures of several reads";
const THROUGH_PIPE: &str = "captures through a pipe";
const NO_NUMBER: &str = "lines that are no number";
const NO_FILE: &str = "files that can't be read";

/// What is compared of a run: the sheet, and which files were named on standard error; where none was to be named, that there
/// was nothing else and that the exit status is 0. How a message is worded is left to the program.
#[derive(Debug, PartialEq)]
struct Seen {
    output: String,
    named: Vec<String>,
    quiet: bool,
}

/// A number as it is typed: digits alone.
fn number(text: &str) -> Option<usize> {
    let digits = !text.is_empty() && text.bytes().all(|x| x.is_ascii_digit());
    digits.then(|| text.parse().ok())?
}

/// The sheet of a list of captures, and the files that are not counted.
fn expected(level: u8, entries: &[Entry], tally: &mut Tally) -> Seen {
    let mut table = [[0; COUNTS]; LINES];
    let mut named = Vec::new();
    for entry in entries {
        let counted = match (number(&entry.line), &entry.capture) {
            (None, _) => {
                tally.count(NO_NUMBER, 1);
                false
            }
            (_, None) => {
                tally.count(NO_FILE, 1);
                false
            }
            (Some(line), Some(capture)) => {
                let again = table.get(line).is_some_and(|record| *record != [0; COUNTS]);
                tally.count(SAME_LINE, again.into());
                tally.count(SEVERAL_READS, (capture.len() > READ).into());
                tally.count(THROUGH_PIPE, (entry.file == PIPE).into());
                flow::count(level, Check::Sum, capture, tally);
                pairs::count(level, Check::Sum, capture, tally);
                let number = sheet::tally(level, capture, line, &mut table);
                tally.number(number);
                number == 0
            }
        };
        if !counted && !named.contains(&entry.file) {
            named.push(entry.file.clone());
        }
    }
    named.sort();
    Seen {
        output: sheet::sheet(&table),
        quiet: named.is_empty(),
        named,
    }
}

fn arguments(level: u8, entries: &[Entry]) -> Vec<String> {
    let mut words = vec![level.to_string()];
    for entry in entries {
        words.extend([entry.line.clone(), entry.file.clone()]);
    }
    words
}

/// Runs the program; what stands in the file [`PIPE`] is fed to it in portions.
fn run_with(words: &[String], portions: Vec<Vec<u8>>) -> Run {
    let (reader, mut writer) = io::pipe().expect("a pipe");
    let mut command = program(NAME);
    command.args(words);
    run(command, reader, move || {
        portions.iter().try_for_each(|part| writer.write_all(part))
    })
}

/// The messages that say that a file is being read, or the others, which say that one was not counted.
fn messages(run: &Run, reading: bool) -> Vec<&str> {
    let lines = run.messages.lines();
    lines
        .filter(|line| line.ends_with(": reading") == reading)
        .collect()
}

fn names(messages: &[&str], file: &str) -> bool {
    messages.iter().any(|line| line.contains(file))
}

/// Where there are several captures, each that has a line number is named before it is read; one alone is not.
fn progress(run: &Run, entries: &[Entry]) -> bool {
    let read = messages(run, true);
    let numbered = entries.iter().filter(|entry| number(&entry.line).is_some());
    let files: Vec<&str> = numbered.map(|entry| entry.file.as_str()).collect();
    if entries.len() < 2 {
        return read.is_empty();
    }
    let mut pairs = read.iter().zip(&files);
    read.len() == files.len() && pairs.all(|(line, file)| line.contains(file))
}

/// What is seen of a run.
fn seen(run: &Run, entries: &[Entry]) -> Seen {
    let refused = messages(run, false);
    let files = entries.iter().map(|entry| entry.file.clone());
    let mut named: Vec<String> = files.filter(|file| names(&refused, file)).collect();
    named.sort();
    named.dedup();
    Seen {
        output: String::from_utf8_lossy(&run.output).into_owned(),
        quiet: run.good && refused.is_empty(),
        named,
    }
}

/// A capture in portions of up to some hundred octets.
fn portions(rng: &Rng, capture: &[u8]) -> Vec<Vec<u8>> {
    let size = rng.pick(&[1, 7, 100, 1000]);
    // not too many of them
    let size = size.max(capture.len() / 500);
    capture.chunks(size).map(<[u8]>::to_vec).collect()
}

fn one(rng: &Rng, pieces: u64, level: u8, entries: &[Entry], tally: &mut Tally) {
    let ours = expected(level, entries, tally);
    let words = arguments(level, entries);
    let piped = entries.iter().find(|entry| entry.file == PIPE);
    let octets = piped.and_then(|entry| entry.capture.as_deref());
    let archive = run_with(&words, portions(rng, octets.unwrap_or_default()));
    tally.claim(
        "several captures are named as they are read, one is not",
        progress(&archive, entries),
    );
    tally.inputs(pieces, &ours, &seen(&archive, entries), || {
        let captures = entries.iter().flat_map(|entry| &entry.capture);
        let captures: Vec<String> = captures.map(|octets| hex(octets)).collect();
        format!("{words:?}, {captures:?}")
    });
}

/// Arguments that name no sheet are said, and nothing is counted; a write that fails is said. How, is left to the program.
fn failures(files: &Files, tally: &mut Tally) {
    let file = files.write(0, &[FLAG, 0x41, 0xBF, FLAG]);
    let empty = sheet::sheet(&[[0; COUNTS]; LINES]).into_bytes();
    for level in ["2", "255", "256", "257", "4294967296", "", "x", "-1", "1x"] {
        let words = [level, "0", &file].map(str::to_owned);
        let seen = run_with(&words, Vec::new());
        tally.claim("a level that is none is said", !seen.messages.is_empty());
        let nothing = seen.output.is_empty() || seen.output == empty;
        tally.claim("at a level that is none nothing is counted", nothing);
    }
    let seen = run_with(&[], Vec::new());
    tally.claim("a level that is none is said", !seen.messages.is_empty());
    let seen = run_with(&["0", "0"].map(str::to_owned), Vec::new());
    tally.claim("a line without its file is said", !seen.messages.is_empty());
    let full = File::options().write(true).open("/dev/full");
    let mut command = program(NAME);
    command.args(["0", "0", &file]);
    command.stdout(full.expect("/dev/full"));
    let (reader, _) = io::pipe().expect("a pipe");
    let seen = run(command, reader, || Ok(()));
    tally.claim("a write that fails is said", !seen.messages.is_empty());
}

/// Files of 2^32 octets and one less, without a flag: the first is refused; the second fills its line's count, so that a capture
/// with another octet before its first flag is refused there, and one that begins with a flag is not.
fn longest(files: &Files, tally: &mut Tally) {
    const MOST: u64 = u32::MAX as u64;
    let (one, flag) = (files.write(0, &[0x41]), files.write(1, &[FLAG]));
    let (above, most) = (files.zeros(2, MOST + 1), files.zeros(3, MOST));
    let entries = [
        ("5", &above),
        ("5", &most),
        ("5", &one),
        ("5", &flag),
        ("6", &flag),
    ];
    let mut words = vec!["0".to_owned()];
    for (line, file) in entries {
        words.extend([line.to_owned(), file.clone()]);
    }
    let run = run_with(&words, Vec::new());
    let mut table = [[0; COUNTS]; LINES];
    table[5][..2].copy_from_slice(&[u32::MAX, 1]);
    table[6][1] = 1;
    for number in [51, 0, 51, 0, 0] {
        tally.number(number);
    }
    let refused = messages(&run, false);
    let named = [one, flag, above, most].map(|file| names(&refused, &file));
    let archive = (String::from_utf8_lossy(&run.output).into_owned(), named);
    let ours = (sheet::sheet(&table), [true, false, true, false]);
    tally.inputs(5, &ours, &archive, || format!("{words:?}"));
}

pub fn compare(rng: &Rng, count: u64, tally: &mut Tally) {
    for name in [SAME_LINE, SEVERAL_READS, THROUGH_PIPE, NO_NUMBER, NO_FILE] {
        tally.count(name, 0);
    }
    flow::came_up(&[0, 1], tally);
    pairs::came_up(&[0, 1], tally);
    let files = Files::new();
    failures(&files, tally);
    for level in [0, 1] {
        let mut list = |entries: Vec<Entry>| one(rng, entries.len() as u64, level, &entries, tally);
        list(Vec::new());
        list(all_examples());
        list(across_reads(rng, level, &files));
        list(each_refusal(rng, &files));
        list(at_limits(&files));
    }
    let mut left = count;
    while left > 0 {
        let (pieces, entries) = set(rng, &files, left);
        left -= pieces;
        one(rng, pieces, rng.below(2) as u8, &entries, tally);
    }
    if count >= FULL {
        longest(&files, tally);
    }
}
