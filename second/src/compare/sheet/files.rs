//! Files of captures for the program line_sheet, and its arguments.
use super::super::flow;
use super::super::process::{examples, place};
use super::make;
use second::check::Check;
use second::qaft::{self, ESCAPE, FLAG, MAX_DATA};
use second::rng::Rng;
use std::fs::{self, File};
use std::path::PathBuf;

/// How many octets the program reads of a file at once.
pub const READ: usize = 65_536;
/// A file whose octets come through a pipe.
pub const PIPE: &str = "/dev/stdin";

/// Numbers of a file that is never there, and of a folder.
const MISSING: usize = 9_998;
const FOLDER: usize = 9_999;

/// Words that are no line number; the last would be line 3 if bits were lost.
const NO_NUMBERS: [&str; 8] = [
    "",
    "x",
    "-1",
    "1x",
    "0x1",
    "3.0",
    "1 2",
    "18446744073709551619",
];

/// Lines past the last; some would be line 3 if bits were lost.
const PAST: [usize; 8] = [
    64,
    65,
    67,
    256 + 3,
    (1 << 16) + 3,
    (1 << 32) + 3,
    (1 << 63) + 3,
    usize::MAX,
];

/// A pair of arguments, and the capture that stands in the file where it can be read.
pub struct Entry {
    pub line: String,
    pub file: String,
    pub capture: Option<Vec<u8>>,
}

/// A folder of capture files, which goes with this value.
pub struct Files {
    folder: PathBuf,
}

impl Files {
    pub fn new() -> Self {
        let name = format!("target/second/captures-{}", std::process::id());
        let files = Files {
            folder: place(&name),
        };
        fs::create_dir_all(files.name(FOLDER)).expect("a folder for captures");
        files
    }

    /// The name of file number i, which need not be there. Names have one length, so that none is a part of another.
    fn name(&self, i: usize) -> String {
        let path = self.folder.join(format!("{i:04}.cap"));
        path.to_str().expect("a path that is text").to_owned()
    }

    pub fn write(&self, i: usize, capture: &[u8]) -> String {
        let name = self.name(i);
        fs::write(&name, capture).expect("a capture is written");
        name
    }

    /// A pair of arguments that is counted.
    fn entry(&self, i: usize, line: usize, capture: Vec<u8>) -> Entry {
        Entry {
            line: line.to_string(),
            file: self.write(i, &capture),
            capture: Some(capture),
        }
    }

    /// A file of so many zeros, which take no room on most file systems.
    pub fn zeros(&self, i: usize, length: u64) -> String {
        let name = self.name(i);
        let file = File::create(&name).expect("a file");
        file.set_len(length).expect("a long file");
        name
    }
}

impl Drop for Files {
    fn drop(&mut self) {
        // what is left behind stands under target/
        drop(fs::remove_dir_all(&self.folder));
    }
}

/// A line as it is typed: most often one of a few.
fn typed(rng: &Rng, lines: usize) -> String {
    match rng.below(16) {
        0 => rng.pick(&NO_NUMBERS).to_owned(),
        1 => rng.pick(&PAST).to_string(),
        2 => rng.pick(&[0, 1, 62, 63]).to_string(),
        _ => rng.below(lines).to_string(),
    }
}

/// How many pieces a capture has: at times more than the program reads at once.
fn pieces(rng: &Rng) -> u64 {
    match rng.below(100) {
        0 => 7_000,
        _ => rng.pick(&[0, 1, 2, 3, 5, 10, 50, 130]),
    }
}

/// A set of captures of up to so many pieces, and how many they have: several on one line, at times one through a pipe, a file
/// that is not there, a folder, or the same file again.
pub fn set(rng: &Rng, files: &Files, most: u64) -> (u64, Vec<Entry>) {
    let lines = rng.pick(&[1, 2, 5, 64]);
    let mut entries: Vec<Entry> = Vec::new();
    let mut left = most;
    for i in 0..rng.below(12) {
        let piped = entries.iter().any(|entry| entry.file == PIPE);
        let (file, capture) = match (rng.below(24), entries.last()) {
            (0, _) => (files.name(MISSING), None),
            (1, _) => (files.name(FOLDER), None),
            // a pipe has nothing more to say
            (2, Some(last)) if last.file != PIPE => (last.file.clone(), last.capture.clone()),
            (kind, _) => {
                let size = pieces(rng).min(left);
                left -= size;
                let mut capture = make::capture(rng, size as usize);
                if rng.once_in(2) {
                    capture = flow::strewn(rng, &capture);
                }
                let file = match kind {
                    3 if !piped => PIPE.to_owned(),
                    _ => files.write(i, &capture),
                };
                (file, Some(capture))
            }
        };
        entries.push(Entry {
            line: typed(rng, lines),
            file,
            capture,
        });
    }
    (most - left, entries)
}

/// Two DATA of one number, the second a repeat, with an escape in both, and between them a DATA of another with a bad pair, which is
/// none, so that the end of a read falls on each of their octets. At level 1 flow control stands on both sides of each.
pub fn across_reads(rng: &Rng, level: u8, files: &Files) -> Vec<Entry> {
    let parted = |body: &[u8]| match level {
        0 => body.to_vec(),
        _ => body.iter().flat_map(|&x| [0x13, x, 0x11]).collect(),
    };
    let body = parted(&qaft::body(level, Check::Sum, &[0x43, FLAG, 0x41]));
    let odd = parted(&[0x44, ESCAPE, 0x61, 0x7B]);
    let frames = [&[FLAG], &body[..], &[FLAG], &odd, &[FLAG], &body, &[FLAG]].concat();
    let entry = |i: usize| {
        let mut capture = Vec::new();
        while capture.len() < 2 * READ {
            capture.extend(make::capture(rng, 1_000));
        }
        capture.truncate(rng.pick(&[READ, 2 * READ]) - i);
        capture.extend(&frames);
        files.entry(i, i, capture)
    };
    (0..=frames.len()).map(entry).collect()
}

/// 7D before every octet, and before some around the limits: all in one file, and so in several reads. And a frame of the longest data
/// with flow control behind it, which is one at level 1 alone.
pub fn at_limits(files: &Files) -> Vec<Entry> {
    let body = qaft::body(1, Check::Sum, &[0x43; MAX_DATA]);
    let frame = [&[FLAG], &body[..], &[0x11, FLAG]].concat();
    vec![
        files.entry(0, 7, make::each_pair().concat()),
        files.entry(1, 8, frame),
    ]
}

/// Each pair of arguments that can't be counted, and a capture through a pipe that can.
pub fn each_refusal(rng: &Rng, files: &Files) -> Vec<Entry> {
    let words = NO_NUMBERS.map(str::to_owned).into_iter();
    let words = words.chain(PAST.map(|line| line.to_string())).enumerate();
    let refused = words.map(|(i, line)| Entry {
        line,
        ..files.entry(i, 0, make::capture(rng, 5))
    });
    let unread = [MISSING, FOLDER].map(|i| Entry {
        line: "3".to_owned(),
        file: files.name(i),
        capture: None,
    });
    let piped = Entry {
        line: "3".to_owned(),
        file: PIPE.to_owned(),
        capture: Some(make::capture(rng, 500)),
    };
    refused.chain(unread).chain([piped]).collect()
}

/// The captures of examples/, of both framings, each on a line of its own.
pub fn all_examples() -> Vec<Entry> {
    let paths = examples(&["cap", "kiss"]).into_iter().enumerate();
    let entry = |(i, path): (usize, PathBuf)| Entry {
        line: i.to_string(),
        file: path.to_str().expect("text").to_owned(),
        capture: Some(fs::read(&path).expect("a capture")),
    };
    paths.map(entry).collect()
}
