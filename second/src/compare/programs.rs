//! The programs that convert captures, run as processes: what they write is the line that the archive's function for a whole
//! capture writes, and the second program's; their last line has the counts of both.
use super::captures::{Framing, KISS, QAFT};
use super::process::{by_datagrams, by_pipe, examples, program, run, Run};
use super::tally::{hex, Tally};
use super::{flow, listing, pairs};
use crate::archive::kiss as archive;
use second::kiss::{self, Converted};
use second::rng::Rng;
use std::fs::File;
use std::io::{self, Read, Write};
use std::os::fd::OwnedFd;
use std::os::unix::net::UnixStream;
use std::time::Duration;

pub const FROM_QAFT: [u8; 6] = listing::NUMBERS;
pub const TO_QAFT: [u8; 5] = listing::KISS_NUMBERS;

/// How many portions are sent one by one, and how long a program may take over each.
const PORTIONS: usize = 50;
const PATIENCE: Duration = Duration::from_secs(20);

type Convert = fn(u8, &[u8], &mut [u8]) -> Converted;

/// A way to convert: the program of level 0, the framing of its captures, the two functions for whole captures, and what is counted
/// of a capture and of its reads.
struct Way {
    name: &'static str,
    framing: Framing,
    ours: Convert,
    archive: Convert,
    count: listing::Count,
    reads: listing::Reads,
}

const OUT_OF_QAFT: Way = Way {
    name: "qaft_to_kiss",
    framing: QAFT,
    ours: kiss::from_qaft,
    archive: archive::from_qaft,
    count: listing::count_qaft,
    reads: listing::count_reads,
};

const INTO_QAFT: Way = Way {
    name: "kiss_to_qaft",
    framing: KISS,
    ours: kiss::to_qaft,
    archive: archive::to_qaft,
    count: listing::count_kiss,
    reads: |_, _, _| {},
};

/// What a program has to write of a capture, by a function for whole captures.
fn expected(convert: Convert, level: u8, capture: &[u8]) -> Run {
    let mut line = vec![0; 4 * capture.len() + 16];
    let told = convert(level, capture, &mut line);
    assert_eq!(told.number, 0, "there is room for every line");
    line.truncate(told.length);
    Run {
        good: true,
        output: line,
        messages: format!(
            "frames {} skipped {} other {}\n",
            told.frames, told.skipped, told.others
        ),
    }
}

impl Way {
    fn program(&self, level: u8) -> String {
        let suffix = ["", "_level1"][usize::from(level)];
        format!("{}{suffix}", self.name)
    }

    /// Compares what the program and the archive's function have made of a capture.
    fn one(&self, level: u8, pieces: u64, capture: &[u8], seen: Run, tally: &mut Tally) {
        (self.count)(level, capture, tally);
        let ours = expected(self.ours, level, capture);
        let whole = expected(self.archive, level, capture);
        tally.inputs(pieces, &[ours.clone(), ours], &[whole, seen], || {
            format!("{}, capture {}", self.program(level), hex(capture))
        });
    }

    /// The captures of examples/, of both framings: any octets are a capture.
    fn examples(&self, level: u8, tally: &mut Tally) {
        for path in examples(&["cap", "kiss"]) {
            let capture = std::fs::read(&path).expect("a capture");
            let file = File::open(&path).expect("a capture");
            let seen = run(program(&self.program(level)), file, || Ok(()));
            self.one(level, 1, &capture, seen, tally);
            tally.count("captures of examples/", 1);
        }
    }

    /// A portion's frames are written before the next portion is sent.
    fn at_once(&self, level: u8, rng: &Rng, tally: &mut Tally) {
        let (_, portions) = self.framing.many_reads(rng);
        let (reader, mut writer) = io::pipe().expect("a pipe");
        let (mut ours, theirs) = UnixStream::pair().expect("two sockets");
        ours.set_read_timeout(Some(PATIENCE)).expect("a timeout");
        let mut command = program(&self.program(level));
        let started = command.stdin(reader).stdout(OwnedFd::from(theirs)).spawn();
        // our own ends of its input and output go, so that an end shows
        drop(command);
        let (mut capture, mut written) = (Vec::new(), Vec::new());
        for portion in portions.iter().take(PORTIONS) {
            capture.extend(portion);
            let line = expected(self.ours, level, &capture).output;
            let mut more = vec![0; line.len() - written.len()];
            let came = writer
                .write_all(portion)
                .and_then(|()| ours.read_exact(&mut more));
            written.extend(more);
            tally.claim(
                "frames are written before the next read",
                came.is_ok() && written == line,
            );
        }
        drop(writer);
        let rest = ours.read_to_end(&mut written);
        tally.claim("nothing is written behind them", rest.is_ok_and(|n| n == 0));
        started
            .and_then(|mut child| child.wait())
            .expect("a program runs");
    }

    /// A read or a write that fails is said, by the program's name without its level.
    fn failures(&self, level: u8, tally: &mut Tally) {
        let (name, folder) = (self.name, File::open("/").expect("a folder"));
        let seen = run(program(&self.program(level)), folder, || Ok(()));
        let unread = Run {
            good: true,
            output: Vec::new(),
            messages: format!("{name}: standard input can't be read\nframes 0 skipped 0 other 0\n"),
        };
        tally.claim("a read that fails is said", seen == unread);

        let (_, capture) = self.framing.each_segment();
        let (reader, mut writer) = io::pipe().expect("a pipe");
        let full = File::options()
            .write(true)
            .open("/dev/full")
            .expect("/dev/full");
        let mut command = program(&self.program(level));
        command.stdout(full);
        let seen = run(command, reader, move || writer.write_all(&capture));
        let unwritten = Run {
            messages: format!("{name}: standard output can't be written\n"),
            ..unread
        };
        tally.claim("a write that fails is said", seen == unwritten);
    }

    fn compare(&self, rng: &Rng, count: u64, tally: &mut Tally) {
        for level in [0, 1] {
            let name = self.program(level);
            self.examples(level, tally);
            self.failures(level, tally);
            self.at_once(level, rng, tally);
            let (pieces, portions) = self.framing.many_reads(rng);
            (self.reads)(level, &portions, tally);
            let seen = by_datagrams(&name, &portions);
            self.one(level, pieces, &portions.concat(), seen, tally);
            let (pieces, capture) = self.framing.each_segment();
            let seen = by_pipe(&name, std::slice::from_ref(&capture));
            self.one(level, pieces, &capture, seen, tally);
        }
        for (pieces, portions) in self.framing.captures(rng, count) {
            let level = rng.below(2) as u8;
            let seen = by_pipe(&self.program(level), &portions);
            self.one(level, pieces, &portions.concat(), seen, tally);
        }
    }
}

pub fn from_qaft(rng: &Rng, count: u64, tally: &mut Tally) {
    flow::came_up(&[0, 1], tally);
    pairs::came_up(&[0, 1], tally);
    OUT_OF_QAFT.compare(rng, count, tally);
}

pub fn to_qaft(rng: &Rng, count: u64, tally: &mut Tally) {
    INTO_QAFT.compare(rng, count, tally);
}
