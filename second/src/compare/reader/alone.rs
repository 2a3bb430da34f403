//! Lines that the archive reads by itself, with one buffer from portion to portion: compared with the second program's reports on
//! whole lines, and sentences of the requests checked of the archive alone.
use super::super::flow::{self, is_flow};
use super::super::tally::{hex, Tally};
use crate::archive::{self, RawReader};
use second::check::Check;
use second::qaft::{self, Report, FLAG};
use second::reader::{Answer, State};
use second::rng::Rng;

/// What has to come up.
const WITH_AND_WITHOUT: &str = "reports with and without 11 and 13";
const FRAMES: [&str; 2] = at_levels!("frames written again");

pub fn came_up(tally: &mut Tally) {
    for name in [WITH_AND_WITHOUT, FRAMES[0], FRAMES[1]] {
        tally.count(name, 0);
    }
}

/// What the archive makes of a line: its reports with the data of frames, and the state and the buffer at the end.
pub struct Line {
    pub reports: Vec<(u8, Vec<u8>)>,
    end: (RawReader, Vec<u8>),
}

/// A line in portions, by the archive.
pub fn by_archive(rng: &Rng, level: u8, check: Check, line: &[u8], tally: &mut Tally) -> Line {
    let most = rng.pick(&[1, 3, 100, 9_000]);
    let mut now = archive::qaft_fresh(level, check.kind());
    let mut store = vec![0xAA; check.longest()];
    let mut reports = Vec::new();
    let mut at = 0;
    while at < line.len() {
        let end = line.len().min(at + rng.between(1, most));
        let (next, answer) = archive::qaft_read(now, &line[at..end], &mut store);
        now = next;
        at += answer.taken;
        if answer.number != 15 {
            reports.push((answer.number, store[..answer.length].to_vec()));
        }
        if answer.taken == 0 {
            // a refusal: it would be the answer for ever
            break;
        }
        if answer.number == 10 {
            exact(level, check, &line[..at], &store[..answer.length], tally);
        }
    }
    let end = (now, store);
    Line { reports, end }
}

/// Request 2026-04: the segment that the last octet closes was reported as a frame, so it is, flow control at level 1 set aside, what
/// the archive's writer makes of the frame's data.
fn exact(level: u8, check: Check, line: &[u8], data: &[u8], tally: &mut Tally) {
    let open = &line[..line.len() - 1];
    let segment = open.rsplit(|&x| x == FLAG).next().unwrap_or_default();
    let mut body: Vec<u8> = match level {
        0 => segment.to_vec(),
        _ => segment.iter().copied().filter(|&x| !is_flow(x)).collect(),
    };
    body.push(FLAG);
    let mut out = vec![0; check.max_frame()];
    let written = archive::qaft_write(level, check.kind(), true, data, &mut out);
    let at = usize::from(level);
    tally.count(FRAMES[at], 1);
    let claims = [
        "a frame of level 0 stands on the line as the writer writes it",
        "a frame of level 1 stands on the line, 11 and 13 set aside, as the writer writes it",
    ];
    let holds = written.number == 0 && out[..written.length] == body;
    tally.claim(claims[at], holds);
}

/// The same of a call, where the frame's segment stands whole in the portion, and so its data in the buffer.
pub fn frame(from: State, portion: &[u8], answer: Answer, store: &[u8], tally: &mut Tally) {
    let (10, Some(check)) = (answer.number, Check::of(from.kind)) else {
        return;
    };
    let taken = &portion[..answer.taken];
    if taken.iter().filter(|&&x| x == FLAG).count() > 1 {
        exact(from.level, check, taken, &store[..answer.length], tally);
    }
}

/// A whole line: the archive's reports in portions, and the second program's on the whole.
pub fn whole(rng: &Rng, level: u8, check: Check, line: &[u8], tally: &mut Tally) {
    let numbered = |report: Report| {
        let number = report.number();
        match report {
            Report::Frame(data) => (number, data),
            _ => (number, Vec::new()),
        }
    };
    let reports = qaft::read_line(level, check, line).reports.into_iter();
    let ours: Vec<(u8, Vec<u8>)> = reports.map(numbered).collect();
    let archive = by_archive(rng, level, check, line, tally).reports;
    for (number, _) in &ours {
        tally.number(*number);
    }
    tally.input(&ours, &archive, || {
        format!("level {level}, whole line {}", hex(line))
    });
}

/// Every segment of so many octets, of every value, at both levels.
pub fn each_segment(rng: &Rng, check: Check, size: u32, tally: &mut Tally) {
    for n in 0..1_u32 << (8 * size) {
        let octets = n.to_le_bytes();
        let line = [&[FLAG], &octets[..size as usize], &[FLAG]].concat();
        for level in [0, 1] {
            whole(rng, level, check, &line, tally);
        }
    }
}

/// Demand 2 by request 2026-02, of the archive alone: a level 1 line, and the same with flow control put in, each cut in its own way.
pub fn same_reports(rng: &Rng, check: Check, line: &[u8], tally: &mut Tally) {
    let without = by_archive(rng, 1, check, line, tally);
    let with = by_archive(rng, 1, check, &flow::strewn(rng, line), tally);
    tally.count(WITH_AND_WITHOUT, without.reports.len() as u64);
    tally.claim(
        "11 and 13 put into a level 1 line change no report",
        with.reports == without.reports,
    );
    tally.claim(
        "11 and 13 put into a level 1 line change neither state nor buffer",
        with.end == without.end,
    );
}
