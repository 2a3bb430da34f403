//! The text that the listing programs print of a capture.
use crate::check::Check;
use crate::{kiss, qaft};
use std::fmt::Write;

fn frame(data: &[u8]) -> String {
    let mut text = format!("frame {} ", data.len());
    for x in data {
        write!(text, "{x:02X}").expect("a String takes all text");
    }
    text
}

fn qaft_details(report: &qaft::Report) -> String {
    match report {
        qaft::Report::Frame(data) => frame(data),
        qaft::Report::Aborted => "aborted".into(),
        qaft::Report::Long => "long".into(),
        qaft::Report::Short => "short".into(),
        qaft::Report::Bad => "bad".into(),
        qaft::Report::Pair => "pair".into(),
    }
}

fn kiss_details(report: &kiss::Report) -> String {
    match report {
        kiss::Report::Frame(payload) => frame(payload),
        kiss::Report::BadEscape => "escape".into(),
        kiss::Report::Short => "short".into(),
        kiss::Report::Long => "long".into(),
        kiss::Report::Skipped => "skipped".into(),
    }
}

/// A whole listing; its last line ends in a newline too.
fn text(
    heading: &str,
    details: impl Iterator<Item = String>,
    before: usize,
    after: usize,
) -> String {
    let mut text = format!("{heading}\n");
    let mut reports = 0;
    for words in details {
        reports += 1;
        text += &format!("{reports} {words}\n");
    }
    text + &format!("end {reports} before {before} after {after}\n")
}

pub fn listing(level: u8, capture: &[u8]) -> String {
    let line = qaft::read_line(level, Check::Sum, capture);
    let heading = format!("QAFT listing level {level}");
    text(
        &heading,
        line.reports.iter().map(qaft_details),
        line.before,
        line.after,
    )
}

pub fn kiss_listing(capture: &[u8]) -> String {
    let line = kiss::read_line(capture);
    text(
        "KISS listing",
        line.reports.iter().map(kiss_details),
        line.before,
        line.after,
    )
}
