//! Printed lines of the sheet.
use super::*;

#[test]
fn shares() {
    let printed = |reports: [u32; 6]| {
        let mut record = [0; COUNTS];
        record[REPORTS].copy_from_slice(&reports);
        let text = line(0, &record);
        text.trim_end().rsplit(' ').next().map(str::to_owned)
    };
    let share = |reports, text: &str| assert_eq!(printed(reports), Some(text.to_owned()));
    share([0; 6], "0/1");
    share([3, 0, 0, 0, 6, 0], "2/3");
    share([0, 1, 1, 1, 6, 0], "2/3");
    share([0, 1, 0, 1, 6, 1], "2/3");
    share([0, 0, 0, 0, 1, 2], "1/3");
    share([0, 0, 0, 0, 6, 0], "1/1");
    share([0, 0, 0, 0, 0, 6], "0/1");
    share([5, 4, 3, 2, 0, 1], "0/1");
    share([MOST; 6], "1/6");
    share([6, 0, 0, 0, 1, 0], "1/7");
    // all reports need more than 32 bits
    share([MOST, 1, 0, 0, 2, 0], "1/2147483649");
    share(
        [MOST, MOST, MOST, MOST - 1, MOST, MOST],
        "4294967295/25769803769",
    );
}

/// The longest line there is, in the room that is asked for.
#[test]
fn longest_line() {
    let mut record = [MOST; COUNTS];
    record[REPORTS.start] = MOST - 1;
    let text = line(usize::MAX, &record);
    assert_eq!((text.len(), LONGEST_LINE, MAX_LINE), (198, 198, 357));
    let mut out = [0xAA; MAX_LINE + 1];
    assert_eq!(put_line(usize::MAX, &record, &mut out[..MAX_LINE - 1]), 0);
    assert_eq!(out, [0xAA; MAX_LINE + 1]);
    let room = &mut out[..MAX_LINE];
    assert_eq!(put_line(usize::MAX, &record, room), LONGEST_LINE);
    let (front, behind) = out.split_at(LONGEST_LINE);
    assert_eq!(front, text.as_bytes());
    assert_eq!(behind, [0xAA; MAX_LINE + 1 - LONGEST_LINE]);
    // the room that is asked for does not depend on the line
    assert_eq!(put_line(0, &[0; COUNTS], &mut out[..MAX_LINE - 1]), 0);
    assert_eq!(put_line(0, &[0; COUNTS], &mut out), 34);
}

#[test]
fn whole_sheet() {
    assert_eq!(sheet(&[]), "");
    let mut table = [[0; COUNTS]; 3];
    assert_eq!(tally(0, &PAPER, 1, &mut table), 0);
    assert_eq!(
        sheet(&table),
        [
            "0 0 0 0 0 0 0 0 0 0 0 0 0 0 0 0/1",
            "1 1 5 6 1 0 1 1 0 1 0 0 1 0 0 0/1",
            "2 0 0 0 0 0 0 0 0 0 0 0 0 0 0 0/1",
            "",
        ]
        .join("\n")
    );
    // every record of a table that is longer than the lines go
    assert_eq!(sheet(&[[0; COUNTS]; 66]).lines().count(), 66);
}
