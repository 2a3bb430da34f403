//! What comes up of frames at the borders of each refusal, and which refusals meet in one frame.
use super::super::make;
use super::super::tally::Tally;
use super::{octet, pointed_at, right_sum};
use second::afp::{self, is_id, Part, Receiver, STATIONS};

/// Answers, and how the field of a station lies.
const BROADCAST: &str = "broadcasts";
const STATION: &str = "stations";
const SECOND: &str = "stations of the second ID";
const LATER: &str = "stations of a later ID";
const NO_ID: &str = "stations at a place where no station field begins";
const ENDS_AT_LAST: &str = "stations whose field ends three before the data offset";
const SUM_FF: &str = "stations whose sum of FF stands as 0";
const NO_DATA: &str = "stations of a frame without data";

/// Refusals.
const OVER: &str = "34 by an offset one over the frame's length less 2";
const LOW: &str = "36 by 1 to 6";
const ONE_BEFORE: &str = "36 by one before the data offset";
const HIGH: &str = "36 by the data offset or more";
const TWO_BEFORE: &str = "35 by two before the data offset";
const THREE_BEFORE: &str = "35 by three before the data offset";
const ENDS_LATE: &str = "35 by an ID alone that ends two before the data offset";
const PAST_FRAME: &str = "35 by a field that runs over the frame's end";
const RULE: &str = "35 by the ID rule alone";
const TO_ALL: &str = "37 in a broadcast";
const FF_AS_FF: &str = "37 by a sum of FF that stands as FF";

const NAMES: [&str; 19] = [
    BROADCAST,
    STATION,
    SECOND,
    LATER,
    NO_ID,
    ENDS_AT_LAST,
    SUM_FF,
    NO_DATA,
    OVER,
    LOW,
    ONE_BEFORE,
    HIGH,
    TWO_BEFORE,
    THREE_BEFORE,
    ENDS_LATE,
    PAST_FRAME,
    RULE,
    TO_ALL,
    FF_AS_FF,
];

/// Pairs of faults that one frame has, each by its own sentence, in the order of the refusals.
const MEET: [(u8, u8, &str); 10] = [
    (30, 34, "30 before 34"),
    (30, 36, "30 before 36"),
    (30, 35, "30 before 35"),
    (30, 37, "30 before 37"),
    (34, 36, "34 before 36"),
    (34, 35, "34 before 35"),
    (34, 37, "34 before 37"),
    (36, 35, "36 before 35"),
    (36, 37, "36 before 37"),
    (35, 37, "35 before 37"),
];

pub fn came_up(tally: &mut Tally) {
    let meet = MEET.map(|(_, _, name)| name);
    for name in NAMES.into_iter().chain(meet) {
        tally.count(name, 0);
    }
}

/// Counts what a frame and its answer bring up.
pub fn count(frame: &[u8], receiver: Receiver, tally: &mut Tally) {
    let names = match receiver {
        Receiver::Broadcast => vec![BROADCAST],
        Receiver::Station(field) => station(frame, field),
        Receiver::Refused(number) => refused(frame, number).into_iter().collect(),
    };
    names.into_iter().for_each(|name| tally.count(name, 1));
    meetings(frame, receiver.number(), tally);
}

fn station(frame: &[u8], Part { place, size }: Part) -> Vec<&'static str> {
    let offset = usize::from(frame[3]);
    let places = make::places(&frame[STATIONS..offset]);
    let id = places.iter().position(|at| STATIONS + at == place);
    let which = match id {
        Some(1) => SECOND,
        Some(_) => LATER,
        None => NO_ID,
    };
    let sum = afp::sum(&frame[place..place + size]);
    let others = [
        (ENDS_AT_LAST, place + size == offset - 2),
        (SUM_FF, sum == 0xFF),
        (NO_DATA, frame.len() == offset + 2),
    ];
    let others = others.into_iter().filter(|(_, is)| *is);
    let others = others.map(|(name, _)| name);
    [STATION, which].into_iter().chain(others).collect()
}

fn refused(frame: &[u8], number: u8) -> Option<&'static str> {
    let offset = usize::from(octet(frame, 3));
    let place = usize::from(octet(frame, 4));
    let field = pointed_at(frame);
    match number {
        34 => (offset + 1 == frame.len()).then_some(OVER),
        36 if place < offset - 1 => Some(LOW),
        36 if place == offset - 1 => Some(ONE_BEFORE),
        36 => Some(HIGH),
        35 if place == offset - 2 => Some(TWO_BEFORE),
        35 if place == offset - 3 => Some(THREE_BEFORE),
        35 if field.end <= offset - 2 => Some(RULE),
        35 if field.len() <= usize::from(frame[place]) => Some(PAST_FRAME),
        35 => (field.end == offset - 1 && is_id(&frame[place + 1..field.end])).then_some(ENDS_LATE),
        37 if place == 0 => Some(TO_ALL),
        37 => (frame[0] == 0xFF && afp::sum(&frame[field]) == 0xFF).then_some(FF_AS_FF),
        _ => None,
    }
}

/// Whether a frame has the fault of a refusal, whatever else is wrong with it.
fn has_fault(frame: &[u8], number: u8) -> bool {
    let (offset, place) = (usize::from(frame[3]), usize::from(frame[4]));
    let field = pointed_at(frame);
    match number {
        30 => !(14..=2560).contains(&frame.len()),
        34 => !(12..=254).contains(&offset) || offset + 2 > frame.len(),
        36 => place != 0 && !(7 <= place && place + 2 <= offset),
        35 if place == 0 => false,
        35 => field.end + 2 > offset || !is_id(frame.get(place + 1..field.end).unwrap_or_default()),
        _ => frame[0] != right_sum(frame),
    }
}

/// Two faults in one frame: the answer is not the later one's.
fn meetings(frame: &[u8], answer: u8, tally: &mut Tally) {
    if frame.len() < 5 {
        return;
    }
    for (first, second, name) in MEET {
        if answer == first && has_fault(frame, second) {
            tally.count(name, 1);
        }
    }
}
