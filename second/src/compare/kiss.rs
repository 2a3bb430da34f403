//! KISS: the frame writer, the chunk reader from states of every kind and over lines in random portions, and the conversions of whole
//! captures.
use super::tally::{hex, Out, Tally};
use super::{flow, pairs};
use crate::archive::kiss::{self as archive, RawReader};
use second::check::Check;
use second::kiss::reader::{self, State, MANY, STORE};
use second::kiss::{self, Converted};
use second::qaft;
use second::reader::Answer;
use second::rng::Rng;

pub const READER_NUMBERS: [u8; 8] = [4, 5, 10, 15, 60, 61, 62, 63];

/// Octets with many of those that KISS or QAFT escapes, and of those that stand for them.
fn octets(rng: &Rng, length: usize) -> Vec<u8> {
    let mut octets = rng.octets(length);
    let special = rng.pick(&[0, 1, 4, 8]);
    for x in &mut octets {
        if rng.below(8) < special {
            *x = rng.pick(&[0xC0, 0xDB, 0xDC, 0xDD, 0x00, 0x7E, 0x7D, 0x11, 0x13]);
        }
    }
    octets
}

fn write_one(rng: &Rng, payload: &[u8], tally: &mut Tally) {
    let at_flag = rng.once_in(2);
    let length = usize::from(!at_flag) + kiss::body(payload).len() + 1;
    let room = match rng.below(6) {
        0 => rng.below(2 * length),
        1 => length - 1,
        2 => 0,
        n => length + n - 3,
    };
    let seed = rng.octet();
    let (mut ours, mut archive) = (Out::new(room, seed), Out::new(room, seed));
    let written = kiss::write(at_flag, payload, ours.room());
    let by_archive = archive::write(at_flag, payload, archive.room());
    tally.number(written.number);
    tally.input(&(written, ours), &(by_archive, archive), || {
        format!("at_flag {at_flag}, room {room}, payload {}", hex(payload))
    });
}

pub fn writer(rng: &Rng, count: u64, tally: &mut Tally) {
    for x in 0..=255 {
        write_one(rng, &[x], tally);
    }
    for _ in 0..count {
        let length = match rng.below(16) {
            0 => rng.pick(&[0, 1, 2559, 2560, 2561, 2562]),
            1 => rng.below(2_600),
            _ => rng.below(40),
        };
        write_one(rng, &octets(rng, length), tally);
    }
}

/// A state: most often one that a line leads to, at the borders of the count too.
fn state(rng: &Rng) -> State {
    let count = match rng.below(4) {
        0 => rng.pick(&[STORE - 2, STORE - 1, STORE, MANY, MANY + 1, usize::MAX]),
        1 => rng.below(STORE),
        _ => rng.below(4),
    };
    let empty = count == 0 && !rng.once_in(8);
    State {
        flag: !rng.once_in(6),
        pending: rng.once_in(3),
        count,
        kind: if empty {
            0
        } else {
            rng.pick(&[0, 0, 1, 0x10, 0xC0, rng.octet()])
        },
        bad: !empty && rng.once_in(4),
    }
}

/// One call, with numbers for the bools of the state; the state that the second program goes on with, and its answer.
fn read_one(
    from: State,
    portion: &[u8],
    room: usize,
    rng: &Rng,
    tally: &mut Tally,
) -> (State, Answer) {
    let seed = rng.octet();
    let (mut ours, mut archive) = (Out::new(room, seed), Out::new(room, seed));
    let truth = |b: bool| if b { rng.between(1, 255) as u8 } else { 0 };
    let raw = RawReader {
        synced: truth(from.flag),
        pending: truth(from.pending),
        bad_escape: truth(from.bad),
        ..from.into()
    };
    let (next, answer) = reader::read(from, portion, ours.room());
    // a refusal gives the very numbers back that came
    let later = match answer.number {
        4 | 5 => raw,
        _ => next.into(),
    };
    let by_archive = archive::read(raw, portion, archive.room());
    tally.number(answer.number);
    tally.input(&((later, answer), ours), &(by_archive, archive), || {
        format!("{raw:X?}, room {room}, portion {}", hex(portion))
    });
    (next, answer)
}

/// A line of frames, of this port and others, damaged ones, noise and overlong segments.
fn line(rng: &Rng) -> Vec<u8> {
    let mut line = octets(rng, rng.pick(&[0, 0, 1, 5]));
    for _ in 0..rng.between(1, 4) {
        line.push(kiss::FEND);
        let length = match rng.below(24) {
            0 => rng.between(STORE - 3, MANY + 2),
            _ => rng.between(0, 20),
        };
        let kind = rng.pick(&[0, 0, 0, 0x10, 0x01, 0xC0, rng.octet()]);
        let mut body = kiss::escaped(&[&[kind], &octets(rng, length)[..]].concat());
        if rng.once_in(4) {
            let i = rng.below(body.len());
            body[i] = rng.pick(&[0xDB, 0xC0, rng.octet()]);
        }
        if rng.once_in(8) {
            body.push(kiss::FESC);
        }
        line.extend(body);
    }
    if !rng.once_in(3) {
        line.push(kiss::FEND);
    }
    line
}

pub fn reader(rng: &Rng, count: u64, tally: &mut Tally) {
    let fresh = State::default();
    tally.input(&RawReader::from(fresh), &archive::fresh(), || {
        "fresh".to_owned()
    });
    for _ in 0..count / 2 {
        let portion = match rng.below(4) {
            0 => line(rng),
            _ => octets(rng, rng.pick(&[0, 1, 2, 3, 8, 30])),
        };
        let room = rng.pick(&[0, STORE - 1, STORE, STORE + 1, STORE + 100]);
        read_one(state(rng), &portion, room, rng, tally);
    }
    for _ in 0..count / 8 {
        let line = line(rng);
        let (mut now, mut at) = (fresh, 0);
        while at < line.len() {
            let end = at + rng.below(line.len() - at + 2).min(line.len() - at);
            loop {
                let (next, answer) = read_one(now, &line[at..end], STORE, rng, tally);
                (now, at) = (next, at + answer.taken);
                if answer.number == 15 {
                    break;
                }
            }
        }
    }
}

type Convert = fn(u8, &[u8], &mut [u8]) -> Converted;

fn level(rng: &Rng) -> u8 {
    match rng.below(16) {
        0 => rng.octet(),
        n => (n % 2) as u8,
    }
}

/// One conversion of a whole capture, with room for its line, just not, or any.
fn convert_one(
    rng: &Rng,
    level: u8,
    capture: &[u8],
    [ours, archive]: [Convert; 2],
    tally: &mut Tally,
) {
    let length = ours(level % 2, capture, &mut vec![0; 4 * capture.len() + 16]).length;
    let room = match rng.below(4) {
        0 => rng.below(length + 2),
        1 => length.saturating_sub(1),
        n => length + n - 2,
    };
    let seed = rng.octet();
    let (mut by_ours, mut by_archive) = (Out::new(room, seed), Out::new(room, seed));
    let given = ours(level, capture, by_ours.room());
    let told = archive(level, capture, by_archive.room());
    tally.number(given.number);
    tally.input(&(given, by_ours), &(told, by_archive), || {
        format!("level {level}, room {room}, capture {}", hex(capture))
    });
}

/// Flow control put into a level 1 capture, of the archive alone: what is written and told is the same.
fn same_conversion(rng: &Rng, capture: &[u8], tally: &mut Tally) {
    let room = 2 * capture.len() + 16;
    let [without, with] = [capture, &flow::strewn(rng, capture)].map(|capture| {
        let mut out = vec![0; room];
        (archive::from_qaft(1, capture, &mut out), out)
    });
    tally.claim(
        "11 and 13 put into a level 1 capture change no conversion",
        without == with,
    );
}

/// A capture of QAFT frames, damaged ones and overlong segments; one in three with odd pairs.
fn qaft_capture(rng: &Rng) -> Vec<u8> {
    let mut capture = octets(rng, rng.below(6));
    for _ in 0..rng.below(5) {
        capture.push(qaft::FLAG);
        let length = if rng.once_in(60) {
            rng.between(2_500, 2_570)
        } else {
            rng.between(1, 20)
        };
        let mut body = qaft::body(rng.below(2) as u8, Check::Sum, &octets(rng, length));
        if rng.once_in(4) {
            let i = rng.below(body.len());
            body[i] = rng.octet();
        }
        match rng.below(16) {
            0 => body.clear(),
            1 => body.push(qaft::ESCAPE),
            2 if rng.once_in(8) => body = pairs::near_limit(rng, Check::Sum),
            _ => {}
        }
        capture.extend(body);
    }
    capture.push(qaft::FLAG);
    if rng.once_in(3) {
        capture = pairs::strewn(rng, &capture);
    }
    capture
}

fn from_qaft_one(rng: &Rng, level: u8, capture: &[u8], tally: &mut Tally) {
    flow::count(level, Check::Sum, capture, tally);
    pairs::count(level, Check::Sum, capture, tally);
    let ways = [kiss::from_qaft, archive::from_qaft];
    convert_one(rng, level, capture, ways, tally);
}

pub fn from_qaft(rng: &Rng, count: u64, tally: &mut Tally) {
    flow::came_up(&[0, 1], tally);
    pairs::came_up(&[0, 1], tally);
    for segment in pairs::each_of_qaft() {
        let capture = [&[qaft::FLAG], &segment[..], &[qaft::FLAG]].concat();
        for level in [0, 1] {
            from_qaft_one(rng, level, &capture, tally);
        }
    }
    for _ in 0..count {
        let mut capture = qaft_capture(rng);
        same_conversion(rng, &capture, tally);
        if rng.once_in(2) {
            capture = flow::strewn(rng, &capture);
        }
        from_qaft_one(rng, level(rng), &capture, tally);
    }
}

pub fn to_qaft(rng: &Rng, count: u64, tally: &mut Tally) {
    for _ in 0..count {
        // several lines one after another, so that a capture takes more than one call of the converter
        let mut capture = line(rng);
        while rng.once_in(3) {
            capture.extend(line(rng));
        }
        let ways = [kiss::to_qaft, archive::to_qaft];
        convert_one(rng, level(rng), &capture, ways, tally);
    }
}
