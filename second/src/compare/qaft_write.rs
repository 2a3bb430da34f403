//! The QAFT frame writer with each check: first a grid on which every pair of refusals meets, then random inputs.
use super::checks;
use super::make::octets;
use super::tally::{hex, Out, Tally};
use crate::archive;
use second::check::Check;
use second::rng::Rng;
use second::{longest, qaft};

pub const NUMBERS: [u8; 6] = [0, 1, 2, 3, 6, 7];

const LEVELS: [u8; 6] = [0, 1, 2, 3, 128, 255];
const NO_KINDS: [u8; 4] = [2, 3, 128, 255];
const LENGTHS: [usize; 7] = [0, 1, 2559, 2560, 2561, 2562, 2563];

/// How much room the out buffer has, by the frame's length where there is a frame.
#[derive(Clone, Copy)]
enum Room {
    Frame,
    Less,
    More,
    Any,
    Exactly(usize),
}

const ROOMS: [Room; 9] = [
    Room::Frame,
    Room::Less,
    Room::More,
    Room::Exactly(0),
    Room::Exactly(Check::Sum.max_frame() - 1),
    Room::Exactly(Check::Sum.max_frame()),
    Room::Exactly(Check::Fcs.max_frame() - 1),
    Room::Exactly(Check::Fcs.max_frame()),
    Room::Exactly(Check::Fcs.max_frame() + 1),
];

/// What has to come up.
const LONGEST_FRAMES: [&str; 2] = at_levels!("frames of the greatest length on the line");

/// What is asked of the writer, but for room and flag.
struct Input<'a> {
    level: u8,
    kind: u8,
    data: &'a [u8],
}

impl Input<'_> {
    /// The number of octets that the frame takes, whether or not it would be refused; of an unknown kind as QAFT's.
    fn length(&self, at_flag: bool) -> usize {
        let check = Check::of(self.kind).unwrap_or(Check::Sum);
        usize::from(!at_flag) + qaft::body(self.level, check, self.data).len() + 1
    }

    fn compare(&self, rng: &Rng, room: Room, tally: &mut Tally) {
        let Input { level, kind, data } = *self;
        let at_flag = rng.once_in(2);
        let length = self.length(at_flag);
        let room = match room {
            Room::Frame => length,
            Room::Less => length - 1,
            Room::More => length + 1,
            Room::Any => rng.below(2 * length),
            Room::Exactly(n) => n,
        };
        let seed = rng.octet();
        let (mut ours, mut archive) = (Out::new(room, seed), Out::new(room, seed));
        let written = qaft::write(level, kind, at_flag, data, ours.room());
        let by_archive = archive::qaft_write(level, kind, at_flag, data, archive.room());
        tally.number(written.number);
        if let (0, Some(check)) = (written.number, Check::of(kind)) {
            let is_longest = written.length == check.max_frame();
            checks::count_frame(level, check, data, tally);
            tally.count(LONGEST_FRAMES[usize::from(level)], is_longest.into());
        }
        tally.input(&(written, ours), &(by_archive, archive), || {
            format!(
                "level {level}, kind {kind}, at_flag {at_flag}, room {room}, data {}",
                hex(data)
            )
        });
    }
}

/// Every level, kind, boundary length and room with each other.
fn grid(rng: &Rng, check: Check, tally: &mut Tally) {
    for level in LEVELS {
        for kind in [&[check.kind()], &NO_KINDS[..]].concat() {
            for length in LENGTHS {
                for room in ROOMS {
                    let data = &octets(rng, length);
                    Input { level, kind, data }.compare(rng, room, tally);
                }
            }
        }
    }
}

/// All data of one or two octets, and those whose frame is the longest.
fn each(rng: &Rng, check: Check, tally: &mut Tally) {
    let kind = check.kind();
    for level in [0, 1] {
        for x in 0..=255 {
            let data = &[x];
            Input { level, kind, data }.compare(rng, Room::More, tally);
            for y in 0..=255 {
                let data = &[x, y];
                Input { level, kind, data }.compare(rng, Room::More, tally);
            }
        }
        for room in ROOMS.repeat(8) {
            let data = &longest::data(check);
            Input { level, kind, data }.compare(rng, room, tally);
        }
    }
}

fn compare(check: Check, rng: &Rng, count: u64, tally: &mut Tally) {
    checks::frames_came_up(check, tally);
    for name in LONGEST_FRAMES {
        tally.count(name, 0);
    }
    grid(rng, check, tally);
    each(rng, check, tally);
    for _ in 0..count {
        let level = match rng.below(16) {
            0 => rng.octet(),
            n => (n % 2) as u8,
        };
        let kind = match rng.below(16) {
            0 => rng.between(2, 255) as u8,
            _ => check.kind(),
        };
        let length = match rng.below(16) {
            0 => rng.pick(&LENGTHS),
            1 => rng.below(2_600),
            _ => rng.below(40),
        };
        let room = match rng.below(8) {
            0 => Room::Any,
            _ => rng.pick(&ROOMS),
        };
        let data = &octets(rng, length);
        Input { level, kind, data }.compare(rng, room, tally);
    }
}

pub fn sum(rng: &Rng, count: u64, tally: &mut Tally) {
    compare(Check::Sum, rng, count, tally);
}

pub fn fcs(rng: &Rng, count: u64, tally: &mut Tally) {
    compare(Check::Fcs, rng, count, tally);
}
