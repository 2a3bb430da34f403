//! The AFP writer: each pair of faults first, then inputs with up to three.
use super::make;
use super::tally::{hex, Out, Tally};
use crate::archive;
use second::afp;
use second::rng::Rng;

pub const NUMBERS: [u8; 8] = [0, 33, 34, 35, 36, 38, 40, 41];

/// The refusals in the writer's order, as faults to be brought in.
const FAULTS: [u8; 7] = [33, 35, 36, 38, 34, 40, 41];

struct Input {
    protocol: u8,
    stations: Vec<u8>,
    next: usize,
    supplementary: Vec<u8>,
    data: Vec<u8>,
    room: usize,
}

/// A next number that goes with the stations.
fn right_next(rng: &Rng, stations: &[u8]) -> usize {
    match make::places(stations).len() {
        n if n < 3 => 0,
        n => rng.between(2, n - 1),
    }
}

/// Numbers at the limits, and such as a shorter type would cut to a right one.
fn some_next(rng: &Rng, stations: &[u8]) -> usize {
    let ids = make::places(stations).len().saturating_sub(1);
    let cut = rng.pick(&[1 << 8, 1 << 16, 1 << 32, 1 << 63]);
    rng.pick(&[
        0,
        1,
        2,
        ids,
        ids + 1,
        257,
        usize::MAX,
        cut,
        cut + 2,
        cut + ids,
    ])
}

impl Input {
    fn new(rng: &Rng) -> Self {
        let stations = match rng.below(40) {
            0 => make::many_stations(rng),
            _ => make::stations(rng),
        };
        let next = match rng.below(8) {
            0 => some_next(rng, &stations),
            _ => right_next(rng, &stations),
        };
        let size = make::data_length(rng);
        let mut input = Input {
            protocol: rng.pick(&[0, 0x10, 0xC0, 0xF0, 0xFD]),
            supplementary: make::supplementary(rng),
            data: make::octets(rng, size),
            stations,
            next,
            room: 0,
        };
        if rng.once_in(8) {
            input.set_header(rng, &[11, 12, 13, 253, 254, 255, 256]);
        }
        input.room = match rng.below(8) {
            0 => rng.below(2 * input.length()),
            n => rng.pick(&[input.length(), input.length() + 1, 2560, n]),
        };
        input
    }

    /// The frame's length by its fields.
    fn length(&self) -> usize {
        6 + self.stations.len() + self.supplementary.len() + self.data.len() + 2
    }

    /// Takes a supplementary header with which the header has one of these lengths, where there is one.
    fn set_header(&mut self, rng: &Rng, lengths: &[usize]) {
        let before = 6 + self.stations.len();
        let size = rng.pick(lengths).saturating_sub(before);
        // its length octet goes up to 255
        self.supplementary = make::filling(rng, size.min(256));
    }

    /// Brings in a fault for which the writer most often has this number.
    fn spoil(&mut self, rng: &Rng, number: u8) {
        match number {
            33 => self.protocol = rng.pick(&[0xFE, 0xFF]),
            35 => self.stations = make::wrong_stations(rng),
            36 => self.next = some_next(rng, &self.stations),
            38 => self.supplementary = make::wrong_supplementary(rng),
            34 if rng.once_in(2) => {
                self.stations = [&[2][..], &make::id(rng)[..1], b"/\0"].concat();
                self.next = 0;
                self.supplementary = make::filling(rng, 0);
            }
            34 => self.set_header(rng, &[255, 256, 257, 400]),
            40 => {
                let size = rng.pick(&[2304, 2305, 2306, 2560, 2561, 4096]);
                self.data = rng.octets(size);
            }
            _ => self.room = rng.pick(&[0, 1, self.length() - 1, self.length() / 2]),
        }
    }

    fn compare(&self, rng: &Rng, tally: &mut Tally) {
        let seed = rng.octet();
        let (mut ours, mut archive) = (Out::new(self.room, seed), Out::new(self.room, seed));
        let call = |write: Writer, out: &mut Out| {
            let (stations, supplementary) = (&self.stations, &self.supplementary);
            write(
                self.protocol,
                stations,
                self.next,
                supplementary,
                &self.data,
                out.room(),
            )
        };
        let written = call(afp::write, &mut ours);
        let by_archive = call(archive::afp_write, &mut archive);
        tally.number(written.number);
        tally.input(&(written, ours), &(by_archive, archive), || self.text());
    }

    fn text(&self) -> String {
        format!(
            "protocol {:02X}, stations {}, next {}, supplementary {}, room {}, data {}",
            self.protocol,
            hex(&self.stations),
            self.next,
            hex(&self.supplementary),
            self.room,
            hex(&self.data)
        )
    }
}

/// The frame that the second program's writer writes, or nothing where it refuses.
pub fn frame(
    protocol: u8,
    stations: &[u8],
    next: usize,
    supplementary: &[u8],
    data: &[u8],
) -> Option<Vec<u8>> {
    let mut out = vec![0; afp::MAX_FRAME];
    let written = afp::write(protocol, stations, next, supplementary, data, &mut out);
    out.truncate(written.length);
    (written.number == 0).then_some(out)
}

/// A frame of the second program's writer.
pub fn written(rng: &Rng) -> Vec<u8> {
    loop {
        let Input {
            protocol,
            stations,
            next,
            supplementary,
            data,
            ..
        } = Input::new(rng);
        if let Some(frame) = frame(protocol, &stations, next, &supplementary, &data) {
            return frame;
        }
    }
}

pub type Writer = fn(u8, &[u8], usize, &[u8], &[u8], &mut [u8]) -> second::Written;

/// Every pair of octets as a lone ID, and behind "A-".
fn each_id(rng: &Rng, tally: &mut Tally) {
    for pair in 0..=u16::MAX {
        let [x, y] = pair.to_be_bytes();
        for stations in [vec![2, x, y, 0], vec![4, b'A', b'-', x, y, 0]] {
            let input = Input {
                protocol: 0xF0,
                stations,
                next: 0,
                supplementary: vec![2, 1, 0],
                data: Vec::new(),
                room: 20,
            };
            input.compare(rng, tally);
        }
    }
}

pub fn compare(rng: &Rng, count: u64, tally: &mut Tally) {
    each_id(rng, tally);
    for first in FAULTS {
        for second in FAULTS {
            for _ in 0..8 {
                let mut input = Input::new(rng);
                input.spoil(rng, first);
                input.spoil(rng, second);
                input.compare(rng, tally);
            }
        }
    }
    for _ in 0..count {
        let mut input = Input::new(rng);
        for _ in 0..rng.below(4) {
            let fault = rng.pick(&FAULTS);
            input.spoil(rng, fault);
        }
        input.compare(rng, tally);
    }
}
