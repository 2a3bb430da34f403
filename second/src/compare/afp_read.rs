//! The AFP reader: frames with each pair of faults first, then frames with up to three faults, changed octets, any octets.
use super::make;
use super::tally::{hex, Tally};
use crate::archive;
use second::afp;
use second::rng::Rng;

pub const NUMBERS: [u8; 12] = [0, 30, 31, 32, 33, 34, 35, 36, 37, 38, 39, 40];

/// The refusals in order, as faults to be brought into a frame.
const FAULTS: std::ops::RangeInclusive<u8> = 30..=40;

/// A frame before it is put together: its fields, and what is to stand in place of calculated octets.
struct Draft {
    version: u8,
    protocol: u8,
    stations: Vec<u8>,
    supplementary: Vec<u8>,
    data: Vec<u8>,
    offset: Option<u8>,
    next_place: Option<u8>,
    next_sum: Option<u8>,
    header_sum: Option<u8>,
    /// the frame's length, whatever its fields come to
    length: Option<usize>,
    /// what the check sequence is xored with
    check: u16,
}

impl Draft {
    fn new(rng: &Rng) -> Self {
        let stations = match rng.below(20) {
            0 => make::many_stations(rng),
            _ => make::stations(rng),
        };
        let supplementary = match rng.below(6) {
            // a header length at the limits
            0 => {
                let header = rng.pick(&[12, 13, 253, 254, 255]);
                make::filling(rng, header.max(6 + stations.len()) - 6 - stations.len())
            }
            _ => make::supplementary(rng),
        };
        let size = match rng.below(20) {
            0 => rng.between(2_303, 2_305),
            _ => make::data_length(rng),
        };
        Draft {
            version: 1,
            protocol: rng.pick(&[0, 0x10, 0xC0, 0xF0, 0xFD]),
            stations,
            supplementary,
            data: make::octets(rng, size),
            offset: None,
            next_place: None,
            next_sum: None,
            header_sum: None,
            length: None,
            check: 0,
        }
    }

    fn header_length(&self) -> usize {
        6 + self.stations.len() + self.supplementary.len()
    }

    /// Octets 4 and 0 for one of the IDs after the source, or for a broadcast.
    fn next(&self, rng: &Rng) -> (u8, u8) {
        let places = make::places(&self.stations);
        if places.len() < 3 {
            return (0, 0xFF);
        }
        let i = rng.between(1, places.len() - 2);
        let field = &self.stations[places[i]..places[i + 1]];
        ((5 + places[i]) as u8, afp::next_station_sum(field))
    }

    /// The frame, with what was not set calculated.
    fn frame(&self, rng: &Rng) -> Vec<u8> {
        let (place, sum) = self.next(rng);
        let mut frame = vec![
            self.next_sum.unwrap_or(sum),
            self.version,
            self.protocol,
            self.offset.unwrap_or(self.header_length() as u8),
            self.next_place.unwrap_or(place),
        ];
        frame.extend(&self.stations);
        frame.extend(&self.supplementary);
        frame.push(self.header_sum.unwrap_or(afp::header_sum(&frame)));
        frame.extend(&self.data);
        if let Some(length) = self.length {
            frame.resize(length.saturating_sub(2), 0x55);
        }
        frame.extend((afp::check_sequence(&frame) ^ self.check).to_le_bytes());
        frame
    }

    /// Brings in a fault for which the reader most often has this number.
    fn spoil(&mut self, rng: &Rng, number: u8) {
        match number {
            30 => self.length = Some(rng.pick(&[2, 12, 13, 14, 15, 2559, 2560, 2561, 2562, 3000])),
            31 => self.check = rng.pick(&[1, 0x80, 0x100, 0x8000, 0xFFFF, rng.next() as u16]),
            32 => self.version = rng.pick(&[0, 2, 3, 0x81, 0xFF]),
            33 => self.protocol = rng.pick(&[0xFE, 0xFF]),
            34 => self.offset = Some(self.wrong_offset(rng)),
            35 => self.stations = make::wrong_stations(rng),
            36 => self.next_place = Some(self.some_place(rng)),
            37 => self.next_sum = Some(rng.pick(&[0, 0xFF, 1, rng.octet()])),
            38 => self.supplementary = make::wrong_supplementary(rng),
            39 => self.header_sum = Some(rng.pick(&[0, 0xFF, rng.octet()])),
            _ => self.data = rng.octets(rng.between(2_303, 2_330)),
        }
    }

    /// Offsets at the limits, and about the frame's end.
    fn wrong_offset(&self, rng: &Rng) -> u8 {
        let checked = self.header_length() + self.data.len();
        let near = checked.min(250) as u8;
        rng.pick(&[
            0,
            11,
            12,
            253,
            254,
            255,
            near,
            near + 1,
            near + 2,
            near - 1,
            rng.octet(),
        ])
    }

    /// The place of any ID, of the closing 0, one beside them, or any other.
    fn some_place(&self, rng: &Rng) -> u8 {
        let places = make::places(&self.stations);
        if places.is_empty() || rng.once_in(4) {
            return rng.pick(&[0, 1, 4, 5, rng.octet()]);
        }
        let place = (5 + rng.pick(&places)) as u8;
        place.wrapping_add(rng.pick(&[0, 0, 0, 1, 0xFF]))
    }
}

/// A frame with one to three octets changed; header sum and check sequence calculated again or not.
fn changed(rng: &Rng) -> Vec<u8> {
    let mut frame = Draft::new(rng).frame(rng);
    let header = usize::from(frame[3]);
    for _ in 0..rng.between(1, 3) {
        let within = rng.pick(&[frame.len(), header.min(frame.len())]);
        let i = rng.below(within.max(1));
        frame[i] = rng.pick(&[frame[i] ^ (1 << rng.below(8)), rng.octet(), 0, 0xFF]);
    }
    calculate(&mut frame, rng.once_in(2), !rng.once_in(6));
    frame
}

/// Calculates the header sum, where octet 3 says that there is one, and the check sequence again.
pub fn calculate(frame: &mut [u8], header_sum: bool, check: bool) {
    let (header, checked) = (usize::from(frame[3]), frame.len() - 2);
    if header_sum && (1..=checked).contains(&header) {
        frame[header - 1] = afp::header_sum(&frame[..header - 1]);
    }
    if check {
        let check = afp::check_sequence(&frame[..checked]);
        frame[checked..].copy_from_slice(&check.to_le_bytes());
    }
}

/// Each octet of a frame changed to each value; sums as they were, or calculated again.
fn each_change(frame: &[u8], tally: &mut Tally) {
    for i in 0..frame.len() {
        for x in 0..=255 {
            for (header_sum, check) in [(false, false), (false, true), (true, true)] {
                let mut changed = frame.to_vec();
                changed[i] = x;
                calculate(&mut changed, header_sum, check);
                one(&changed, tally);
            }
        }
    }
}

/// Frames whose octets are changed one by one: a broadcast, and one with all that a header can have.
fn change_frames(rng: &Rng, tally: &mut Tally) {
    let mut draft = Draft::new(rng);
    draft.data = b"data".to_vec();
    draft.stations = b"\x04AB1C\0".to_vec();
    draft.supplementary = Vec::new();
    each_change(&draft.frame(rng), tally);
    draft.stations = b"\x06AB1C-7\x03X/9\x03K-z\x01Z\0".to_vec();
    draft.supplementary = b"\x0B\0\x02AB\x80\0\0\x03X/9".to_vec();
    for _ in 0..4 {
        each_change(&draft.frame(rng), tally);
    }
}

/// Any octets; the check sequence right or not.
fn any(rng: &Rng) -> Vec<u8> {
    let length = match rng.below(3) {
        0 => rng.pick(&[0, 1, 2, 13, 14, 15, 2559, 2560, 2561]),
        _ => rng.below(80),
    };
    let mut octets = rng.octets(length);
    if length > 14 && rng.once_in(2) {
        // far enough in for the fields to be looked at
        octets[1] = 1;
        octets[3] = rng.between(10, length) as u8;
    }
    if length >= 2 && !rng.once_in(3) {
        let check = afp::check_sequence(&octets[..length - 2]);
        octets[length - 2..].copy_from_slice(&check.to_le_bytes());
    }
    octets
}

fn one(frame: &[u8], tally: &mut Tally) {
    let (ours, archive) = (afp::read(frame), archive::afp_read(frame));
    tally.number(ours.number);
    tally.input(&ours, &archive, || hex(frame));
}

fn with_faults(rng: &Rng, faults: &[u8]) -> Vec<u8> {
    let mut draft = Draft::new(rng);
    for &fault in faults {
        draft.spoil(rng, fault);
    }
    draft.frame(rng)
}

/// Any octets, a frame with changed octets, or one with up to three faults.
pub fn random(rng: &Rng) -> Vec<u8> {
    match rng.below(8) {
        0 => any(rng),
        1 | 2 => changed(rng),
        _ => {
            let faults: Vec<u8> = (0..rng.below(4))
                .map(|_| rng.between(30, 40) as u8)
                .collect();
            with_faults(rng, &faults)
        }
    }
}

pub fn compare(rng: &Rng, count: u64, tally: &mut Tally) {
    change_frames(rng, tally);
    for first in FAULTS {
        for second in FAULTS {
            for _ in 0..8 {
                one(&with_faults(rng, &[first, second]), tally);
            }
        }
    }
    for _ in 0..count {
        one(&random(rng), tally);
    }
}
