//! What the next receiver looks at, gone through: every octet 3 with every octet 4, every change of a header's octet, every length of a
//! field at every place, every ID of two octets, and a grid on which all refusals meet.
use super::super::afp_read::calculate;
use super::super::afp_write;
use super::super::tally::Tally;
use super::{one, put, right_sum, set_right, LENGTHS};
use second::rng::Rng;

/// A frame as it is, and with octet 0 right for what it points at now, and the full reader's sums too.
fn both(rng: &Rng, mut frame: Vec<u8>, tally: &mut Tally) {
    one(rng, &frame, tally);
    set_right(&mut frame);
    one(rng, &frame, tally);
}

fn frame(stations: &[u8], next: usize, supplementary: &[u8], data: &[u8]) -> Vec<u8> {
    afp_write::frame(0xF0, stations, next, supplementary, data).expect("a frame")
}

/// A broadcast; and frames to each of three IDs, with all that a header can have.
fn frames() -> Vec<Vec<u8>> {
    let to = |next| {
        let stations = b"\x06AB1C-7\x03X/9\x03K-z\x01Z\0";
        frame(stations, next, b"\x0B\0\x02AB\x80\0\0\x03X/9", b"data")
    };
    vec![frame(b"\x04AB1C\0", 0, b"", b""), to(2), to(3), to(4)]
}

/// Stations in several lay-outs: those, as many as there can be, one as long as it can be, and octets of which each is the length of a
/// field as well as a letter.
fn layouts() -> Vec<Vec<u8>> {
    let many = [&b"\x01A".repeat(123)[..], &[0]].concat();
    let long = [&[1, b'A', 244], &[b'Z'; 244][..], &[0]].concat();
    let others = [
        frame(&many, 2, &[0], b""),
        frame(&long, 2, b"", &[b'Z'; 20]),
        vec![b'0'; 300],
    ];
    frames().into_iter().take(2).chain(others).collect()
}

fn each_offset_and_place(rng: &Rng, tally: &mut Tally) {
    for frame in layouts() {
        for pair in 0..=u16::MAX {
            let mut changed = frame.clone();
            put(&mut changed, 3, &pair.to_be_bytes());
            both(rng, changed, tally);
        }
    }
}

/// Each octet of a header changed to each value: also of one whose next station's sum is FF.
fn each_change(rng: &Rng, tally: &mut Tally) {
    let sum_ff = frame(b"\x04AB1C\x04A-!l\0", 2, b"", b"data");
    for frame in frames().into_iter().chain([sum_ff]) {
        for place in 0..usize::from(frame[3]) {
            for octet in 0..=255 {
                let mut changed = frame.clone();
                changed[place] = octet;
                both(rng, changed, tally);
            }
        }
    }
}

/// Every length octet at every place around those that octet 4 may point at, so that fields end before the data offset, behind it and
/// behind the frame: with as few data as there can be, and with as many as the longest field takes.
fn each_field(rng: &Rng, tally: &mut Tally) {
    for offset in [12, 13, 14, 20, 40, 254] {
        for data in [0, 256] {
            for place in 5..=offset {
                for size in 0..=255 {
                    let mut frame = vec![b'A'; usize::from(offset) + data + 2];
                    put(&mut frame, 3, &[offset, place]);
                    put(&mut frame, place.into(), &[size]);
                    frame[0] = right_sum(&frame);
                    one(rng, &frame, tally);
                }
            }
        }
    }
}

/// Every pair of octets as the ID pointed at, and behind "A-".
fn each_id(rng: &Rng, tally: &mut Tally) {
    for pair in 0..=u16::MAX {
        let [x, y] = pair.to_be_bytes();
        for field in [vec![2, x, y], vec![4, b'A', b'-', x, y]] {
            let offset = 9 + field.len() as u8;
            let fields = [&[1, b'A'], &field[..], &[0, 0]].concat();
            let mut frame = [&[0xFF, 1, 0xF0, offset, 7], &fields[..], &[0, 0]].concat();
            calculate(&mut frame, true, true);
            both(rng, frame, tally);
        }
    }
}

/// A frame of one letter with octets 3 and 4, a length octet there, and octet 0 right and wrong.
fn each_sum(rng: &Rng, mut frame: Vec<u8>, [offset, place, size]: [u8; 3], tally: &mut Tally) {
    put(&mut frame, 3, &[offset, place]);
    if place > 4 {
        put(&mut frame, place.into(), &[size]);
    }
    let right = right_sum(&frame);
    for sum in [right, right.wrapping_add(1), 0, 0xFF] {
        put(&mut frame, 0, &[sum]);
        one(rng, &frame, tally);
    }
}

/// Lengths, octets 3 and 4, lengths of the field, letters within the rule and outside, and octet 0, at which something changes: each
/// with every other, so that all refusals meet.
fn grid(rng: &Rng, tally: &mut Tally) {
    for length in LENGTHS.into_iter().chain([64]) {
        let end = length as u8;
        let ends = [1, 2, 3].map(|n| end.wrapping_sub(n));
        for offset in [0, 1, 11, 12, 13, 40, 254, 255].into_iter().chain(ends) {
            let before = |n: u8| offset.wrapping_sub(n);
            let late = [5, 4, 3, 2, 1, 0].map(before);
            for place in [0, 1, 6, 7, 8, 255].into_iter().chain(late) {
                // with which the field ends three before the data offset
                let fits = before(3).wrapping_sub(place);
                for size in [0, 1, fits, fits.wrapping_add(1), 255] {
                    for letter in *b"Aa" {
                        each_sum(rng, vec![letter; length], [offset, place, size], tally);
                    }
                }
            }
        }
    }
}

pub fn compare(rng: &Rng, tally: &mut Tally) {
    each_offset_and_place(rng, tally);
    each_change(rng, tally);
    each_field(rng, tally);
    each_id(rng, tally);
    grid(rng, tally);
}
