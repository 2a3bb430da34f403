//! Captures for the programs. A capture is made of many pieces, and it is the pieces that are counted: a process for each would
//! take most of the time.
use super::make::each;
use super::{flow, pairs};
use second::check::Check;
use second::rng::Rng;
use second::{kiss, qaft};

/// How many reads the longest capture takes.
const READS: usize = 2_500;

/// What a capture of a framing is made of.
pub struct Framing {
    flag: u8,
    escape: u8,
    /// Octets that are put into a damaged piece.
    damage: [u8; 4],
    /// Octets of which every short segment is made, and other segments that are all to be met.
    alphabet: &'static [u8],
    others: fn() -> Vec<Vec<u8>>,
    /// What stands on the line of some octets, without the closing flag.
    body: fn(&Rng, &[u8]) -> Vec<u8>,
}

pub const QAFT: Framing = Framing {
    flag: qaft::FLAG,
    escape: qaft::ESCAPE,
    damage: [qaft::ESCAPE, qaft::FLAG, 0x11, 0x13],
    alphabet: &[
        qaft::FLAG,
        qaft::ESCAPE,
        0x00,
        0x20,
        0x5D,
        0xA3,
        0x11,
        0xEF,
        0x13,
        0x31,
        0x83,
    ],
    others: pairs::each_of_qaft,
    body: |rng, octets| qaft::body(rng.below(2) as u8, Check::Sum, octets),
};

pub const KISS: Framing = Framing {
    flag: kiss::FEND,
    escape: kiss::FESC,
    damage: [kiss::FESC, kiss::FEND, kiss::TFEND, kiss::TFESC],
    alphabet: &[
        kiss::FEND,
        kiss::FESC,
        kiss::TFEND,
        kiss::TFESC,
        0x00,
        0x10,
        0x01,
        0x7E,
    ],
    others: Vec::new,
    body: |rng, octets| {
        let kind = rng.pick(&[0, 0, 0, 0, 0x10, 0x01, 0xC0, rng.octet()]);
        kiss::escaped(&[&[kind], octets].concat())
    },
};

/// Octets with many of those that QAFT or KISS escapes, and of those that stand for them.
fn octets(rng: &Rng, length: usize) -> Vec<u8> {
    let mut octets = rng.octets(length);
    let special = rng.pick(&[0, 1, 4, 8]);
    for x in &mut octets {
        if rng.below(8) < special {
            *x = rng.pick(&[
                0x7E, 0x7D, 0x11, 0x13, 0x5E, 0x5D, 0x31, 0x33, 0xC0, 0xDB, 0xDC, 0xDD,
            ]);
        }
    }
    octets
}

impl Framing {
    /// One piece of a capture: a frame, a damaged one, a run of flags, or octets without a rule; at times with odd pairs and flow
    /// control.
    fn piece(&self, rng: &Rng) -> Vec<u8> {
        let size = match rng.below(100) {
            0 => rng.pick(&[2559, 2560, 2561, 2562, 2600, 6000]),
            1 => rng.between(1, 2_600),
            _ => rng.between(1, 30),
        };
        let mut piece = match rng.below(8) {
            0 => octets(rng, size),
            1 => vec![self.flag; rng.between(1, 4)],
            2 => [&rng.octets(rng.below(3))[..], &[self.flag]].concat(),
            3 => [&octets(rng, size)[..], &[self.escape, self.flag]].concat(),
            4 if rng.once_in(24) => {
                [&pairs::near_limit(rng, Check::Sum)[..], &[self.flag]].concat()
            }
            _ => [&(self.body)(rng, &octets(rng, size))[..], &[self.flag]].concat(),
        };
        if rng.once_in(4) {
            let i = rng.below(piece.len());
            match rng.below(3) {
                0 => piece[i] = rng.octet(),
                1 => piece.insert(i, rng.pick(&self.damage)),
                _ => drop(piece.remove(i)),
            }
        }
        if rng.once_in(4) {
            piece = pairs::strewn(rng, &piece);
        }
        if rng.once_in(3) {
            piece = flow::strewn(rng, &piece);
        }
        piece
    }

    /// A capture of so many pieces, in the portions in which it goes to a program.
    fn portions(&self, rng: &Rng, pieces: u64) -> Vec<Vec<u8>> {
        let mut portions: Vec<Vec<u8>> = Vec::new();
        let cut = rng.pick(&[1, 4, 50, 1000]);
        // most captures begin at a flag, so that the first frame is one
        portions.push(if rng.once_in(4) {
            flow::strewn(rng, &octets(rng, 3))
        } else {
            vec![self.flag]
        });
        for _ in 0..pieces {
            let piece = self.piece(rng);
            match portions.last_mut() {
                Some(last) if !rng.once_in(cut) => last.extend(piece),
                _ => portions.push(piece),
            }
        }
        portions
    }

    /// Captures of `count` pieces in all, one after another, each with its number of pieces.
    pub fn captures<'a>(
        &'a self,
        rng: &'a Rng,
        count: u64,
    ) -> impl Iterator<Item = (u64, Vec<Vec<u8>>)> + 'a {
        let mut left = count;
        std::iter::from_fn(move || {
            if left == 0 {
                return None;
            }
            let most = match rng.below(200) {
                // more than the programs read at once
                0 => 6_000,
                _ => rng.pick(&[0, 1, 2, 3, 5, 10, 50, 130]),
            };
            let pieces = left.min(most);
            left -= pieces;
            Some((pieces, self.portions(rng, pieces)))
        })
    }

    /// A piece, at times cut in two behind an escape.
    fn cut_piece(&self, rng: &Rng) -> Vec<Vec<u8>> {
        let mut piece = self.piece(rng);
        let escapes = piece.iter().enumerate().filter(|(_, x)| **x == self.escape);
        let places: Vec<usize> = escapes.map(|(i, _)| i + 1).collect();
        if places.is_empty() || rng.once_in(2) {
            return vec![piece];
        }
        let behind = piece.split_off(rng.pick(&places));
        vec![piece, behind]
    }

    /// A capture that takes a program very many reads, of a piece each or a part of one.
    pub fn many_reads(&self, rng: &Rng) -> (u64, Vec<Vec<u8>>) {
        let pieces = std::iter::repeat_with(|| self.cut_piece(rng)).flatten();
        let portions = pieces.filter(|piece| !piece.is_empty()).take(READS);
        (READS as u64, portions.collect())
    }

    /// Every segment of up to five octets of a small alphabet, flags among them, and the others, with a flag after each.
    pub fn each_segment(&self) -> (u64, Vec<u8>) {
        let segments = [&each(self.alphabet, 5)[1..], &(self.others)()].concat();
        let mut capture = vec![self.flag];
        for segment in &segments {
            capture.extend(segment);
            capture.push(self.flag);
        }
        (segments.len() as u64, capture)
    }
}
