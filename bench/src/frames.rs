//! What the rows of QAFT and KISS share: data for many frames, turns over them, and turns over a line.
use second::qaft::{ESCAPE, FLAG, FLOW_CONTROL};
use second::reader::Answer;
use second::rng::Rng;

/// The largest frame of any contender, and some room. It does for a reader's store too.
pub const ROOM: usize = 6000;

/// Data of the given size each, about so many octets in all, with a fixed seed.
pub fn payloads(octets: usize, size: usize, make: impl Fn(&Rng, usize) -> Vec<u8>) -> Vec<Vec<u8>> {
    let rng = Rng::new(7);
    (0..octets / size).map(|_| make(&rng, size)).collect()
}

/// Every second octet is one that QAFT escapes.
pub fn escaped(rng: &Rng) -> u8 {
    if rng.once_in(2) {
        return rng.pick(&[FLAG, ESCAPE]);
    }
    rng.octet()
}

/// The frames of all data one after the other, and the sum of their lengths.
pub fn writing(
    payloads: &[Vec<u8>],
    write: impl Fn(&[u8], &mut [u8]) -> usize,
) -> impl FnMut() -> usize {
    let (payloads, mut out) = (payloads.to_vec(), vec![0; ROOM]);
    move || payloads.iter().map(|data| write(data, &mut out)).sum()
}

/// The same, once the writer was seen to write the very octets of a line.
pub fn writing_line(
    payloads: &[Vec<u8>],
    line_of_them: &[u8],
    write: impl Fn(&[u8], &mut [u8]) -> usize,
) -> impl FnMut() -> usize {
    assert!(
        line(&[], payloads, &write) == line_of_them,
        "another line is written"
    );
    writing(payloads, write)
}

/// The frames of all data, on a line that starts with the given octets.
pub fn line(
    start: &[u8],
    payloads: &[Vec<u8>],
    write: impl Fn(&[u8], &mut [u8]) -> usize,
) -> Vec<u8> {
    let (mut line, mut out) = (start.to_vec(), vec![0; ROOM]);
    for data in payloads {
        let n = write(data, &mut out);
        line.extend(&out[..n]);
    }
    line
}

/// The line with flow control strewn in, raw and at any place: one octet in 64 of what comes out.
pub fn strewn(line: &[u8]) -> Vec<u8> {
    let (rng, mut strewn) = (Rng::new(8), Vec::new());
    for &x in line {
        while rng.once_in(64) {
            strewn.push(rng.pick(&FLOW_CONTROL));
        }
        strewn.push(x);
    }
    strewn
}

/// Reads a line in chunks of a size; shows each answer, and the store as the answer left it.
pub fn read_line<S>(
    line: &[u8],
    chunk: usize,
    fresh: S,
    store: &mut [u8],
    read: impl Fn(S, &[u8], &mut [u8]) -> (S, Answer),
    mut show: impl FnMut(&Answer, &[u8]),
) {
    let mut state = fresh;
    for chunk in line.chunks(chunk) {
        let mut rest = chunk;
        while !rest.is_empty() {
            let (next, answer) = read(state, rest, store);
            state = next;
            show(&answer, store);
            rest = &rest[answer.taken..];
        }
    }
}

/// A line read in chunks of a size, and the sum of its frames' lengths.
pub fn reading<S: Copy>(
    line: &[u8],
    chunk: usize,
    fresh: S,
    read: impl Fn(S, &[u8], &mut [u8]) -> (S, Answer),
) -> impl FnMut() -> usize {
    let (line, mut store) = (line.to_vec(), vec![0; ROOM]);
    move || {
        let mut octets = 0;
        let add = |answer: &Answer, _: &[u8]| octets += answer.length;
        read_line(&line, chunk, fresh, &mut store, &read, add);
        octets
    }
}

/// A line, read in chunks of a size, and the data of its frames, which a reader puts down at a place of the store.
pub struct Line<'a> {
    pub octets: &'a [u8],
    pub chunk: usize,
    pub data: &'a [Vec<u8>],
    pub place: usize,
}

impl Line<'_> {
    /// The line read, and the sum of its frames' lengths, once the reader was seen to read the very data.
    pub fn read_by<S: Copy>(
        &self,
        fresh: S,
        read: impl Fn(S, &[u8], &mut [u8]) -> (S, Answer),
    ) -> impl FnMut() -> usize {
        let (mut store, mut found) = (vec![0; ROOM], Vec::new());
        let keep = |a: &Answer, store: &[u8]| {
            if a.number == 10 {
                found.push(store[self.place..][..a.length].to_vec());
            }
        };
        read_line(self.octets, self.chunk, fresh, &mut store, &read, keep);
        assert!(found == self.data, "other data are read");
        reading(self.octets, self.chunk, fresh, read)
    }
}
