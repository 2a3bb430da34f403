//! The second program: QAFT, KISS, the DLC link, AFP and the line sheet written from the papers alone, apart from the proved
//! code, so that comparing the two says something. It is written for plainness: whole lines, whole segments, vectors, no
//! streaming.
#![forbid(unsafe_code)]

pub mod afp;
pub mod check;
pub mod kiss;
pub mod link;
pub mod listing;
pub mod longest;
pub mod qaft;
pub mod reader;
pub mod rng;
pub mod sheet;

#[cfg(test)]
mod numbers;
#[cfg(test)]
mod runs;
#[cfg(test)]
mod worked;

/// A writer's answer: the paper's number, and how many octets stand at the front of the out buffer.
#[derive(Debug, Clone, Copy, PartialEq, Eq)]
pub struct Written {
    pub number: u8,
    pub length: usize,
}

impl Written {
    /// On a refusal every other number in the answer is 0.
    fn refused(number: u8) -> Self {
        Written { number, length: 0 }
    }

    /// Puts a whole frame at the front of `out`, or refuses with `too_small`; the rest of `out` is as before.
    fn put(frame: &[u8], out: &mut [u8], too_small: u8) -> Self {
        match out.get_mut(..frame.len()) {
            None => Self::refused(too_small),
            Some(front) => {
                front.copy_from_slice(frame);
                Written {
                    number: 0,
                    length: frame.len(),
                }
            }
        }
    }
}
