//! The two checks of a frame, and the limits that follow from how many octets a check has: QAFT's sum, and the longer check of change
//! request 2026-07, the check sequence of ISO 3309.
//!
//! Each is written in two ways, so that one checks the other: from whole data ([`Check::octets`]), and octet by octet over data and
//! check ([`Check::start`], [`Check::after`], [`Check::good`]).
use crate::afp::check_sequence;
use crate::qaft::{self, MAX_DATA};

#[derive(Debug, Clone, Copy, PartialEq, Eq)]
pub enum Check {
    /// one octet, the two's complement of the data's sum
    Sum = 0,
    /// the two octets of the check sequence
    Fcs = 1,
}

/// The generator x^16 + x^12 + x^5 + 1 without its first term, the coefficient of x^15 in the low bit.
pub const GENERATOR: u16 = (1_u16 << 12 | 1 << 5 | 1).reverse_bits();

/// What ISO 3309 says is left of a frame without errors, x^15 first: 0001 1101 0000 1111.
const LEFT: u16 = 0b0001_1101_0000_1111;

impl Check {
    pub const BOTH: [Check; 2] = [Check::Sum, Check::Fcs];

    /// The one that it is not.
    pub fn other(self) -> Self {
        match self {
            Check::Sum => Check::Fcs,
            Check::Fcs => Check::Sum,
        }
    }

    /// The check that the papers' number for a kind stands for.
    pub fn of(kind: u8) -> Option<Self> {
        Self::BOTH.into_iter().find(|check| check.kind() == kind)
    }

    pub const fn kind(self) -> u8 {
        self as u8
    }

    /// How many octets it has.
    pub const fn size(self) -> usize {
        match self {
            Check::Sum => 1,
            Check::Fcs => 2,
        }
    }

    /// The longest data and their check: a segment of more octets is long, and the reader's store has at least so many.
    pub const fn longest(self) -> usize {
        MAX_DATA + self.size()
    }

    /// The count that stands for all above the longest.
    pub const fn many(self) -> usize {
        self.longest() + 1
    }

    /// The longest frame: two flags, and each octet of data and check escaped.
    pub const fn max_frame(self) -> usize {
        2 * self.longest() + 2
    }

    /// The check octets of data, in their order on the line.
    pub fn octets(self, data: &[u8]) -> Vec<u8> {
        match self {
            Check::Sum => vec![qaft::check(data)],
            Check::Fcs => check_sequence(data).to_le_bytes().to_vec(),
        }
    }

    /// The running check before any octet.
    pub fn start(self) -> u16 {
        match self {
            Check::Sum => 0,
            Check::Fcs => 0xFFFF,
        }
    }

    /// The running check after one more octet: the sum modulo 256, or the register of the check sequence before its complement.
    pub fn after(self, running: u16, octet: u8) -> u16 {
        let octet = u16::from(octet);
        match self {
            Check::Sum => (running + octet) % 256,
            Check::Fcs => (0..8).fold(running ^ octet, |register, _| match register & 1 {
                0 => register >> 1,
                _ => register >> 1 ^ GENERATOR,
            }),
        }
    }

    /// What data and their check leave.
    pub fn good(self) -> u16 {
        match self {
            Check::Sum => 0,
            Check::Fcs => LEFT.reverse_bits(),
        }
    }
}
