//! The KISS reader that takes a line portion by portion.
use super::{FEND, FESC, TFEND, TFESC};
use crate::qaft::MAX_DATA;
use crate::reader::Answer;

/// The store has at least this many octets: the type octet and the longest payload.
pub const STORE: usize = 1 + MAX_DATA;
/// The count that stands for all above the longest.
pub const MANY: usize = STORE + 1;

#[derive(Debug, Clone, Copy, Default, PartialEq, Eq)]
pub struct State {
    /// whether a flag has come
    pub flag: bool,
    /// whether the last octet was an escape that waits for the next
    pub pending: bool,
    /// octets of this segment after undoing escapes; [`MANY`] stands for all above
    pub count: usize,
    /// the first of them
    pub kind: u8,
    /// whether an escape was bad
    pub bad: bool,
}

impl State {
    fn well_formed(&self) -> bool {
        let no_type = self.kind == 0 && !self.bad;
        self.count <= MANY
            && (self.count != 0 || no_type)
            && (self.flag || *self == State::default())
    }

    /// Octets of the current segment, without a flag: undone, and stored each at the place its count gives.
    fn take_in(&mut self, octets: &[u8], store: &mut [u8]) {
        for &x in octets {
            if !self.pending && x == FESC {
                self.pending = true;
                continue;
            }
            let octet = match (self.pending, x) {
                (true, TFEND) => FEND,
                (true, TFESC) => FESC,
                _ => x,
            };
            self.bad |= self.pending && x == octet;
            self.pending = false;
            if self.count == 0 {
                self.kind = octet;
            }
            if self.count < STORE {
                store[self.count] = octet;
            }
            self.count = MANY.min(self.count + 1);
        }
    }

    /// The report at a closing flag; nothing for an empty segment.
    fn judge(&self) -> Option<u8> {
        match self {
            State { pending: true, .. } | State { bad: true, .. } => Some(60),
            State { count: 0, .. } => None,
            State { count: 1, .. } => Some(61),
            State { count: MANY, .. } => Some(62),
            State { kind: 0, .. } => Some(10),
            _ => Some(63),
        }
    }
}

/// Reads up to the first report. Refusals in the order 4, 5.
pub fn read(state: State, portion: &[u8], store: &mut [u8]) -> (State, Answer) {
    let answer = |number, taken, length| Answer {
        number,
        taken,
        length,
    };
    if store.len() < STORE {
        return (state, answer(4, 0, 0));
    }
    if !state.well_formed() {
        return (state, answer(5, 0, 0));
    }
    let at_flag = State {
        flag: true,
        ..State::default()
    };
    let mut now = state;
    let mut taken = 0;
    while let Some(size) = portion[taken..].iter().position(|&x| x == FEND) {
        if now.flag {
            now.take_in(&portion[taken..taken + size], store);
        }
        taken += size + 1;
        if let Some(number) = now.judge() {
            let length = if number == 10 { now.count - 1 } else { 0 };
            return (at_flag, answer(number, taken, length));
        }
        now = at_flag;
    }
    if now.flag {
        now.take_in(&portion[taken..], store);
    }
    (now, answer(15, portion.len(), 0))
}
