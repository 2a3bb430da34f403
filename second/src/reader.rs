//! The QAFT reader that takes a line portion by portion. It judges by a running check, and never looks at the check octets.
use crate::check::Check;
use crate::qaft::{is_good_pair, skips, ESCAPE, FLAG};

#[derive(Debug, Clone, Copy, PartialEq, Eq)]
pub struct State {
    pub level: u8,
    /// the number for a check, or one that stands for none
    pub kind: u8,
    /// whether a flag has come
    pub flag: bool,
    /// whether a 7D came last, skipped octets set aside, and waits for its partner
    pub pending: bool,
    /// octets of this segment after undoing escapes; [`Check::many`] stands for all above
    pub count: usize,
    /// the running check of them all
    pub check: u16,
    /// whether a bad pair came in this segment
    pub bad_pair: bool,
}

#[derive(Debug, Clone, Copy, PartialEq, Eq)]
pub struct Answer {
    pub number: u8,
    pub taken: usize,
    /// the data's length, of a frame alone
    pub length: usize,
}

impl State {
    /// Before any flag. One of an unknown kind holds what QAFT's does; every call refuses it.
    pub fn fresh(level: u8, kind: u8) -> Self {
        State {
            level,
            kind,
            flag: false,
            pending: false,
            count: 0,
            check: Check::of(kind).unwrap_or(Check::Sum).start(),
            bad_pair: false,
        }
    }

    /// At a flag, with nothing after it.
    fn at_flag(self) -> Self {
        State {
            flag: true,
            ..Self::fresh(self.level, self.kind)
        }
    }

    /// Whether it is none that 5 refuses. One field holds either check, and a sum has eight bits.
    pub fn well_formed(&self, check: Check) -> bool {
        self.count <= check.many()
            && (self.count != 0 || self.check == check.start() && !self.bad_pair)
            && (self.flag || !self.pending && self.count == 0)
            && (check == Check::Fcs || self.check < 256)
    }

    /// Octets of the current segment, without a flag: undone, checked, and stored each at the place its count gives, that of a bad
    /// pair too. One that is skipped does none of it, and a 7D goes on waiting.
    fn take_in(&mut self, check: Check, octets: &[u8], store: &mut [u8]) {
        for &x in octets {
            if skips(self.level, x) {
                continue;
            }
            if !self.pending && x == ESCAPE {
                self.pending = true;
                continue;
            }
            let octet = if self.pending { x ^ 0x20 } else { x };
            self.bad_pair |= self.pending && !is_good_pair(self.level, x);
            self.pending = false;
            if self.count < check.longest() {
                store[self.count] = octet;
            }
            self.count = check.many().min(self.count + 1);
            self.check = check.after(self.check, octet);
        }
    }

    /// The report at a closing flag; nothing for an empty segment.
    fn judge(&self, check: Check) -> Option<u8> {
        match self {
            State { pending: true, .. } => Some(11),
            State { bad_pair: true, .. } => Some(16),
            State { count: 0, .. } => None,
            State { count, .. } if *count == check.many() => Some(12),
            State { count, .. } if *count <= check.size() => Some(13),
            State { check: left, .. } if *left == check.good() => Some(10),
            _ => Some(14),
        }
    }
}

/// Reads up to the first report. Refusals in the order 6, 7, 4, 5.
pub fn read(state: State, portion: &[u8], store: &mut [u8]) -> (State, Answer) {
    let answer = |number, taken, length| Answer {
        number,
        taken,
        length,
    };
    if state.level > 1 {
        return (state, answer(6, 0, 0));
    }
    let Some(check) = Check::of(state.kind) else {
        return (state, answer(7, 0, 0));
    };
    if store.len() < check.longest() {
        return (state, answer(4, 0, 0));
    }
    if !state.well_formed(check) {
        return (state, answer(5, 0, 0));
    }
    let mut now = state;
    let mut taken = 0;
    while let Some(size) = portion[taken..].iter().position(|&x| x == FLAG) {
        if now.flag {
            now.take_in(check, &portion[taken..taken + size], store);
        }
        taken += size + 1;
        if let Some(number) = now.judge(check) {
            let length = match number {
                10 => now.count - check.size(),
                _ => 0,
            };
            return (now.at_flag(), answer(number, taken, length));
        }
        now = now.at_flag();
    }
    if now.flag {
        now.take_in(check, &portion[taken..], store);
    }
    (now, answer(15, portion.len(), 0))
}
