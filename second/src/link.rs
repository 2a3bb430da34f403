//! One end of a DLC link, by the step table of the scope paper; DACK is read as its edition says (2026-08).
#[cfg(test)]
mod editions;
#[cfg(test)]
mod search;

use std::ops::Range;

/// "The queue takes 15" (2026-06); the scope paper has 7.
pub const QUEUE: usize = 15;
pub const PAYLOAD: usize = 256;
/// The reply store has at least this many octets: a whole queue of the longest DATA.
pub const REPLY: usize = QUEUE * (PAYLOAD + 1);

/// "Keep both: edition 1 is 01's; under edition 2" DACK acknowledges "through x".
pub const EDITIONS: [u8; 2] = [1, 2];

pub const RESET: u8 = 0x10;
pub const RESET_ACK: u8 = 0x20;
pub const DATA: u8 = 0x40;
pub const DACK: u8 = 0x50;

#[derive(Debug, Clone, Copy, PartialEq, Eq, Hash)]
pub enum Mode {
    Idle,
    Reset,
    Data,
    Wait,
}

#[derive(Debug, Clone, PartialEq, Eq, Hash)]
pub struct Link {
    pub mode: Mode,
    /// payloads, oldest first
    pub queue: Vec<Vec<u8>>,
    /// the oldest payload's number, or the next to be given
    pub oldest: u8,
    pub awaited: u8,
    /// one of `EDITIONS`; any other number answers 27
    pub edition: u8,
}

#[derive(Debug, Clone, PartialEq, Eq, Default)]
pub struct Answer {
    pub number: u8,
    /// the lengths of the packets sent
    pub sent: Vec<usize>,
    /// whether the upper layer is told to reset
    pub upper_reset: bool,
    /// the payload handed up, as a part of the lent packet
    pub up: Option<Range<usize>>,
}

impl Answer {
    /// A number alone: every other number in the answer is 0.
    fn of(number: u8) -> Self {
        Answer {
            number,
            ..Answer::default()
        }
    }
}

/// What an event leads to: the link afterwards, the number, and what goes out and up.
struct Step {
    link: Link,
    number: u8,
    packets: Vec<Vec<u8>>,
    upper_reset: bool,
    up: Option<Range<usize>>,
}

impl Step {
    fn to(link: Link, packets: Vec<Vec<u8>>) -> Self {
        Step {
            link,
            number: 0,
            packets,
            upper_reset: false,
            up: None,
        }
    }
}

impl Link {
    /// "28 unknown edition, judged when the link is made, edition 1's fresh link given beside it."
    pub fn make(edition: u8) -> (Self, Answer) {
        match EDITIONS.contains(&edition) {
            true => (Self::fresh(edition), Answer::of(0)),
            false => (Self::fresh(1), Answer::of(28)),
        }
    }

    /// "In DLIDLE with empty queue and numbers 0", and with this edition, whatever number that is.
    pub fn fresh(edition: u8) -> Self {
        Link {
            mode: Mode::Idle,
            queue: Vec::new(),
            oldest: 0,
            awaited: 0,
            edition,
        }
    }

    pub fn well_formed(&self) -> bool {
        let opened = matches!(self.mode, Mode::Data | Mode::Wait);
        self.queue.len() <= QUEUE
            && self.queue.iter().all(|p| p.len() <= PAYLOAD)
            && self.oldest <= 15
            && self.awaited <= 15
            && (self.mode == Mode::Wait) != self.queue.is_empty()
            && (opened || self.oldest == 0 && self.awaited == 0)
            && EDITIONS.contains(&self.edition)
    }

    pub fn start(self, reply: &mut [u8]) -> (Self, Answer) {
        self.event(reply, |link| match link.mode {
            Mode::Idle => Ok(Step::to(link.in_mode(Mode::Reset), vec![])),
            _ => Err(24),
        })
    }

    pub fn timer(self, reply: &mut [u8]) -> (Self, Answer) {
        self.event(reply, |link| match link.mode {
            Mode::Reset => Ok(Step::to(link, vec![vec![RESET]])),
            Mode::Wait => {
                let packets = (0..link.queue.len())
                    .map(|place| link.data(place))
                    .collect();
                Ok(Step::to(link, packets))
            }
            _ => Err(24),
        })
    }

    pub fn payload(self, payload: &[u8], reply: &mut [u8]) -> (Self, Answer) {
        self.event(reply, |mut link| {
            if payload.len() > PAYLOAD {
                return Err(21);
            }
            if matches!(link.mode, Mode::Idle | Mode::Reset) {
                return Err(20);
            }
            if link.queue.len() == QUEUE {
                return Err(22);
            }
            link.queue.push(payload.to_vec());
            let packet = link.data(link.queue.len() - 1);
            Ok(Step::to(link.in_mode(Mode::Wait), vec![packet]))
        })
    }

    pub fn packet(self, packet: &[u8], reply: &mut [u8]) -> (Self, Answer) {
        self.event(reply, |link| {
            let (&control, payload) = packet.split_first().ok_or(23)?;
            let (kind, x) = (control & 0xF0, control & 0x0F);
            match kind {
                DATA if payload.len() <= PAYLOAD => link.judge(x, 1..packet.len()),
                DACK if payload.is_empty() => link.remove(x),
                RESET if payload.is_empty() && x == 0 => Ok(link.clear()),
                RESET_ACK if payload.is_empty() && x == 0 => match link.mode {
                    Mode::Reset => Ok(Step::to(link.in_mode(Mode::Data), vec![])),
                    _ => Err(24),
                },
                _ => Err(23),
            }
        })
    }

    /// The DATA of a place of the queue. "Places count up from the oldest number, and DATA carries its place's number."
    fn data(&self, place: usize) -> Vec<u8> {
        let number = (usize::from(self.oldest) + place) % 16;
        [&[DATA | number as u8], &self.queue[place][..]].concat()
    }

    fn in_mode(self, mode: Mode) -> Self {
        Link { mode, ..self }
    }

    /// The edition "survives RESET".
    fn clear(self) -> Step {
        let link = Self::fresh(self.edition).in_mode(Mode::Data);
        Step {
            upper_reset: true,
            ..Step::to(link, vec![vec![RESET_ACK]])
        }
    }

    /// DATA with number x and its payload's place in the packet.
    fn judge(mut self, x: u8, payload: Range<usize>) -> Result<Step, u8> {
        if matches!(self.mode, Mode::Idle | Mode::Reset) {
            return Err(24);
        }
        let (number, up) = match x == self.awaited {
            true => (0, Some(payload)),
            false => (25, None),
        };
        if up.is_some() {
            self.awaited = (self.awaited + 1) % 16;
        }
        let answer = vec![DACK | self.acknowledgement()];
        Ok(Step {
            number,
            up,
            ..Step::to(self, vec![answer])
        })
    }

    /// The number that a DACK carries: of edition 1 the awaited one, of edition 2 "the awaited number less 1 (15 at the start)".
    fn acknowledgement(&self) -> u8 {
        match self.edition {
            2 => (self.awaited + 15) % 16,
            _ => self.awaited,
        }
    }

    /// How far DACK x is: of edition 1 "x minus the oldest number, modulo 16", of edition 2 "x plus 1 minus the oldest number".
    fn distance(&self, x: u8) -> u8 {
        let next = match self.edition {
            2 => x + 1,
            _ => x,
        };
        (next + 16 - self.oldest) % 16
    }

    /// DACK x, which acknowledges through x-1, or through x.
    fn remove(mut self, x: u8) -> Result<Step, u8> {
        let distance = self.distance(x);
        let removed = usize::from(distance);
        if self.mode != Mode::Wait || !(1..=self.queue.len()).contains(&removed) {
            return Err(24);
        }
        self.queue.drain(..removed);
        self.oldest = (self.oldest + distance) % 16;
        let mode = match self.queue.is_empty() {
            true => Mode::Data,
            false => Mode::Wait,
        };
        Ok(Step::to(self.in_mode(mode), vec![]))
    }

    /// What every event has: 27 and 26 before all else, a refusal that changes nothing, packets put into the reply store.
    fn event(
        self,
        reply: &mut [u8],
        step: impl FnOnce(Link) -> Result<Step, u8>,
    ) -> (Self, Answer) {
        let judged = if !self.well_formed() {
            Err(27)
        } else if reply.len() < REPLY {
            Err(26)
        } else {
            step(self.clone())
        };
        match judged {
            Err(number) => (self, Answer::of(number)),
            Ok(step) => {
                let octets = step.packets.concat();
                reply[..octets.len()].copy_from_slice(&octets);
                let answer = Answer {
                    number: step.number,
                    sent: step.packets.iter().map(Vec::len).collect(),
                    upper_reset: step.upper_reset,
                    up: step.up,
                };
                (step.link, answer)
            }
        }
    }
}
