//! The DLC link of include/hasfandur.h. Its values are kept as C has them, since ill-formed ones are lent too; bools are
//! taken as numbers, so that another value than 0 and 1 shows.
use second::link::{PAYLOAD, QUEUE};

#[repr(C)]
#[derive(Debug, Clone, PartialEq, Eq)]
pub struct Queued {
    pub length: usize,
    pub octets: [u8; PAYLOAD],
}

#[repr(C)]
#[derive(Debug, Clone, PartialEq, Eq)]
pub struct Queue {
    pub count: usize,
    pub slots: [Queued; QUEUE],
}

#[repr(C)]
#[derive(Debug, Clone, PartialEq, Eq)]
pub struct Link {
    pub state: u8,
    pub queue: Queue,
    pub base: u8,
    pub expected: u8,
    pub edition: u8,
}

#[repr(C)]
#[derive(Debug, Clone, PartialEq, Eq, Default)]
pub struct Answer {
    pub number: u8,
    pub upper_reset: u8,
    pub delivered: u8,
    pub sent: usize,
    pub lengths: [usize; QUEUE],
}

#[repr(C)]
pub struct Outcome {
    pub link: Link,
    pub answer: Answer,
}

// the archive is named in the file above
extern "C" {
    fn hasfandur_dlc_fresh(edition: u8) -> Outcome;
    fn hasfandur_dlc_start(link: Link, reply: *mut u8, reply_length: usize) -> Outcome;
    fn hasfandur_dlc_timer(link: Link, reply: *mut u8, reply_length: usize) -> Outcome;
    fn hasfandur_dlc_payload(
        link: Link,
        payload: *const u8,
        payload_length: usize,
        reply: *mut u8,
        reply_length: usize,
    ) -> Outcome;
    fn hasfandur_dlc_arrival(
        link: Link,
        packet: *const u8,
        packet_length: usize,
        reply: *mut u8,
        reply_length: usize,
    ) -> Outcome;
}

pub fn fresh(edition: u8) -> Outcome {
    unsafe { hasfandur_dlc_fresh(edition) }
}

impl Link {
    pub fn start(self, reply: &mut [u8]) -> Outcome {
        unsafe { hasfandur_dlc_start(self, reply.as_mut_ptr(), reply.len()) }
    }

    pub fn timer(self, reply: &mut [u8]) -> Outcome {
        unsafe { hasfandur_dlc_timer(self, reply.as_mut_ptr(), reply.len()) }
    }

    pub fn payload(self, payload: &[u8], reply: &mut [u8]) -> Outcome {
        let (place, room) = (reply.as_mut_ptr(), reply.len());
        unsafe { hasfandur_dlc_payload(self, payload.as_ptr(), payload.len(), place, room) }
    }

    pub fn arrival(self, packet: &[u8], reply: &mut [u8]) -> Outcome {
        let (place, room) = (reply.as_mut_ptr(), reply.len());
        unsafe { hasfandur_dlc_arrival(self, packet.as_ptr(), packet.len(), place, room) }
    }
}
