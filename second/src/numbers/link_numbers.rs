//! The link's numbers, packets, states and editions.
use crate::link::{self, Link, Mode, DACK, DATA};

/// An open link of edition 1 with so many payloads queued.
fn open(queued: usize) -> Link {
    Link {
        mode: if queued == 0 { Mode::Data } else { Mode::Wait },
        queue: vec![vec![]; queued],
        ..Link::fresh(1)
    }
}

pub fn numbers() -> Vec<(&'static str, usize)> {
    let payload = |link: Link, length| {
        link.payload(&vec![0; length], &mut [0; link::REPLY])
            .1
            .number
    };
    let packet = |packet: &[u8]| open(0).packet(packet, &mut [0; link::REPLY]).1.number;
    let ill_formed = Link {
        mode: Mode::Wait,
        ..Link::fresh(1)
    };
    [
        ("DLC_NOT_OPEN", payload(Link::fresh(1), 0)),
        ("DLC_PAYLOAD_TOO_LONG", payload(open(0), link::PAYLOAD + 1)),
        ("DLC_QUEUE_FULL", payload(open(link::QUEUE), 0)),
        ("DLC_BAD_PACKET", packet(&[])),
        ("DLC_NO_ENTRY", packet(&[0x20])),
        ("DLC_OTHER_NUMBER", packet(&[0x41])),
        (
            "DLC_REPLY_TOO_SMALL",
            open(0).start(&mut [0; link::REPLY - 1]).1.number,
        ),
        ("DLC_BAD_LINK", payload(ill_formed, 0)),
        ("DLC_BAD_EDITION", Link::make(0).1.number),
    ]
    .map(|(name, number)| (name, number.into()))
    .to_vec()
}

/// The first octets of what this program sends, and its modes in the paper's order.
pub fn packets_and_states() -> Vec<(&'static str, usize)> {
    let first = |event: &dyn Fn(&mut [u8])| {
        let mut reply = [0; link::REPLY];
        event(&mut reply);
        usize::from(reply[0])
    };
    let opening = Link {
        mode: Mode::Reset,
        ..Link::fresh(1)
    };
    let sends =
        |link: &Link, packet: &[u8]| first(&|reply| drop(link.clone().packet(packet, reply)));
    vec![
        (
            "DLC_RESET",
            first(&|reply| drop(opening.clone().timer(reply))),
        ),
        ("DLC_RESET_ACK", sends(&open(0), &[0x10])),
        ("DLC_DATA", first(&|reply| drop(open(1).timer(reply)))),
        ("DLC_DACK", sends(&open(0), &[0x41])),
        ("DLC_STATE_IDLE", Mode::Idle as usize),
        ("DLC_STATE_RESET", Mode::Reset as usize),
        ("DLC_STATE_DATA", Mode::Data as usize),
        ("DLC_STATE_WAIT", Mode::Wait as usize),
    ]
}

/// The editions by what they send for a DATA 1 at the start: the awaited number, or that number less 1.
pub fn editions() -> Vec<(&'static str, usize)> {
    let sends = |edition| {
        let mut reply = [0; link::REPLY];
        let (link, _) = Link {
            mode: Mode::Data,
            ..Link::make(edition).0
        }
        .packet(&[DATA | 1], &mut reply);
        (link.edition == edition).then_some(reply[0])
    };
    let edition = |dack| (0..=255).find(|&e| sends(e) == Some(dack));
    [("DLC_EDITION_1", DACK), ("DLC_EDITION_2", DACK | 15)]
        .map(|(name, dack)| (name, edition(dack).expect("an edition").into()))
        .to_vec()
}
