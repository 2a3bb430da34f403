//! Who the next receiver of a frame is (change request 2026-09): from octets 0, 3 and 4 and the one station field that octet 4
//! points at.
use super::read::{check_length, data_offset};
use super::*;

/// The first place that a second ID can have: the source's field has two octets at least.
const SECOND_ID: usize = STATIONS + 2;

/// Who a frame is for next.
#[derive(Debug, Clone, Copy, PartialEq, Eq)]
pub enum Receiver {
    /// not said, by this number
    Refused(u8),
    Broadcast,
    /// the station whose field this part of the frame is, length octet too
    Station(Part),
}

impl Receiver {
    /// The number given back.
    pub fn number(self) -> u8 {
        match self {
            Receiver::Refused(number) => number,
            Receiver::Broadcast | Receiver::Station(_) => 0,
        }
    }

    /// The field shown; of no octets, and at 0, where there is none.
    pub fn field(self) -> Part {
        match self {
            Receiver::Refused(_) | Receiver::Broadcast => Part::default(),
            Receiver::Station(field) => field,
        }
    }
}

/// Says who a frame is for next. Refusals in the order 30, 34, 36, 35, 37.
pub fn next_receiver(frame: &[u8]) -> Receiver {
    receiver(frame).unwrap_or_else(Receiver::Refused)
}

fn receiver(frame: &[u8]) -> Result<Receiver, u8> {
    check_length(frame)?;
    let offset = data_offset(frame)?;
    let place = usize::from(frame[4]);
    let (receiver, sum) = if place == 0 {
        (Receiver::Broadcast, BROADCAST_SUM)
    } else if (SECOND_ID..=offset - 2).contains(&place) {
        // the closing 0 and the header sum are still to come behind the last field
        let field = field_at(&frame[..offset - 2], place).ok_or(35)?;
        let size = field.len();
        let part = Part { place, size };
        (Receiver::Station(part), next_station_sum(field))
    } else {
        return Err(36);
    };
    if frame[0] != sum {
        return Err(37);
    }
    Ok(receiver)
}

/// The station field at a place, length octet too: nothing where it is not wholly within `octets`, or breaks the ID rule.
fn field_at(octets: &[u8], place: usize) -> Option<&[u8]> {
    let size = usize::from(*octets.get(place)?);
    let field = octets.get(place..=place + size)?;
    is_id(&field[1..]).then_some(field)
}
