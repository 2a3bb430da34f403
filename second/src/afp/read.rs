//! The frame reader.
use super::*;

/// A part of a frame: where it begins, and how many octets it has.
#[derive(Debug, Clone, Copy, PartialEq, Eq, Default)]
pub struct Part {
    pub place: usize,
    pub size: usize,
}

/// What stands where in a frame. On a refusal every field but the number is 0.
#[derive(Debug, Clone, Copy, PartialEq, Eq, Default)]
pub struct Reading {
    pub number: u8,
    pub protocol: u8,
    pub stations: Part,
    pub ids: usize,
    pub next: usize,
    pub supplementary: Part,
    pub payload: Part,
    pub unchecked: bool,
}

/// Reads a frame. Refusals 30 to 40, in rising order.
pub fn read(frame: &[u8]) -> Reading {
    let read = envelope(frame).and_then(|header| header_fields(frame, header));
    read.unwrap_or_else(|number| Reading {
        number,
        ..Reading::default()
    })
}

/// What can be judged before the fields are (30 to 34): gives the header's length.
fn envelope(frame: &[u8]) -> Result<usize, u8> {
    check_length(frame)?;
    let (checked, check) = frame.split_at(frame.len() - 2);
    if check != check_sequence(checked).to_le_bytes() {
        return Err(31);
    }
    if frame[1] != VERSION {
        return Err(32);
    }
    if !is_protocol(frame[2]) {
        return Err(33);
    }
    data_offset(frame)
}

/// Refuses a frame of a length that there is not.
pub(super) fn check_length(frame: &[u8]) -> Result<(), u8> {
    match frame.len() {
        MIN_FRAME..=MAX_FRAME => Ok(()),
        _ => Err(30),
    }
}

/// The header's length by octet 3 of a frame whose own length is right: the two check octets stand behind the header.
pub(super) fn data_offset(frame: &[u8]) -> Result<usize, u8> {
    let header = usize::from(frame[3]);
    if !(MIN_HEADER..=MAX_HEADER).contains(&header) || header > frame.len() - 2 {
        return Err(34);
    }
    Ok(header)
}

/// The fields of a header of the given length, and the data (35 to 40).
fn header_fields(frame: &[u8], header: usize) -> Result<Reading, u8> {
    let sum_place = header - 1;
    let fields = &frame[STATIONS..sum_place];
    let places = station_places(fields).ok_or(35)?;
    let next = next_id(frame[4], &places).ok_or(36)?;
    if frame[0] != next_sum(fields, &places, next) {
        return Err(37);
    }
    let stations = places[places.len() - 1] + 1;
    if !is_supplementary(&fields[stations..]) {
        return Err(38);
    }
    let unchecked = frame[sum_place] == 0;
    if !unchecked && frame[sum_place] != header_sum(&frame[..sum_place]) {
        return Err(39);
    }
    let data = frame.len() - 2 - header;
    if data > MAX_DATA {
        return Err(40);
    }
    let part = |place, size| Part { place, size };
    Ok(Reading {
        number: 0,
        protocol: frame[2],
        stations: part(STATIONS, stations),
        ids: places.len() - 1,
        next,
        supplementary: part(STATIONS + stations, fields.len() - stations),
        payload: part(header, data),
        unchecked,
    })
}

/// The next ID's number by octet 4: 0 for one ID alone, else that of the second or a later ID at that very place.
fn next_id(octet: u8, places: &[usize]) -> Option<usize> {
    let ids = &places[..places.len() - 1];
    if ids.len() == 1 {
        return (octet == 0).then_some(0);
    }
    (1..ids.len())
        .find(|&i| STATIONS + ids[i] == usize::from(octet))
        .map(|i| i + 1)
}

/// Octet 0 as it has to be: FF in a broadcast, else the sum over the next station's field, length octet too.
pub(super) fn next_sum(fields: &[u8], places: &[usize], next: usize) -> u8 {
    match next {
        0 => BROADCAST_SUM,
        _ => next_station_sum(&fields[places[next - 1]..places[next]]),
    }
}
