//! The frame writer.
use super::read::next_sum;
use super::*;
use crate::Written;

/// Writes a frame to the front of `out`. `stations` are fields as in a frame, closing 0 included and last; `next` is the
/// next ID's number, the source being 1, or 0 for a broadcast; `supplementary` begins with its length octet, or is empty for
/// none. Refusals in the order 33, 35, 36, 38, 34, 40, 41.
pub fn write(
    protocol: u8,
    stations: &[u8],
    next: usize,
    supplementary: &[u8],
    data: &[u8],
    out: &mut [u8],
) -> Written {
    match frame(protocol, stations, next, supplementary, data) {
        Err(number) => Written::refused(number),
        Ok(frame) => Written::put(&frame, out, 41),
    }
}

/// The frame, or the first refusal that applies of those that don't look at `out`.
fn frame(
    protocol: u8,
    stations: &[u8],
    next: usize,
    supplementary: &[u8],
    data: &[u8],
) -> Result<Vec<u8>, u8> {
    if !is_protocol(protocol) {
        return Err(33);
    }
    let places = station_places(stations).ok_or(35)?;
    let ids = places.len() - 1;
    if places[ids] + 1 != stations.len() {
        return Err(35);
    }
    if !(ids == 1 && next == 0 || ids > 1 && (2..=ids).contains(&next)) {
        return Err(36);
    }
    if !is_supplementary(supplementary) {
        return Err(38);
    }
    let header = STATIONS + stations.len() + supplementary.len() + 1;
    if !(MIN_HEADER..=MAX_HEADER).contains(&header) {
        return Err(34);
    }
    if data.len() > MAX_DATA {
        return Err(40);
    }
    Ok(put_together(
        protocol,
        stations,
        &places,
        next,
        supplementary,
        data,
    ))
}

/// The frame of fields that were judged right; the header's length is known to be at most 254.
fn put_together(
    protocol: u8,
    stations: &[u8],
    places: &[usize],
    next: usize,
    supplementary: &[u8],
    data: &[u8],
) -> Vec<u8> {
    let header = STATIONS + stations.len() + supplementary.len() + 1;
    let next_place = match next {
        0 => 0,
        _ => STATIONS + places[next - 1],
    };
    let mut frame = vec![next_sum(stations, places, next), VERSION, protocol];
    frame.extend([header as u8, next_place as u8]);
    frame.extend(stations);
    frame.extend(supplementary);
    frame.push(header_sum(&frame));
    frame.extend(data);
    frame.extend(check_sequence(&frame).to_le_bytes());
    frame
}
