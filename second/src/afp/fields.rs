//! The rules for station IDs, station fields and the supplementary header.

/// An ID: one or more of A-Z, 0-9, "/", then nothing, or "-" and one or more octets 21 to 7E.
pub fn is_id(octets: &[u8]) -> bool {
    let callsign = |x: &u8| matches!(x, b'A'..=b'Z' | b'0'..=b'9' | b'/');
    let printing = |x: &u8| (0x21..=0x7E).contains(x);
    // a callsign has no "-": the first one, if any, is the separator
    match octets.iter().position(|&x| x == b'-') {
        None => !octets.is_empty() && octets.iter().all(callsign),
        Some(dash) => {
            let (call, rest) = (&octets[..dash], &octets[dash + 1..]);
            !call.is_empty()
                && call.iter().all(callsign)
                && !rest.is_empty()
                && rest.iter().all(printing)
        }
    }
}

/// Station fields at the front of `octets`: the place of each ID's length octet, and last that of the closing 0. Nothing
/// where there is no ID, one against the rule, or no closing 0 within.
pub fn station_places(octets: &[u8]) -> Option<Vec<usize>> {
    let mut places = vec![0];
    loop {
        let place = *places.last()?;
        let size = usize::from(*octets.get(place)?);
        if size == 0 {
            return (places.len() > 1).then_some(places);
        }
        let next = place + 1 + size;
        if !is_id(octets.get(place + 1..next)?) {
            return None;
        }
        places.push(next);
    }
}

/// A supplementary header: none at all, or a length and exactly that many octets, made wholly of options, of which at most
/// two have type 0 (the originating and the terminating callsign).
pub fn is_supplementary(octets: &[u8]) -> bool {
    let Some((&length, mut options)) = octets.split_first() else {
        return true;
    };
    if usize::from(length) != options.len() {
        return false;
    }
    let mut callsigns = 0;
    while !options.is_empty() {
        let [kind, size, rest @ ..] = options else {
            return false;
        };
        let Some(rest) = rest.get(usize::from(*size)..) else {
            return false;
        };
        callsigns += usize::from(*kind == 0);
        options = rest;
    }
    callsigns <= 2
}
