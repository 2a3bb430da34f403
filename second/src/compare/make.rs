//! Makes octets, station fields and supplementary headers, right ones and wrong ones.
use second::rng::Rng;

/// Octets with many of those that QAFT escapes.
pub fn octets(rng: &Rng, length: usize) -> Vec<u8> {
    let mut octets = rng.octets(length);
    let special = rng.pick(&[0, 1, 4, 8]);
    for x in &mut octets {
        if rng.below(8) < special {
            *x = rng.pick(&[0x7E, 0x7D, 0x11, 0x13, 0x5E, 0x5D, 0x31, 0x33]);
        }
    }
    octets
}

/// Every sequence of up to so many octets of an alphabet, the shorter ones first.
pub fn each(alphabet: &[u8], most: usize) -> Vec<Vec<u8>> {
    let mut all = vec![vec![]];
    let mut longest = all.clone();
    for _ in 0..most {
        longest = longest
            .iter()
            .flat_map(|s| alphabet.iter().map(|&x| [&s[..], &[x]].concat()))
            .collect();
        all.extend(longest.clone());
    }
    all
}

const CALLSIGN: &[u8] = b"ABCDEFGHIJKLMNOPQRSTUVWXYZ0123456789/";

/// Octets on both sides of each border of the ID rule.
pub const BORDERS: [u8; 20] = [
    0x00, 0x20, 0x21, 0x2C, 0x2D, 0x2E, 0x2F, 0x30, 0x39, 0x3A, 0x40, 0x41, 0x5A, 0x5B, 0x61, 0x7A,
    0x7E, 0x7F, 0x80, 0xFF,
];

/// An ID within the rule.
pub fn id(rng: &Rng) -> Vec<u8> {
    let size = rng.pick(&[1, 2, 3, 4, 4, 5, 6]);
    let mut id: Vec<u8> = (0..size).map(|_| rng.pick(CALLSIGN)).collect();
    if rng.once_in(3) {
        id.push(b'-');
        let size = rng.pick(&[1, 1, 2, 3, 8]);
        id.extend((0..size).map(|_| rng.between(0x21, 0x7E) as u8));
    }
    id
}

/// An ID that is most often against the rule, before its "-" or behind it.
fn wrong_id(rng: &Rng) -> Vec<u8> {
    let mut id = id(rng);
    if rng.once_in(3) && !id.contains(&b'-') {
        id.extend(b"-AB");
    }
    match rng.below(6) {
        0 => id.push(b'-'),
        1 => id.insert(0, b'-'),
        _ => {
            let i = rng.below(id.len());
            id[i] = rng.pick(&BORDERS);
        }
    }
    id
}

fn fields(ids: &[Vec<u8>]) -> Vec<u8> {
    let mut octets = Vec::new();
    for id in ids {
        octets.push(id.len() as u8);
        octets.extend(id);
    }
    octets.push(0);
    octets
}

/// Station fields within the rule, closing 0 included.
pub fn stations(rng: &Rng) -> Vec<u8> {
    let count = rng.pick(&[1, 1, 1, 2, 2, 2, 3, 3, 4, 8]);
    let ids: Vec<_> = (0..count).map(|_| id(rng)).collect();
    fields(&ids)
}

/// Station fields of many IDs with one octet each.
pub fn many_stations(rng: &Rng) -> Vec<u8> {
    let count = rng.pick(&[100, 120, 121, 122, 123, 124, 255, 256, 257, 258, 300]);
    let ids: Vec<_> = (0..count).map(|_| vec![rng.pick(CALLSIGN)]).collect();
    fields(&ids)
}

/// Station fields that are most often against the rule.
pub fn wrong_stations(rng: &Rng) -> Vec<u8> {
    let mut good = stations(rng);
    match rng.below(10) {
        0 => vec![0],
        1 => {
            good.pop();
            good
        }
        2 => {
            let extra = rng.between(1, 3);
            good.extend(rng.octets(extra));
            good
        }
        3 => {
            good[0] = good[0].wrapping_add(rng.pick(&[1, 2, 0xFF, 0xFE]));
            good
        }
        4 => {
            let i = rng.below(good.len());
            good[i] = rng.octet();
            good
        }
        5 => Vec::new(),
        _ => {
            let mut ids: Vec<_> = (0..rng.between(1, 4)).map(|_| id(rng)).collect();
            let i = rng.below(ids.len());
            ids[i] = wrong_id(rng);
            fields(&ids)
        }
    }
}

/// Where the length octets of station fields stand, and the closing 0, as far as they can be followed.
pub fn places(stations: &[u8]) -> Vec<usize> {
    let mut places = vec![];
    let mut place = 0;
    while let Some(&size) = stations.get(place) {
        places.push(place);
        if size == 0 {
            break;
        }
        place += 1 + usize::from(size);
    }
    places
}

/// A supplementary header of options, up to three of them callsigns; none at all, or an empty one.
pub fn supplementary(rng: &Rng) -> Vec<u8> {
    if rng.once_in(3) {
        return Vec::new();
    }
    let mut octets = vec![0];
    for _ in 0..rng.pick(&[0, 1, 1, 2, 2, 3, 4]) {
        let size = rng.pick(&[0, 0, 1, 2, 6]);
        octets.push(rng.pick(&[0, 0, 0, 1, 127, 128, 192, 255]));
        octets.push(size as u8);
        octets.extend(rng.octets(size));
    }
    octets[0] = (octets.len() - 1) as u8;
    octets
}

/// A supplementary header that is most often wrong.
pub fn wrong_supplementary(rng: &Rng) -> Vec<u8> {
    let mut octets = supplementary(rng);
    match rng.below(5) {
        0 => octets = vec![6, 0, 0, 0, 0, 0, 0],
        1 => octets.push(rng.octet()),
        2 if octets.len() > 2 => octets[2] = octets[2].wrapping_add(rng.pick(&[1, 0xFF])),
        3 if octets.len() > 1 => {
            octets.pop();
        }
        _ if octets.is_empty() => octets.push(rng.between(1, 3) as u8),
        _ => octets[0] = octets[0].wrapping_add(rng.pick(&[1, 0xFF])),
    }
    octets
}

/// A supplementary header of one option, of as many octets as asked; of 0 or 1 none or an empty one.
pub fn filling(rng: &Rng, size: usize) -> Vec<u8> {
    match size {
        0 => Vec::new(),
        1 => vec![0],
        2 => vec![1, 1],
        _ => {
            let mut octets = vec![(size - 1) as u8, 1, (size - 3) as u8];
            octets.extend(rng.octets(size - 3));
            octets
        }
    }
}

/// How many data octets: around the limit, or few.
pub fn data_length(rng: &Rng) -> usize {
    match rng.below(24) {
        0 => rng.between(2_302, 2_306),
        1 => rng.below(2_304),
        _ => rng.below(20),
    }
}
