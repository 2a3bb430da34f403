//! Odd escape pairs of change request 2026-04: put into lines, and the ways in which they stand there. A pair is good where the level
//! makes it; a bad one's octet counts, is checked and stored, and its segment is reported by 16 unless a 7D is left over.
use super::checks;
use super::make::octets;
use super::tally::Tally;
use second::check::Check;
use second::qaft::{self, Report, ESCAPE, FLAG, MAX_DATA};
use second::reader::{self, State};
use second::rng::Rng;
use std::ops::Range;

/// 7D and any octet but the flag, often one that bears on the line's form or that some level puts there.
fn pair(rng: &Rng) -> [u8; 2] {
    let few = [ESCAPE, 0x11, 0x13, 0x31, 0x33, 0x5D, 0x5E, 0x41];
    match rng.pick(&[rng.octet(), rng.pick(&few)]) {
        FLAG => [ESCAPE, 0x41],
        partner => [ESCAPE, partner],
    }
}

/// A pair for an octet that may stand by itself, so that sum and count stay; none for 5E, whose partner would be the flag.
fn needless(x: u8) -> Option<[u8; 2]> {
    (x != ESCAPE && x ^ 0x20 != FLAG).then_some([ESCAPE, x ^ 0x20])
}

/// Where the octets and pairs of a segment stand; a 7D left over is one of them.
fn places(segment: &[u8]) -> Vec<Range<usize>> {
    let mut places = Vec::new();
    let mut at = 0;
    while at < segment.len() {
        let size = if segment[at] == ESCAPE { 2 } else { 1 };
        let end = segment.len().min(at + size);
        places.push(at..end);
        at = end;
    }
    places
}

/// Puts a pair into a segment: often at its ends, and often for an octet that needs none, so that a frame would stay one.
fn put_one(rng: &Rng, segment: &mut Vec<u8>) {
    if segment.is_empty() {
        segment.extend(pair(rng));
        return;
    }
    let places = places(segment);
    let last = places.len() - 1;
    let some = [0, last, last.saturating_sub(1), rng.below(places.len())];
    let place = places[rng.pick(&some)].clone();
    match (rng.below(6), needless(segment[place.start])) {
        (0..=2, Some(pair)) => drop(segment.splice(place, pair)),
        (3, _) => drop(segment.splice(place, pair(rng))),
        (4, _) => drop(segment.splice(place.start..place.start, pair(rng))),
        _ => segment.extend(pair(rng)),
    }
}

/// A segment of nothing but pairs, where that can be.
fn nothing_else(segment: &[u8]) -> Vec<u8> {
    let mut more = Vec::with_capacity(2 * segment.len());
    for place in places(segment) {
        match needless(segment[place.start]) {
            Some(pair) => more.extend(pair),
            None => more.extend(&segment[place]),
        }
    }
    more
}

/// A line with pairs put into some of its segments, most of them bad: one, a few, or wherever they can be.
pub fn strewn(rng: &Rng, line: &[u8]) -> Vec<u8> {
    let more = |segment: &[u8]| {
        let mut segment = segment.to_vec();
        match rng.below(32) {
            0 => segment = nothing_else(&segment),
            1..=16 => {
                for _ in 0..rng.pick(&[1, 1, 1, 2, 8]) {
                    put_one(rng, &mut segment);
                }
            }
            _ => {}
        }
        segment
    };
    let segments: Vec<Vec<u8>> = line.split(|&x| x == FLAG).map(more).collect();
    segments.join(&FLAG)
}

/// A frame of the longest data, of some octets less or of one or two more, with a few pairs put in or none.
pub fn near_limit(rng: &Rng, check: Check) -> Vec<u8> {
    let data = octets(rng, rng.between(MAX_DATA - 2, MAX_DATA + 2));
    let mut segment = qaft::body(rng.below(2) as u8, check, &data);
    for _ in 0..rng.pick(&[0, 1, 1, 2]) {
        put_one(rng, &mut segment);
    }
    segment
}

/// Segments with 7D before every octet: alone, with the check that would make a frame, with a wrong one, with a 7D left over,
/// behind an octet, and with flow control inside.
pub fn each(check: Check) -> Vec<Vec<u8>> {
    let forms = |x: u8| {
        let last = |data: &[u8]| qaft::escaped(0, &check.octets(data));
        let check_1 = last(&[x ^ 0x20]);
        let check_2 = last(&[0x41, x ^ 0x20]);
        let wrong = vec![x; check.size()];
        [
            vec![ESCAPE, x],
            [&[ESCAPE, x], &check_1[..]].concat(),
            [&[ESCAPE, x], &wrong[..]].concat(),
            vec![ESCAPE, x, ESCAPE],
            [&[0x41, ESCAPE, x], &check_2[..]].concat(),
            [&[ESCAPE, 0x13, x], &check_1[..]].concat(),
        ]
    };
    (0..=255).filter(|&x| x != FLAG).flat_map(forms).collect()
}

/// Segments whose last or last but one octet is that of 7D and a partner: around the last that is stored and the count that stands for
/// all above.
pub fn each_long(check: Check, partners: &[u8]) -> Vec<Vec<u8>> {
    let mut all = Vec::new();
    for &x in partners {
        for before in MAX_DATA - 1..=check.many() {
            let zeros = vec![0; before];
            let segment = [&zeros[..], &[ESCAPE, x]].concat();
            let last = check.octets(&[&zeros[..], &[x ^ 0x20]].concat());
            all.push([&segment[..], &qaft::escaped(0, &last)].concat());
            all.push(segment);
        }
    }
    all
}

/// QAFT's segments with 7D before every octet; the long ones with some partners of every kind: a bad one, one of level 1, one of both
/// levels, 7D itself, and flow control.
pub fn each_of_qaft() -> Vec<Vec<u8>> {
    let partners = [0x41, 0x31, 0x5E, ESCAPE, 0x11];
    [each(Check::Sum), each_long(Check::Sum, &partners)].concat()
}

/// What the pairs of a closed segment are.
struct Pairs {
    check: Check,
    octets: Vec<u8>,
    /// where among the octets those of good pairs stand, and of bad ones
    good: Vec<usize>,
    bad: Vec<usize>,
    left_over: bool,
    /// whether flow control stands inside a bad pair
    parted: bool,
}

impl Pairs {
    fn new(level: u8, check: Check, segment: &[u8]) -> Self {
        let mut pairs = Pairs {
            check,
            octets: Vec::with_capacity(segment.len()),
            good: Vec::new(),
            bad: Vec::new(),
            left_over: false,
            parted: false,
        };
        let mut skipped = false;
        for &x in segment {
            if qaft::skips(level, x) {
                skipped = true;
            } else if pairs.left_over {
                let place = pairs.octets.len();
                if qaft::is_good_pair(level, x) {
                    pairs.good.push(place);
                } else {
                    pairs.bad.push(place);
                    pairs.parted |= skipped;
                }
                pairs.octets.push(x ^ 0x20);
                pairs.left_over = false;
            } else if x == ESCAPE {
                (pairs.left_over, skipped) = (true, false);
            } else {
                pairs.octets.push(x);
            }
        }
        pairs
    }

    /// Of a length that a frame may have.
    fn fits(&self) -> bool {
        let (shortest, longest) = (1 + self.check.size(), self.check.longest());
        !self.left_over && (shortest..=longest).contains(&self.octets.len())
    }

    /// Of such a length, and whether the check is right.
    fn fits_with(&self, right: bool) -> bool {
        let left = checks::running(self.check, &self.octets);
        self.fits() && right == (left == self.check.good())
    }

    /// How many of the octets at these places are 11 or 13.
    fn flow_control(&self, places: &[usize]) -> usize {
        let octets = places.iter().map(|&i| self.octets[i]);
        octets.filter(|&x| qaft::skips(1, x)).count()
    }
}

type Is = fn(&Pairs) -> bool;

/// What has to come up at each level, of segments with a bad pair.
const WAYS: [([&str; 2], Is); 8] = [
    (at_levels!("bad pair and a 7D left over"), |p| p.left_over),
    (at_levels!("bad pair in a long segment"), |p| {
        !p.left_over && p.octets.len() > p.check.longest()
    }),
    (
        at_levels!("bad pair behind all that is stored and none before"),
        |p| !p.left_over && p.bad[0] >= p.check.longest(),
    ),
    (at_levels!("bad pair as the last that is stored"), |p| {
        p.fits() && p.bad == [p.check.longest() - 1]
    }),
    (at_levels!("bad pair alone"), |p| {
        !p.left_over && p.octets.len() == 1
    }),
    (at_levels!("bad pair and a wrong check"), |p| {
        p.fits_with(false)
    }),
    (at_levels!("bad pair in what would be a frame"), |p| {
        p.fits_with(true)
    }),
    (at_levels!("7D 7D"), |p| {
        p.bad.iter().any(|&i| p.octets[i] == ESCAPE ^ 0x20)
    }),
];
const REPORTED: [&str; 2] = at_levels!("reports 16");
const GOOD: [&str; 2] = at_levels!("frames with pairs");
/// A pair that only the other level takes: bad at level 0, good at level 1.
const OTHER_LEVEL: [&str; 2] = [
    "bad pairs at level 0 that level 1 takes",
    "frames at level 1 with pairs that level 0 does not take",
];
/// At level 1.
const PARTED: &str = "11 or 13 inside a bad pair";

/// Says what has to come up where lines are read at these levels.
pub fn came_up(levels: &[u8], tally: &mut Tally) {
    for level in levels.iter().map(|&level| usize::from(level)) {
        let ways = WAYS.iter().map(|way| way.0[level]);
        let others = [REPORTED, GOOD, OTHER_LEVEL].map(|names| names[level]);
        ways.chain(others).for_each(|name| tally.count(name, 0));
    }
    if levels.contains(&1) {
        tally.count(PARTED, 0);
    }
}

/// Counts the ways in which pairs stand on a line: once for each segment.
pub fn count(level: u8, check: Check, line: &[u8], tally: &mut Tally) {
    if level > 1 {
        return;
    }
    let at = usize::from(level);
    let segments = qaft::cut(line).closed.into_iter();
    for segment in segments.filter(|segment| segment.contains(&ESCAPE)) {
        let pairs = Pairs::new(level, check, segment);
        let report = qaft::report(level, check, segment);
        let frame = matches!(report, Some(Report::Frame(_)));
        let other = match level {
            0 => !pairs.bad.is_empty() && pairs.flow_control(&pairs.bad) == pairs.bad.len(),
            _ => frame && pairs.flow_control(&pairs.good) > 0,
        };
        tally.count(REPORTED[at], (report == Some(Report::Pair)).into());
        tally.count(GOOD[at], (frame && !pairs.good.is_empty()).into());
        tally.count(OTHER_LEVEL[at], other.into());
        if level == 1 {
            tally.count(PARTED, pairs.parted.into());
        }
        if !pairs.bad.is_empty() {
            for (names, is) in WAYS {
                tally.count(names[at], is(&pairs).into());
            }
        }
    }
}

/// How many of a QAFT line's portions end inside a bad pair, where flow control may stand too.
pub fn parted_by_portions(level: u8, portions: &[Vec<u8>]) -> u64 {
    let line = portions.concat();
    let mut store = vec![0; Check::Sum.longest()];
    let (mut now, mut at) = (State::fresh(level, Check::Sum.kind()), 0);
    let mut parted = 0;
    for portion in portions {
        let end = at + portion.len();
        while at < end {
            let (next, answer) = reader::read(now, &line[at..end], &mut store);
            (now, at) = (next, at + answer.taken);
        }
        let mut rest = line[end..].iter().filter(|&&x| !qaft::skips(level, x));
        let partner = rest.next().filter(|_| now.pending);
        parted += u64::from(partner.is_some_and(|&x| x != FLAG && !qaft::is_good_pair(level, x)));
    }
    parted
}
