//! Counts of inputs and differences, and out buffers in which every touched octet shows.
use std::collections::BTreeMap;
use std::fmt::{Debug, Write};
use std::time::Instant;

/// How many differences of a layer are shown.
const SHOWN: u64 = 5;

/// How many characters of a text are shown on both sides of where it begins to differ: a link has some 8,000.
const AROUND: usize = 800;

/// With fewer random inputs than this a number may well not come up.
const ENOUGH: u64 = 20_000;

pub struct Tally {
    name: &'static str,
    inputs: u64,
    comparisons: u64,
    differences: u64,
    numbers: BTreeMap<u8, u64>,
    counts: BTreeMap<&'static str, u64>,
    notes: BTreeMap<&'static str, u64>,
    claims: BTreeMap<&'static str, Claim>,
    start: Instant,
}

/// A sentence that has to hold of the archive itself: how often it was checked, and how often it did not hold.
#[derive(Default)]
struct Claim {
    checked: u64,
    failed: u64,
}

impl Tally {
    pub fn new(name: &'static str) -> Self {
        Tally {
            name,
            inputs: 0,
            comparisons: 0,
            differences: 0,
            numbers: BTreeMap::new(),
            counts: BTreeMap::new(),
            notes: BTreeMap::new(),
            claims: BTreeMap::new(),
            start: Instant::now(),
        }
    }

    /// Counts one input; where the answers differ, shows it.
    pub fn input<T: PartialEq + Debug>(
        &mut self,
        ours: &T,
        archive: &T,
        text: impl FnOnce() -> String,
    ) {
        self.inputs(1, ours, archive, text);
    }

    /// The same for several inputs that have one answer together.
    pub fn inputs<T: PartialEq + Debug>(
        &mut self,
        inputs: u64,
        ours: &T,
        archive: &T,
        text: impl FnOnce() -> String,
    ) {
        self.inputs += inputs;
        self.compared("second:  ", ours, archive, text);
    }

    /// Compares an answer with a stored one; the input is counted where the second program is asked.
    pub fn stored(&mut self, stored: &str, archive: &str, text: impl FnOnce() -> String) {
        self.compared("stored:  ", stored, archive, text);
    }

    fn compared<T: PartialEq + Debug + ?Sized>(
        &mut self,
        whose: &str,
        theirs: &T,
        archive: &T,
        text: impl FnOnce() -> String,
    ) {
        self.comparisons += 1;
        if theirs == archive {
            return;
        }
        self.differences += 1;
        if self.differences <= SHOWN {
            let (theirs, archive) = (format!("{theirs:X?}"), format!("{archive:X?}"));
            let pairs = theirs.chars().zip(archive.chars());
            let place = pairs.take_while(|(x, y)| x == y).count();
            println!("DIFFERENCE in {}: {}", self.name, near(&text(), 0));
            println!("  {whose}{}", near(&theirs, place));
            println!("  archive: {}", near(&archive, place));
        }
    }

    /// Counts an answer of the second program.
    pub fn number(&mut self, number: u8) {
        *self.numbers.entry(number).or_default() += 1;
    }

    /// Counts something else that comes up, by its name.
    pub fn count(&mut self, name: &'static str, times: u64) {
        *self.counts.entry(name).or_default() += times;
    }

    /// Counts something that need not come up.
    pub fn note(&mut self, name: &'static str, times: u64) {
        *self.notes.entry(name).or_default() += times;
    }

    /// Counts a check of a claim.
    pub fn claim(&mut self, name: &'static str, holds: bool) {
        let claim = self.claims.entry(name).or_default();
        claim.checked += 1;
        claim.failed += u64::from(!holds);
    }

    /// Prints counts and claims; true where every claim held, and everything counted came up.
    fn finish_claims(&self, count: u64) -> bool {
        let both = self.counts.iter().chain(&self.notes);
        let each: Vec<String> = both.map(|(name, n)| format!("{name}: {n}")).collect();
        if !each.is_empty() {
            println!("  {}", each.join(", "));
        }
        for (name, Claim { checked, failed }) in &self.claims {
            println!("  {name}: checked {checked} times, failed {failed}");
        }
        let came_up = self.counts.values().all(|&n| n != 0);
        self.claims.values().all(|claim| claim.failed == 0) && (came_up || count < ENOUGH)
    }

    /// Prints the layer's counts; true where nothing differs, every claim held and, with enough random inputs, each of
    /// `numbers` and all else that is counted came up.
    pub fn finish(&self, count: u64, numbers: &[u8]) -> bool {
        let seconds = self.start.elapsed().as_secs_f64();
        let comparisons = match self.comparisons {
            n if n == self.inputs => String::new(),
            n => format!(" in {n} comparisons"),
        };
        let (name, inputs, differences) = (self.name, self.inputs, self.differences);
        println!(
            "{name}: {inputs} inputs{comparisons}, {differences} differences ({seconds:.1} s)"
        );
        if !self.numbers.is_empty() {
            let each: Vec<String> = self
                .numbers
                .iter()
                .map(|(n, k)| format!("{n}: {k}"))
                .collect();
            println!("  answers {}", each.join(", "));
        }
        let missing: Vec<&u8> = numbers
            .iter()
            .filter(|n| !self.numbers.contains_key(n))
            .collect();
        if !missing.is_empty() {
            println!("  never answered: {missing:?}");
        }
        let claims = self.finish_claims(count);
        claims && self.differences == 0 && (missing.is_empty() || count < ENOUGH)
    }
}

/// A text, or what stands around a place of a long one.
fn near(text: &str, place: usize) -> String {
    let start = place.saturating_sub(AROUND);
    let shown: String = text.chars().skip(start).take(2 * AROUND).collect();
    let cut = |on: bool| if on { ".." } else { "" };
    let behind = text.chars().count() > start + 2 * AROUND;
    format!("{}{shown}{}", cut(start > 0), cut(behind))
}

/// Octets on both sides of an out buffer that no call may touch.
const GUARD: usize = 16;

/// An out buffer with octets around it. All is filled with a pattern that depends on the place, so that an octet written
/// where none belongs shows, as well as one copied from beside it.
#[derive(PartialEq)]
pub struct Out(Vec<u8>);

impl Out {
    pub fn new(room: usize, seed: u8) -> Self {
        let octet = |i: usize| (i as u8).wrapping_mul(37).wrapping_add(seed);
        Out((0..room + 2 * GUARD).map(octet).collect())
    }

    /// The buffer to lend.
    pub fn room(&mut self) -> &mut [u8] {
        let end = self.0.len() - GUARD;
        &mut self.0[GUARD..end]
    }
}

impl Debug for Out {
    fn fmt(&self, f: &mut std::fmt::Formatter) -> std::fmt::Result {
        write!(f, "out with {GUARD} octets around it {}", hex(&self.0))
    }
}

/// Octets as text.
pub fn hex(octets: &[u8]) -> String {
    let mut text = format!("[{}]", octets.len());
    for x in octets {
        write!(text, " {x:02X}").expect("a String takes all text");
    }
    text
}
