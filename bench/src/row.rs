//! One row of the table: the same work done by several contenders, in turn.
use crate::clock;
use std::hint::black_box;

/// A contender's turn: does the work once, and gives a number that depends on all of it.
type Turn = Box<dyn FnMut() -> usize>;

struct Contender {
    name: &'static str,
    turn: Turn,
    /// whether the ratio is over its time too
    rival: bool,
}

pub struct Row {
    what: &'static str,
    unit: &'static str,
    /// units of work in a turn
    units: usize,
    contenders: Vec<Contender>,
}

impl Row {
    /// A row, with the archive's turn.
    pub fn new(
        what: &'static str,
        unit: &'static str,
        units: usize,
        ours: impl FnMut() -> usize + 'static,
    ) -> Self {
        Row {
            what,
            unit,
            units,
            contenders: Vec::new(),
        }
        .with("ours", false, ours)
    }

    fn with(
        mut self,
        name: &'static str,
        rival: bool,
        turn: impl FnMut() -> usize + 'static,
    ) -> Self {
        let turn = Box::new(turn);
        self.contenders.push(Contender { name, turn, rival });
        self
    }

    /// Another contender, whose answer must be ours.
    pub fn beside(mut self, name: &'static str, mut turn: impl FnMut() -> usize + 'static) -> Self {
        let ours = (self.contenders[0].turn)();
        assert_eq!(turn(), ours, "{}: {name} differs", self.what);
        self.with(name, true, turn)
    }

    /// Another contender, whose work is like ours and not the same.
    #[cfg(osmocom)]
    pub fn beside_like(self, name: &'static str, turn: impl FnMut() -> usize + 'static) -> Self {
        self.with(name, true, turn)
    }

    /// A part of our own work by itself, which is no other's: it is shown, and not in the ratio.
    pub fn part(self, name: &'static str, turn: impl FnMut() -> usize + 'static) -> Self {
        self.with(name, false, turn)
    }

    pub fn print(mut self, rounds: usize) {
        let best = self.best_times(rounds);
        let timed = self.contenders.iter().zip(&best);
        let rivals = timed.clone().filter(|(other, _)| other.rival);
        let others = rivals.map(|(_, time)| *time).fold(f64::INFINITY, f64::min);
        print!("{:<54} ns/{:<6}", self.what, self.unit);
        for (Contender { name, .. }, time) in timed {
            print!("  {name} {time:.3}");
        }
        println!("  ratio {:.2}", others / best[0]);
    }

    /// The best time of each contender, for a unit.
    fn best_times(&mut self, rounds: usize) -> Vec<f64> {
        let all = self.contenders.iter_mut();
        let turns: Vec<usize> = all.map(|one| enough(&mut one.turn)).collect();
        let mut best = vec![f64::INFINITY; turns.len()];
        for _ in 0..rounds {
            for (k, one) in self.contenders.iter_mut().enumerate() {
                let time = timed(&mut one.turn, turns[k]) / (turns[k] * self.units) as f64;
                best[k] = best[k].min(time);
            }
        }
        best
    }
}

fn timed(turn: &mut Turn, turns: usize) -> f64 {
    let start = clock::cpu();
    for _ in 0..turns {
        black_box(turn());
    }
    clock::cpu() - start
}

/// So many turns that a time is at least 2 ms, and the clock's own cost does not show.
fn enough(turn: &mut Turn) -> usize {
    let mut turns = 1;
    while timed(turn, turns) < 2e6 {
        turns *= 2;
    }
    turns
}
