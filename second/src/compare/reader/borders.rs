//! How flow control and pairs stand at the borders of portions, and what is wrong with states that are refused.
use super::super::flow::is_flow;
use super::super::tally::Tally;
use second::check::Check;
use second::qaft::{self, FLAG};
use second::reader::{Answer, State};

/// What has to come up at level 1.
const BEGINS: &str = "portions that begin with 11 or 13 while a 7D waits";
const ENDS: &str = "portions that end with 11 or 13 while a 7D waits";
const NOTHING_ELSE: &str = "portions of nothing but 11 or 13";
const FLOW_AND_PARTNER: &str = "portions that begin with 11 or 13 and a bad pair's partner";
/// And at each level.
const PARTNER: [&str; 2] = at_levels!("portions that begin with a bad pair's partner");
const MARKED: [&str; 2] = at_levels!("16 for a pair of an earlier portion");
const BEYOND: [&str; 2] = at_levels!("running check that goes on at the highest count");
/// Refused for one thing and for nothing else: at count 0 the mark or the running check, before a flag and behind one.
const MARK: [&str; 2] = [
    "5 by the mark alone before a flag",
    "5 by the mark alone behind a flag",
];
const CHECK: [&str; 2] = [
    "5 by the running check alone before a flag",
    "5 by the running check alone behind a flag",
];
const COUNT: [&str; 2] = [
    "5 by the count alone before a flag",
    "5 by the count alone behind a flag",
];
const PENDING: &str = "5 by a 7D alone before a flag";
/// Of a sum, behind a flag and some octets.
const WIDE: &str = "5 by a sum over 255 alone";

pub fn came_up(check: Check, tally: &mut Tally) {
    let both = [PARTNER, MARKED, BEYOND, MARK, CHECK, COUNT].concat();
    let level_1 = [BEGINS, ENDS, NOTHING_ELSE, FLOW_AND_PARTNER];
    let wide = (check == Check::Sum).then_some(WIDE);
    let others = [PENDING].into_iter().chain(wide);
    for name in both.into_iter().chain(level_1).chain(others) {
        tally.count(name, 0);
    }
}

/// A state that 5 refuses, and would not if one field of it were another. A count of 0 is not to blame for what it does not go with.
fn refused(from: State, check: Check, tally: &mut Tally) {
    let at = usize::from(from.flag);
    let by_check = if from.count == 0 { CHECK[at] } else { WIDE };
    let mut mended = [(MARK[at], from), (by_check, from), (PENDING, from)];
    mended[0].1.bad_pair = false;
    mended[1].1.check = check.start();
    mended[2].1.pending = false;
    for (name, state) in mended {
        if state.well_formed(check) {
            tally.count(name, 1);
        }
    }
    let count = if from.flag { check.many() } else { 0 };
    if from.count != 0 && (State { count, ..from }).well_formed(check) {
        tally.count(COUNT[at], 1);
    }
}

/// Flow control at the borders of what a call took of a level 1 line.
fn flow_control(from: State, taken: &[u8], next: State, tally: &mut Tally) {
    let begins = from.pending && is_flow(taken[0]);
    let ends = next.pending && is_flow(taken[taken.len() - 1]);
    tally.count(BEGINS, begins.into());
    tally.count(ENDS, ends.into());
    tally.count(NOTHING_ELSE, taken.iter().all(|&x| is_flow(x)).into());
}

/// A partner whose 7D came with the state.
fn partner(from: State, taken: &[u8], tally: &mut Tally) {
    let skipped = taken.iter().take_while(|&&x| qaft::skips(from.level, x));
    let skipped = skipped.count();
    let bad = |x: &u8| *x != FLAG && !qaft::is_good_pair(from.level, *x);
    if from.pending && taken.get(skipped).is_some_and(bad) {
        let name = match skipped {
            0 => PARTNER[usize::from(from.level)],
            _ => FLOW_AND_PARTNER,
        };
        tally.count(name, 1);
    }
}

/// Counts what a call brings up.
pub fn count(from: State, portion: &[u8], (next, answer): (State, Answer), tally: &mut Tally) {
    let Some(check) = Check::of(from.kind) else {
        return;
    };
    if answer.number == 5 {
        refused(from, check, tally);
    }
    if answer.taken == 0 {
        return;
    }
    let taken = &portion[..answer.taken];
    if from.level == 1 && next.flag {
        flow_control(from, taken, next, tally);
    }
    partner(from, taken, tally);
    let marked = from.bad_pair && answer.number == 16;
    tally.count(MARKED[usize::from(from.level)], marked.into());
    let beyond = from.count == check.many() && answer.number == 15 && next.check != from.check;
    tally.count(BEYOND[usize::from(from.level)], beyond.into());
}
