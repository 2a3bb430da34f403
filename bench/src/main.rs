//! Times the proved archive beside others, in one process and in CPU time. See docs/SPEED.md.
mod afp;
mod clock;
mod frames;
mod kiss;
mod link;
mod others;
mod qaft;
mod row;
mod sheet;

use row::Row;
use wrappers::archive;

/// The archive's functions, as the comparison calls them; the benchmark needs fewer.
#[allow(dead_code)]
#[path = "../../second/src"]
mod wrappers {
    pub mod archive;
}

/// Each contender is timed this many times, all in turn, and the best time counts.
const ROUNDS: usize = 25;

fn main() {
    let rounds = std::env::args()
        .nth(1)
        .map_or(ROUNDS, |n| n.parse().expect("bench/run [ROUNDS]"));
    others::start();
    if cfg!(not(boost)) {
        println!("Boost is not there: no row has it");
    }
    if cfg!(not(osmocom)) {
        println!("libosmocore is not there: no row has it");
    }
    if cfg!(not(direwolf)) {
        println!("direwolf is not there: no row has it");
    }
    if cfg!(not(openconnect)) {
        println!("openconnect is not there: no row has it");
    }
    println!("ns of CPU, best of {rounds}; ratio: the best other's time over ours");
    let rows = [qaft::ROWS, kiss::ROWS, afp::ROWS, link::ROWS, sheet::ROWS];
    for make in rows.into_iter().flatten() {
        let row: Row = make();
        row.print(rounds);
    }
}
