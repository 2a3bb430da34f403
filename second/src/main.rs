//! `second [--count N] [--seed S]`: compares the archive of proved code with the second program, N inputs a layer. Prints
//! inputs and differences for each layer; the exit status is 1 where anything differs. `second --bless` writes the table
//! that is stored of the archive's answers anew, and compares nothing.
#![deny(unsafe_code)]

#[cfg(archive_missing)]
compile_error!(
    "target/libhasfandur.a is missing: run `make` at the repository's top, or second/run"
);

#[allow(unsafe_code)]
mod archive;
mod compare;

use std::process::ExitCode;

const USAGE: &str = "usage: second [--count N] [--seed S] | second --bless";

/// Count and seed from the command line, or nothing where it can't be read.
fn arguments() -> Option<(u64, u64)> {
    let (mut count, mut seed) = (20_000, 1);
    let mut words = std::env::args().skip(1);
    while let Some(word) = words.next() {
        let number = words.next()?.parse().ok()?;
        match word.as_str() {
            "--count" => count = number,
            "--seed" => seed = number,
            _ => return None,
        }
    }
    Some((count, seed))
}

fn main() -> ExitCode {
    if std::env::args().skip(1).eq(["--bless"]) {
        compare::bless();
        return ExitCode::SUCCESS;
    }
    let Some((count, seed)) = arguments() else {
        eprintln!("{USAGE}");
        return ExitCode::from(2);
    };
    println!("second: {count} inputs a layer, seed {seed}");
    if compare::all(count, seed) {
        ExitCode::SUCCESS
    } else {
        ExitCode::FAILURE
    }
}
