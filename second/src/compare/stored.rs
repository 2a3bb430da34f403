//! Texts that are stored under tables/, one line an input.
use super::tally::Tally;
use std::path::{Path, PathBuf};

fn path(name: &str) -> PathBuf {
    Path::new(env!("CARGO_MANIFEST_DIR"))
        .join("tables")
        .join(name)
}

pub fn read(name: &str) -> String {
    let path = path(name);
    std::fs::read_to_string(&path).unwrap_or_else(|error| panic!("{}: {error}", path.display()))
}

pub fn write(name: &str, text: &str) {
    let path = path(name);
    std::fs::write(&path, text).unwrap_or_else(|error| panic!("{}: {error}", path.display()));
    println!("written: {}", path.display());
}

/// Compares what the archive's answers make with what is stored, line by line.
pub fn compare(name: &str, made: &str, tally: &mut Tally) {
    let stored = read(name);
    let (mut stored, mut made) = (stored.lines(), made.lines());
    for place in 1.. {
        let (stored, made) = (stored.next(), made.next());
        if (stored, made) == (None, None) {
            return;
        }
        let text = || format!("tables/{name}, line {place}");
        tally.stored(stored.unwrap_or("no line"), made.unwrap_or("no line"), text);
    }
}
