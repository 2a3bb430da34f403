//! The programs, run as processes, and the captures of examples/ for them.
use std::io::{self, Write};
use std::os::fd::OwnedFd;
use std::os::unix::net::UnixDatagram;
use std::path::{Path, PathBuf};
use std::process::{Command, Stdio};

/// What is seen of a program's run: whether its exit status is 0, its standard output and its standard error.
#[derive(Debug, Clone, PartialEq, Eq)]
pub struct Run {
    pub good: bool,
    pub output: Vec<u8>,
    pub messages: String,
}

/// A folder or file of the repository.
pub fn place(name: &str) -> PathBuf {
    Path::new(env!("CARGO_MANIFEST_DIR")).join("..").join(name)
}

/// A program that rt has built; its standard output and standard error are read unless the caller says otherwise.
pub fn program(name: &str) -> Command {
    let path = place("target/bin").join(name);
    assert!(path.exists(), "no {name}: `make` builds it");
    let mut command = Command::new(path);
    command.stdout(Stdio::piped()).stderr(Stdio::piped());
    command
}

/// Runs a program on what stands at its standard input. The capture is fed to it beside: a long one and what is made of it are
/// more than pipes hold. Where feeding fails, the output shows it.
pub fn run(
    mut program: Command,
    stdin: impl Into<Stdio>,
    feed: impl FnOnce() -> io::Result<()> + Send,
) -> Run {
    let child = program.stdin(stdin).spawn().expect("a program runs");
    // our own end of its input goes, or feeding a program that has ended would wait for ever
    drop(program);
    let seen = std::thread::scope(|scope| {
        scope.spawn(feed);
        child.wait_with_output().expect("what a program writes")
    });
    Run {
        good: seen.status.success(),
        output: seen.stdout,
        // octets that are no text show as a mark, which the second program never prints
        messages: String::from_utf8_lossy(&seen.stderr).into_owned(),
    }
}

/// A capture through a pipe, portion by portion; a read may take several of them.
pub fn by_pipe(name: &str, portions: &[Vec<u8>]) -> Run {
    let (reader, mut writer) = io::pipe().expect("a pipe");
    run(program(name), reader, move || {
        portions.iter().try_for_each(|part| writer.write_all(part))
    })
}

/// A capture in datagrams: a read takes exactly one, and an empty one is the end.
pub fn by_datagrams(name: &str, portions: &[Vec<u8>]) -> Run {
    let (ours, theirs) = UnixDatagram::pair().expect("two sockets");
    run(program(name), OwnedFd::from(theirs), move || {
        for part in portions.iter().filter(|part| !part.is_empty()) {
            ours.send(part)?;
        }
        ours.send(&[]).map(drop)
    })
}

/// The captures of examples/ whose names end so, in order.
pub fn examples(endings: &[&str]) -> Vec<PathBuf> {
    let files = std::fs::read_dir(place("examples")).expect("examples/");
    let mut paths: Vec<PathBuf> = files
        .map(|entry| entry.expect("an entry").path())
        .filter(|path| {
            path.extension()
                .is_some_and(|e| endings.iter().any(|x| e == *x))
        })
        .collect();
    paths.sort();
    paths
}
