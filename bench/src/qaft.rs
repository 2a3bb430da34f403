//! QAFT, and AFT: the same with the two-octet check sequence. The frame writer and the chunk reader.
use crate::archive;
use crate::frames::{self, Line};
#[cfg(osmocom)]
use crate::others;
#[cfg(openconnect)]
use crate::others::qaft::openconnect;
use crate::others::qaft::Plain;
use crate::row::Row;
use second::check::Check;
use second::qaft::FLAG;
use second::reader::State;
use second::rng::Rng;

// a line each, the longer ones too
#[rustfmt::skip]
pub const ROWS: &[fn() -> Row] = &[
    || writer("QAFT write, 2,560 random octets", QAFT),
    || writer("QAFT write, 20 random octets", QAFT.of(20)),
    || reader("QAFT read, frames of 2,560, whole", QAFT, WHOLE),
    || reader("QAFT read, frames of 2,560, chunks of 64", QAFT, 64),
    || reader("QAFT read, frames of 20, whole", QAFT.of(20), WHOLE),
    || reader("QAFT read, frames of 20, chunks of 64", QAFT.of(20), 64),
    || reader("QAFT read at level 1, frames of 2,560, whole", QAFT.level_1(), WHOLE),
    || reader("QAFT read at level 1, frames of 2,560, chunks of 64", QAFT.level_1(), 64),
    || reader("QAFT read at level 1, frames of 20, whole", QAFT.level_1().of(20), WHOLE),
    || reader("QAFT read at level 1, frames of 20, chunks of 64", QAFT.level_1().of(20), 64),
    || strewn("QAFT read at level 1, frames of 2,560, 1 in 64 skipped", QAFT.level_1()),
    || strewn("QAFT read at level 1, frames of 20, 1 in 64 skipped", QAFT.level_1().of(20)),
    || writer("AFT write, 2,560 random octets", AFT),
    || writer("AFT write, 20 random octets", AFT.of(20)),
    || writer("AFT write, 2,560 octets, 50 % escapes", AFT.escaped()),
    || writer("AFT write, 20 octets, 50 % escapes", AFT.escaped().of(20)),
    || reader("AFT read, frames of 2,560, whole", AFT, WHOLE),
    || reader("AFT read, frames of 2,560, chunks of 64", AFT, 64),
    || reader("AFT read, frames of 20, whole", AFT.of(20), WHOLE),
    || reader("AFT read, frames of 20, chunks of 64", AFT.of(20), 64),
    || reader("AFT read, frames of 2,560, 50 % escapes", AFT.escaped(), WHOLE),
    || reader("AFT read, frames of 20, 50 % escapes", AFT.escaped().of(20), WHOLE),
    || reader("AFT read at level 1, frames of 2,560, whole", AFT.level_1(), WHOLE),
    || reader("AFT read at level 1, frames of 2,560, chunks of 64", AFT.level_1(), 64),
    || reader("AFT read at level 1, frames of 20, whole", AFT.level_1().of(20), WHOLE),
    || reader("AFT read at level 1, frames of 20, chunks of 64", AFT.level_1().of(20), 64),
    || strewn("AFT read at level 1, frames of 2,560, 1 in 64 skipped", AFT.level_1()),
    || strewn("AFT read at level 1, frames of 20, 1 in 64 skipped", AFT.level_1().of(20)),
];

/// The chunk that is a whole line.
const WHOLE: usize = usize::MAX;

/// The data octets written in a turn, and the octets of a line read, are about this many.
const OCTETS: usize = 128 << 10;

/// The frames of a row: their data have a size, and are drawn.
#[derive(Clone, Copy)]
struct Frames {
    check: Check,
    level: u8,
    size: usize,
    draw: fn(&Rng, usize) -> Vec<u8>,
}

const QAFT: Frames = Frames {
    check: Check::Sum,
    level: 0,
    size: 2560,
    draw: Rng::octets,
};
const AFT: Frames = Frames {
    check: Check::Fcs,
    ..QAFT
};

impl Frames {
    const fn of(self, size: usize) -> Self {
        Frames { size, ..self }
    }

    const fn level_1(self) -> Self {
        Frames { level: 1, ..self }
    }

    /// Every second octet is escaped, at level 0.
    fn escaped(self) -> Self {
        Frames {
            draw: |rng, size| (0..size).map(|_| frames::escaped(rng)).collect(),
            ..self
        }
    }

    fn data(self) -> Vec<Vec<u8>> {
        frames::payloads(OCTETS, self.size, self.draw)
    }

    fn by_second(self, at_flag: bool) -> impl Fn(&[u8], &mut [u8]) -> usize {
        move |d, out| second::qaft::write(self.level, self.check.kind(), at_flag, d, out).length
    }

    /// One flag between two frames.
    fn line(self) -> Vec<u8> {
        frames::line(&[FLAG], &self.data(), self.by_second(true))
    }
}

/// The writers, once each was seen to write the same line. Frames of AFT have both flags here, since openconnect always writes both.
fn writer(what: &'static str, of: Frames) -> Row {
    let (level, kind, at_flag) = (of.level, of.check.kind(), of.check == Check::Sum);
    let (data, plain) = (of.data(), Plain::of(of.check));
    let line = frames::line(&[], &data, of.by_second(at_flag));
    let ours = frames::writing_line(&data, &line, move |d, out| {
        archive::qaft_write(level, kind, at_flag, d, out).length
    });
    let row = Row::new(what, "octet", OCTETS / of.size * of.size, ours)
        .beside(
            "second",
            frames::writing_line(&data, &line, of.by_second(at_flag)),
        )
        .beside(
            "plain C",
            frames::writing_line(&data, &line, move |d, out| {
                plain.write(level, at_flag, d, out)
            }),
        );
    #[cfg(osmocom)]
    if of.check == Check::Sum {
        return row.beside_like("sercomm", frames::writing(&data, others::osmocom::write));
    }
    #[cfg(openconnect)]
    if of.check == Check::Fcs {
        let turn = frames::writing_line(&data, &line, openconnect::write);
        return row.beside("openconnect", turn);
    }
    row
}

/// The readers on a line, once each was seen to read the very data of its frames. Each is handed the very state that it gave back, as
/// a C program does it: turning C's states into the second program's and back took a third of the time for frames of 20 octets.
fn on(what: &'static str, of: Frames, octets: &[u8], chunk: usize) -> Row {
    let (level, kind, plain) = (of.level, of.check.kind(), Plain::of(of.check));
    let line = Line {
        octets,
        chunk,
        data: &of.data(),
        place: 0,
    };
    let ours = line.read_by(archive::qaft_fresh(level, kind), archive::qaft_read);
    Row::new(what, "octet", octets.len(), ours)
        .beside(
            "second",
            line.read_by(State::fresh(level, kind), second::reader::read),
        )
        .beside(
            "plain C",
            line.read_by(plain.fresh(level), move |from, chunk, store| {
                plain.read(from, chunk, store)
            }),
        )
}

/// sercomm and openconnect skip nothing, and are beside level 0 alone; openconnect wants whole frames, and is beside whole lines
/// alone.
fn reader(what: &'static str, of: Frames, chunk: usize) -> Row {
    let line = of.line();
    let row = on(what, of, &line, chunk);
    #[cfg(osmocom)]
    if of.check == Check::Sum && of.level == 0 {
        return row.beside_like("sercomm", sercomm_reading(of, chunk));
    }
    #[cfg(openconnect)]
    if of.check == Check::Fcs && of.level == 0 && chunk == WHOLE {
        return row.beside("openconnect", openconnect_reading(of, &line));
    }
    row
}

fn strewn(what: &'static str, of: Frames) -> Row {
    on(what, of, &frames::strewn(&of.line()), WHOLE)
}

/// sercomm on its own line of the same data, in chunks of the same size.
#[cfg(osmocom)]
fn sercomm_reading(of: Frames, chunk: usize) -> impl FnMut() -> usize {
    let line = frames::line(&[], &of.data(), others::osmocom::write);
    let read = move || line.chunks(chunk).map(others::osmocom::read).sum();
    let octets = OCTETS / of.size * of.size;
    assert_eq!(read(), octets, "sercomm reads what it wrote");
    read
}

/// openconnect on the line, once it was seen to read the very data. It writes over what it reads, so each turn begins with a copy of
/// the line, which is in its time.
#[cfg(openconnect)]
fn openconnect_reading(of: Frames, line: &[u8]) -> impl FnMut() -> usize {
    let (line, mut copy, mut found) = (line.to_vec(), line.to_vec(), Vec::new());
    openconnect::read_line(&mut copy, |data| found.push(data.to_vec()));
    assert!(found == of.data(), "openconnect reads other data");
    move || {
        let mut octets = 0;
        copy.copy_from_slice(&line);
        openconnect::read_line(&mut copy, |data| octets += data.len());
        octets
    }
}
