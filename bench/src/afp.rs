//! AFP: the sums, the check sequence, the frame reader, the next receiver and the frame writer.
use crate::archive;
use crate::others;
use crate::row::Row;
use second::afp::{self, Part};
use second::rng::Rng;

// a line each, the longer ones too
#[rustfmt::skip]
pub const ROWS: &[fn() -> Row] = &[
    || sum("AFP sum, 2,560 octets", 2560),
    || sum("AFP sum, 14 octets", 14),
    || check("check sequence, 2,560 octets", 2560),
    || check("check sequence, 14 octets", 14),
    || reader("AFP read, a frame of 2,560 octets", Fields::large()),
    || reader("AFP read, a frame of 22 octets", Fields::small()),
    // the first three have one header: the longest frame with it, which has the longest data, and shorter ones
    || receiver("AFP next receiver, a frame of 2,323 octets", Fields::small_with(afp::MAX_DATA)),
    || receiver("AFP next receiver, a frame of 300 octets", Fields::small_with(281)),
    || receiver("AFP next receiver, a frame of 22 octets", Fields::small()),
    || receiver("AFP next receiver, a frame of 2,560 octets, 35 IDs", Fields::large()),
    || writer("AFP write, a frame of 2,560 octets", Fields::large()),
    || writer("AFP write, a frame of 22 octets", Fields::small()),
];

/// The calls of a turn, so that the call of the turn itself does not show.
const CALLS: usize = 64;

/// What the writer is given.
#[derive(Clone)]
struct Fields {
    stations: Vec<u8>,
    next: usize,
    supplementary: Vec<u8>,
    data: Vec<u8>,
}

impl Fields {
    /// A header of 254 octets, in it 35 IDs, and the longest data.
    fn large() -> Self {
        let mut stations = b"\x06AB1CDE".repeat(34);
        stations.extend(b"\x07XY9Z-12\0");
        Fields {
            stations,
            next: 2,
            supplementary: vec![0],
            data: Rng::new(7).octets(afp::MAX_DATA),
        }
    }

    fn small() -> Self {
        Self::small_with(3)
    }

    /// A header of 17 octets, in it two IDs, and so many data octets.
    fn small_with(size: usize) -> Self {
        Fields {
            stations: b"\x04AB1C\x04DE2F\0".to_vec(),
            next: 2,
            supplementary: vec![],
            data: Rng::new(7).octets(size),
        }
    }

    fn frame(&self) -> Vec<u8> {
        let mut out = vec![0; afp::MAX_FRAME];
        let written = archive::afp_write(
            1,
            &self.stations,
            self.next,
            &self.supplementary,
            &self.data,
            &mut out,
        );
        assert_eq!(written.number, 0);
        out.truncate(written.length);
        out
    }
}

/// Calls on the same input.
fn on<T: Clone + 'static>(input: &T, work: impl Fn(&T) -> usize) -> impl FnMut() -> usize {
    let input = input.clone();
    move || (0..CALLS).map(|_| work(std::hint::black_box(&input))).sum()
}

fn sum(what: &'static str, size: usize) -> Row {
    let octets = &Rng::new(7).octets(size);
    Row::new(
        what,
        "octet",
        CALLS * size,
        on(octets, |o| archive::afp_sum(o).into()),
    )
    .beside("second", on(octets, |o| afp::sum(o).into()))
    .beside(
        "plain C by octets",
        on(octets, |o| others::sum_by_octets(o).into()),
    )
    .beside(
        "plain C folded at the end",
        on(octets, |o| others::sum_at_end(o).into()),
    )
}

fn check(what: &'static str, size: usize) -> Row {
    let octets = &Rng::new(7).octets(size);
    let row = Row::new(
        what,
        "octet",
        CALLS * size,
        on(octets, |o| archive::check_sequence(o).into()),
    )
    .beside("second", on(octets, |o| afp::check_sequence(o).into()))
    .beside(
        "plain C byte table",
        on(octets, |o| others::check_by_table(o).into()),
    )
    .beside(
        "plain C by bits",
        on(octets, |o| others::check_by_bits(o).into()),
    );
    #[cfg(boost)]
    let row = row.beside(
        "Boost",
        on(octets, |o| others::boost::check_sequence(o).into()),
    );
    #[cfg(osmocom)]
    let row = row.beside(
        "libosmocore",
        on(octets, |o| others::osmocom::check_sequence(o).into()),
    );
    row
}

fn reader(what: &'static str, fields: Fields) -> Row {
    let frame = &fields.frame();
    let end = |r: afp::Reading| r.ids + r.next + r.payload.place + r.payload.size;
    Row::new(
        what,
        "frame",
        CALLS,
        on(frame, move |f| end(archive::afp_read(f))),
    )
    .beside("second", on(frame, move |f| end(afp::read(f))))
    .beside("plain C", on(frame, move |f| end(others::afp_read(f))))
}

/// Plain C must answer as ours does with each value of each octet of a frame's header.
fn assert_alike(what: &str, frame: &[u8]) {
    let mut changed = frame.to_vec();
    for place in 0..usize::from(frame[3]) {
        for octet in 0..=u8::MAX {
            changed[place] = octet;
            let ours = archive::afp_next_receiver(&changed);
            let plain = others::afp_next_receiver(&changed);
            assert_eq!(plain, ours, "{what}: {octet:02X} at {place}");
        }
        changed[place] = frame[place];
    }
}

/// Who a frame is for next, and our reader on the same frame as a scale.
fn receiver(what: &'static str, fields: Fields) -> Row {
    let frame = &fields.frame();
    assert_alike(what, frame);
    let end = |(number, field): (u8, Part)| usize::from(number) + field.place + 256 * field.size;
    let by_second = |f: &[u8]| {
        let receiver = afp::next_receiver(f);
        (receiver.number(), receiver.field())
    };
    Row::new(
        what,
        "frame",
        CALLS,
        on(frame, move |f| end(archive::afp_next_receiver(f))),
    )
    .beside("second", on(frame, move |f| end(by_second(f))))
    .beside(
        "plain C",
        on(frame, move |f| end(others::afp_next_receiver(f))),
    )
    .part(
        "our reader",
        on(frame, |f| archive::afp_read(f).payload.size),
    )
}

fn writer(what: &'static str, fields: Fields) -> Row {
    type Write = fn(u8, &[u8], usize, &[u8], &[u8], &mut [u8]) -> second::Written;
    let by = |write: Write| {
        let (f, mut out) = (fields.clone(), vec![0; afp::MAX_FRAME]);
        move || -> usize {
            (0..CALLS)
                .map(|_| write(1, &f.stations, f.next, &f.supplementary, &f.data, &mut out).length)
                .sum()
        }
    };
    Row::new(what, "frame", CALLS, by(archive::afp_write))
        .beside("second", by(afp::write))
        .beside("plain C", by(others::afp_write))
}
