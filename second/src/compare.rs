//! The comparison, one file a layer.

/// A name for each level.
macro_rules! at_levels {
    ($name:literal) => {
        [concat!($name, " at level 0"), concat!($name, " at level 1")]
    };
}

mod afp_cases;
mod afp_read;
mod afp_receiver;
mod afp_write;
mod captures;
mod checks;
mod flow;
mod kiss;
mod link;
mod listing;
mod make;
mod pairs;
mod process;
mod programs;
mod qaft_write;
mod reader;
mod sheet;
mod stored;
mod sums;
mod tally;

use second::rng::Rng;
use tally::Tally;

/// A layer takes a generator, how many inputs to compare, and where to count them.
type Layer = fn(&Rng, u64, &mut Tally);

/// A layer's name, its function, and the numbers that its inputs have to bring up.
const LAYERS: &[(&str, Layer, &[u8])] = &[
    ("QAFT check", sums::qaft_check, &[]),
    ("QAFT writer", qaft_write::sum, &qaft_write::NUMBERS),
    (
        "QAFT writer, longer check",
        qaft_write::fcs,
        &qaft_write::NUMBERS,
    ),
    ("QAFT reader", reader::sum, &reader::NUMBERS),
    ("QAFT reader, longer check", reader::fcs, &reader::NUMBERS),
    ("KISS writer", kiss::writer, &[0, 1, 2, 64]),
    ("KISS reader", kiss::reader, &kiss::READER_NUMBERS),
    ("QAFT to KISS", kiss::from_qaft, &[0, 6, 64]),
    ("KISS to QAFT", kiss::to_qaft, &[0, 3, 6]),
    ("AFP sums", sums::afp_sums, &[]),
    ("check sequence", sums::check_sequence, &[]),
    ("AFP cases", afp_cases::compare, &afp_cases::NUMBERS),
    ("AFP reader", afp_read::compare, &afp_read::NUMBERS),
    (
        "AFP next receiver",
        afp_receiver::compare,
        &afp_receiver::NUMBERS,
    ),
    ("AFP writer", afp_write::compare, &afp_write::NUMBERS),
    ("listing, level 0", listing::level_0, &listing::NUMBERS),
    ("listing, level 1", listing::level_1, &listing::NUMBERS),
    ("listing, KISS", listing::kiss, &listing::KISS_NUMBERS),
    (
        "programs, QAFT to KISS",
        programs::from_qaft,
        &programs::FROM_QAFT,
    ),
    (
        "programs, KISS to QAFT",
        programs::to_qaft,
        &programs::TO_QAFT,
    ),
    ("DLC link, calls", link::calls, &link::NUMBERS),
    ("DLC link, table", link::table, &link::NUMBERS),
    ("DLC link, edition 1", link::edition_1, &link::RUN_NUMBERS),
    ("DLC link, edition 2", link::edition_2, &link::RUN_NUMBERS),
    (
        "DLC link, mixed editions",
        link::mixed_editions,
        &link::RUN_NUMBERS,
    ),
    ("line sheet, captures", sheet::captures, &sheet::NUMBERS),
    ("line sheet, printed lines", sheet::lines, &[]),
    ("line sheet, program", sheet::program, &sheet::RUN_NUMBERS),
];

/// From this many inputs on, the inputs that take long are compared too: the full count.
const FULL: u64 = 1_000_000;

/// Writes the stored table of the archive's answers anew.
pub fn bless() {
    link::bless(&Rng::new(0));
}

/// Compares every layer; true where nothing differs and every number came up.
pub fn all(count: u64, seed: u64) -> bool {
    let mut good = true;
    for (i, (name, layer, numbers)) in LAYERS.iter().enumerate() {
        // a generator for each layer, so that one layer's inputs don't depend on another's
        let rng = Rng::new(Rng::new(seed).next().wrapping_add(i as u64));
        let mut tally = Tally::new(name);
        layer(&rng, count, &mut tally);
        good &= tally.finish(count, numbers);
    }
    good
}
