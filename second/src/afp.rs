//! AFP frames: sums and check sequence, the fields of a header, reader, next receiver and writer.
mod fields;
mod read;
mod receiver;
mod sums;
mod write;

pub use fields::{is_id, is_supplementary, station_places};
pub use read::{read, Part, Reading};
pub use receiver::{next_receiver, Receiver};
pub use sums::{check_sequence, header_sum, next_station_sum, sum};
pub use write::write;

pub const MIN_FRAME: usize = 14;
pub const MAX_FRAME: usize = 2560;
pub const MIN_HEADER: usize = 12;
pub const MAX_HEADER: usize = 254;
pub const MAX_DATA: usize = 2304;
/// Where the station fields begin.
pub const STATIONS: usize = 5;
pub const VERSION: u8 = 1;
/// Octet 0 of a broadcast.
pub const BROADCAST_SUM: u8 = 0xFF;

/// FE and FF are kept for extensions.
fn is_protocol(octet: u8) -> bool {
    octet < 0xFE
}
