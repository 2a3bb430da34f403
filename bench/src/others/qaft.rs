//! QAFT and AFT in C: plain C (c/plain.c), and openconnect where its source is there (c/openconnect_shim.c).
use second::check::Check;
use second::reader::Answer;

/// The state of plain C's readers, which is handed on as it is, as a C program does.
#[repr(C)]
#[derive(Clone, Copy)]
pub struct RawReader {
    level: u8,
    flag: bool,
    pending: bool,
    count: usize,
    check: u32,
    bad_pair: bool,
}

#[repr(C)]
struct RawAnswer {
    number: u8,
    taken: usize,
    length: usize,
    reader: RawReader,
}

type Write = unsafe extern "C" fn(u8, bool, *const u8, usize, *mut u8, usize) -> usize;
type Fresh = unsafe extern "C" fn(u8) -> RawReader;
type Read = unsafe extern "C" fn(RawReader, *const u8, usize, *mut u8) -> RawAnswer;

extern "C" {
    fn plain_qaft_write(
        level: u8,
        at_flag: bool,
        octets: *const u8,
        length: usize,
        out: *mut u8,
        room: usize,
    ) -> usize;
    fn plain_aft_write(
        level: u8,
        at_flag: bool,
        octets: *const u8,
        length: usize,
        out: *mut u8,
        room: usize,
    ) -> usize;
    fn plain_qaft_fresh(level: u8) -> RawReader;
    fn plain_aft_fresh(level: u8) -> RawReader;
    fn plain_qaft_read(
        reader: RawReader,
        chunk: *const u8,
        length: usize,
        store: *mut u8,
    ) -> RawAnswer;
    fn plain_aft_read(
        reader: RawReader,
        chunk: *const u8,
        length: usize,
        store: *mut u8,
    ) -> RawAnswer;
}

/// Plain C's functions for a check.
#[derive(Clone, Copy)]
pub struct Plain {
    write: Write,
    fresh: Fresh,
    read: Read,
}

impl Plain {
    pub fn of(check: Check) -> Self {
        match check {
            Check::Sum => Plain {
                write: plain_qaft_write,
                fresh: plain_qaft_fresh,
                read: plain_qaft_read,
            },
            Check::Fcs => Plain {
                write: plain_aft_write,
                fresh: plain_aft_fresh,
                read: plain_aft_read,
            },
        }
    }

    pub fn write(self, level: u8, at_flag: bool, data: &[u8], out: &mut [u8]) -> usize {
        let (place, room) = (out.as_mut_ptr(), out.len());
        unsafe { (self.write)(level, at_flag, data.as_ptr(), data.len(), place, room) }
    }

    pub fn fresh(self, level: u8) -> RawReader {
        unsafe { (self.fresh)(level) }
    }

    /// Reads up to the first report. Octets are stored by a count below the longest segment's, whatever the state.
    pub fn read(self, from: RawReader, chunk: &[u8], store: &mut [u8]) -> (RawReader, Answer) {
        assert!(store.len() >= Check::Fcs.longest());
        let raw = unsafe { (self.read)(from, chunk.as_ptr(), chunk.len(), store.as_mut_ptr()) };
        let answer = Answer {
            number: raw.number,
            taken: raw.taken,
            length: raw.length,
        };
        (raw.reader, answer)
    }
}

#[cfg(openconnect)]
pub mod openconnect {
    #[repr(C)]
    struct RawRead {
        taken: usize,
        length: usize,
    }

    extern "C" {
        fn openconnect_write(data: *const u8, length: usize, out: *mut u8) -> usize;
        fn openconnect_read(line: *mut u8, length: usize) -> RawRead;
    }

    /// One frame, with both flags; the octets it takes.
    pub fn write(data: &[u8], out: &mut [u8]) -> usize {
        assert!(out.len() >= 2 * (data.len() + 2) + 2);
        unsafe { openconnect_write(data.as_ptr(), data.len(), out.as_mut_ptr()) }
    }

    /// Reads a whole line of good frames, which it writes over, and shows the data of each.
    pub fn read_line(line: &mut [u8], mut show: impl FnMut(&[u8])) {
        let mut place = 0;
        while place < line.len() {
            let rest = &mut line[place..];
            let raw = unsafe { openconnect_read(rest.as_mut_ptr(), rest.len()) };
            show(&rest[..raw.length]);
            place += raw.taken;
        }
    }
}
