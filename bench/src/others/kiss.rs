//! KISS in C: plain C (c/plain_kiss.c), and direwolf where its source is there (c/direwolf_shim.c).
use crate::archive::kiss::RawReader;
use second::reader::Answer;

#[repr(C)]
struct RawAnswer {
    number: u8,
    taken: usize,
    length: usize,
    reader: RawReader,
}

extern "C" {
    fn plain_kiss_write(
        at_flag: bool,
        payload: *const u8,
        length: usize,
        out: *mut u8,
        room: usize,
    ) -> usize;
    fn plain_kiss_read(
        reader: RawReader,
        chunk: *const u8,
        length: usize,
        store: *mut u8,
    ) -> RawAnswer;
}

pub fn write(at_flag: bool, payload: &[u8], out: &mut [u8]) -> usize {
    let (place, room) = (out.as_mut_ptr(), out.len());
    unsafe { plain_kiss_write(at_flag, payload.as_ptr(), payload.len(), place, room) }
}

/// Reads up to the first report. Any state is safe here: octets are stored by a count below the store's size.
pub fn read(state: RawReader, chunk: &[u8], store: &mut [u8]) -> (RawReader, Answer) {
    assert!(store.len() >= second::kiss::reader::STORE);
    let raw = unsafe { plain_kiss_read(state, chunk.as_ptr(), chunk.len(), store.as_mut_ptr()) };
    let answer = Answer {
        number: raw.number,
        taken: raw.taken,
        length: raw.length,
    };
    (raw.reader, answer)
}

#[cfg(direwolf)]
pub mod direwolf {
    use second::reader::Answer;

    #[repr(C)]
    struct RawRead {
        taken: usize,
        length: usize,
    }

    extern "C" {
        fn direwolf_write(octets: *const u8, length: usize, out: *mut u8) -> usize;
        fn direwolf_read(line: *const u8, length: usize, store: *mut u8, room: usize) -> RawRead;
    }

    /// One frame, with both flags, of a type octet and a payload; the octets it takes.
    pub fn write(octets: &[u8], out: &mut [u8]) -> usize {
        assert!(out.len() >= 2 * octets.len() + 2);
        unsafe { direwolf_write(octets.as_ptr(), octets.len(), out.as_mut_ptr()) }
    }

    /// The first frame of a whole line. direwolf has no state, and leaves the frame's type to its caller.
    pub fn read(_: (), line: &[u8], store: &mut [u8]) -> ((), Answer) {
        let (place, room) = (store.as_mut_ptr(), store.len());
        let raw = unsafe { direwolf_read(line.as_ptr(), line.len(), place, room) };
        let answer = Answer {
            number: if raw.length == 0 { 15 } else { 10 },
            taken: raw.taken,
            length: raw.length.saturating_sub(1),
        };
        ((), answer)
    }
}
