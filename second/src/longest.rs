//! Data whose frames are the longest that there are: an octet of data or check that needs no escape would be one octet less.
use crate::check::Check;
use crate::qaft::{ESCAPE, FLAG, MAX_DATA};

/// Where the last sixteen octets are 7D, low bit first. Found by trying them all: the check octets are 7E 7D.
const LAST: u16 = 0x7AA6;

/// As many octets as data may have, each of them 7E or 7D, and so is their check.
pub fn data(check: Check) -> Vec<u8> {
    let mut data = vec![FLAG; MAX_DATA];
    match check {
        // the sum of 2,560 times 7E is 0 modulo 256, and each 7D in its place takes 1 from it
        Check::Sum => data[..0x7D].fill(ESCAPE),
        Check::Fcs => {
            let (_, last) = data.split_at_mut(MAX_DATA - 16);
            for (i, x) in last.iter_mut().enumerate() {
                if LAST >> i & 1 == 1 {
                    *x = ESCAPE;
                }
            }
        }
    }
    data
}
