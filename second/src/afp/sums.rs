//! AFP's sums, and the check sequence of ISO 3309.

/// Octets added in 8 bits with end-around carry, from 0.
pub fn sum(octets: &[u8]) -> u8 {
    octets.iter().fold(0, |sum: u8, &x| {
        let (low, carry) = sum.overflowing_add(x);
        // with a carry, low is at most FE: this can't overflow
        low + u8::from(carry)
    })
}

/// The sum over the next station's field as it is written: FF as 0.
pub fn next_station_sum(field: &[u8]) -> u8 {
    match sum(field) {
        0xFF => 0,
        s => s,
    }
}

/// The sum over header octets as it is written: 0 as FF.
pub fn header_sum(octets: &[u8]) -> u8 {
    match sum(octets) {
        0 => 0xFF,
        s => s,
    }
}

/// The check sequence, as the number whose low octet goes on the line first.
///
/// Written as ISO 3309 says it, on the bits of the line: the remainder has the coefficient of x^15 as its high bit, octets
/// come low bit first, and the complement goes out from x^15 down, packed low bit first again.
pub fn check_sequence(octets: &[u8]) -> u16 {
    const X12_X5_1: u16 = 1 << 12 | 1 << 5 | 1;
    let mut remainder: u16 = 0xFFFF;
    for &octet in octets {
        for place in 0..8 {
            let bit = octet >> place & 1 == 1;
            let out = remainder >> 15 == 1;
            remainder <<= 1;
            if bit != out {
                remainder ^= X12_X5_1;
            }
        }
    }
    (!remainder).reverse_bits()
}
