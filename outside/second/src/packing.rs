//! Table 1.1 and house rules, 'Packing': the 260 bits of a frame in 33 bytes, b1 lowest in the first.

use crate::codewords::valid_bits;
use crate::tables::WIDTHS;

/// Table 1.1 and house rules, 'Packing': the 33 bytes, or refusal 5 for a codeword wider than its field.
pub fn pack(codewords: &[i16; 76]) -> Result<[u8; 33], i16> {
    for n in 0..=75 {
        if valid_bits(codewords[n], WIDTHS[n]) != codewords[n] {
            return Err(5);
        }
    }
    let mut bytes = [0; 33];
    // Place 0 is b1 of table 1.1.
    let mut place = 0;
    for n in 0..=75 {
        for bit in 0..WIDTHS[n] {
            if (codewords[n] >> bit) & 1 == 1 {
                bytes[place / 8] |= 1 << (place % 8);
            }
            place += 1;
        }
    }
    Ok(bytes)
}

/// Table 1.1 and house rules, 'Packing': the 76 codewords, or refusal 6 for a spare bit that is 1.
pub fn unpack(bytes: &[u8; 33]) -> Result<[i16; 76], i16> {
    if bytes[32] >> 4 != 0 {
        return Err(6);
    }
    let mut codewords = [0; 76];
    let mut place = 0;
    for n in 0..=75 {
        for bit in 0..WIDTHS[n] {
            if (bytes[place / 8] >> (place % 8)) & 1 == 1 {
                codewords[n] |= 1 << bit;
            }
            place += 1;
        }
    }
    Ok(codewords)
}
