//! 4.2.0 to 4.2.3: the pre-processing section of the encoder.

use crate::arithmetic::*;

/// 4.2.0 and 4.2.1: drop the three bits that are not valid, then downscale.
pub fn downscaling(sop: &[i16; 160]) -> [i16; 160] {
    let mut so = [0; 160];
    for k in 0..=159 {
        so[k] = shr(sop[k], 3);
        so[k] = shl(so[k], 2);
    }
    so
}

/// 4.2.2: offset compensation, a high-pass filter with a memory of 31 bits.
pub fn offset_compensation(so: &[i16; 160], z1: &mut i16, L_z2: &mut i32) -> [i16; 160] {
    let mut sof = [0; 160];
    for k in 0..=159 {
        // The non-recursive part.
        let s1 = sub(so[k], *z1);
        *z1 = so[k];

        // The recursive part: a 31 by 16 bits multiplication.
        let mut L_s2 = i32::from(s1);
        L_s2 = L_shl(L_s2, 15);
        let msp = extract(L_shr(*L_z2, 15));
        let lsp = extract(L_sub(*L_z2, L_shl(i32::from(msp), 15)));
        let temp = mult_r(lsp, 32735);
        L_s2 = L_add(L_s2, i32::from(temp));
        *L_z2 = L_add(L_shr(L_mult(msp, 32735), 1), L_s2);

        // With rounding.
        sof[k] = extract(L_shr(L_add(*L_z2, 16384), 15));
    }
    sof
}

/// 4.2.3: pre-emphasis.
pub fn pre_emphasis(sof: &[i16; 160], mp: &mut i16) -> [i16; 160] {
    let mut s = [0; 160];
    for k in 0..=159 {
        s[k] = add(sof[k], mult_r(*mp, -28180));
        *mp = sof[k];
    }
    s
}
