//! 4.2.13 to 4.2.17: the RPE encoding section; 4.3.1 uses the end of it.

use crate::arithmetic::*;
use crate::tables::{FAC, H, NRFAC};

/// 4.2.13: the weighting filter gives x[0..39].
pub fn weighting_filter(e: &[i16; 40]) -> [i16; 40] {
    // Five zeros stand on either side of e.
    let mut wt = [0; 50];
    for k in 5..=44 {
        wt[k] = e[k - 5];
    }
    let mut x = [0; 40];
    for k in 0..=39 {
        // Rounding of the output of the filter.
        let mut L_result = 8192;
        for i in 0..=10 {
            let L_temp = L_mult(wt[k + i], H[i]);
            L_result = L_add(L_result, L_temp);
        }
        // Scaling by 2, then by 4.
        L_result = L_add(L_result, L_result);
        L_result = L_add(L_result, L_result);
        x[k] = extract(L_shr(L_result, 16));
    }
    x
}

/// 4.2.14: RPE grid selection gives Mc and the sequence xM[0..12].
pub fn grid_selection(x: &[i16; 40]) -> (i16, [i16; 13]) {
    let mut EM = 0;
    let mut Mc = 0;
    for m in 0..=3 {
        let mut L_result = 0;
        for i in 0..=12 {
            let temp1 = shr(x[m + 3 * i], 2);
            let L_temp = L_mult(temp1, temp1);
            L_result = L_add(L_temp, L_result);
        }
        if L_result > EM {
            Mc = m;
            EM = L_result;
        }
    }
    let mut xM = [0; 13];
    for i in 0..=12 {
        xM[i] = x[Mc + 3 * i];
    }
    (Mc as i16, xM)
}

/// 4.2.15: find the maximum absolute value xmax of xM[0..12].
pub fn find_xmax(xM: &[i16; 13]) -> i16 {
    let mut xmax = 0;
    for i in 0..=12 {
        let temp = abs(xM[i]);
        if temp > xmax {
            xmax = temp;
        }
    }
    xmax
}

/// 4.2.15: quantizing and coding of xmax to get xmaxc.
pub fn code_xmax(xmax: i16) -> i16 {
    let mut exp = 0;
    let mut temp = shr(xmax, 9);
    let mut itest = 0;
    for _i in 0..=5 {
        if temp <= 0 {
            itest = 1;
        }
        temp = shr(temp, 1);
        if itest == 0 {
            exp = add(exp, 1);
        }
    }
    temp = add(exp, 5);
    add(shr(xmax, temp), shl(exp, 3))
}

/// 4.2.15: exponent and mantissa of the decoded version of xmaxc.
pub fn exponent_and_mantissa(xmaxc: i16) -> (i16, i16) {
    let mut exp = 0;
    if xmaxc > 15 {
        exp = sub(shr(xmaxc, 3), 1);
    }
    let mut mant = sub(xmaxc, shl(exp, 3));
    if mant == 0 {
        exp = -4;
        mant = 15;
    } else {
        let mut itest = 0;
        for _i in 0..=2 {
            if mant > 7 {
                itest = 1;
            }
            if itest == 0 {
                mant = add(shl(mant, 1), 1);
            }
            if itest == 0 {
                exp = sub(exp, 1);
            }
        }
    }
    mant = sub(mant, 8);
    (exp, mant)
}

/// 4.2.15: direct computation of xMc[0..12].
pub fn code_pulses(xM: &[i16; 13], exp: i16, mant: i16) -> [i16; 13] {
    // Normalization by the exponent.
    let temp1 = sub(6, exp);
    let temp2 = NRFAC[mant as usize];
    let mut xMc = [0; 13];
    for i in 0..=12 {
        let mut temp = shl(xM[i], temp1);
        temp = mult(temp, temp2);
        // To make it positive.
        xMc[i] = add(shr(temp, 12), 4);
    }
    xMc
}

/// 4.2.16: APCM inverse quantization gives xMp[0..12].
pub fn decode_pulses(xMc: &[i16; 13], exp: i16, mant: i16) -> [i16; 13] {
    let temp1 = FAC[mant as usize];
    let temp2 = sub(6, exp);
    // At exponent 6 the count is -1, so this is 1 >> 1: no rounding.
    let temp3 = shl(1, sub(temp2, 1));
    let mut xMp = [0; 13];
    for i in 0..=12 {
        // To restore the sign.
        let mut temp = sub(shl(xMc[i], 1), 7);
        temp = shl(temp, 12);
        temp = mult_r(temp1, temp);
        temp = add(temp, temp3);
        xMp[i] = shr(temp, temp2);
    }
    xMp
}

/// 4.2.17: RPE grid positioning gives ep[0..39].
pub fn grid_positioning(Mc: i16, xMp: &[i16; 13]) -> [i16; 40] {
    let mut ep = [0; 40];
    for i in 0..=12 {
        ep[Mc as usize + 3 * i] = xMp[i];
    }
    ep
}
