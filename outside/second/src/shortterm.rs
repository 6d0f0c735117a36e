//! 4.2.8 to 4.2.10 and 4.3.4: the short term filters and their coefficients.

use crate::arithmetic::*;
use crate::tables::{B, INVA, MIC};

/// 4.2.9.1: k_start and k_end of the four sets of coefficients in a frame.
const PARTS: [(usize, usize); 4] = [(0, 12), (13, 26), (27, 39), (40, 159)];

/// 4.2.8: decoding of the coded Log.-Area Ratios LARc[1..8].
pub fn decode_log_area_ratios(LARc: &[i16; 9]) -> [i16; 9] {
    let mut LARpp = [0; 9];
    for i in 1..=8 {
        // The addition of MIC restores the sign.
        let mut temp1 = shl(add(LARc[i], MIC[i]), 10);
        let temp2 = shl(B[i], 1);
        temp1 = sub(temp1, temp2);
        temp1 = mult_r(INVA[i], temp1);
        LARpp[i] = add(temp1, temp1);
    }
    LARpp
}

/// 4.2.9.1: LARp[1..8] of one of the four parts, from LARpp(j-1) and LARpp(j).
fn interpolate(part: usize, before: &[i16; 9], LARpp: &[i16; 9]) -> [i16; 9] {
    let mut LARp = [0; 9];
    for i in 1..=8 {
        if part == 0 {
            LARp[i] = add(shr(before[i], 2), shr(LARpp[i], 2));
            LARp[i] = add(LARp[i], shr(before[i], 1));
        } else if part == 1 {
            LARp[i] = add(shr(before[i], 1), shr(LARpp[i], 1));
        } else if part == 2 {
            LARp[i] = add(shr(before[i], 2), shr(LARpp[i], 2));
            LARp[i] = add(LARp[i], shr(LARpp[i], 1));
        } else {
            LARp[i] = LARpp[i];
        }
    }
    LARp
}

/// 4.2.9.2: rp[1..8] from the interpolated LARp[1..8].
fn quantized_reflection_coefficients(LARp: &[i16; 9]) -> [i16; 9] {
    let mut rp = [0; 9];
    for i in 1..=8 {
        let mut temp = abs(LARp[i]);
        if temp < 11059 {
            temp = shl(temp, 1);
        } else if temp < 20070 {
            temp = add(temp, 11059);
        } else {
            temp = add(shr(temp, 2), 26112);
        }
        rp[i] = temp;
        if LARp[i] < 0 {
            rp[i] = sub(0, rp[i]);
        }
    }
    rp
}

/// 4.2.9 and 4.2.10: the short term residual d[0..159] of a frame.
pub fn analysis(
    s: &[i16; 160],
    before: &[i16; 9],
    LARpp: &[i16; 9],
    u: &mut [i16; 8],
) -> [i16; 160] {
    let mut d = [0; 160];
    for part in 0..=3 {
        let rp = quantized_reflection_coefficients(&interpolate(part, before, LARpp));
        let (k_start, k_end) = PARTS[part];
        for k in k_start..=k_end {
            d[k] = analysis_filter(s[k], &rp, u);
        }
    }
    d
}

/// 4.2.10: short term analysis filtering of one sample.
fn analysis_filter(s: i16, rp: &[i16; 9], u: &mut [i16; 8]) -> i16 {
    let mut di = s;
    let mut sav = di;
    for i in 1..=8 {
        let temp = add(u[i - 1], mult_r(rp[i], di));
        di = add(di, mult_r(rp[i], u[i - 1]));
        u[i - 1] = sav;
        sav = temp;
    }
    di
}

/// 4.3.3 and 4.3.4: the signal sr[0..159] of a frame, from its wt[0..159].
pub fn synthesis(
    wt: &[i16; 160],
    before: &[i16; 9],
    LARrpp: &[i16; 9],
    v: &mut [i16; 9],
) -> [i16; 160] {
    let mut sr = [0; 160];
    for part in 0..=3 {
        let rrp = quantized_reflection_coefficients(&interpolate(part, before, LARrpp));
        let (k_start, k_end) = PARTS[part];
        for k in k_start..=k_end {
            sr[k] = synthesis_filter(wt[k], &rrp, v);
        }
    }
    sr
}

/// 4.3.4: short term synthesis filtering of one sample.
fn synthesis_filter(wt: i16, rrp: &[i16; 9], v: &mut [i16; 9]) -> i16 {
    let mut sri = wt;
    for i in 1..=8 {
        sri = sub(sri, mult_r(rrp[9 - i], v[8 - i]));
        v[9 - i] = add(v[8 - i], mult_r(rrp[9 - i], sri));
    }
    v[0] = sri;
    sri
}
