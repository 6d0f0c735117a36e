//! 4.2.4 to 4.2.7: the LPC analysis section of the encoder.

use crate::arithmetic::*;
use crate::tables::{A, B, MAC, MIC};

/// How the recursion of 4.2.5 ended; the names are those of the house rules, 'Endings'.
#[derive(Clone, Copy)]
pub enum Ending {
    Silent,
    Stopped(i16),
    Complete,
}

/// 4.2.4: L_ACF[0..8]; s comes back rescaled, which may have changed its low bits.
pub fn autocorrelation(s: &mut [i16; 160]) -> [i32; 9] {
    let scalauto = scaling_factor(s);
    scale(s, scalauto);
    let L_ACF = compute_L_ACF(s);
    rescale(s, scalauto);
    L_ACF
}

/// 4.2.4: search for the maximum and computation of the scaling factor.
fn scaling_factor(s: &[i16; 160]) -> i16 {
    let mut smax = 0;
    for k in 0..=159 {
        let temp = abs(s[k]);
        if temp > smax {
            smax = temp;
        }
    }
    if smax == 0 {
        0
    } else {
        sub(4, norm(L_shl(i32::from(smax), 16)))
    }
}

/// 4.2.4: scaling of the array s[0..159].
pub fn scale(s: &mut [i16; 160], scalauto: i16) {
    if scalauto > 0 {
        let temp = shr(16384, sub(scalauto, 1));
        for k in 0..=159 {
            s[k] = mult_r(s[k], temp);
        }
    }
}

/// 4.2.4: compute L_ACF[0..8].
fn compute_L_ACF(s: &[i16; 160]) -> [i32; 9] {
    let mut L_ACF = [0; 9];
    for k in 0..=8 {
        L_ACF[k] = 0;
        for i in k..=159 {
            let L_temp = L_mult(s[i], s[i - k]);
            L_ACF[k] = L_add(L_ACF[k], L_temp);
        }
    }
    L_ACF
}

/// 4.2.4: rescaling of the array s[0..159]; the shift keeps the low bits and does not clip.
pub fn rescale(s: &mut [i16; 160], scalauto: i16) {
    if scalauto > 0 {
        for k in 0..=159 {
            s[k] = shl(s[k], scalauto);
        }
    }
}

/// 4.2.5: r[1..8] from L_ACF[0..8].
pub fn reflection_coefficients(L_ACF: &[i32; 9]) -> ([i16; 9], Ending) {
    if L_ACF[0] == 0 {
        return ([0; 9], Ending::Silent);
    }
    let temp = norm(L_ACF[0]);
    let mut ACF = [0; 9];
    for k in 0..=8 {
        ACF[k] = extract(L_shr(L_shl(L_ACF[k], temp), 16));
    }

    let mut K = [0; 9];
    for i in 1..=7 {
        K[9 - i] = ACF[i];
    }
    let mut P = [0; 9];
    for i in 0..=8 {
        P[i] = ACF[i];
    }
    schur_recursion(P, K)
}

/// 4.2.5: compute reflection coefficients, by the Schur recursion.
fn schur_recursion(mut P: [i16; 9], mut K: [i16; 9]) -> ([i16; 9], Ending) {
    let mut r = [0; 9];
    for n in 1..=8 {
        if P[0] < abs(P[1]) {
            for i in n..=8 {
                r[i] = 0;
            }
            return (r, Ending::Stopped(n as i16));
        }
        r[n] = div(abs(P[1]), P[0]);
        if P[1] > 0 {
            r[n] = sub(0, r[n]);
        }
        if n == 8 {
            break;
        }

        P[0] = add(P[0], mult_r(P[1], r[n]));
        for m in 1..=8 - n {
            P[m] = add(P[m + 1], mult_r(K[9 - m], r[n]));
            K[9 - m] = add(K[9 - m], mult_r(P[m + 1], r[n]));
        }
    }
    (r, Ending::Complete)
}

/// 4.2.6: LAR[1..8] from r[1..8].
pub fn log_area_ratios(r: &[i16; 9]) -> [i16; 9] {
    let mut LAR = [0; 9];
    for i in 1..=8 {
        let mut temp = abs(r[i]);
        if temp < 22118 {
            temp = shr(temp, 1);
        } else if temp < 31130 {
            temp = sub(temp, 11059);
        } else {
            temp = shl(sub(temp, 26112), 2);
        }
        LAR[i] = temp;
        if r[i] < 0 {
            LAR[i] = sub(0, LAR[i]);
        }
    }
    LAR
}

/// 4.2.7: quantization and coding of LAR[1..8].
pub fn code_log_area_ratios(LAR: &[i16; 9]) -> [i16; 9] {
    let mut LARc = [0; 9];
    for i in 1..=8 {
        let mut temp = mult(A[i], LAR[i]);
        temp = add(temp, B[i]);
        // For rounding.
        temp = add(temp, 256);
        LARc[i] = shr(temp, 9);
        if LARc[i] > MAC[i] {
            LARc[i] = MAC[i];
        }
        if LARc[i] < MIC[i] {
            LARc[i] = MIC[i];
        }
        // To make it positive.
        LARc[i] = sub(LARc[i], MIC[i]);
    }
    LARc
}
