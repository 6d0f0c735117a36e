//! 4.2.11, 4.2.12, 4.2.18 and 4.3.2: the long term predictor.
//! Of dp[-120..-1] and drp[-120..39], place 0 of the array is -120, so place 120 + k is k.

use crate::arithmetic::*;
use crate::tables::{DLB, QLB};

/// 4.2.11: the LTP lag Nc and the LTP gain bc of a sub-segment; request W-203: if the lag is found.
pub fn ltp_parameters(d: &[i16; 40], dp: &[i16; 120]) -> (i16, i16, bool) {
    let scal = optimum_scaling(d);
    let mut wt = [0; 40];
    for k in 0..=39 {
        wt[k] = shr(d[k], scal);
    }
    let (Nc, mut L_max) = maximum_cross_correlation(&wt, dp);
    // Request W-203: some lag has a positive sum before the rescaling.
    let lag_found = L_max > 0;
    // Rescaling of L_max.
    L_max = L_shr(L_max, sub(6, scal));
    let L_power = power(Nc, dp);
    (Nc, code_gain(L_max, L_power), lag_found)
}

/// 4.2.11: search of the optimum scaling of d[0..39].
fn optimum_scaling(d: &[i16; 40]) -> i16 {
    let mut dmax = 0;
    for k in 0..=39 {
        let temp = abs(d[k]);
        if temp > dmax {
            dmax = temp;
        }
    }
    // Read literally, dmax == 0 goes on with temp = 0 and scal = 6; every wt is 0 then.
    let mut temp = 0;
    if dmax != 0 {
        temp = norm(L_shl(i32::from(dmax), 16));
    }
    if temp > 6 {
        0
    } else {
        sub(6, temp)
    }
}

/// 4.2.11: search for the maximum cross-correlation L_max and its lag Nc.
fn maximum_cross_correlation(wt: &[i16; 40], dp: &[i16; 120]) -> (i16, i32) {
    let mut L_max = 0;
    let mut Nc = 40;
    for lambda in 40..=120 {
        let mut L_result = 0;
        for k in 0..=39 {
            let L_temp = L_mult(wt[k], dp[120 + k - lambda]);
            L_result = L_add(L_temp, L_result);
        }
        if L_result > L_max {
            Nc = lambda;
            L_max = L_result;
        }
    }
    (Nc as i16, L_max)
}

/// 4.2.11: the power of the reconstructed short term residual signal at the lag.
fn power(Nc: i16, dp: &[i16; 120]) -> i32 {
    let lag = Nc as usize;
    let mut wt = [0; 40];
    for k in 0..=39 {
        wt[k] = shr(dp[120 + k - lag], 3);
    }
    let mut L_power = 0;
    for k in 0..=39 {
        let L_temp = L_mult(wt[k], wt[k]);
        L_power = L_add(L_temp, L_power);
    }
    L_power
}

/// 4.2.11: normalization of L_max and L_power, and coding of the LTP gain.
fn code_gain(L_max: i32, L_power: i32) -> i16 {
    if L_max <= 0 {
        return 0;
    }
    if L_max >= L_power {
        return 3;
    }
    let temp = norm(L_power);
    let R = extract(L_shr(L_shl(L_max, temp), 16));
    let S = extract(L_shr(L_shl(L_power, temp), 16));
    for bc in 0..=2 {
        if R <= mult(S, DLB[bc]) {
            return bc as i16;
        }
    }
    3
}

/// 4.2.12: the long term residual e[0..39] and the estimate dpp[0..39].
pub fn long_term_analysis(
    d: &[i16; 40],
    dp: &[i16; 120],
    Nc: i16,
    bc: i16,
) -> ([i16; 40], [i16; 40]) {
    let lag = Nc as usize;
    let bp = QLB[bc as usize];
    let mut dpp = [0; 40];
    let mut e = [0; 40];
    for k in 0..=39 {
        dpp[k] = mult_r(bp, dp[120 + k - lag]);
        e[k] = sub(d[k], dpp[k]);
    }
    (e, dpp)
}

/// 4.2.18: update of the reconstructed short term residual signal dp[-120..-1].
pub fn update_dp(dp: &mut [i16; 120], ep: &[i16; 40], dpp: &[i16; 40]) {
    for k in 0..=79 {
        dp[k] = dp[40 + k];
    }
    for k in 0..=39 {
        dp[80 + k] = add(ep[k], dpp[k]);
    }
}

/// 4.3.2: check the limits of the received lag; the one that is used is remembered.
pub fn check_lag(Ncr: i16, nrp: &mut i16) -> i16 {
    let mut Nr = Ncr;
    if Ncr < 40 {
        Nr = *nrp;
    }
    if Ncr > 120 {
        Nr = *nrp;
    }
    *nrp = Nr;
    Nr
}

/// 4.3.2: long term synthesis filtering; gives drp[0..39] and updates drp[-120..-1].
pub fn long_term_synthesis(Nr: i16, bcr: i16, erp: &[i16; 40], kept: &mut [i16; 120]) -> [i16; 40] {
    let lag = Nr as usize;
    let brp = QLB[bcr as usize];
    let mut drp = [0; 160];
    for k in 0..=119 {
        drp[k] = kept[k];
    }
    let mut result = [0; 40];
    for k in 0..=39 {
        let drpp = mult_r(brp, drp[120 + k - lag]);
        drp[120 + k] = add(erp[k], drpp);
        result[k] = drp[120 + k];
    }
    for k in 0..=119 {
        kept[k] = drp[40 + k];
    }
    result
}

/// Request W-203: worked out by hand; all that is not 0 is d[0] and dp[-40].
#[cfg(test)]
mod tests {
    use super::*;

    #[test]
    fn found_at_40_with_a_weak_gain() {
        // scal is 1: 2 * 500 * 20000 is 20000000, rescaled 625000, a twentieth of the power.
        assert_eq!(parameters(1000, 20000), (40, 0, true));
    }

    #[test]
    fn found_at_40_with_a_sum_rescaled_to_0() {
        // scal is 0: the sum is 2, rescaled 0.
        assert_eq!(parameters(1, 1), (40, 0, true));
    }

    #[test]
    fn rule_with_no_positive_sum() {
        // The sum at lag 40 is -2, all the others are 0.
        assert_eq!(parameters(1, -1), (40, 0, false));
    }

    /// 4.2.11: the parameters from d[0] and dp[-40].
    fn parameters(first: i16, at_lag_40: i16) -> (i16, i16, bool) {
        let mut d = [0; 40];
        d[0] = first;
        let mut dp = [0; 120];
        dp[80] = at_lag_40;
        ltp_parameters(&d, &dp)
    }
}
