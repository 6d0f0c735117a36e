//! 4.3: the decoder, one frame at a time.

use crate::arithmetic::{add, mult_r, shl, shr};
use crate::codewords::{Frame, SubFrame};
use crate::longterm::{check_lag, long_term_synthesis};
use crate::rpe::{decode_pulses, exponent_and_mantissa, grid_positioning};
use crate::shortterm::{decode_log_area_ratios, synthesis};

/// 4.3: what is kept in memory for the next frame; v[8] is written and never read.
pub struct DecoderState {
    pub nrp: i16,
    pub msr: i16,
    pub LARrpp: [i16; 9],
    pub v: [i16; 9],
    pub drp: [i16; 120],
}

/// 4.3: all the initial values.
pub fn decoder_home() -> DecoderState {
    DecoderState {
        nrp: 40,
        msr: 0,
        LARrpp: [0; 9],
        v: [0; 9],
        drp: [0; 120],
    }
}

/// House rules, 'Soundness': when a decoder state is sound.
pub fn decoder_state_is_sound(state: &DecoderState) -> bool {
    (40..=120).contains(&state.nrp)
}

/// 4.3: decode a frame to 160 samples.
pub fn decode(state: &mut DecoderState, frame: &Frame) -> [i16; 160] {
    let mut wt = [0; 160];
    for j in 0..=3 {
        let drp = decode_sub_segment(state, &frame.sub_frames[j]);
        for k in 0..=39 {
            wt[40 * j + k] = drp[k];
        }
    }
    let LARrpp = decode_log_area_ratios(&frame.LARc);
    let sr = synthesis(&wt, &state.LARrpp, &LARrpp, &mut state.v);
    state.LARrpp = LARrpp;
    let sro = de_emphasis(&sr, &mut state.msr);
    truncation(&upscaling(&sro))
}

/// 4.3.1 and 4.3.2: decode one sub-segment to drp[0..39].
fn decode_sub_segment(state: &mut DecoderState, received: &SubFrame) -> [i16; 40] {
    let (exp, mant) = exponent_and_mantissa(received.xmaxc);
    let xMrp = decode_pulses(&received.xMc, exp, mant);
    let erp = grid_positioning(received.Mc, &xMrp);
    let Nr = check_lag(received.Nc, &mut state.nrp);
    long_term_synthesis(Nr, received.bc, &erp, &mut state.drp)
}

/// 4.3.5: de-emphasis filtering.
fn de_emphasis(sr: &[i16; 160], msr: &mut i16) -> [i16; 160] {
    let mut sro = [0; 160];
    for k in 0..=159 {
        sro[k] = add(sr[k], mult_r(*msr, 28180));
        *msr = sro[k];
    }
    sro
}

/// 4.3.6: upscaling of the output signal.
fn upscaling(sro: &[i16; 160]) -> [i16; 160] {
    let mut srop = [0; 160];
    for k in 0..=159 {
        srop[k] = add(sro[k], sro[k]);
    }
    srop
}

/// 4.3.7: truncation of the output variable, to 13 valid bits at the left.
fn truncation(upscaled: &[i16; 160]) -> [i16; 160] {
    let mut srop = [0; 160];
    for k in 0..=159 {
        srop[k] = shr(upscaled[k], 3);
        srop[k] = shl(srop[k], 3);
    }
    srop
}
