//! 4.2: the encoder, one frame at a time.

use crate::codewords::{Frame, SubFrame};
use crate::longterm::{long_term_analysis, ltp_parameters, update_dp};
use crate::lpc::{
    autocorrelation, code_log_area_ratios, log_area_ratios, reflection_coefficients, Ending,
};
use crate::preprocess::{downscaling, offset_compensation, pre_emphasis};
use crate::rpe::{
    code_pulses, code_xmax, decode_pulses, exponent_and_mantissa, find_xmax, grid_positioning,
    grid_selection, weighting_filter,
};
use crate::shortterm::{analysis, decode_log_area_ratios};

/// 4.2: what is kept in memory for the next frame; LARpp counts from 1.
pub struct EncoderState {
    pub z1: i16,
    pub L_z2: i32,
    pub mp: i16,
    pub LARpp: [i16; 9],
    pub u: [i16; 8],
    pub dp: [i16; 120],
}

/// 4.2: all the initial values.
pub fn encoder_home() -> EncoderState {
    EncoderState {
        z1: 0,
        L_z2: 0,
        mp: 0,
        LARpp: [0; 9],
        u: [0; 8],
        dp: [0; 120],
    }
}

/// House rules, 'Soundness': when an encoder state is sound.
pub fn encoder_state_is_sound(state: &EncoderState) -> bool {
    let distance = i64::from(state.L_z2) - 32768 * i64::from(state.z1);
    (-16384..=16380).contains(&state.z1) && (-536740337..=536871409).contains(&distance)
}

/// 4.2: what is made of 160 samples; only the frame is sent. Request W-203: which lags are found.
pub struct Encoded {
    pub frame: Frame,
    pub ending: Ending,
    pub lag_found: [bool; 4],
}

/// 4.2: encode the 160 samples of a frame.
pub fn encode(state: &mut EncoderState, sop: &[i16; 160]) -> Encoded {
    let so = downscaling(sop);
    let sof = offset_compensation(&so, &mut state.z1, &mut state.L_z2);
    let mut s = pre_emphasis(&sof, &mut state.mp);

    let L_ACF = autocorrelation(&mut s);
    let (r, ending) = reflection_coefficients(&L_ACF);
    let LAR = log_area_ratios(&r);
    let LARc = code_log_area_ratios(&LAR);

    let LARpp = decode_log_area_ratios(&LARc);
    let d = analysis(&s, &state.LARpp, &LARpp, &mut state.u);
    state.LARpp = LARpp;

    let coded = [
        encode_sub_segment(&d, 0, &mut state.dp),
        encode_sub_segment(&d, 40, &mut state.dp),
        encode_sub_segment(&d, 80, &mut state.dp),
        encode_sub_segment(&d, 120, &mut state.dp),
    ];
    let sub_frames = coded.map(|(sub_frame, _lag_found)| sub_frame);
    Encoded {
        frame: Frame { LARc, sub_frames },
        ending,
        lag_found: coded.map(|(_sub_frame, lag_found)| lag_found),
    }
}

/// 4.2.11 to 4.2.18: encode the sub-segment of 40 samples that starts at a place of the frame;
/// Request W-203: and if its lag is found.
fn encode_sub_segment(frame_d: &[i16; 160], start: usize, dp: &mut [i16; 120]) -> (SubFrame, bool) {
    let mut d = [0; 40];
    for k in 0..=39 {
        d[k] = frame_d[start + k];
    }
    let (Nc, bc, lag_found) = ltp_parameters(&d, dp);
    let (e, dpp) = long_term_analysis(&d, dp, Nc, bc);

    let x = weighting_filter(&e);
    let (Mc, xM) = grid_selection(&x);
    let xmaxc = code_xmax(find_xmax(&xM));
    let (exp, mant) = exponent_and_mantissa(xmaxc);
    let xMc = code_pulses(&xM, exp, mant);

    let xMp = decode_pulses(&xMc, exp, mant);
    let ep = grid_positioning(Mc, &xMp);
    update_dp(dp, &ep, &dpp);
    let sub_frame = SubFrame {
        Nc,
        bc,
        Mc,
        xmaxc,
        xMc,
    };
    (sub_frame, lag_found)
}
