//! Table 5.1: a frame by the names of its parameters, and as 76 codewords.

use crate::arithmetic::{shl, sub};
use crate::tables::WIDTHS;

/// Table 5.1: the parameters of one sub-frame.
#[derive(Clone, Copy)]
pub struct SubFrame {
    pub Nc: i16,
    pub bc: i16,
    pub Mc: i16,
    pub xmaxc: i16,
    pub xMc: [i16; 13],
}

/// Table 5.1: the parameters of one frame; LARc counts from 1.
pub struct Frame {
    pub LARc: [i16; 9],
    pub sub_frames: [SubFrame; 4],
}

/// 4.1: "only valid bits are used".
pub fn valid_bits(codeword: i16, width: i16) -> i16 {
    codeword & sub(shl(1, width), 1)
}

/// Table 5.1: the codewords of a frame, in their order.
pub fn to_codewords(frame: &Frame) -> [i16; 76] {
    let mut codewords = [0; 76];
    for i in 1..=8 {
        codewords[i - 1] = frame.LARc[i];
    }
    for j in 0..=3 {
        let start = 8 + 17 * j;
        let sub_frame = &frame.sub_frames[j];
        codewords[start] = sub_frame.Nc;
        codewords[start + 1] = sub_frame.bc;
        codewords[start + 2] = sub_frame.Mc;
        codewords[start + 3] = sub_frame.xmaxc;
        for i in 0..=12 {
            codewords[start + 4 + i] = sub_frame.xMc[i];
        }
    }
    codewords
}

/// Table 5.1 and 4.1: the frame that the valid bits of the codewords give.
pub fn from_codewords(codewords: &[i16; 76]) -> Frame {
    let mut valid = [0; 76];
    for n in 0..=75 {
        valid[n] = valid_bits(codewords[n], WIDTHS[n]);
    }
    let mut LARc = [0; 9];
    for i in 1..=8 {
        LARc[i] = valid[i - 1];
    }
    let sub_frames = [
        sub_frame_at(&valid, 8),
        sub_frame_at(&valid, 25),
        sub_frame_at(&valid, 42),
        sub_frame_at(&valid, 59),
    ];
    Frame { LARc, sub_frames }
}

/// Table 5.1: the sub-frame whose 17 codewords start at a place of the 76.
fn sub_frame_at(valid: &[i16; 76], start: usize) -> SubFrame {
    let mut xMc = [0; 13];
    for i in 0..=12 {
        xMc[i] = valid[start + 4 + i];
    }
    SubFrame {
        Nc: valid[start],
        bc: valid[start + 1],
        Mc: valid[start + 2],
        xmaxc: valid[start + 3],
        xMc,
    }
}
