//! What the library has, as `c/rpeltp.h` declares it: the structs field by field, and the calls.
//!
//! A struct has the header's name without `rpeltp_`. A test outside this crate compares this file with the source.

/// What the encoder keeps between frames (4.2), 280 bytes, by the standard's names.
///
/// It is sound, that is not refused as [`Refusal::State`](crate::Refusal::State), exactly when `z1` is from -16384 to
/// 16380 and `l_z2 - 32768 z1` from -536740337 to 536871409; the other fields may be anything. All fields are public,
/// so that a state can be stored and restored.
///
/// A state is a plain value. It is not `Copy`, so that no call goes on with a copy that nobody meant to make: to keep
/// one for later, write `clone`.
///
/// ```
/// use rpeltp::{Encoder, CODEWORDS, SAMPLES};
///
/// let mut encoder = Encoder::home();
/// let mut codewords = [0; CODEWORDS];
/// let _first = encoder.encode(&[1000; SAMPLES], &mut codewords)?;
/// let kept = encoder.clone();
/// let second = encoder.encode(&[2000; SAMPLES], &mut codewords)?;
///
/// let mut restored = kept;
/// let mut again = [0; CODEWORDS];
/// assert_eq!(restored.encode(&[2000; SAMPLES], &mut again)?, second);
/// assert_eq!(again, codewords);
/// assert_eq!(restored, encoder);
/// # Ok::<(), rpeltp::Refusal>(())
/// ```
#[derive(Clone, Debug, PartialEq, Eq)]
#[repr(C)]
pub struct Encoder {
    /// `L_z2`, the offset filter's long cell.
    pub l_z2: i32,
    /// `z1`, its short one.
    pub z1: i16,
    /// `mp`, the pre-emphasis cell.
    pub mp: i16,
    /// `LARpp`, the last frame's decoded ratios.
    pub larpp: [i16; 8],
    /// `u`, the analysis lattice's cells.
    pub u: [i16; 8],
    /// `dp`, the residual's last 120 samples, the oldest first.
    pub dp: [i16; 120],
}

/// What the decoder keeps between frames (4.3), 276 bytes, by the standard's names.
///
/// It is sound, that is not refused as [`Refusal::State`](crate::Refusal::State), exactly when `nrp` is from 40 to 120;
/// the other fields may be anything. It is a plain value as an [`Encoder`] is, and `clone` keeps one for later.
#[derive(Clone, Debug, PartialEq, Eq)]
#[repr(C)]
pub struct Decoder {
    /// `drp`, the residual's last 120 samples, the oldest first.
    pub drp: [i16; 120],
    /// `nrp`, the last lag that was from 40 to 120.
    pub nrp: i16,
    /// `LARpp`, the last frame's decoded ratios.
    pub larpp: [i16; 8],
    /// `v`, the synthesis lattice's cells.
    pub v: [i16; 8],
    /// `msr`, the de-emphasis cell.
    pub msr: i16,
}

/// What encode answers, 288 bytes.
#[repr(C)]
pub struct EncodeAnswer {
    pub state: Encoder,
    pub number: u16,
    pub ending: u16,
    pub marks: [u8; 4],
}

/// What decode answers, 278 bytes.
#[repr(C)]
pub struct DecodeAnswer {
    pub state: Decoder,
    pub number: u16,
}

extern "C" {
    pub fn rpeltp_encoder_home() -> Encoder;
    pub fn rpeltp_decoder_home() -> Decoder;
    pub fn rpeltp_encode(
        state: Encoder,
        samples: *const i16,
        samples_len: usize,
        codewords: *mut i16,
        codewords_len: usize,
    ) -> EncodeAnswer;
    pub fn rpeltp_decode(
        state: Decoder,
        codewords: *const i16,
        codewords_len: usize,
        samples: *mut i16,
        samples_len: usize,
    ) -> DecodeAnswer;
    pub fn rpeltp_encode_alaw(
        state: Encoder,
        octets: *const u8,
        octets_len: usize,
        codewords: *mut i16,
        codewords_len: usize,
    ) -> EncodeAnswer;
    pub fn rpeltp_decode_alaw(
        state: Decoder,
        codewords: *const i16,
        codewords_len: usize,
        octets: *mut u8,
        octets_len: usize,
    ) -> DecodeAnswer;
    pub fn rpeltp_pack(
        codewords: *const i16,
        codewords_len: usize,
        bytes: *mut u8,
        bytes_len: usize,
    ) -> u16;
    pub fn rpeltp_unpack(
        bytes: *const u8,
        bytes_len: usize,
        codewords: *mut i16,
        codewords_len: usize,
    ) -> u16;
}
