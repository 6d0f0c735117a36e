//! A record of `calls`: where each value stands among the 768 words.
//!
//! The head, words 0 to 47. Asked: the call, then how many samples or octets, codewords and bytes
//! are lent; words 4 and 5 are for later. Answered: the refusal number, the ending and the four
//! marks; words 6 to 27 are for later. What nothing is said in is 0 in an answer.
//! Then the house values, the state, and the rooms for samples, residual, codewords and bytes:
//! in an answer they are as asked where the call has nothing to put.

use crate::decoder::DecoderState;
use crate::encoder::EncoderState;

/// A record: one call, or its answer.
pub type Record = [i16; RECORD_WORDS];

/// A record, the head when asked: where the call and the counts of what is lent stand.
pub const CALL: usize = 0;
const LENT_SAMPLES: usize = 1;
const LENT_CODEWORDS: usize = 2;
const LENT_BYTES: usize = 3;

/// A record, the head when answered: where the refusal, the ending and the four marks stand.
pub const REFUSAL: usize = 0;
pub const ENDING: usize = 1;
pub const MARKS: usize = 2;

/// A record: where each part after the head starts, and how many words there are in all.
pub const HOUSE_VALUES: usize = 48;
const STATE: usize = HOUSE_VALUES + 16;
const SAMPLES: usize = STATE + 240;
const RESIDUAL: usize = SAMPLES + 168;
const CODEWORDS: usize = RESIDUAL + 168;
const BYTES: usize = CODEWORDS + 84;
const UNUSED: usize = BYTES + 40;
const RECORD_WORDS: usize = UNUSED + 4;

/// A record, words 1 to 3: how many of each are lent; word 1 counts octets in an A-law call.
pub struct Lent {
    pub samples: i16,
    pub octets: i16,
    pub codewords: i16,
    pub bytes: i16,
}

/// A record, words 1 to 3: nothing if more is lent than there is room for.
pub fn lent_of(record: &Record) -> Option<Lent> {
    let lent = Lent {
        samples: record[LENT_SAMPLES],
        octets: record[LENT_SAMPLES],
        codewords: record[LENT_CODEWORDS],
        bytes: record[LENT_BYTES],
    };
    let fits = (0..=168).contains(&lent.samples)
        && (0..=84).contains(&lent.codewords)
        && (0..=40).contains(&lent.bytes);
    if fits {
        Some(lent)
    } else {
        None
    }
}

/// A record: N words from a place on.
fn words_at<const N: usize>(record: &Record, start: usize) -> [i16; N] {
    let mut words = [0; N];
    for n in 0..N {
        words[n] = record[start + n];
    }
    words
}

/// A record: put words from a place on.
fn put_words_at(record: &mut Record, start: usize, words: &[i16]) {
    for n in 0..words.len() {
        record[start + n] = words[n];
    }
}

/// A record: an array that counts from 1, as the standard counts LARpp.
fn counted_from_1(words: [i16; 8]) -> [i16; 9] {
    let mut array = [0; 9];
    for i in 1..=8 {
        array[i] = words[i - 1];
    }
    array
}

/// A record, words 64 to 203 of an encode.
pub fn encoder_state_of(record: &Record) -> EncoderState {
    let low = i32::from(record[STATE + 1]) & 0xFFFF;
    let high = i32::from(record[STATE + 2]) << 16;
    EncoderState {
        z1: record[STATE],
        L_z2: high | low,
        mp: record[STATE + 3],
        LARpp: counted_from_1(words_at(record, STATE + 4)),
        u: words_at(record, STATE + 12),
        dp: words_at(record, STATE + 20),
    }
}

/// A record, words 64 to 203 of an encode.
pub fn put_encoder_state(record: &mut Record, state: &EncoderState) {
    record[STATE] = state.z1;
    record[STATE + 1] = state.L_z2 as i16;
    record[STATE + 2] = (state.L_z2 >> 16) as i16;
    record[STATE + 3] = state.mp;
    put_words_at(record, STATE + 4, &state.LARpp[1..=8]);
    put_words_at(record, STATE + 12, &state.u);
    put_words_at(record, STATE + 20, &state.dp);
}

/// A record, words 64 to 201 of a decode.
pub fn decoder_state_of(record: &Record) -> DecoderState {
    let mut v = [0; 9];
    for i in 0..=7 {
        v[i] = record[STATE + 10 + i];
    }
    DecoderState {
        nrp: record[STATE],
        msr: record[STATE + 1],
        LARrpp: counted_from_1(words_at(record, STATE + 2)),
        v,
        drp: words_at(record, STATE + 18),
    }
}

/// A record, words 64 to 201 of a decode; v[8] is never read, so it is not kept.
pub fn put_decoder_state(record: &mut Record, state: &DecoderState) {
    record[STATE] = state.nrp;
    record[STATE + 1] = state.msr;
    put_words_at(record, STATE + 2, &state.LARrpp[1..=8]);
    put_words_at(record, STATE + 10, &state.v[0..=7]);
    put_words_at(record, STATE + 18, &state.drp);
}

/// A record, words 304 to 463: the samples, when 160 are lent.
pub fn samples_of(record: &Record) -> [i16; 160] {
    words_at(record, SAMPLES)
}

/// A record, words 304 to 463.
pub fn put_samples(record: &mut Record, samples: &[i16; 160]) {
    put_words_at(record, SAMPLES, samples);
}

/// A record, words 304 to 463 of an A-law call: the octets, when 160 are lent, in the low halves.
pub fn octets_of(record: &Record) -> [u8; 160] {
    let mut octets = [0; 160];
    for n in 0..=159 {
        octets[n] = record[SAMPLES + n] as u8;
    }
    octets
}

/// A record, words 304 to 463 of an A-law call.
pub fn put_octets(record: &mut Record, octets: &[u8; 160]) {
    for n in 0..=159 {
        record[SAMPLES + n] = i16::from(octets[n]);
    }
}

/// A record, words 304 to 471 of an A-law call: each is its octet, with the high half 0.
pub fn clear_high_halves(record: &mut Record) {
    for n in 0..=167 {
        record[SAMPLES + n] &= 0xFF;
    }
}

/// A record, words 640 to 715: the codewords, when 76 are lent.
pub fn codewords_of(record: &Record) -> [i16; 76] {
    words_at(record, CODEWORDS)
}

/// A record, words 640 to 715.
pub fn put_codewords(record: &mut Record, codewords: &[i16; 76]) {
    put_words_at(record, CODEWORDS, codewords);
}

/// A record, words 724 to 756: the bytes, when 33 are lent, in the low halves.
pub fn bytes_of(record: &Record) -> [u8; 33] {
    let mut bytes = [0; 33];
    for n in 0..=32 {
        bytes[n] = record[BYTES + n] as u8;
    }
    bytes
}

/// A record, words 724 to 756.
pub fn put_bytes(record: &mut Record, bytes: &[u8; 33]) {
    for n in 0..=32 {
        record[BYTES + n] = i16::from(bytes[n]);
    }
}

#[cfg(test)]
mod tests {
    use super::*;

    #[test]
    fn places_of_the_parts() {
        let places = [HOUSE_VALUES, STATE, SAMPLES, RESIDUAL, CODEWORDS, BYTES];
        assert_eq!(places, [48, 64, 304, 472, 640, 724]);
        assert_eq!((UNUSED, RECORD_WORDS), (764, 768));
    }
}
