//! House rules, 'Refusals', and request W-204: one call a record of 768 words, from any state.

use crate::alaw::{octets_of_samples, samples_of_octets};
use crate::codewords::{from_codewords, to_codewords};
use crate::decoder::{decode, decoder_state_is_sound};
use crate::encoder::{encode, encoder_state_is_sound, Encoded, EncoderState};
use crate::listing::mark_is_rule;
use crate::lpc::Ending;
use crate::packing::{pack, unpack};
use crate::records::*;

/// A record: the answer where no call has the number.
const NO_CALL: i16 = 255;

/// A record: the record that answers a record, or nothing if it lends more than its room.
pub fn call(record: &Record) -> Option<Record> {
    let lent = lent_of(record)?;
    let mut answer = *record;
    for n in 0..HOUSE_VALUES {
        answer[n] = 0;
    }
    match record[CALL] {
        1 => encode_call(record, &lent, &mut answer),
        2 => decode_call(record, &lent, &mut answer),
        3 => pack_call(record, &lent, &mut answer),
        4 => unpack_call(record, &lent, &mut answer),
        5 => encode_alaw_call(record, &lent, &mut answer),
        6 => decode_alaw_call(record, &lent, &mut answer),
        _ => answer[REFUSAL] = NO_CALL,
    }
    Some(answer)
}

/// House rules, 'Refusals': encode refuses by 1, 2 and 3, and alters the 76 codewords and the state.
fn encode_call(record: &Record, lent: &Lent, answer: &mut Record) {
    let mut state = encoder_state_of(record);
    if lent.samples != 160 {
        answer[REFUSAL] = 1;
    } else if lent.codewords != 76 {
        answer[REFUSAL] = 2;
    } else if !encoder_state_is_sound(&state) {
        answer[REFUSAL] = 3;
    } else {
        let encoded = encode(&mut state, &samples_of(record));
        put_encoded(answer, &state, &encoded);
    }
}

/// House rules, 'Refusals': what an encode that is not refused answers.
fn put_encoded(answer: &mut Record, state: &EncoderState, encoded: &Encoded) {
    answer[ENDING] = match encoded.ending {
        Ending::Silent => 1,
        Ending::Complete => 2,
        Ending::Stopped(n) => 16 + n,
    };
    for j in 0..=3 {
        answer[MARKS + j] = if mark_is_rule(encoded, j) { 1 } else { 2 };
    }
    put_encoder_state(answer, state);
    put_codewords(answer, &to_codewords(&encoded.frame));
}

/// House rules, 'Refusals': decode refuses by 1, 2 and 3, and alters the 160 samples and the state.
fn decode_call(record: &Record, lent: &Lent, answer: &mut Record) {
    let mut state = decoder_state_of(record);
    if lent.samples != 160 {
        answer[REFUSAL] = 1;
    } else if lent.codewords != 76 {
        answer[REFUSAL] = 2;
    } else if !decoder_state_is_sound(&state) {
        answer[REFUSAL] = 3;
    } else {
        let frame = from_codewords(&codewords_of(record));
        let samples = decode(&mut state, &frame);
        put_decoder_state(answer, &state);
        put_samples(answer, &samples);
    }
}

/// House rules, 'Refusals': pack refuses by 2, 4 and 5, and alters the 33 bytes.
fn pack_call(record: &Record, lent: &Lent, answer: &mut Record) {
    if lent.codewords != 76 {
        answer[REFUSAL] = 2;
    } else if lent.bytes != 33 {
        answer[REFUSAL] = 4;
    } else {
        match pack(&codewords_of(record)) {
            Ok(bytes) => put_bytes(answer, &bytes),
            Err(refusal) => answer[REFUSAL] = refusal,
        }
    }
}

/// House rules, 'Refusals': unpack refuses by 2, 4 and 6, and alters the 76 codewords.
fn unpack_call(record: &Record, lent: &Lent, answer: &mut Record) {
    if lent.codewords != 76 {
        answer[REFUSAL] = 2;
    } else if lent.bytes != 33 {
        answer[REFUSAL] = 4;
    } else {
        match unpack(&bytes_of(record)) {
            Ok(codewords) => put_codewords(answer, &codewords),
            Err(refusal) => answer[REFUSAL] = refusal,
        }
    }
}

/// Request W-204: as encode, of the samples that 160 octets stand for; refusal 1 counts octets.
fn encode_alaw_call(record: &Record, lent: &Lent, answer: &mut Record) {
    let mut state = encoder_state_of(record);
    if lent.octets != 160 {
        answer[REFUSAL] = 1;
    } else if lent.codewords != 76 {
        answer[REFUSAL] = 2;
    } else if !encoder_state_is_sound(&state) {
        answer[REFUSAL] = 3;
    } else {
        let samples = samples_of_octets(&octets_of(record));
        let encoded = encode(&mut state, &samples);
        put_encoded(answer, &state, &encoded);
    }
}

/// Request W-204: as decode, to 160 octets; refused or not, the buffer is answered as octets.
fn decode_alaw_call(record: &Record, lent: &Lent, answer: &mut Record) {
    let mut state = decoder_state_of(record);
    clear_high_halves(answer);
    if lent.octets != 160 {
        answer[REFUSAL] = 1;
    } else if lent.codewords != 76 {
        answer[REFUSAL] = 2;
    } else if !decoder_state_is_sound(&state) {
        answer[REFUSAL] = 3;
    } else {
        let frame = from_codewords(&codewords_of(record));
        let octets = octets_of_samples(&decode(&mut state, &frame));
        put_decoder_state(answer, &state);
        put_octets(answer, &octets);
    }
}
