//! What is refused, by which number, and that a refusal changes nothing: neither the state nor a word of a buffer.

use rpeltp::{pack, unpack, Decoder, Encoder, Refusal, BYTES, CODEWORDS, SAMPLES};

/// What buffers hold before a call: no two neighbours alike, so that a word written or moved is seen.
static WORDS: [i16; 401] = words();
static OCTETS: [u8; 401] = octets();

const fn words() -> [i16; 401] {
    let (mut words, mut i) = ([0; 401], 0);
    while i < words.len() {
        words[i] = (i as i16).wrapping_mul(2531) ^ 0x5a5a;
        i += 1;
    }
    words
}

const fn octets() -> [u8; 401] {
    let (mut octets, mut i) = ([0; 401], 0);
    while i < octets.len() {
        octets[i] = (i as u8).wrapping_mul(59) ^ 0xa5;
        i += 1;
    }
    octets
}

fn array<const N: usize>() -> [i16; N] {
    WORDS[..N].try_into().expect("as many words")
}

/// A sound encoder that is not at home.
fn encoder() -> Encoder {
    Encoder {
        l_z2: 32768 * 77 + 5,
        z1: 77,
        mp: -9,
        larpp: array(),
        u: array(),
        dp: array(),
    }
}

/// A sound decoder that is not at home.
fn decoder() -> Decoder {
    Decoder {
        drp: array(),
        nrp: 99,
        larpp: array(),
        v: array(),
        msr: -9,
    }
}

/// The outcome of a call, after a look at what it left: where it refused nothing is to be written, and where it was
/// done nothing behind the buffer that was passed.
fn seen<T: PartialEq>(
    outcome: Result<(), Refusal>,
    passed: usize,
    buffer: &[T],
    before: &[T],
) -> Result<(), Refusal> {
    let kept = if outcome.is_ok() { passed } else { 0 };
    assert!(buffer[kept..] == before[kept..], "written: {outcome:?}");
    outcome
}

// One call of each kind, from the state given, with buffers of these lengths, which are the first part of a longer one.

fn encode(mut from: Encoder, samples: usize, codewords: usize) -> Result<(), Refusal> {
    let (before, mut buffer) = (from.clone(), WORDS);
    let outcome = from.encode(&WORDS[..samples], &mut buffer[..codewords]);
    assert_eq!(outcome.is_err(), from == before);
    seen(outcome.map(|_signs| ()), codewords, &buffer, &WORDS)
}

fn encode_alaw(mut from: Encoder, octets: usize, codewords: usize) -> Result<(), Refusal> {
    let (before, mut buffer) = (from.clone(), WORDS);
    let outcome = from.encode_alaw(&OCTETS[..octets], &mut buffer[..codewords]);
    assert_eq!(outcome.is_err(), from == before);
    seen(outcome.map(|_signs| ()), codewords, &buffer, &WORDS)
}

fn decode(mut from: Decoder, samples: usize, codewords: usize) -> Result<(), Refusal> {
    let (before, mut buffer) = (from.clone(), WORDS);
    let outcome = from.decode(&WORDS[..codewords], &mut buffer[..samples]);
    assert_eq!(outcome.is_err(), from == before);
    seen(outcome, samples, &buffer, &WORDS)
}

fn decode_alaw(mut from: Decoder, octets: usize, codewords: usize) -> Result<(), Refusal> {
    let (before, mut buffer) = (from.clone(), OCTETS);
    let outcome = from.decode_alaw(&WORDS[..codewords], &mut buffer[..octets]);
    assert_eq!(outcome.is_err(), from == before);
    seen(outcome, octets, &buffer, &OCTETS)
}

fn packed(codewords: &[i16], bytes: usize) -> Result<(), Refusal> {
    let mut buffer = OCTETS;
    let outcome = pack(codewords, &mut buffer[..bytes]);
    seen(outcome, bytes, &buffer, &OCTETS)
}

fn unpacked(bytes: &[u8], codewords: usize) -> Result<(), Refusal> {
    let mut buffer = WORDS;
    let outcome = unpack(bytes, &mut buffer[..codewords]);
    seen(outcome, codewords, &buffer, &WORDS)
}

/// A buffer: the length that it is to have, and how another is refused.
type Right = (usize, Refusal);
const OF_SAMPLES: Right = (SAMPLES, Refusal::Samples);
const OF_CODEWORDS: Right = (CODEWORDS, Refusal::Codewords);
const OF_BYTES: Right = (BYTES, Refusal::Bytes);

/// Pairs of lengths from 0 to 400 and how they are refused, by the lowest number: each wrong length beside the other
/// buffer's right one, and beside two wrong ones.
fn wrong_pairs(first: Right, second: Right) -> Vec<(usize, usize, Refusal)> {
    let wrong = |right: Right| (0..=400).filter(move |&len| len != right.0);
    let lowest = if first.1.number() < second.1.number() {
        first.1
    } else {
        second.1
    };
    let both = wrong(first).zip(wrong(second));
    let crossed = wrong(first).zip(wrong(second).rev());
    let mut pairs: Vec<_> = wrong(first).map(|len| (len, second.0, first.1)).collect();
    pairs.extend(wrong(second).map(|len| (first.0, len, second.1)));
    pairs.extend(both.chain(crossed).map(|(one, other)| (one, other, lowest)));
    pairs
}

/// That a call with a state refuses each wrong length, and the state only where both lengths are right.
fn lengths_before_state<S>(
    call: fn(S, usize, usize) -> Result<(), Refusal>,
    sound: fn() -> S,
    unsound: fn() -> S,
) {
    for (a, b, expected) in wrong_pairs(OF_SAMPLES, OF_CODEWORDS) {
        assert_eq!(call(sound(), a, b), Err(expected), "{a}, {b}");
        assert_eq!(call(unsound(), a, b), Err(expected), "{a}, {b}");
    }
    assert_eq!(call(sound(), SAMPLES, CODEWORDS), Ok(()));
    assert_eq!(call(unsound(), SAMPLES, CODEWORDS), Err(Refusal::State));
}

#[test]
fn encoders_refuse_lengths_before_the_state() {
    let unsound = || Encoder {
        z1: 16381,
        ..encoder()
    };
    lengths_before_state(encode, encoder, unsound);
    lengths_before_state(encode_alaw, encoder, unsound);
}

#[test]
fn decoders_refuse_lengths_before_the_state() {
    let unsound = || Decoder {
        nrp: 39,
        ..decoder()
    };
    lengths_before_state(decode, decoder, unsound);
    lengths_before_state(decode_alaw, decoder, unsound);
}

#[test]
fn pack_refuses_lengths_before_fields() {
    for (a, b, expected) in wrong_pairs(OF_CODEWORDS, OF_BYTES) {
        assert_eq!(packed(&vec![0; a], b), Err(expected), "{a}, {b}");
        assert_eq!(packed(&vec![-1; a], b), Err(expected), "{a}, {b}");
    }
    assert_eq!(packed(&[0; CODEWORDS], BYTES), Ok(()));
    assert_eq!(packed(&[-1; CODEWORDS], BYTES), Err(Refusal::Field));
}

#[test]
fn unpack_refuses_lengths_before_spare_bits() {
    for (a, b, expected) in wrong_pairs(OF_BYTES, OF_CODEWORDS) {
        assert_eq!(unpacked(&vec![0; a], b), Err(expected), "{a}, {b}");
        assert_eq!(unpacked(&vec![255; a], b), Err(expected), "{a}, {b}");
    }
    assert_eq!(unpacked(&[0; BYTES], CODEWORDS), Ok(()));
    assert_eq!(unpacked(&[255; BYTES], CODEWORDS), Err(Refusal::Spare));
}

/// That the encoder with these two fields is refused by both calls, or by none.
fn is_sound(l_z2: i32, z1: i16, sound: bool) {
    let expected = if sound { Ok(()) } else { Err(Refusal::State) };
    let from = Encoder {
        l_z2,
        z1,
        ..encoder()
    };
    let octets = encode_alaw(from.clone(), SAMPLES, CODEWORDS);
    assert_eq!(octets, expected, "{l_z2}, {z1}");
    assert_eq!(encode(from, SAMPLES, CODEWORDS), expected, "{l_z2}, {z1}");
}

#[test]
fn an_encoder_is_sound_between_its_limits() {
    for z1 in [-16384, -1, 0, 77, 16380] {
        let middle = 32768 * i32::from(z1);
        is_sound(middle - 536740338, z1, false);
        is_sound(middle - 536740337, z1, true);
        is_sound(middle - 536740336, z1, true);
        is_sound(middle + 536871408, z1, true);
        is_sound(middle + 536871409, z1, true);
        is_sound(middle + 536871410, z1, false);
    }
    for z1 in [i16::MIN, -16385, 16381, i16::MAX] {
        is_sound(32768 * i32::from(z1), z1, false);
    }
}

#[test]
fn a_decoder_is_sound_between_its_limits() {
    for nrp in [i16::MIN, -1, 0, 39, 40, 41, 119, 120, 121, 255, i16::MAX] {
        let from = Decoder { nrp, ..decoder() };
        let sound = (40..=120).contains(&nrp);
        let expected = if sound { Ok(()) } else { Err(Refusal::State) };
        assert_eq!(decode(from.clone(), SAMPLES, CODEWORDS), expected, "{nrp}");
        assert_eq!(decode_alaw(from, SAMPLES, CODEWORDS), expected, "{nrp}");
    }
}

/// How many bits each of the 76 fields has.
fn widths() -> Vec<u32> {
    let subframe = [&[7, 2, 2, 6][..], &[3; 13]].concat();
    [&[6, 6, 5, 5, 4, 4, 3, 3][..], &subframe.repeat(4)].concat()
}

#[test]
fn pack_refuses_each_codeword_that_is_too_wide() {
    assert_eq!(widths().len(), CODEWORDS);
    assert_eq!(widths().iter().sum::<u32>(), 260);
    for (i, width) in widths().into_iter().enumerate() {
        let with = |value| {
            let mut codewords = [0; CODEWORDS];
            codewords[i] = value;
            packed(&codewords, BYTES)
        };
        assert_eq!(with((1 << width) - 1), Ok(()), "{i}");
        for value in [1 << width, 1 << 14, i16::MAX, i16::MIN, -1] {
            assert_eq!(with(value), Err(Refusal::Field), "{i}: {value}");
        }
    }
}

#[test]
fn unpack_refuses_each_spare_bit() {
    for byte in 0..=255 {
        let mut bytes = [0; BYTES];
        bytes[BYTES - 1] = byte;
        let spare = byte >= 16;
        let expected = if spare { Err(Refusal::Spare) } else { Ok(()) };
        assert_eq!(unpacked(&bytes, CODEWORDS), expected, "{byte}");
    }
}
