//! What the calls give: homes, the same codewords in every thread, states that can be kept, frames that come back.

use rpeltp::{pack, unpack, Decoder, Encoder, Ending, Mark, Signs, BYTES, CODEWORDS, SAMPLES};
use std::thread;

/// A frame encoded: its codewords and its signs.
type Frame = ([i16; CODEWORDS], Signs);

/// The samples of the recording, a frame after the other.
fn recording() -> Vec<i16> {
    let path = concat!(env!("CARGO_MANIFEST_DIR"), "/../recordings/speech.raw");
    let bytes = std::fs::read(path).expect(path);
    bytes
        .chunks_exact(2)
        .map(|pair| i16::from_le_bytes([pair[0], pair[1]]))
        .collect()
}

fn encode_all(encoder: &mut Encoder, samples: &[i16]) -> Vec<Frame> {
    let encode = |frame| {
        let mut codewords = [0; CODEWORDS];
        let signs = encoder
            .encode(frame, &mut codewords)
            .expect("a whole frame");
        (codewords, signs)
    };
    samples.chunks_exact(SAMPLES).map(encode).collect()
}

fn decode_all(decoder: &mut Decoder, frames: &[Frame]) -> Vec<i16> {
    let decode = |(codewords, _): &Frame| {
        let mut samples = [0; SAMPLES];
        decoder
            .decode(codewords, &mut samples)
            .expect("a whole frame");
        samples
    };
    frames.iter().flat_map(decode).collect()
}

#[test]
fn homes_are_as_documented() {
    let encoder = Encoder {
        l_z2: 0,
        z1: 0,
        mp: 0,
        larpp: [0; 8],
        u: [0; 8],
        dp: [0; 120],
    };
    let decoder = Decoder {
        drp: [0; 120],
        nrp: 40,
        larpp: [0; 8],
        v: [0; 8],
        msr: 0,
    };
    assert_eq!((Encoder::home(), Decoder::home()), (encoder, decoder));
    assert_eq!(
        (Encoder::default(), Decoder::default()),
        (Encoder::home(), Decoder::home())
    );
}

#[test]
fn every_thread_gets_the_same() {
    let samples = recording();
    let run = || {
        let (mut encoder, mut decoder) = (Encoder::home(), Decoder::home());
        let frames = encode_all(&mut encoder, &samples);
        let decoded = decode_all(&mut decoder, &frames);
        (frames, decoded, encoder, decoder)
    };
    let alone = run();
    assert_eq!(alone.0.len(), 121);
    thread::scope(|scope| {
        let threads: Vec<_> = (0..8).map(|_| scope.spawn(run)).collect();
        for thread in threads {
            assert_eq!(thread.join().expect("a thread"), alone);
        }
    });
}

#[test]
fn a_state_kept_goes_on_as_the_first_did() {
    let samples = recording();
    let (before, after) = samples.split_at(60 * SAMPLES);
    let mut encoder = Encoder::home();
    let mut decoder = Decoder::home();
    decode_all(&mut decoder, &encode_all(&mut encoder, before));
    let (mut kept_encoder, mut kept_decoder) = (encoder.clone(), decoder.clone());
    let frames = encode_all(&mut encoder, after);
    let decoded = decode_all(&mut decoder, &frames);
    assert_ne!((&kept_encoder, &kept_decoder), (&encoder, &decoder));
    assert_eq!(encode_all(&mut kept_encoder, after), frames);
    assert_eq!(decode_all(&mut kept_decoder, &frames), decoded);
    assert_eq!((kept_encoder, kept_decoder), (encoder, decoder));
}

#[test]
fn packed_frames_come_back() {
    for (codewords, _) in encode_all(&mut Encoder::home(), &recording()) {
        let (mut bytes, mut back) = ([0; BYTES], [0; CODEWORDS]);
        assert_eq!(pack(&codewords, &mut bytes), Ok(()));
        assert_eq!(unpack(&bytes, &mut back), Ok(()));
        assert_eq!(back, codewords);
    }
}

#[test]
fn octets_go_as_their_samples_do() {
    // the codes of 8 and -8, of 16 bits, and of the greatest and the least value
    let pairs = [(0xd5, 8), (0x55, -8), (0xaa, 32256), (0x2a, -32256)];
    let octets: [u8; SAMPLES] = core::array::from_fn(|i| pairs[i / 3 % 4].0);
    let samples: [i16; SAMPLES] = core::array::from_fn(|i| pairs[i / 3 % 4].1);
    let (mut one, mut other) = (Encoder::home(), Encoder::home());
    let (mut of_octets, mut of_samples) = ([0; CODEWORDS], [0; CODEWORDS]);
    let signs = one.encode_alaw(&octets, &mut of_octets);
    assert_eq!(signs, other.encode(&samples, &mut of_samples));
    assert_eq!((one, of_octets), (other, of_samples));

    let (mut one, mut other) = (Decoder::home(), Decoder::home());
    let (mut out, mut out_octets) = ([0; SAMPLES], [0; SAMPLES]);
    assert_eq!(one.decode(&of_samples, &mut out), Ok(()));
    assert_eq!(other.decode_alaw(&of_samples, &mut out_octets), Ok(()));
    assert_eq!(one, other);
    // the code's highest bit is the sign, and 1 where it is positive
    assert!(out
        .iter()
        .zip(out_octets)
        .all(|(&sample, octet)| (sample >= 0) == (octet >= 128)));
}

#[test]
fn only_the_mark_tells_a_found_40_from_one_by_rule() {
    let frames = encode_all(&mut Encoder::home(), &recording());
    let (codewords, signs) = frames[0];
    assert_eq!(
        (codewords[8], codewords[9], signs.marks[0]),
        (40, 0, Mark::Rule)
    );
    let (codewords, signs) = frames[61];
    assert_eq!(
        (codewords[59], codewords[60], signs.marks[3]),
        (40, 0, Mark::Found)
    );
}

#[test]
fn a_recording_has_its_signs() {
    let frames = encode_all(&mut Encoder::home(), &recording());
    for ending in [Ending::Silent, Ending::Complete] {
        assert!(
            frames.iter().any(|(_, signs)| signs.ending == ending),
            "{ending}"
        );
    }
    for (codewords, signs) in frames {
        for (i, mark) in signs.marks.into_iter().enumerate() {
            let (lag, gain) = (codewords[8 + 17 * i], codewords[9 + 17 * i]);
            assert!((40..=120).contains(&lag));
            assert!(mark == Mark::Found || (lag, gain) == (40, 0));
        }
    }
}

#[cfg(feature = "std")]
#[test]
fn a_refusal_is_an_error() {
    let error: Box<dyn std::error::Error> = rpeltp::Refusal::Spare.into();
    assert_eq!(error.to_string(), "refusal 6: a spare bit is 1");
}
