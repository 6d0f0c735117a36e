//! For comparisons: codes standard input, a frame after the other from home on, and writes to standard output.
//!
//!     stream encode        samples to 76 codewords a frame, all of 16 bits, low byte first
//!     stream decode        codewords to samples
//!     stream encode_alaw   octets of A-law to codewords
//!     stream decode_alaw   codewords to octets
//!
//! What does not fill a frame is left out. Status 1: a frame was refused, or could not be read or written.

use rpeltp::{Decoder, Encoder, Refusal, CODEWORDS, SAMPLES};
use std::io::{self, Read, Write};
use std::{env, process};

fn main() {
    let mode = env::args().nth(1).unwrap_or_default();
    let coder = match mode.as_str() {
        "encode" => encode,
        "decode" => decode,
        "encode_alaw" => encode_alaw,
        "decode_alaw" => decode_alaw,
        _ => fault("encode, decode, encode_alaw or decode_alaw is wanted"),
    };
    let mut input = Vec::new();
    if let Err(error) = io::stdin().read_to_end(&mut input) {
        fault(&error.to_string());
    }
    let output = coder(&input).unwrap_or_else(|refusal| fault(&refusal.to_string()));
    if let Err(error) = io::stdout().write_all(&output) {
        fault(&error.to_string());
    }
}

fn fault(sentence: &str) -> ! {
    eprintln!("stream: {sentence}");
    process::exit(1)
}

/// Words of 16 bits from bytes, low byte first, and back.
fn words(bytes: &[u8]) -> Vec<i16> {
    bytes
        .chunks_exact(2)
        .map(|pair| i16::from_le_bytes([pair[0], pair[1]]))
        .collect()
}

fn bytes(words: &[i16]) -> impl Iterator<Item = u8> + '_ {
    words.iter().flat_map(|word| word.to_le_bytes())
}

// The signs of a frame are not compared here: examples/frames.rs prints them.
fn encode(input: &[u8]) -> Result<Vec<u8>, Refusal> {
    let (mut encoder, mut codewords, mut output) = (Encoder::home(), [0; CODEWORDS], Vec::new());
    for samples in words(input).chunks_exact(SAMPLES) {
        let _signs = encoder.encode(samples, &mut codewords)?;
        output.extend(bytes(&codewords));
    }
    Ok(output)
}

fn encode_alaw(input: &[u8]) -> Result<Vec<u8>, Refusal> {
    let (mut encoder, mut codewords, mut output) = (Encoder::home(), [0; CODEWORDS], Vec::new());
    for octets in input.chunks_exact(SAMPLES) {
        let _signs = encoder.encode_alaw(octets, &mut codewords)?;
        output.extend(bytes(&codewords));
    }
    Ok(output)
}

fn decode(input: &[u8]) -> Result<Vec<u8>, Refusal> {
    let (mut decoder, mut samples, mut output) = (Decoder::home(), [0; SAMPLES], Vec::new());
    for codewords in words(input).chunks_exact(CODEWORDS) {
        decoder.decode(codewords, &mut samples)?;
        output.extend(bytes(&samples));
    }
    Ok(output)
}

fn decode_alaw(input: &[u8]) -> Result<Vec<u8>, Refusal> {
    let (mut decoder, mut octets, mut output) = (Decoder::home(), [0; SAMPLES], Vec::new());
    for codewords in words(input).chunks_exact(CODEWORDS) {
        decoder.decode_alaw(codewords, &mut octets)?;
        output.extend(octets);
    }
    Ok(output)
}
