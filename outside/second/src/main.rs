//! A second GSM full rate codec (ETS 300 961), written from clause 4 to compare another with.
//! `second MODE < input > output`, MODE being encode, decode, list, pack, unpack, calls, or of
//! A-law expand, compress, compress-samples, encode-alaw or decode-alaw.

#![forbid(unsafe_code)]
// The names and the loops are those of the standard.
#![allow(non_snake_case, clippy::needless_range_loop, clippy::manual_memcpy)]

mod alaw;
mod arithmetic;
mod calls;
mod codewords;
mod decoder;
mod encoder;
mod listing;
mod longterm;
mod lpc;
mod packing;
mod preprocess;
mod records;
mod rpe;
mod shortterm;
mod tables;
mod words;
#[cfg(test)]
mod worked_by_hand;

use alaw::{octets_of_samples, samples_of_octets};
use std::io::{self, BufWriter, Read, Write};
use std::process::exit;
use words::{words_of, write_words};

/// The modes: what is said of a mode that is none.
const USAGE: &str = "usage: second encode|decode|list|pack|unpack|calls\
    |expand|compress|compress-samples|encode-alaw|decode-alaw";

/// The modes: 0 for done, 1 for a refused frame, 2 for anything else.
fn main() {
    let mode = std::env::args().nth(1).unwrap_or_default();
    match run(&mode) {
        Ok(0) => {}
        Ok(refusal) => {
            eprintln!("{}", refusal);
            exit(1);
        }
        Err(error) => {
            eprintln!("second: {}", error);
            exit(2);
        }
    }
}

/// The modes: all of the input in one of them; gives the refusal number or 0.
fn run(mode: &str) -> io::Result<i16> {
    let mut input = Vec::new();
    io::stdin().lock().read_to_end(&mut input)?;
    let mut output = BufWriter::new(io::stdout().lock());
    let refusal = match mode {
        "encode" => encode(&input, &mut output)?,
        "decode" => decode(&input, &mut output)?,
        "list" => list(&input, &mut output)?,
        "pack" => pack(&input, &mut output)?,
        "unpack" => unpack(&input, &mut output)?,
        "calls" => calls(&input, &mut output)?,
        "expand" => expand(&input, &mut output)?,
        "compress" => compress(&input, &mut output)?,
        "compress-samples" => compress_samples(&input, &mut output)?,
        "encode-alaw" => encode_alaw(&input, &mut output)?,
        "decode-alaw" => decode_alaw(&input, &mut output)?,
        _ => return Err(fault(USAGE)),
    };
    output.flush()?;
    Ok(refusal)
}

/// The modes: what ends the program with status 2.
fn fault(words: &str) -> io::Error {
    io::Error::new(io::ErrorKind::InvalidInput, words)
}

/// The modes: an incomplete last frame is not coded, and that is said.
fn tell_rest(rest: usize) {
    if rest > 0 {
        eprintln!(
            "second: {} bytes of an incomplete last frame are not coded",
            rest
        );
    }
}

/// 4.2: 160 samples a frame to 76 codewords a frame, from home.
fn encode(input: &[u8], output: &mut dyn Write) -> io::Result<i16> {
    let mut state = encoder::encoder_home();
    for bytes in input.chunks_exact(320) {
        let encoded = encoder::encode(&mut state, &words_of(bytes));
        write_words(output, &codewords::to_codewords(&encoded.frame))?;
    }
    tell_rest(input.len() % 320);
    Ok(0)
}

/// 4.3: 76 codewords a frame to 160 samples a frame, from home.
fn decode(input: &[u8], output: &mut dyn Write) -> io::Result<i16> {
    let mut state = decoder::decoder_home();
    for bytes in input.chunks_exact(152) {
        let frame = codewords::from_codewords(&words_of(bytes));
        write_words(output, &decoder::decode(&mut state, &frame))?;
    }
    tell_rest(input.len() % 152);
    Ok(0)
}

/// House rules, 'Listing'.
fn list(input: &[u8], output: &mut dyn Write) -> io::Result<i16> {
    tell_rest(listing::list(input, output)?);
    Ok(0)
}

/// House rules, 'Packing': 76 codewords a frame to 33 bytes a frame.
fn pack(input: &[u8], output: &mut dyn Write) -> io::Result<i16> {
    for bytes in input.chunks_exact(152) {
        match packing::pack(&words_of(bytes)) {
            Ok(packed) => output.write_all(&packed)?,
            Err(refusal) => return Ok(refusal),
        }
    }
    tell_rest(input.len() % 152);
    Ok(0)
}

/// House rules, 'Packing': 33 bytes a frame to 76 codewords a frame.
fn unpack(input: &[u8], output: &mut dyn Write) -> io::Result<i16> {
    for bytes in input.chunks_exact(33) {
        let mut packed = [0; 33];
        packed.copy_from_slice(bytes);
        match packing::unpack(&packed) {
            Ok(codewords) => write_words(output, &codewords)?,
            Err(refusal) => return Ok(refusal),
        }
    }
    tell_rest(input.len() % 33);
    Ok(0)
}

/// A record: one call a record of 1536 bytes.
fn calls(input: &[u8], output: &mut dyn Write) -> io::Result<i16> {
    for bytes in input.chunks_exact(1536) {
        match calls::call(&words_of(bytes)) {
            Some(answer) => write_words(output, &answer)?,
            None => return Err(fault("a record lends more than its room")),
        }
    }
    tell_rest(input.len() % 1536);
    Ok(0)
}

/// Request W-204: each octet to the sample that it stands for.
fn expand(input: &[u8], output: &mut dyn Write) -> io::Result<i16> {
    for octet in input {
        write_words(output, &samples_of_octets(&[*octet]))?;
    }
    Ok(0)
}

/// Request W-204: each word, a value on the 13-bit scale, to an octet.
fn compress(input: &[u8], output: &mut dyn Write) -> io::Result<i16> {
    for bytes in input.chunks_exact(2) {
        let octets = words_of::<1>(bytes).map(alaw::compress);
        output.write_all(&octets)?;
    }
    tell_rest(input.len() % 2);
    Ok(0)
}

/// Request W-204: each sample to an octet.
fn compress_samples(input: &[u8], output: &mut dyn Write) -> io::Result<i16> {
    for bytes in input.chunks_exact(2) {
        output.write_all(&octets_of_samples(&words_of::<1>(bytes)))?;
    }
    tell_rest(input.len() % 2);
    Ok(0)
}

/// Request W-204: 160 octets a frame to 76 codewords a frame, from home.
fn encode_alaw(input: &[u8], output: &mut dyn Write) -> io::Result<i16> {
    let mut state = encoder::encoder_home();
    for bytes in input.chunks_exact(160) {
        let mut octets = [0; 160];
        octets.copy_from_slice(bytes);
        let encoded = encoder::encode(&mut state, &samples_of_octets(&octets));
        write_words(output, &codewords::to_codewords(&encoded.frame))?;
    }
    tell_rest(input.len() % 160);
    Ok(0)
}

/// Request W-204: 76 codewords a frame to 160 octets a frame, from home.
fn decode_alaw(input: &[u8], output: &mut dyn Write) -> io::Result<i16> {
    let mut state = decoder::decoder_home();
    for bytes in input.chunks_exact(152) {
        let frame = codewords::from_codewords(&words_of(bytes));
        let samples = decoder::decode(&mut state, &frame);
        output.write_all(&octets_of_samples(&samples))?;
    }
    tell_rest(input.len() % 152);
    Ok(0)
}
