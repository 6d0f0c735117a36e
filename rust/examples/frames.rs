//! Encodes a recording (16-bit samples, low byte first, 8 kHz) and prints how each frame ended, and its lags.
//!
//!     cargo run --example frames -- RECORDING
//!
//! Without a name it reads standard input. A line has the frame's number from 1, its ending, and of each sub-frame the
//! lag and its mark. The last line has E, how many frames there were, and the samples and bytes left over.

use rpeltp::{Encoder, CODEWORDS, SAMPLES};
use std::io::{self, Read, Write};
use std::{env, fs};

fn main() -> io::Result<()> {
    let mut recording = Vec::new();
    match env::args_os().nth(1) {
        Some(name) => fs::File::open(name)?.read_to_end(&mut recording)?,
        None => io::stdin().read_to_end(&mut recording)?,
    };
    let mut out = io::BufWriter::new(io::stdout().lock());
    let mut encoder = Encoder::home();
    let frames = recording.chunks_exact(2 * SAMPLES);
    let (count, rest) = (frames.len(), frames.remainder().len());
    for (number, frame) in (1..).zip(frames) {
        let samples: [i16; SAMPLES] =
            std::array::from_fn(|i| i16::from_le_bytes([frame[2 * i], frame[2 * i + 1]]));
        let mut codewords = [0; CODEWORDS];
        let signs = encoder
            .encode(&samples, &mut codewords)
            .expect("a whole frame from home on is never refused");
        write!(out, "{number}\t{}", signs.ending)?;
        for (lag, mark) in [8, 25, 42, 59].into_iter().zip(signs.marks) {
            write!(out, "\t{} {mark}", codewords[lag])?;
        }
        writeln!(out)?;
    }
    writeln!(out, "E\t{count}\t{}\t{}", rest / 2, rest % 2)?;
    out.flush()
}
