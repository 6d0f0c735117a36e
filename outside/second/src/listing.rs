//! House rules, 'Listing'.

use crate::encoder::{encode, encoder_home, Encoded};
use crate::lpc::Ending;
use crate::words::words_of;
use std::io::{self, Write};

/// House rules, 'Listing': the lister stops after this many frames.
const LIMIT: usize = 1_000_000;

/// Request W-203: when the mark of sub-frame j, from 0, is "rule", and not "found".
pub fn mark_is_rule(encoded: &Encoded, j: usize) -> bool {
    !encoded.lag_found[j]
}

/// House rules, 'Listing': the whole listing of the samples in the input; gives the bytes counted as left over.
pub fn list(input: &[u8], output: &mut dyn Write) -> io::Result<usize> {
    writeln!(output, "RPELTP\t1")?;
    let mut state = encoder_home();
    let mut frames = 0;
    for bytes in input.chunks_exact(320).take(LIMIT) {
        let encoded = encode(&mut state, &words_of(bytes));
        frames += 1;
        list_frame(output, frames, &encoded)?;
    }
    let rest = input.len() - 320 * frames;
    if frames == LIMIT && rest > 0 {
        writeln!(output, "E\t{}\t0\t0\tlimit", frames)?;
        return Ok(0);
    }
    writeln!(output, "E\t{}\t{}\t{}\tend", frames, rest / 2, rest % 2)?;
    Ok(rest)
}

/// House rules, 'Listing': the F line of a frame and its four S lines.
fn list_frame(output: &mut dyn Write, number: usize, encoded: &Encoded) -> io::Result<()> {
    write!(output, "F\t{}\t", number)?;
    match encoded.ending {
        Ending::Silent => write!(output, "silent")?,
        Ending::Stopped(n) => write!(output, "stop{}", n)?,
        Ending::Complete => write!(output, "complete")?,
    }
    for i in 1..=8 {
        write!(output, "\t{}", encoded.frame.LARc[i])?;
    }
    writeln!(output)?;
    for j in 0..=3 {
        write!(output, "S\t{}\t{}", number, j + 1)?;
        list_sub_frame(output, encoded, j)?;
    }
    Ok(())
}

/// House rules, 'Listing': the rest of an S line, from the mark on.
fn list_sub_frame(output: &mut dyn Write, encoded: &Encoded, j: usize) -> io::Result<()> {
    if mark_is_rule(encoded, j) {
        write!(output, "\trule")?;
    } else {
        write!(output, "\tfound")?;
    }
    let sub_frame = &encoded.frame.sub_frames[j];
    write!(output, "\t{}\t{}", sub_frame.Nc, sub_frame.bc)?;
    write!(output, "\t{}\t{}", sub_frame.Mc, sub_frame.xmaxc)?;
    for i in 0..=12 {
        write!(output, "\t{}", sub_frame.xMc[i])?;
    }
    writeln!(output)
}
