//! House rules, 'Samples and codewords': words of 16 bits as bytes, low byte first.

use std::io::{self, Write};

/// House rules, 'Samples and codewords': the N words that 2N bytes hold.
pub fn words_of<const N: usize>(bytes: &[u8]) -> [i16; N] {
    let mut words = [0; N];
    for n in 0..N {
        words[n] = i16::from_le_bytes([bytes[2 * n], bytes[2 * n + 1]]);
    }
    words
}

/// House rules, 'Samples and codewords': write words as bytes.
pub fn write_words(output: &mut dyn Write, words: &[i16]) -> io::Result<()> {
    for word in words {
        output.write_all(&word.to_le_bytes())?;
    }
    Ok(())
}
