//! What stands behind the numbers of an encoded frame: its ending and its four marks.

use core::fmt;

/// What an encoded frame says of its own numbers. A display that drops it shows numbers that nobody measured.
///
/// ```
/// use rpeltp::{Encoder, Ending, Mark, CODEWORDS, SAMPLES};
///
/// let mut codewords = [0; CODEWORDS];
/// let signs = Encoder::home().encode(&[0; SAMPLES], &mut codewords)?;
/// assert_eq!(signs.ending, Ending::Silent); // no ratio was measured
/// assert_eq!(signs.marks, [Mark::Rule; 4]); // and no lag found:
/// assert_eq!(codewords[8], 40); // this is where the search starts, and no pitch
/// # Ok::<(), rpeltp::Refusal>(())
/// ```
#[derive(Clone, Copy, Debug, PartialEq, Eq, Hash)]
#[must_use = "without its signs nobody can tell which of a frame's numbers were measured"]
pub struct Signs {
    /// How the recursion of 4.2.5 ended: which of the eight ratios were measured.
    pub ending: Ending,
    /// Of the four sub-frames: whether the lag was found.
    pub marks: [Mark; 4],
}

/// How the recursion of 4.2.5 ended. Only after [`Complete`](Ending::Complete) are all eight ratios measured.
///
/// It is displayed as the listing has it:
///
/// ```
/// use rpeltp::Ending;
///
/// assert_eq!(Ending::Silent.to_string(), "silent");
/// assert_eq!(Ending::Complete.to_string(), "complete");
/// assert_eq!(Ending::Stopped(3).to_string(), "stop3");
/// ```
#[derive(Clone, Copy, Debug, PartialEq, Eq, Hash)]
pub enum Ending {
    /// The frame has no energy: no ratio was measured.
    Silent,
    /// All eight ratios were measured.
    Complete,
    /// It stopped at the n-th, 1 to 8: ratios n to 8 say nothing of the microphone.
    Stopped(u8),
}

impl fmt::Display for Ending {
    fn fmt(&self, f: &mut fmt::Formatter<'_>) -> fmt::Result {
        match self {
            Ending::Silent => f.write_str("silent"),
            Ending::Complete => f.write_str("complete"),
            Ending::Stopped(n) => write!(f, "stop{n}"),
        }
    }
}

/// What stands behind the lag of a sub-frame. A lag of 40 with gain code 0 may be either: only the mark tells.
///
/// It is displayed as the listing has it:
///
/// ```
/// use rpeltp::Mark;
///
/// assert_eq!(Mark::Rule.to_string(), "rule");
/// assert_eq!(Mark::Found.to_string(), "found");
/// ```
#[derive(Clone, Copy, Debug, PartialEq, Eq, Hash)]
pub enum Mark {
    /// No lag had a positive sum: 40 is where the search starts, and no pitch.
    Rule,
    /// Some lag had one, and this one has the greatest.
    Found,
}

impl fmt::Display for Mark {
    fn fmt(&self, f: &mut fmt::Formatter<'_>) -> fmt::Result {
        f.write_str(match self {
            Mark::Rule => "rule",
            Mark::Found => "found",
        })
    }
}

/// The signs of a frame that was encoded; a refused one has none.
pub(crate) fn signs(ending_number: u16, mark_numbers: [u8; 4]) -> Signs {
    Signs {
        ending: ending(ending_number),
        marks: mark_numbers.map(mark),
    }
}

fn ending(number: u16) -> Ending {
    match number {
        1 => Ending::Silent,
        2 => Ending::Complete,
        17..=24 => Ending::Stopped((number - 16) as u8),
        _ => crate::unknown("ending", number),
    }
}

fn mark(number: u8) -> Mark {
    match number {
        1 => Mark::Rule,
        2 => Mark::Found,
        _ => crate::unknown("mark", number.into()),
    }
}

#[cfg(test)]
mod tests {
    extern crate std;
    use super::*;
    use std::panic::catch_unwind;

    #[test]
    fn each_ending_has_one_number() {
        assert_eq!(ending(1), Ending::Silent);
        assert_eq!(ending(2), Ending::Complete);
        for n in 1..=8 {
            assert_eq!(ending(16 + u16::from(n)), Ending::Stopped(n));
        }
        for number in [0, 3, 15, 16, 25, 257, 273, u16::MAX] {
            assert!(catch_unwind(|| ending(number)).is_err(), "{number}");
        }
    }

    #[test]
    fn each_mark_has_one_number() {
        assert_eq!(mark(1), Mark::Rule);
        assert_eq!(mark(2), Mark::Found);
        for number in [0, 3, 255] {
            assert!(catch_unwind(|| mark(number)).is_err(), "{number}");
        }
    }
}
