//! Why a call refused: the numbers 1 to 6 of `c/rpeltp.h`, under names.

use core::fmt;

/// Why a call refused. Where several reasons apply it is the one with the lowest number.
///
/// A refused call leaves its state and its buffers as they were.
///
/// ```
/// use rpeltp::{Encoder, Refusal, CODEWORDS};
///
/// let refused = Encoder::home().encode(&[0; 159], &mut [0; CODEWORDS]);
/// assert_eq!(refused, Err(Refusal::Samples));
/// assert_eq!(Refusal::Samples.number(), 1);
/// assert_eq!(Refusal::Samples.to_string(), "refusal 1: the samples or octets are not 160");
/// ```
#[derive(Clone, Copy, Debug, PartialEq, Eq, Hash)]
pub enum Refusal {
    /// 1: the samples or octets are not [`SAMPLES`](crate::SAMPLES).
    Samples,
    /// 2: the codewords are not [`CODEWORDS`](crate::CODEWORDS).
    Codewords,
    /// 3: the state is not sound; [`Encoder`](crate::Encoder) and [`Decoder`](crate::Decoder) say which states are. A
    /// state that came from home is always sound.
    State,
    /// 4: the bytes are not [`BYTES`](crate::BYTES).
    Bytes,
    /// 5, from [`pack`](crate::pack): a codeword is wider than its field, or below 0.
    Field,
    /// 6, from [`unpack`](crate::unpack): a spare bit is 1.
    Spare,
}

impl Refusal {
    /// The library's number for it, 1 to 6.
    #[must_use]
    pub const fn number(self) -> u16 {
        match self {
            Refusal::Samples => 1,
            Refusal::Codewords => 2,
            Refusal::State => 3,
            Refusal::Bytes => 4,
            Refusal::Field => 5,
            Refusal::Spare => 6,
        }
    }
}

impl fmt::Display for Refusal {
    fn fmt(&self, f: &mut fmt::Formatter<'_>) -> fmt::Result {
        let reason = match self {
            Refusal::Samples => "the samples or octets are not 160",
            Refusal::Codewords => "the codewords are not 76",
            Refusal::State => "the state is not sound",
            Refusal::Bytes => "the bytes are not 33",
            Refusal::Field => "a codeword is wider than its field, or below 0",
            Refusal::Spare => "a spare bit is 1",
        };
        write!(f, "refusal {}: {reason}", self.number())
    }
}

#[cfg(feature = "std")]
impl std::error::Error for Refusal {}

/// What the number that a call answers means.
pub(crate) fn done(number: u16) -> Result<(), Refusal> {
    match number {
        0 => Ok(()),
        1 => Err(Refusal::Samples),
        2 => Err(Refusal::Codewords),
        3 => Err(Refusal::State),
        4 => Err(Refusal::Bytes),
        5 => Err(Refusal::Field),
        6 => Err(Refusal::Spare),
        _ => crate::unknown("refusal", number),
    }
}

#[cfg(test)]
mod tests {
    use super::done;

    #[test]
    fn each_refusal_keeps_its_number() {
        assert_eq!(done(0), Ok(()));
        for number in 1..=6 {
            assert_eq!(
                done(number).map_err(|refusal| refusal.number()),
                Err(number)
            );
        }
    }

    #[test]
    #[should_panic(expected = "refusal 7")]
    fn an_unknown_number_is_not_taken_for_a_refusal() {
        let _ = done(7);
    }
}
