//! Sizes and places, as `c/rpeltp.h` asserts them: a wrong size is no build, a wrong place a failed test.
//!
//! Places are a test since rustc 1.63 cannot subtract addresses while it compiles, and a way round that would take
//! `unsafe` code. No struct has padding.

use crate::raw::{DecodeAnswer, Decoder, EncodeAnswer, Encoder};
use core::mem::size_of;

const _: () = assert!(size_of::<Encoder>() == 280);
const _: () = assert!(size_of::<Decoder>() == 276);
const _: () = assert!(size_of::<EncodeAnswer>() == 288);
const _: () = assert!(size_of::<DecodeAnswer>() == 278);

#[cfg(test)]
mod tests {
    use super::*;
    use core::ptr::addr_of;

    const ENCODER: Encoder = Encoder {
        l_z2: 0,
        z1: 0,
        mp: 0,
        larpp: [0; 8],
        u: [0; 8],
        dp: [0; 120],
    };
    const DECODER: Decoder = Decoder {
        drp: [0; 120],
        nrp: 0,
        larpp: [0; 8],
        v: [0; 8],
        msr: 0,
    };

    /// Asserts at which byte of a value each field named begins.
    macro_rules! places {
        ($value:ident: $($field:ident $byte:literal),*) => {
            $(assert_eq!(
                addr_of!($value.$field) as usize - addr_of!($value) as usize,
                $byte,
                stringify!($field)
            );)*
        };
    }

    #[test]
    fn states_have_their_fields_where_the_library_has_them() {
        let encoder = ENCODER;
        places!(encoder: l_z2 0, z1 4, mp 6, larpp 8, u 24, dp 40);
        let decoder = DECODER;
        places!(decoder: drp 0, nrp 240, larpp 242, v 258, msr 274);
    }

    #[test]
    fn answers_have_their_fields_where_the_library_has_them() {
        let encoded = EncodeAnswer {
            state: ENCODER,
            number: 0,
            ending: 0,
            marks: [0; 4],
        };
        places!(encoded: state 0, number 280, ending 282, marks 284);
        let decoded = DecodeAnswer {
            state: DECODER,
            number: 0,
        };
        places!(decoded: state 0, number 276);
    }
}
