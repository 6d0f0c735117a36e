//! Request W-204: A-law front and back, by its rule.

/// Request W-204: "invert the even bits (exclusive or with 55 hex)", in either direction.
fn invert_even_bits(code: u8) -> u8 {
    code ^ 0x55
}

/// Request W-204: the magnitude of a segment and a step, at most 4032.
fn magnitude(segment: i16, step: i16) -> i16 {
    if segment == 0 {
        2 * step + 1
    } else {
        (2 * step + 33) << (segment - 1)
    }
}

/// Request W-204: expansion of a code to 13 bits.
pub fn expand(code: u8) -> i16 {
    let bits = i16::from(invert_even_bits(code));
    let segment = (bits >> 4) & 7;
    let step = bits & 15;
    // "Top bit set means positive".
    if bits & 0x80 != 0 {
        magnitude(segment, step)
    } else {
        -magnitude(segment, step)
    }
}

/// Request W-204: the segment and the step of a value that is not negative.
fn segment_and_step(value: i32) -> (u8, u8) {
    if value < 32 {
        return (0, (value / 2) as u8);
    }
    for segment in 1..=7 {
        let part = value >> segment;
        if (16..=31).contains(&part) {
            return (segment, (part - 16) as u8);
        }
    }
    // House decision: beyond 13 bits it counts as 4095 or -4096, and this is what those have.
    (7, 15)
}

/// Request W-204: compression on the 13-bit scale, -4096 to 4095, of which -4096 counts as 4095 too.
pub fn compress(v: i16) -> u8 {
    let v = i32::from(v);
    let (top_bit, value) = if v < 0 { (0, -v - 1) } else { (0x80, v) };
    let (segment, step) = segment_and_step(value);
    invert_even_bits(top_bit | segment << 4 | step)
}

/// Request W-204: an expanded value times 8 is the sample handed to encode.
pub fn samples_of_octets<const N: usize>(octets: &[u8; N]) -> [i16; N] {
    let mut samples = [0; N];
    for n in 0..N {
        samples[n] = expand(octets[n]) * 8;
    }
    samples
}

/// Request W-204: an output sample divided by 8, rounding down, is what gets compressed.
pub fn octets_of_samples<const N: usize>(samples: &[i16; N]) -> [u8; N] {
    let mut octets = [0; N];
    for n in 0..N {
        octets[n] = compress(samples[n].div_euclid(8));
    }
    octets
}

/// Request W-204: worked out by hand from its rule.
#[cfg(test)]
mod tests {
    use super::*;

    /// The last value of a segment, then the first of the next; each has the code of the value
    /// itself and that of the negative value which counts as it, such as -32 for 31.
    const EDGES: [[(i16, u8, u8); 2]; 7] = [
        // Segment 0, step 15 (8F, 0F); segment 1, step 0 (90, 10): with 55 they are these.
        [(31, 0xDA, 0x5A), (32, 0xC5, 0x45)],
        // 63 / 2 is 31: 9F, 1F; 64 / 4 is 16: A0, 20.
        [(63, 0xCA, 0x4A), (64, 0xF5, 0x75)],
        // 127 / 4 is 31: AF, 2F; 128 / 8 is 16: B0, 30.
        [(127, 0xFA, 0x7A), (128, 0xE5, 0x65)],
        // 255 / 8 is 31: BF, 3F; 256 / 16 is 16: C0, 40.
        [(255, 0xEA, 0x6A), (256, 0x95, 0x15)],
        // 511 / 16 is 31: CF, 4F; 512 / 32 is 16: D0, 50.
        [(511, 0x9A, 0x1A), (512, 0x85, 0x05)],
        // 1023 / 32 is 31: DF, 5F; 1024 / 64 is 16: E0, 60.
        [(1023, 0x8A, 0x0A), (1024, 0xB5, 0x35)],
        // 2047 / 64 is 31: EF, 6F; 2048 / 128 is 16: F0, 70.
        [(2047, 0xBA, 0x3A), (2048, 0xA5, 0x25)],
    ];

    #[test]
    fn every_code_comes_back() {
        for code in 0..=255 {
            assert_eq!(compress(expand(code)), code);
        }
    }

    #[test]
    fn every_value_has_a_code_near_it() {
        // A step of segment 0 is 2 wide, one of any other 2^segment: half of that is the most.
        for v in -4096..=4095 {
            let size = if v < 0 { -v - 1 } else { v };
            let (segment, _step) = segment_and_step(i32::from(size));
            let distance = expand(compress(v)) - v;
            assert!(distance.abs() <= 1 << segment.max(1) >> 1);
        }
    }

    #[test]
    fn the_least_magnitude_is_1() {
        assert_eq!((expand(0xD5), expand(0x55)), (1, -1));
        for code in 0..=255 {
            assert_ne!(expand(code), 0);
        }
    }

    #[test]
    fn the_greatest_magnitude_is_4032() {
        assert_eq!((expand(0xAA), expand(0x2A)), (4032, -4032));
        for code in 0..=255 {
            assert!(expand(code).abs() <= 4032);
        }
    }

    #[test]
    fn expansion_at_the_segment_edges() {
        // Step 15 of segments 0 to 6, positive: 31, then 63 times 1, 2, 4, 8, 16 and 32.
        let last = [0xDA, 0xCA, 0xFA, 0xEA, 0x9A, 0x8A, 0xBA];
        assert_eq!(last.map(expand), [31, 63, 126, 252, 504, 1008, 2016]);
        // Step 0 of segments 1 to 7, negative: 33 times 1, 2, 4, 8, 16, 32 and 64.
        let first = [0x45, 0x75, 0x65, 0x15, 0x05, 0x35, 0x25];
        let expected = [-33, -66, -132, -264, -528, -1056, -2112];
        assert_eq!(first.map(expand), expected);
    }

    #[test]
    fn compression_at_the_ends() {
        assert_eq!((compress(0), compress(-1)), (0xD5, 0x55));
        assert_eq!((compress(4095), compress(-4096)), (0xAA, 0x2A));
    }

    #[test]
    fn compression_at_the_segment_edges() {
        for edge in EDGES {
            for (value, positive, negative) in edge {
                assert_eq!(compress(value), positive);
                assert_eq!(compress(-value - 1), negative);
            }
        }
    }

    #[test]
    fn compression_within_segments_0_and_1() {
        // 1 has step 0 still, 2 and 3 step 1; 33 has step 0 still, 34 step 1.
        let values = [1, 2, 3, 33, 34];
        assert_eq!(values.map(compress), [0xD5, 0xD4, 0xD4, 0xC5, 0xC4]);
        let values = [-2, -3, -4, -34, -35];
        assert_eq!(values.map(compress), [0x55, 0x54, 0x54, 0x45, 0x44]);
    }

    #[test]
    fn compression_beyond_13_bits() {
        assert_eq!([4096, 8192, 32767].map(compress), [0xAA; 3]);
        assert_eq!([-4097, -8193, -32768].map(compress), [0x2A; 3]);
    }

    #[test]
    fn samples_are_8_times_as_great() {
        let samples = samples_of_octets(&[0xD5, 0x55, 0xAA, 0x2A]);
        assert_eq!(samples, [8, -8, 32256, -32256]);
        // The division rounds down: 7 is 0, 256 is 32, -1 and -8 are -1, -9 is -2, -17 is -3.
        let octets = octets_of_samples(&[7, 256, -1, -8, -9, -17]);
        assert_eq!(octets, [0xD5, 0xC5, 0x55, 0x55, 0x55, 0x54]);
    }
}
