//! House rules, 'Worked rows': the twelve rows, in their order.

use crate::arithmetic::{div, mult, mult_r, norm};
use crate::codewords::to_codewords;
use crate::encoder::{encode, encoder_home};
use crate::longterm::check_lag;
use crate::lpc::{rescale, scale};
use crate::packing::pack;
use crate::rpe::{code_xmax, decode_pulses, exponent_and_mantissa};

#[test]
fn row_01_products_of_minus_1() {
    assert_eq!((mult(-1, 16384), mult_r(-1, 16384)), (-1, 0));
}

#[test]
fn row_02_products_of_1() {
    assert_eq!((mult(1, 16384), mult_r(1, 16384)), (0, 1));
}

#[test]
fn row_03_product_of_the_ends() {
    assert_eq!(mult_r(-32768, -32768), 32767);
}

#[test]
fn row_04_div() {
    assert_eq!((div(1, 2), div(7, 7), div(0, 0)), (16384, 32767, 0));
}

#[test]
fn row_05_norm() {
    assert_eq!((norm(1), norm(1073741824)), (30, 0));
}

#[test]
fn row_06_scale_4_there_and_back() {
    let mut s = [0; 160];
    s[0] = 32759;
    s[1] = 32760;
    scale(&mut s, 4);
    rescale(&mut s, 4);
    assert_eq!((s[0], s[1]), (32752, -32768));
}

#[test]
fn row_07_codes_of_block_maxima() {
    let maxima = [31, 32, 511, 512, 32767];
    assert_eq!(maxima.map(code_xmax), [0, 1, 15, 16, 63]);
}

#[test]
fn row_08_exponents_and_mantissas() {
    let expected = [(-4, 7), (-2, 3), (0, 7), (1, 0), (6, 7)];
    assert_eq!([0, 2, 15, 16, 63].map(exponent_and_mantissa), expected);
}

#[test]
fn row_09_pulses_of_amplitude_0() {
    assert_eq!((pulse(0, 4), pulse(0, 3)), (4, -4));
}

#[test]
fn row_10_pulses_of_amplitude_63() {
    assert_eq!((pulse(63, 7), pulse(63, 0)), (28671, -28671));
}

#[test]
fn row_11_received_lags_from_home() {
    let mut nrp = 40;
    let used = [39, 40, 121, 120].map(|Ncr| check_lag(Ncr, &mut nrp));
    assert_eq!(used, [40, 40, 40, 120]);
}

#[test]
fn row_12_zero_frame_packed() {
    let encoded = encode(&mut encoder_home(), &[0; 160]);
    let packed = pack(&to_codewords(&encoded.frame)).unwrap();
    assert_eq!(packed[0..5], [0x20, 0x48, 0x17, 0xD6, 0x84]);
}

/// 4.2.16: one pulse of a block, decoded.
fn pulse(xmaxc: i16, xMc: i16) -> i16 {
    let (exp, mant) = exponent_and_mantissa(xmaxc);
    decode_pulses(&[xMc; 13], exp, mant)[0]
}
