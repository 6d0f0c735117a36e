//! 4.4: the tables of clause 4. Those that the standard counts from 1 have an unused index 0.

/// Table 4.1: factors of the quantization of the Log.-Area Ratios.
pub const A: [i16; 9] = [0, 20480, 20480, 20480, 20480, 13964, 15360, 8534, 9036];

/// Table 4.1: offsets of the quantization of the Log.-Area Ratios.
pub const B: [i16; 9] = [0, 0, 0, 2048, -2560, 94, -1792, -341, -1144];

/// Table 4.1: minimum of LARc, before it is made positive.
pub const MIC: [i16; 9] = [0, -32, -32, -16, -16, -8, -8, -4, -4];

/// Table 4.1: maximum of LARc, before it is made positive.
pub const MAC: [i16; 9] = [0, 31, 31, 15, 15, 7, 7, 3, 3];

/// Table 4.2: tabulation of 1/A.
pub const INVA: [i16; 9] = [0, 13107, 13107, 13107, 13107, 19223, 17476, 31454, 29708];

/// Table 4.3a: decision levels of the LTP gain quantizer.
pub const DLB: [i16; 4] = [6554, 16384, 26214, 32767];

/// Table 4.3b: quantization levels of the LTP gain quantizer.
pub const QLB: [i16; 4] = [3277, 11469, 21299, 32767];

/// Table 4.4: coefficients of the weighting filter.
pub const H: [i16; 11] = [-134, -374, 0, 2054, 5741, 8192, 5741, 2054, 0, -374, -134];

/// Table 4.5: normalized inverse mantissa.
pub const NRFAC: [i16; 8] = [29128, 26215, 23832, 21846, 20165, 18725, 17476, 16384];

/// Table 4.6: normalized direct mantissa.
pub const FAC: [i16; 8] = [18431, 20479, 22527, 24575, 26623, 28671, 30719, 32767];

/// Tables 1.1 and 5.1: the bits of each of the 76 codewords.
pub const WIDTHS: [i16; 76] = [
    6, 6, 5, 5, 4, 4, 3, 3, //
    7, 2, 2, 6, 3, 3, 3, 3, 3, 3, 3, 3, 3, 3, 3, 3, 3, //
    7, 2, 2, 6, 3, 3, 3, 3, 3, 3, 3, 3, 3, 3, 3, 3, 3, //
    7, 2, 2, 6, 3, 3, 3, 3, 3, 3, 3, 3, 3, 3, 3, 3, 3, //
    7, 2, 2, 6, 3, 3, 3, 3, 3, 3, 3, 3, 3, 3, 3, 3, 3,
];
