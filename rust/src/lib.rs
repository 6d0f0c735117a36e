//! GSM full-rate speech (RPE-LTP, ETS 300 961): an encoder and a decoder whose code is proved.
//!
//! Both equal clause 4 of the standard bit for bit. Beyond that each frame says how its recursion ended, and each lag
//! whether it was found or is only where the search stood, so that nobody reads a number that was never measured.
//!
//! ```
//! use rpeltp::{pack, unpack, Decoder, Encoder, Ending, Mark, BYTES, CODEWORDS, SAMPLES};
//!
//! let mut codewords = [0; CODEWORDS];
//!
//! // a pulse every 50 samples
//! let buzz: [i16; SAMPLES] = core::array::from_fn(|i| if i % 50 == 0 { 8000 } else { 0 });
//! let signs = Encoder::home().encode(&buzz, &mut codewords)?;
//! assert_eq!(signs.ending, Ending::Complete); // all eight ratios were measured
//! assert_eq!(signs.marks, [Mark::Rule, Mark::Found, Mark::Found, Mark::Found]);
//! assert_eq!([8, 25, 42, 59].map(|lag| codewords[lag]), [40, 50, 50, 50]); // three are a pitch; the 40 is none
//!
//! // 33 bytes for the line, and back
//! let mut bytes = [0; BYTES];
//! let mut arrived = [0; CODEWORDS];
//! pack(&codewords, &mut bytes)?;
//! unpack(&bytes, &mut arrived)?;
//! assert_eq!(arrived, codewords);
//!
//! let mut samples = [0; SAMPLES];
//! Decoder::home().decode(&arrived, &mut samples)?;
//! # Ok::<(), rpeltp::Refusal>(())
//! ```
//!
//! # What is proved, and what is not
//!
//! The library behind these calls is proved: every call ends, on any samples, codewords and state; what is wrong is
//! refused by number, and a refusal changes nothing; what is not refused is the standard's. So there is nothing that a
//! caller must test first, and this crate tests nothing. This crate itself is not proved. It passes slices on and gives
//! names to numbers; the only `unsafe` code is the eight calls.
//!
//! # How to build with it
//!
//! The library, `librpeltp.a`, is for x86-64 alone, and not for Windows: for any other target this crate does not
//! compile, and says why. It is linked statically. `RPELTP_LIB_DIR` names the folder that holds it, by its whole path;
//! where that is not set, pkg-config is asked for `rpeltp`. Library and crate are to have one version, [`VERSION`]: a
//! number that the library of this version never answers stops the program, since no flag is to be taken for another.
//! The crate needs no `std` and allocates nothing. The feature `std`, which is off, makes [`Refusal`] an
//! `std::error::Error`.
//!
//! # Threads and memory
//!
//! A state is a plain value, and the library keeps nothing besides. Any thread may make any call at any time. A call
//! takes less than 10 KB of stack, which was measured and is not proved.
#![no_std]
#![deny(missing_docs)]
#![deny(unsafe_op_in_unsafe_fn)]

#[cfg(not(all(target_arch = "x86_64", target_pointer_width = "64", not(windows))))]
compile_error!("rpeltp: the library is for x86-64 alone (64-bit pointers, not Windows), and this target is another");

#[cfg(feature = "std")]
extern crate std;

mod layout;
mod raw;
mod refusal;
mod signs;

pub use raw::{Decoder, Encoder};
pub use refusal::Refusal;
pub use signs::{Ending, Mark, Signs};

use refusal::done;

/// The version of this crate, and of the library that it is made for.
pub const VERSION: &str = env!("CARGO_PKG_VERSION");

/// How many samples a frame has, or octets of A-law: 20 ms at 8 kHz.
pub const SAMPLES: usize = 160;

/// How many codewords a frame has: LARc 1 to 8, and four times Nc, bc, Mc, xmaxc, xMc 0 to 12. The lags, Nc, are
/// codewords 8, 25, 42 and 59, counted from 0.
pub const CODEWORDS: usize = 76;

/// How many bytes a packed frame has: 260 bits and 4 spare ones, which are 0.
pub const BYTES: usize = 33;

impl Encoder {
    /// The encoder to start from: all zeros.
    #[must_use]
    pub fn home() -> Self {
        // SAFETY: the call takes nothing.
        unsafe { raw::rpeltp_encoder_home() }
    }

    /// Encodes 160 samples, 16 bits of which the top 13 count, to 76 codewords, and says what stands behind them.
    ///
    /// ```
    /// use rpeltp::{Encoder, Mark, CODEWORDS, SAMPLES};
    ///
    /// let mut encoder = Encoder::home();
    /// let mut codewords = [0; CODEWORDS];
    /// let signs = encoder.encode(&[1000; SAMPLES], &mut codewords)?;
    /// for (lag, mark) in [8, 25, 42, 59].into_iter().zip(signs.marks) {
    ///     match mark {
    ///         Mark::Found => println!("a lag of {} was found", codewords[lag]),
    ///         Mark::Rule => println!("no lag was found"),
    ///     }
    /// }
    /// # Ok::<(), rpeltp::Refusal>(())
    /// ```
    ///
    /// # Errors
    ///
    /// [`Refusal::Samples`], [`Refusal::Codewords`] or [`Refusal::State`]; the encoder and the codewords are then as
    /// they were.
    ///
    /// # Panics
    ///
    /// Where the library answers a number that it does not have, which no library of this version does.
    pub fn encode(&mut self, samples: &[i16], codewords: &mut [i16]) -> Result<Signs, Refusal> {
        let (from, to) = (samples.as_ptr(), codewords.as_mut_ptr());
        // SAFETY: both slices are valid for their lengths, and apart, since one is borrowed mutably.
        let answer =
            unsafe { raw::rpeltp_encode(self.clone(), from, samples.len(), to, codewords.len()) };
        self.go_on(answer)
    }

    /// Encodes 160 octets of A-law (G.711, as they are on the line, the even bits inverted) to 76 codewords, as
    /// [`encode`](Self::encode) does the samples that they stand for. A state may go from one kind of call to the other
    /// at any frame.
    ///
    /// ```
    /// use rpeltp::{Encoder, Ending, CODEWORDS, SAMPLES};
    ///
    /// // an idle line sends D5, which is sample 8 and not 0
    /// let signs = Encoder::home().encode_alaw(&[0xd5; SAMPLES], &mut [0; CODEWORDS])?;
    /// assert_ne!(signs.ending, Ending::Silent);
    /// # Ok::<(), rpeltp::Refusal>(())
    /// ```
    ///
    /// # Errors
    ///
    /// As [`encode`](Self::encode).
    ///
    /// # Panics
    ///
    /// As [`encode`](Self::encode).
    pub fn encode_alaw(&mut self, octets: &[u8], codewords: &mut [i16]) -> Result<Signs, Refusal> {
        let (from, to) = (octets.as_ptr(), codewords.as_mut_ptr());
        // SAFETY: both slices are valid for their lengths, and apart, since one is borrowed mutably.
        let answer = unsafe {
            raw::rpeltp_encode_alaw(self.clone(), from, octets.len(), to, codewords.len())
        };
        self.go_on(answer)
    }

    /// Takes the next state where the call was done.
    fn go_on(&mut self, answer: raw::EncodeAnswer) -> Result<Signs, Refusal> {
        done(answer.number)?;
        *self = answer.state;
        Ok(signs::signs(answer.ending, answer.marks))
    }
}

impl Decoder {
    /// The decoder to start from: all zeros, but for a remembered lag of 40.
    #[must_use]
    pub fn home() -> Self {
        // SAFETY: the call takes nothing.
        unsafe { raw::rpeltp_decoder_home() }
    }

    /// Decodes 76 codewords to 160 samples, whose low three bits are 0. Of a codeword only the bits of its field are
    /// used; a lag outside 40 to 120 is replaced by the last good one, as 4.3.2 has it.
    ///
    /// ```
    /// use rpeltp::{Decoder, Encoder, CODEWORDS, SAMPLES};
    ///
    /// let mut codewords = [0; CODEWORDS];
    /// let mut samples = [0; SAMPLES];
    /// let _signs = Encoder::home().encode(&[1000; SAMPLES], &mut codewords)?;
    /// Decoder::home().decode(&codewords, &mut samples)?;
    /// assert!(samples.iter().all(|sample| sample % 8 == 0));
    /// # Ok::<(), rpeltp::Refusal>(())
    /// ```
    ///
    /// # Errors
    ///
    /// [`Refusal::Samples`], [`Refusal::Codewords`] or [`Refusal::State`]; the decoder and the samples are then as
    /// they were.
    ///
    /// # Panics
    ///
    /// Where the library answers a number that it does not have, which no library of this version does.
    pub fn decode(&mut self, codewords: &[i16], samples: &mut [i16]) -> Result<(), Refusal> {
        let (from, to) = (codewords.as_ptr(), samples.as_mut_ptr());
        // SAFETY: both slices are valid for their lengths, and apart, since one is borrowed mutably.
        let answer =
            unsafe { raw::rpeltp_decode(self.clone(), from, codewords.len(), to, samples.len()) };
        self.go_on(answer)
    }

    /// Decodes 76 codewords to 160 octets of A-law, those of the samples that [`decode`](Self::decode) makes. A state
    /// may go from one kind of call to the other at any frame.
    ///
    /// ```
    /// use rpeltp::{Decoder, Encoder, CODEWORDS, SAMPLES};
    ///
    /// let mut codewords = [0; CODEWORDS];
    /// let mut octets = [0; SAMPLES];
    /// let _signs = Encoder::home().encode_alaw(&[0xd5; SAMPLES], &mut codewords)?;
    /// Decoder::home().decode_alaw(&codewords, &mut octets)?;
    /// # Ok::<(), rpeltp::Refusal>(())
    /// ```
    ///
    /// # Errors
    ///
    /// As [`decode`](Self::decode).
    ///
    /// # Panics
    ///
    /// As [`decode`](Self::decode).
    pub fn decode_alaw(&mut self, codewords: &[i16], octets: &mut [u8]) -> Result<(), Refusal> {
        let (from, to) = (codewords.as_ptr(), octets.as_mut_ptr());
        // SAFETY: both slices are valid for their lengths, and apart, since one is borrowed mutably.
        let answer = unsafe {
            raw::rpeltp_decode_alaw(self.clone(), from, codewords.len(), to, octets.len())
        };
        self.go_on(answer)
    }

    /// Takes the next state where the call was done.
    fn go_on(&mut self, answer: raw::DecodeAnswer) -> Result<(), Refusal> {
        done(answer.number)?;
        *self = answer.state;
        Ok(())
    }
}

impl Default for Encoder {
    /// [`Encoder::home`].
    fn default() -> Self {
        Self::home()
    }
}

impl Default for Decoder {
    /// [`Decoder::home`].
    fn default() -> Self {
        Self::home()
    }
}

/// Packs 76 codewords into 33 bytes: the fields in the order of table 1.1, each lowest bit first, from the lowest bit
/// of the first byte on. (This is no .gsm file: that layout begins each frame with 1101 and goes highest bit first.)
///
/// ```
/// use rpeltp::{pack, Refusal, BYTES, CODEWORDS};
///
/// let mut codewords = [0; CODEWORDS];
/// let mut bytes = [0; BYTES];
/// codewords[0] = 63; // LARc 1 has six bits
/// pack(&codewords, &mut bytes)?;
/// assert_eq!(bytes[0], 63);
///
/// codewords[0] = 64;
/// assert_eq!(pack(&codewords, &mut bytes), Err(Refusal::Field));
/// # Ok::<(), Refusal>(())
/// ```
///
/// # Errors
///
/// [`Refusal::Codewords`], [`Refusal::Bytes`] or [`Refusal::Field`]; the bytes are then as they were.
///
/// # Panics
///
/// Where the library answers a number that it does not have, which no library of this version does.
pub fn pack(codewords: &[i16], bytes: &mut [u8]) -> Result<(), Refusal> {
    let (from, to) = (codewords.as_ptr(), bytes.as_mut_ptr());
    // SAFETY: both slices are valid for their lengths, and apart, since one is borrowed mutably.
    done(unsafe { raw::rpeltp_pack(from, codewords.len(), to, bytes.len()) })
}

/// Unpacks 33 bytes into 76 codewords: [`pack`] undone.
///
/// ```
/// use rpeltp::{unpack, Refusal, BYTES, CODEWORDS};
///
/// let mut bytes = [0; BYTES];
/// let mut codewords = [0; CODEWORDS];
/// bytes[0] = 63;
/// unpack(&bytes, &mut codewords)?;
/// assert_eq!(codewords[0], 63);
///
/// bytes[32] = 0x10; // one of the four spare bits
/// assert_eq!(unpack(&bytes, &mut codewords), Err(Refusal::Spare));
/// # Ok::<(), Refusal>(())
/// ```
///
/// # Errors
///
/// [`Refusal::Codewords`], [`Refusal::Bytes`] or [`Refusal::Spare`]; the codewords are then as they were.
///
/// # Panics
///
/// Where the library answers a number that it does not have, which no library of this version does.
pub fn unpack(bytes: &[u8], codewords: &mut [i16]) -> Result<(), Refusal> {
    let (from, to) = (bytes.as_ptr(), codewords.as_mut_ptr());
    // SAFETY: both slices are valid for their lengths, and apart, since one is borrowed mutably.
    done(unsafe { raw::rpeltp_unpack(from, bytes.len(), to, codewords.len()) })
}

/// Stops at a number that the library does not have: no flag is taken for another, and none is dropped.
#[cold]
fn unknown(what: &str, number: u16) -> ! {
    panic!("rpeltp: the library answered {what} {number}, which version {VERSION} does not have: is it of another?")
}
