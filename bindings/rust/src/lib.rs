//! A reader and a writer of FRI proofs whose every answer is proved: the calls of this crate are a
//! thin, safe layer over a static library that is built only once the checker has proved that it
//! gives the answer that the specification defines, for all inputs.
//!
//! A proof is judged for parameters and a context that the caller chooses, whole by [`verdict`],
//! from any input by [`verify_reader`], or as its bytes arrive by a [`Reader`]. All three give the
//! same answer: [`Accepted`], which only these calls can make and which says what was judged, or a
//! [`Refusal`] with its number and the place in the file that decides it.
//!
//! Take parameters and context from your own records, never from where the proof comes from: they
//! are what the proof is judged for.
//!
//! ```
//! use phieulakhon::{Context, Params, Reader, Refusal};
//!
//! let params = Params::new(4, 2, 1, 2);
//! let mut reader = Reader::open(params, Context([0; 32]))?;
//! assert_eq!(reader.feed(&[4, 0])?, 2);
//! assert_eq!(reader.feed(&[4, 2, 1])?, 5);
//! assert_eq!(reader.finish(), Err(Refusal::TooFewBytes { place: 5 }));
//! # Ok::<(), Refusal>(())
//! ```
//!
//! A proof is written from the coefficients of a polynomial by [`write_proof`], or in the caller's
//! own buffers by [`write_proof_in`]. Every proof that is written is accepted.
//!
//! The program `phieulakhon` of this package is the front end for operators.
#![deny(missing_docs)]
#![deny(unsafe_code)]
#![forbid(unsafe_op_in_unsafe_fn)]

#[cfg(not(all(
    target_arch = "x86_64",
    target_pointer_width = "64",
    target_os = "linux"
)))]
compile_error!("phieulakhon: the proved library is compiled for x86-64 Linux, and there is none for this platform");

mod answer;
mod ffi;
#[cfg(test)]
mod header;
mod reader;
mod writer;

use std::error::Error;
use std::fmt;
use std::str::FromStr;

pub use answer::{Accepted, Refusal, VerifyError, WriteRefusal};
pub use reader::{verify_reader, Reader};
pub use writer::{write_proof, write_proof_in, Scratch};

/// The version of this crate, of the C header and of the program.
pub const VERSION: &str = "0.1.0";

/// The number of the file format: 1, and one more for each change of what a file's bytes are or
/// mean. CHANGELOG.md says what each changed. Proofs of another number are judged by this one's
/// rules all the same, and then as a rule refused: no byte of a file tells the number.
pub const FORMAT: u32 = 2;

/// The parameters of a proof: 2^n points, blowup 2^b, k folds and q queries.
///
/// Valid are n from 2 to 20, b from 1 to 8, k from 1 to 12 and q from 1 to 64 where n is b + k at
/// least and b + k + 6 at most. Any other are refused by the calls that take them.
///
/// Later versions of the format have further parameters.
#[repr(C)]
#[non_exhaustive]
#[derive(Clone, Copy, Debug, PartialEq, Eq, Hash)]
pub struct Params {
    /// The number of points is 2^n.
    pub n: u8,
    /// The blowup is 2^b.
    pub b: u8,
    /// The number of folds, and of layers with a root.
    pub k: u8,
    /// The number of queries.
    pub q: u8,
}

impl Params {
    /// The parameters with these numbers, valid or not.
    #[must_use]
    pub const fn new(n: u8, b: u8, k: u8, q: u8) -> Params {
        Params { n, b, k, q }
    }

    /// The length of every file that can be accepted, or is written, with these parameters; none
    /// where they are not valid.
    ///
    /// ```
    /// use phieulakhon::Params;
    ///
    /// assert_eq!(Params::new(4, 2, 1, 2).file_length(), Some(260));
    /// assert_eq!(Params::new(4, 2, 1, 0).file_length(), None);
    /// ```
    #[must_use]
    pub fn file_length(self) -> Option<usize> {
        match ffi::file_length(self) {
            0 => None,
            length => Some(length),
        }
    }

    /// The number of coefficients that a proof is written from, 2^(n−b); none where the parameters
    /// are not valid.
    ///
    /// ```
    /// use phieulakhon::Params;
    ///
    /// assert_eq!(Params::new(4, 2, 1, 2).coefficient_count(), Some(4));
    /// assert_eq!(Params::new(4, 2, 1, 0).coefficient_count(), None);
    /// ```
    #[must_use]
    pub fn coefficient_count(self) -> Option<usize> {
        self.file_length().map(|_| 1 << (self.n - self.b))
    }

    /// How many numbers and how many bytes of scratch the writer needs, 2·2^n and 64·2^n; none
    /// where the parameters are not valid.
    ///
    /// ```
    /// use phieulakhon::Params;
    ///
    /// assert_eq!(Params::new(4, 2, 1, 2).scratch_lengths(), Some((32, 1024)));
    /// assert_eq!(Params::new(4, 2, 1, 0).scratch_lengths(), None);
    /// ```
    #[must_use]
    pub fn scratch_lengths(self) -> Option<(usize, usize)> {
        self.file_length().map(|_| (2 << self.n, 64 << self.n))
    }
}

/// The 32 bytes that tie a proof to what it is a proof about. As text it is 64 hexadecimal digits.
///
/// ```
/// use phieulakhon::Context;
///
/// let digits = "00".repeat(31) + "a7";
/// let context: Context = digits.parse()?;
/// assert_eq!(context.0[31], 0xa7);
/// assert_eq!(context.to_string(), digits);
/// assert!("a7".parse::<Context>().is_err());
/// # Ok::<(), phieulakhon::NotAContext>(())
/// ```
#[derive(Clone, Copy, Debug, PartialEq, Eq, Hash)]
pub struct Context(pub [u8; 32]);

impl fmt::Display for Context {
    fn fmt(&self, f: &mut fmt::Formatter<'_>) -> fmt::Result {
        self.0.iter().try_for_each(|byte| write!(f, "{byte:02x}"))
    }
}

impl FromStr for Context {
    type Err = NotAContext;

    fn from_str(digits: &str) -> Result<Context, NotAContext> {
        if digits.len() != 64 || !digits.bytes().all(|digit| digit.is_ascii_hexdigit()) {
            return Err(NotAContext(()));
        }
        let byte = |i: usize| u8::from_str_radix(&digits[2 * i..][..2], 16).expect("two digits");
        Ok(Context(std::array::from_fn(byte)))
    }
}

/// A text that is not 64 hexadecimal digits.
#[derive(Clone, Copy, Debug, PartialEq, Eq)]
pub struct NotAContext(());

impl fmt::Display for NotAContext {
    fn fmt(&self, f: &mut fmt::Formatter<'_>) -> fmt::Result {
        f.write_str("a context is 64 hexadecimal digits")
    }
}

impl Error for NotAContext {}

/// The verdict on a whole proof.
///
/// ```
/// use phieulakhon::{verdict, Context, Params, Refusal};
///
/// let params = Params::new(4, 2, 1, 2);
/// // the first section has 4 bytes, and not 5
/// assert_eq!(verdict(params, Context([0; 32]), &[5, 0]), Err(Refusal::CountDiffers { place: 2 }));
/// ```
///
/// # Errors
///
/// The refusal that the earliest wrong byte calls for, where the bytes are not exactly those of a
/// proof that holds; [`Refusal::ParametersNotValid`] before any.
pub fn verdict(params: Params, context: Context, proof: &[u8]) -> Result<Accepted, Refusal> {
    answer::ended(ffi::verdict(params, &context.0, proof), params, context)
}

/// The opening of a query in a layer, two values and the siblings from the leaf up, as the part of
/// the proof where it stands. It doesn't judge the proof: of one that is accepted, the part is
/// exactly that opening's encoding.
///
/// ```
/// use phieulakhon::{opening, Params, Refusal};
///
/// let params = Params::new(4, 2, 1, 2);
/// let proof = [0; 260];
/// assert_eq!(opening(params, &proof, 1, 0).map(<[u8]>::len), Ok(8 + 3 * 32));
/// assert_eq!(opening(params, &proof, 2, 0), Err(Refusal::NoSuchOpening));
/// assert_eq!(opening(params, &proof[1..], 0, 0), Err(Refusal::NoSuchOpening));
/// ```
///
/// # Errors
///
/// [`Refusal::ParametersNotValid`]; else [`Refusal::NoSuchOpening`] where the length is not that of
/// a whole file, or there is no such query or layer.
pub fn opening(params: Params, proof: &[u8], query: usize, layer: usize) -> Result<&[u8], Refusal> {
    let span = ffi::look_up(params, proof.len(), query, layer);
    let answer = ffi::Answer {
        number: span.number,
        place: span.place,
    };
    answer::so_far(answer).map(|_| &proof[span.start..span.start + span.length])
}

#[cfg(test)]
mod tests {
    use super::*;
    use std::path::Path;

    /// Of the crate, the C header, the change log and the corpus.
    #[test]
    fn the_version_is_one() {
        assert_eq!(VERSION, env!("CARGO_PKG_VERSION"));
        assert_eq!(header::said("version.c"), format!("{VERSION} {FORMAT}\n"));
        let repository = Path::new(env!("CARGO_MANIFEST_DIR")).join("../..");
        for (file, line) in [
            ("CHANGELOG.md", format!("\n## {VERSION}, format {FORMAT}\n")),
            ("docs/corpus.json", format!("\n  \"format\": {FORMAT},\n")),
        ] {
            let text = std::fs::read_to_string(repository.join(file)).expect(file);
            assert!(text.contains(&line), "{file}");
        }
    }

    #[test]
    fn a_context_is_64_digits() {
        let digits = "0123456789abcdefABCDEF".repeat(3);
        assert!(digits[..64].parse::<Context>().is_ok());
        for wrong in [
            &digits[..63],
            &digits[..65],
            "",
            "+",
            &"+1".repeat(32),
            &"é".repeat(32),
        ] {
            assert!(wrong.parse::<Context>().is_err(), "{wrong}");
        }
    }
}
