//! What the calls answer, as values that cannot be mixed up.

use crate::ffi::Answer;
use crate::{Context, Params};
use std::error::Error;
use std::{fmt, io};

const OPEN: u8 = 0;
const ACCEPTED: u8 = 1;
const WRITTEN: u8 = 0;

/// What a number says, word for word as `phieulakhon_message` of the C header says it.
pub(crate) fn message(number: u8) -> &'static str {
    match number {
        0 => "no fault so far, and no verdict",
        1 => "accepted",
        10 => "the parameters are not valid",
        11 => "the reader is closed",
        12 => "the job is shorter than its head",
        16 => "a file of this length has no such opening",
        20 => "a section's count is not the one that the parameters call for",
        21 => "the file was made for other parameters",
        22 => "a number is not below 3221225473",
        23 => "a Merkle path does not end at its layer's root",
        24 => "an opened value is not the one folded from the layer before",
        25 => "the last folded value is not the final polynomial's",
        26 => "the file ends too soon",
        27 => "the file has a byte too many",
        30 => "there are not exactly 2^(n-b) coefficients",
        31 => "the scratch is too short",
        32 => "the output is too short",
        _ => "not a number of the table",
    }
}

/// The file is a proof that holds, for these parameters and this context. Only an end call and a
/// verdict make one, each of what it has judged; so what must not happen without a proof can ask for
/// one, and for which batch it is:
///
/// ```
/// use phieulakhon::{verdict, write_proof, Accepted, Context, Params};
///
/// struct Batch { params: Params, context: Context, table: Vec<u8> }
///
/// fn purge(batch: &mut Batch, accepted: &Accepted) {
///     assert!(accepted.is_for(batch.params, batch.context), "the proof is another batch's");
///     batch.table.clear();
/// }
///
/// let params = Params::new(4, 2, 1, 2);
/// let context = Context([7; 32]);
/// let proof = write_proof(params, context, &[2, 3, 0, 1])?;
/// let mut batch = Batch { params, context, table: vec![1, 2, 3] };
/// purge(&mut batch, &verdict(params, context, &proof)?);
/// # Ok::<(), Box<dyn std::error::Error>>(())
/// ```
///
/// Nothing else makes one, and none can be copied:
///
/// ```compile_fail,E0451
/// # use phieulakhon::{Accepted, Context, Params};
/// # let (params, context) = (Params::new(4, 2, 1, 2), Context([0; 32]));
/// let forged = Accepted { params, context, length: 260 };
/// ```
#[must_use = "whether the proof was accepted is the answer"]
#[derive(Debug, PartialEq, Eq)]
pub struct Accepted {
    params: Params,
    context: Context,
    length: u32,
}

impl Accepted {
    /// The parameters that the file was judged for.
    #[must_use]
    pub fn params(&self) -> Params {
        self.params
    }

    /// The context that the file was judged for: which batch it is a proof of.
    #[must_use]
    pub fn context(&self) -> Context {
        self.context
    }

    /// The file's length.
    #[must_use]
    pub fn length(&self) -> u32 {
        self.length
    }

    /// Whether the file was judged for these parameters and this context.
    #[must_use]
    pub fn is_for(&self, params: Params, context: Context) -> bool {
        self.params == params && self.context == context
    }

    /// The line that the program `verify` prints, `accepted 260`.
    #[must_use]
    pub fn line(&self) -> String {
        self.to_string()
    }
}

impl fmt::Display for Accepted {
    fn fmt(&self, f: &mut fmt::Formatter<'_>) -> fmt::Result {
        write!(f, "accepted {}", self.length)
    }
}

/// The file is not accepted: the table's number as a case, and the place, which counts the file's
/// bytes up to and including the one that decides.
///
/// Later versions of the format have further cases.
///
/// ```
/// use phieulakhon::Refusal;
///
/// let refusal = Refusal::TooFewBytes { place: 0 };
/// assert_eq!((refusal.number(), refusal.place()), (26, 0));
/// assert_eq!(refusal.line(), "refused 26 at 0");
/// assert_eq!(refusal.to_string(), "refused 26 at 0: the file ends too soon");
/// ```
#[must_use = "a proof that is refused must not be acted on"]
#[non_exhaustive]
#[derive(Clone, Copy, Debug, PartialEq, Eq, Hash)]
pub enum Refusal {
    /// 10: the parameters are not valid, at opening.
    ParametersNotValid,
    /// 11: the reader is closed. No call of this crate reaches a closed reader; an answer outside
    /// the table, which no proved call gives, would be read as this one.
    Closed,
    /// 16: no such opening, only by a look-up: the length is not that of a whole file, or there is no
    /// such query or layer.
    NoSuchOpening,
    /// 20: a section's count differs from what the parameters ask for.
    CountDiffers {
        /// The count's second byte.
        place: u32,
    },
    /// 21: section 1 is not the caller's parameters.
    ParametersDiffer {
        /// Its last byte.
        place: u32,
    },
    /// 22: a number is not below the field's modulus.
    NotBelowModulus {
        /// Its fourth byte.
        place: u32,
    },
    /// 23: a Merkle path misses its root.
    PathMissesRoot {
        /// The last sibling's last byte.
        place: u32,
    },
    /// 24: an opened value is not the folded one of the layer before.
    NotTheFoldedValue {
        /// The second value's last byte.
        place: u32,
    },
    /// 25: a query's chain misses the final polynomial.
    MissesFinalPolynomial {
        /// The last sibling's last byte.
        place: u32,
    },
    /// 26: the file ended too soon.
    TooFewBytes {
        /// The bytes so far.
        place: u32,
    },
    /// 27: a byte after the file's end.
    ByteAfterTheEnd {
        /// One more than the file's length.
        place: u32,
    },
}

impl Refusal {
    #[cold]
    fn of(answer: Answer) -> Refusal {
        let place = answer.place;
        match answer.number {
            10 => Refusal::ParametersNotValid,
            16 => Refusal::NoSuchOpening,
            20 => Refusal::CountDiffers { place },
            21 => Refusal::ParametersDiffer { place },
            22 => Refusal::NotBelowModulus { place },
            23 => Refusal::PathMissesRoot { place },
            24 => Refusal::NotTheFoldedValue { place },
            25 => Refusal::MissesFinalPolynomial { place },
            26 => Refusal::TooFewBytes { place },
            27 => Refusal::ByteAfterTheEnd { place },
            _ => Refusal::Closed,
        }
    }

    fn parts(self) -> (u8, u32) {
        match self {
            Refusal::ParametersNotValid => (10, 0),
            Refusal::Closed => (11, 0),
            Refusal::NoSuchOpening => (16, 0),
            Refusal::CountDiffers { place } => (20, place),
            Refusal::ParametersDiffer { place } => (21, place),
            Refusal::NotBelowModulus { place } => (22, place),
            Refusal::PathMissesRoot { place } => (23, place),
            Refusal::NotTheFoldedValue { place } => (24, place),
            Refusal::MissesFinalPolynomial { place } => (25, place),
            Refusal::TooFewBytes { place } => (26, place),
            Refusal::ByteAfterTheEnd { place } => (27, place),
        }
    }

    /// The table's number.
    #[must_use]
    pub fn number(self) -> u8 {
        self.parts().0
    }

    /// The place in the file.
    #[must_use]
    pub fn place(self) -> u32 {
        self.parts().1
    }

    /// The rule that does not hold, in words.
    #[must_use]
    pub fn message(self) -> &'static str {
        message(self.number())
    }

    /// The line that the program `verify` prints, `refused 26 at 0`.
    #[must_use]
    pub fn line(self) -> String {
        format!("refused {} at {}", self.number(), self.place())
    }
}

impl fmt::Display for Refusal {
    fn fmt(&self, f: &mut fmt::Formatter<'_>) -> fmt::Result {
        write!(f, "{}: {}", self.line(), self.message())
    }
}

impl Error for Refusal {}

/// Why there is no [`Accepted`]: the file was refused, or it could not be read to its end and so was
/// not judged.
///
/// There is one `Result`, so that its `Ok` is nothing but an accepted proof:
///
/// ```
/// use phieulakhon::{verify_reader, Context, Params, VerifyError};
///
/// let params = Params::new(4, 2, 1, 2);
/// match verify_reader(std::io::empty(), params, Context([0; 32])) {
///     Ok(accepted) => println!("{accepted}: the table may go"),
///     Err(VerifyError::Refused(refusal)) => println!("{refusal}: the table stays"),
///     Err(VerifyError::Io(error)) => println!("not judged, {error}: the table stays"),
///     Err(error) => println!("{error}: the table stays"),
/// }
/// ```
#[must_use = "a proof that is not accepted must not be acted on"]
#[non_exhaustive]
#[derive(Debug)]
pub enum VerifyError {
    /// The file could not be read to its end. No verdict.
    Io(io::Error),
    /// The file was read and is no proof that holds, for these parameters and this context.
    Refused(Refusal),
}

impl fmt::Display for VerifyError {
    fn fmt(&self, f: &mut fmt::Formatter<'_>) -> fmt::Result {
        match self {
            VerifyError::Io(error) => write!(f, "not judged: {error}"),
            VerifyError::Refused(refusal) => refusal.fmt(f),
        }
    }
}

impl Error for VerifyError {
    fn source(&self) -> Option<&(dyn Error + 'static)> {
        match self {
            VerifyError::Io(error) => error.source(),
            VerifyError::Refused(_) => None,
        }
    }
}

impl From<io::Error> for VerifyError {
    fn from(error: io::Error) -> VerifyError {
        VerifyError::Io(error)
    }
}

impl From<Refusal> for VerifyError {
    fn from(refusal: Refusal) -> VerifyError {
        VerifyError::Refused(refusal)
    }
}

/// No proof was written, and no buffer was touched: the table's number as a case. The place is
/// always 0, since there is no file.
///
/// The cases stand in the order in which they are tested; the first that applies decides. Later
/// versions of the format have further ones.
///
/// ```
/// use phieulakhon::WriteRefusal;
///
/// let refusal = WriteRefusal::OutputTooShort;
/// assert_eq!(refusal.number(), 32);
/// assert_eq!(refusal.line(), "refused 32 at 0");
/// assert_eq!(refusal.to_string(), "refused 32 at 0: the output is too short");
/// ```
#[non_exhaustive]
#[derive(Clone, Copy, Debug, PartialEq, Eq, Hash)]
pub enum WriteRefusal {
    /// 10: the parameters are not valid. An answer that the writer doesn't have, which no proved
    /// call gives, would be read as this one.
    ParametersNotValid,
    /// 30: there are not exactly 2^(n−b) coefficients.
    WrongCoefficientCount,
    /// 22: a coefficient is not below the field's modulus, 3221225473.
    NotBelowModulus,
    /// 31: the scratch has fewer than 2·2^n numbers, or fewer than 64·2^n bytes.
    ScratchTooShort,
    /// 32: the output is shorter than the file.
    OutputTooShort,
}

impl WriteRefusal {
    #[cold]
    fn of(answer: Answer) -> WriteRefusal {
        match answer.number {
            30 => WriteRefusal::WrongCoefficientCount,
            22 => WriteRefusal::NotBelowModulus,
            31 => WriteRefusal::ScratchTooShort,
            32 => WriteRefusal::OutputTooShort,
            _ => WriteRefusal::ParametersNotValid,
        }
    }

    /// The table's number.
    #[must_use]
    pub fn number(self) -> u8 {
        match self {
            WriteRefusal::ParametersNotValid => 10,
            WriteRefusal::WrongCoefficientCount => 30,
            WriteRefusal::NotBelowModulus => 22,
            WriteRefusal::ScratchTooShort => 31,
            WriteRefusal::OutputTooShort => 32,
        }
    }

    /// The rule that does not hold, in words.
    #[must_use]
    pub fn message(self) -> &'static str {
        message(self.number())
    }

    /// The number and the place as the program `verify` would print them, `refused 32 at 0`.
    #[must_use]
    pub fn line(self) -> String {
        format!("refused {} at 0", self.number())
    }
}

impl fmt::Display for WriteRefusal {
    fn fmt(&self, f: &mut fmt::Formatter<'_>) -> fmt::Result {
        write!(f, "{}: {}", self.line(), self.message())
    }
}

impl Error for WriteRefusal {}

/// The answer to an opening or a piece: the bytes so far.
#[inline]
pub(crate) fn so_far(answer: Answer) -> Result<u32, Refusal> {
    if answer.number == OPEN {
        Ok(answer.place)
    } else {
        Err(Refusal::of(answer))
    }
}

/// The answer to an end call, or a verdict, on a file that was judged for these.
pub(crate) fn ended(answer: Answer, params: Params, context: Context) -> Result<Accepted, Refusal> {
    if answer.number == ACCEPTED {
        Ok(Accepted {
            params,
            context,
            length: answer.place,
        })
    } else {
        Err(Refusal::of(answer))
    }
}

/// The answer to a write: the file's length.
pub(crate) fn written(answer: Answer) -> Result<usize, WriteRefusal> {
    if answer.number == WRITTEN {
        Ok(answer.place as usize)
    } else {
        Err(WriteRefusal::of(answer))
    }
}

#[cfg(test)]
mod tests {
    use super::*;
    use crate::header;

    const PARAMS: Params = Params::new(4, 2, 1, 2);
    const CONTEXT: Context = Context([7; 32]);

    #[test]
    fn every_number_is_read_as_itself_or_refused() {
        for number in 0..=u8::MAX {
            let answer = Answer { number, place: 7 };
            let of_table = matches!(number, 10 | 11 | 16 | 20..=27);
            assert_eq!(so_far(answer).is_ok(), number == 0);
            assert_eq!(ended(answer, PARAMS, CONTEXT).is_ok(), number == 1);
            assert_eq!(
                Refusal::of(answer).number(),
                if of_table { number } else { 11 }
            );
            assert_eq!(
                Refusal::of(answer).place(),
                if number >= 20 && of_table { 7 } else { 0 }
            );
        }
    }

    #[test]
    fn every_number_is_read_as_the_writers_or_refused() {
        for number in 0..=u8::MAX {
            let answer = Answer { number, place: 7 };
            let of_writer = matches!(number, 10 | 22 | 30 | 31 | 32);
            assert_eq!(written(answer).ok(), (number == 0).then_some(7));
            assert_eq!(
                WriteRefusal::of(answer).number(),
                if of_writer { number } else { 10 }
            );
        }
    }

    #[test]
    fn an_acceptance_says_of_what() {
        let answer = Answer {
            number: 1,
            place: 260,
        };
        let accepted = ended(answer, PARAMS, CONTEXT).expect("number 1");
        assert_eq!(accepted.params(), PARAMS);
        assert_eq!(accepted.context(), CONTEXT);
        assert_eq!(accepted.line(), "accepted 260");
        assert!(accepted.is_for(PARAMS, CONTEXT));
        assert!(!accepted.is_for(Params::new(4, 2, 1, 3), CONTEXT));
        assert!(!accepted.is_for(PARAMS, Context([8; 32])));
    }

    #[test]
    fn lines() {
        assert_eq!(Refusal::ParametersNotValid.line(), "refused 10 at 0");
        assert_eq!(
            Refusal::ByteAfterTheEnd { place: 261 }.line(),
            "refused 27 at 261"
        );
        assert_eq!(
            WriteRefusal::WrongCoefficientCount.line(),
            "refused 30 at 0"
        );
        let refused = VerifyError::from(Refusal::TooFewBytes { place: 9 });
        assert_eq!(
            refused.to_string(),
            "refused 26 at 9: the file ends too soon"
        );
        let unread = VerifyError::from(io::Error::other("the disk is gone"));
        assert_eq!(unread.to_string(), "not judged: the disk is gone");
    }

    /// The C header's words are these.
    #[test]
    fn the_messages_are_the_headers() {
        let said = header::said("messages.c");
        let ours: String = (0..=u8::MAX)
            .map(|number| format!("{number} {}\n", message(number)))
            .collect();
        assert_eq!(ours, said);
    }
}
