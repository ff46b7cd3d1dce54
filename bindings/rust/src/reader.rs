//! The streaming reader.

use crate::answer::{ended, so_far, Accepted, Refusal, VerifyError};
use crate::{ffi, Context, Params};
use std::fmt;
use std::io::{self, ErrorKind, Read, Write};

/// A reader of one proof file, fed with its bytes in pieces of any lengths. How the file is cut
/// changes no answer. It keeps about 1 KiB, and no file.
///
/// Only [`open`](Reader::open) makes one, and [`finish`](Reader::finish) uses it up, so there is no
/// state but those that the proved calls left.
///
/// ```compile_fail,E0382
/// # use phieulakhon::{Context, Params, Reader};
/// let reader = Reader::open(Params::new(4, 2, 1, 2), Context([0; 32])).unwrap();
/// let answer = reader.finish();
/// let again = reader.finish();
/// ```
#[must_use = "a reader judges nothing until it is fed and finished"]
#[derive(Clone)]
pub struct Reader {
    held: ffi::Held,
    params: Params,
    context: Context,
}

impl Reader {
    /// Opens a reader. Parameters that are not valid are refused.
    ///
    /// ```
    /// use phieulakhon::{Context, Params, Reader, Refusal};
    ///
    /// let refused = Reader::open(Params::new(1, 1, 1, 1), Context([0; 32]));
    /// assert_eq!(refused.err(), Some(Refusal::ParametersNotValid));
    /// ```
    ///
    /// # Errors
    ///
    /// [`Refusal::ParametersNotValid`].
    pub fn open(params: Params, context: Context) -> Result<Reader, Refusal> {
        let (answer, held) = ffi::open(params, &context.0);
        so_far(answer).map(|_| Reader {
            held,
            params,
            context,
        })
    }

    /// Feeds the next bytes of the file, and gives the count of bytes so far, which is no verdict:
    /// only [`finish`](Reader::finish) gives one.
    ///
    /// # Errors
    ///
    /// The refusal, as soon as a byte calls for one. A refused reader stays refused, with the same
    /// refusal from every later call.
    #[inline]
    pub fn feed(&mut self, bytes: &[u8]) -> Result<u32, Refusal> {
        so_far(ffi::piece(&mut self.held, bytes))
    }

    /// Ends the file.
    ///
    /// # Errors
    ///
    /// The refusal that a piece got, or [`Refusal::TooFewBytes`].
    pub fn finish(mut self) -> Result<Accepted, Refusal> {
        ended(ffi::end(&mut self.held), self.params, self.context)
    }
}

/// A reader takes bytes as a file does: all that it is given while it is open, and then an error of
/// the kind [`ErrorKind::InvalidData`] that carries the [`Refusal`]. That nothing failed is no
/// verdict; [`finish`](Reader::finish) gives it. Do not finish after an error of the input: the bytes
/// that came may be a whole proof, and more were to come.
///
/// ```
/// use phieulakhon::{Context, Params, Reader, Refusal};
/// use std::io;
///
/// let mut reader = Reader::open(Params::new(4, 2, 1, 2), Context([0; 32]))?;
/// let error = io::copy(&mut &[5, 0][..], &mut reader).expect_err("a count that differs");
/// let refusal = error.get_ref().and_then(|inner| inner.downcast_ref::<Refusal>());
/// assert_eq!(refusal, Some(&Refusal::CountDiffers { place: 2 }));
/// # Ok::<(), Refusal>(())
/// ```
impl Write for Reader {
    fn write(&mut self, bytes: &[u8]) -> io::Result<usize> {
        match self.feed(bytes) {
            Ok(_) => Ok(bytes.len()),
            Err(refusal) => Err(io::Error::new(ErrorKind::InvalidData, refusal)),
        }
    }

    /// Does nothing: what was written is judged already.
    fn flush(&mut self) -> io::Result<()> {
        Ok(())
    }
}

impl fmt::Debug for Reader {
    fn fmt(&self, f: &mut fmt::Formatter<'_>) -> fmt::Result {
        f.debug_struct("Reader")
            .field("params", &self.params)
            .field("context", &self.context)
            .finish_non_exhaustive()
    }
}

/// Judges what an input gives, in chunks. It reads no further than the chunk that is refused.
///
/// ```
/// use phieulakhon::{verify_reader, Context, Params};
///
/// let params = Params::new(4, 2, 1, 2);
/// let error = verify_reader(std::io::empty(), params, Context([0; 32])).expect_err("no bytes");
/// assert_eq!(error.to_string(), "refused 26 at 0: the file ends too soon");
/// ```
///
/// # Errors
///
/// [`VerifyError::Refused`] with the refusal; [`VerifyError::Io`] with the input's own error, where
/// it cannot be read to its end, and then nothing is judged.
pub fn verify_reader(
    mut input: impl Read,
    params: Params,
    context: Context,
) -> Result<Accepted, VerifyError> {
    let mut reader = Reader::open(params, context)?;
    let mut chunk = [0; 8192];
    loop {
        match input.read(&mut chunk) {
            Ok(0) => return Ok(reader.finish()?),
            Ok(n) => reader.feed(&chunk[..n])?,
            Err(error) if error.kind() == ErrorKind::Interrupted => continue,
            Err(error) => return Err(VerifyError::Io(error)),
        };
    }
}
