//! The writer of proofs.

use crate::answer::{written, WriteRefusal};
use crate::{ffi, Context, Params};

/// Memory that the writer works in. What it holds doesn't matter; once a proof is written all of it
/// is zero, also what is lent beyond need.
#[derive(Debug)]
pub struct Scratch<'a> {
    /// At least 2·2^n numbers.
    pub numbers: &'a mut [u32],
    /// At least 64·2^n bytes.
    pub bytes: &'a mut [u8],
}

/// Writes the proof of a polynomial, given by its 2^(n−b) coefficients, lowest power first and each
/// below 3221225473. The proof is accepted with these parameters and this context.
///
/// ```
/// use phieulakhon::{verdict, write_proof, Context, Params, WriteRefusal};
///
/// let params = Params::new(4, 2, 1, 2);
/// let context = Context([0; 32]);
/// let proof = write_proof(params, context, &[2, 3, 0, 1])?;
/// let accepted = verdict(params, context, &proof).expect("what is written is accepted");
/// assert_eq!(accepted.length(), 260);
///
/// // missing coefficients are not filled
/// let refused = write_proof(params, context, &[2, 3]);
/// assert_eq!(refused, Err(WriteRefusal::WrongCoefficientCount));
/// # Ok::<(), WriteRefusal>(())
/// ```
///
/// It allocates the output and 72·2^n bytes of scratch, and so is never refused for them; with
/// parameters that are not valid it allocates nothing.
///
/// # Errors
///
/// [`WriteRefusal::ParametersNotValid`], [`WriteRefusal::WrongCoefficientCount`] and
/// [`WriteRefusal::NotBelowModulus`], in this order.
pub fn write_proof(
    params: Params,
    context: Context,
    coefficients: &[u32],
) -> Result<Vec<u8>, WriteRefusal> {
    // The call judges the parameters itself, with empty buffers where they are not valid.
    let (numbers, bytes) = params.scratch_lengths().unwrap_or_default();
    let scratch = Scratch {
        numbers: &mut vec![0; numbers],
        bytes: &mut vec![0; bytes],
    };
    let mut output = vec![0; params.file_length().unwrap_or_default()];
    write_proof_in(params, context, coefficients, scratch, &mut output)?;
    Ok(output)
}

/// Writes the proof in buffers that the caller holds, and gives its length: the first so many bytes
/// of the output are the proof, and no byte after them is written. It allocates nothing. A refusal
/// leaves scratch and output as they were.
///
/// ```
/// use phieulakhon::{verdict, write_proof_in, Context, Params, Scratch, WriteRefusal};
///
/// let params = Params::new(4, 2, 1, 2);
/// let (mut numbers, mut bytes, mut output) = ([7; 32], [7; 1024], [7; 300]);
/// for batch in 0..3 {
///     let context = Context([batch; 32]);
///     let scratch = Scratch { numbers: &mut numbers, bytes: &mut bytes };
///     let length = write_proof_in(params, context, &[2, 3, 0, 1], scratch, &mut output)?;
///     assert!(verdict(params, context, &output[..length]).is_ok());
///     assert_eq!(output[length..], [7; 40]);
/// }
/// assert_eq!((numbers, bytes), ([0; 32], [0; 1024]));
/// # Ok::<(), WriteRefusal>(())
/// ```
///
/// # Errors
///
/// The first that applies, in the order of [`WriteRefusal`].
pub fn write_proof_in(
    params: Params,
    context: Context,
    coefficients: &[u32],
    scratch: Scratch<'_>,
    output: &mut [u8],
) -> Result<usize, WriteRefusal> {
    let Scratch { numbers, bytes } = scratch;
    written(ffi::write(
        params,
        &context.0,
        coefficients,
        numbers,
        bytes,
        output,
    ))
}
