//! The linked library's calls, as they are timed. A slice is a pointer and a
//! length there, and an array of fixed size is a pointer.

use std::slice;

use phieulakhon::{Accepted, Context, Reader, Refusal};

use peers::answer::{Answer, ACCEPTED};
use peers::params::Params;
use peers::sha256::Digest;
use peers::Coefficients;

unsafe extern "C" {
    /// The message must be readable for `len` bytes.
    pub unsafe fn test_hash(message: *const u8, len: usize, out: &mut Digest) -> Answer;

    pub safe fn test_leaf(a: u32, c: u32, out: &mut Digest);
    pub safe fn test_node(left: &Digest, right: &Digest, out: &mut Digest);
    pub safe fn test_challenge(state: &Digest) -> u32;

    pub safe fn test_mul(a: u32, b: u32) -> u32;
    pub safe fn test_pow(a: u32, e: u32) -> u32;
    pub safe fn test_inv(a: u32) -> u32;

    pub safe fn test_point(n: u8, layer: u8, index: u32) -> u32;
    pub safe fn test_eval(coefficients: &Coefficients, count: usize, x: u32) -> u32;
    /// The pointer must be good for `len` numbers.
    pub unsafe fn test_fold_in_place(poly: *mut u32, len: usize, beta: u32);
    pub safe fn test_agrees(x: u32, beta: u32, a: u32, c: u32, v: u32) -> bool;

    /// The proof must be readable for `len` bytes.
    pub unsafe fn test_verdict_in_pieces(
        params: Params,
        context: &Digest,
        proof: *const u8,
        len: usize,
        size: usize,
    ) -> Answer;

    /// Each pointer must be good for the length after it.
    pub unsafe fn test_write(
        params: Params,
        context: &Digest,
        coefficients: *const u32,
        coefficients_len: usize,
        numbers: *mut u32,
        numbers_len: usize,
        bytes: *mut u8,
        bytes_len: usize,
        output: *mut u8,
        output_len: usize,
    ) -> Answer;
}

/// The same as users have it: the exported calls, through the Rust binding.
///
/// # Safety
/// The proof must be readable for `len` bytes.
pub unsafe extern "C" fn binding_in_pieces(
    params: Params,
    context: &Digest,
    proof: *const u8,
    len: usize,
    size: usize,
) -> Answer {
    let proof = unsafe { slice::from_raw_parts(proof, len) };
    match fed(params, *context, proof, size) {
        Ok(accepted) => Answer {
            number: ACCEPTED,
            place: accepted.length(),
        },
        Err(refusal) => Answer {
            number: refusal.number(),
            place: refusal.place(),
        },
    }
}

fn fed(params: Params, context: Digest, proof: &[u8], size: usize) -> Result<Accepted, Refusal> {
    let Params { n, b, k, q } = params;
    let mut reader = Reader::open(phieulakhon::Params::new(n, b, k, q), Context(context))?;
    for piece in proof.chunks(size) {
        reader.feed(piece)?;
    }
    reader.finish()
}
