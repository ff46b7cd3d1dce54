//! The functions exported by the linked library, each behind a safe wrapper.

use crate::answer::Answer;
use crate::params::Params;
use crate::sha256::Digest;

#[repr(C)]
#[derive(Clone, Copy, PartialEq, Eq, Debug)]
pub struct Felt {
    pub value: u32,
}

#[repr(C)]
#[derive(Clone, Copy, PartialEq, Eq, Debug)]
pub struct FieldAnswer {
    pub answer: Answer,
    pub value: Felt,
}

/// What a look-up gives across the boundary: its answer, and the part as numbers.
#[repr(C)]
#[derive(Clone, Copy, PartialEq, Eq, Debug)]
pub struct Span {
    pub number: u8,
    pub place: u32,
    pub start: usize,
    pub length: usize,
}

/// Coefficients are lent as a whole array, with a count of those that matter.
pub type Coefficients = [u32; 64];

mod exported {
    use super::*;

    extern "C" {
        pub fn test_hash(message: *const u8, len: usize, out: *mut Digest) -> Answer;

        pub fn test_sum(a: u32, b: u32) -> FieldAnswer;
        pub fn test_difference(a: u32, b: u32) -> FieldAnswer;
        pub fn test_product(a: u32, b: u32) -> FieldAnswer;
        pub fn test_negation(a: u32) -> FieldAnswer;
        pub fn test_power(a: u32, e: u32) -> FieldAnswer;
        pub fn test_inverse(a: u32) -> FieldAnswer;

        pub fn test_reduce(a: u64) -> u32;
        pub fn test_add(a: u32, b: u32) -> u32;
        pub fn test_sub(a: u32, b: u32) -> u32;
        pub fn test_mul(a: u32, b: u32) -> u32;
        pub fn test_mul_add(a: u32, b: u32, c: u32) -> u32;
        pub fn test_neg(a: u32) -> u32;
        pub fn test_pow(a: u32, e: u32) -> u32;
        pub fn test_inv(a: u32) -> u32;

        pub fn test_modulus() -> u32;
        pub fn test_zero() -> Felt;
        pub fn test_one() -> Felt;
        pub fn test_generator() -> Felt;
        pub fn test_subgroup_generator(t: usize) -> u32;

        pub fn test_is_valid(p: Params) -> bool;
        pub fn test_final_count(p: Params) -> usize;
        pub fn test_file_length(p: Params) -> usize;
        pub fn test_height(p: Params, layer: u8) -> usize;
        pub fn test_opening_offset(p: Params, query: u8, layer: u8) -> usize;
        pub fn test_look_up(p: Params, length: usize, query: usize, layer: usize) -> Span;

        pub fn test_point(n: u8, layer: u8, index: u32) -> u32;

        pub fn test_leaf(a: u32, c: u32, out: *mut Digest);
        pub fn test_node(left: *const Digest, right: *const Digest, out: *mut Digest);
        pub fn test_parent(
            child: *const Digest,
            index: usize,
            sibling: *const Digest,
            out: *mut Digest,
        );
        pub fn test_climb(
            leaf: *const Digest,
            index: usize,
            siblings: *const u8,
            len: usize,
            out: *mut Digest,
        );

        pub fn test_start(p: Params, context: *const Digest, out: *mut Digest);
        pub fn test_absorb_root(state: *const Digest, root: *const Digest, out: *mut Digest);
        pub fn test_challenge(state: *const Digest) -> u32;
        pub fn test_absorb_final(
            state: *const Digest,
            coefficients: *const Coefficients,
            count: usize,
            out: *mut Digest,
        );
        pub fn test_draw(state: *const Digest, p: Params, query: u8) -> u32;

        pub fn test_agrees(x: u32, beta: u32, a: u32, c: u32, v: u32) -> bool;
        pub fn test_next(x: u32, beta: u32, a: u32, c: u32) -> u32;
        pub fn test_eval(coefficients: *const Coefficients, count: usize, x: u32) -> u32;
        pub fn test_fold_in_place(poly: *mut u32, len: usize, beta: u32);

        pub fn test_verdict(
            p: Params,
            context: *const Digest,
            proof: *const u8,
            len: usize,
        ) -> Answer;
        pub fn test_verdict_in_pieces(
            p: Params,
            context: *const Digest,
            proof: *const u8,
            len: usize,
            size: usize,
        ) -> Answer;

        pub fn test_write(
            p: Params,
            context: *const Digest,
            coefficients: *const u32,
            coefficients_len: usize,
            numbers: *mut u32,
            numbers_len: usize,
            bytes: *mut u8,
            bytes_len: usize,
            output: *mut u8,
            output_len: usize,
        ) -> Answer;
    }
}

// Every wrapper below passes plain values, or pointers to memory that is
// borrowed for the whole call; that is all the exported functions ask for.

/// Wraps functions that take and return plain values only.
macro_rules! plain_wrappers {
    ($($name:ident($($argument:ident: $kind:ty),*) -> $result:ty = $exported:ident;)*) => {
        $(
            pub fn $name($($argument: $kind),*) -> $result {
                unsafe { exported::$exported($($argument),*) }
            }
        )*
    };
}

plain_wrappers! {
    sum(a: u32, b: u32) -> FieldAnswer = test_sum;
    difference(a: u32, b: u32) -> FieldAnswer = test_difference;
    product(a: u32, b: u32) -> FieldAnswer = test_product;
    negation(a: u32) -> FieldAnswer = test_negation;
    power(a: u32, e: u32) -> FieldAnswer = test_power;
    inverse(a: u32) -> FieldAnswer = test_inverse;

    reduce(a: u64) -> u32 = test_reduce;
    add(a: u32, b: u32) -> u32 = test_add;
    sub(a: u32, b: u32) -> u32 = test_sub;
    mul(a: u32, b: u32) -> u32 = test_mul;
    mul_add(a: u32, b: u32, c: u32) -> u32 = test_mul_add;
    neg(a: u32) -> u32 = test_neg;
    pow(a: u32, e: u32) -> u32 = test_pow;
    inv(a: u32) -> u32 = test_inv;

    modulus() -> u32 = test_modulus;
    zero() -> Felt = test_zero;
    one() -> Felt = test_one;
    generator() -> Felt = test_generator;
    subgroup_generator(t: usize) -> u32 = test_subgroup_generator;

    is_valid(p: Params) -> bool = test_is_valid;
    final_count(p: Params) -> usize = test_final_count;
    file_length(p: Params) -> usize = test_file_length;
    height(p: Params, layer: u8) -> usize = test_height;
    opening_offset(p: Params, query: u8, layer: u8) -> usize = test_opening_offset;
    look_up(p: Params, length: usize, query: usize, layer: usize) -> Span = test_look_up;

    point(n: u8, layer: u8, index: u32) -> u32 = test_point;

    agrees(x: u32, beta: u32, a: u32, c: u32, v: u32) -> bool = test_agrees;
    next(x: u32, beta: u32, a: u32, c: u32) -> u32 = test_next;
}

/// Runs a call that writes one digest. The digest starts out filled with a
/// pattern, so that a call that writes nothing is noticed.
fn written(call: impl FnOnce(*mut Digest)) -> Digest {
    let mut out = [0xa5; 32];
    call(&mut out);
    out
}

pub fn hash(message: &[u8]) -> (Answer, Digest) {
    let mut out = [0xa5; 32];
    let answer = unsafe { exported::test_hash(message.as_ptr(), message.len(), &mut out) };
    (answer, out)
}

pub fn leaf(a: u32, c: u32) -> Digest {
    written(|out| unsafe { exported::test_leaf(a, c, out) })
}

pub fn node(left: &Digest, right: &Digest) -> Digest {
    written(|out| unsafe { exported::test_node(left, right, out) })
}

pub fn parent(child: &Digest, index: usize, sibling: &Digest) -> Digest {
    written(|out| unsafe { exported::test_parent(child, index, sibling, out) })
}

pub fn climb(leaf: &Digest, index: usize, siblings: &[u8]) -> Digest {
    written(|out| unsafe {
        exported::test_climb(leaf, index, siblings.as_ptr(), siblings.len(), out)
    })
}

pub fn start(params: Params, context: &Digest) -> Digest {
    written(|out| unsafe { exported::test_start(params, context, out) })
}

pub fn absorb_root(state: &Digest, root: &Digest) -> Digest {
    written(|out| unsafe { exported::test_absorb_root(state, root, out) })
}

pub fn challenge(state: &Digest) -> u32 {
    unsafe { exported::test_challenge(state) }
}

pub fn absorb_final(state: &Digest, coefficients: &Coefficients, count: usize) -> Digest {
    written(|out| unsafe { exported::test_absorb_final(state, coefficients, count, out) })
}

pub fn draw(state: &Digest, params: Params, query: u8) -> u32 {
    unsafe { exported::test_draw(state, params, query) }
}

pub fn eval(coefficients: &Coefficients, count: usize, x: u32) -> u32 {
    unsafe { exported::test_eval(coefficients, count, x) }
}

pub fn fold_in_place(poly: &mut [u32], beta: u32) {
    unsafe { exported::test_fold_in_place(poly.as_mut_ptr(), poly.len(), beta) }
}

pub fn verdict(params: Params, context: &Digest, proof: &[u8]) -> Answer {
    unsafe { exported::test_verdict(params, context, proof.as_ptr(), proof.len()) }
}

pub fn verdict_in_pieces(params: Params, context: &Digest, proof: &[u8], size: usize) -> Answer {
    unsafe { exported::test_verdict_in_pieces(params, context, proof.as_ptr(), proof.len(), size) }
}

pub fn write(
    params: Params,
    context: &Digest,
    coefficients: &[u32],
    numbers: &mut [u32],
    bytes: &mut [u8],
    output: &mut [u8],
) -> Answer {
    unsafe {
        exported::test_write(
            params,
            context,
            coefficients.as_ptr(),
            coefficients.len(),
            numbers.as_mut_ptr(),
            numbers.len(),
            bytes.as_mut_ptr(),
            bytes.len(),
            output.as_mut_ptr(),
            output.len(),
        )
    }
}
