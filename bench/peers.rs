//! The ordinary side: the functions of tests/independent behind the signatures
//! of the linked library. None is inlined into its caller, because no call into
//! the linked library can be. It is a library of its own, as the other side is,
//! so that the compiler makes the same of it whatever the rows are.

// The independent program's modules name each other from the root.
#[path = "../tests/independent/answer.rs"]
pub mod answer;
#[path = "../tests/independent/domain.rs"]
pub mod domain;
#[path = "../tests/independent/field.rs"]
pub mod field;
#[path = "../tests/independent/fold.rs"]
pub mod fold;
#[path = "../tests/independent/judge.rs"]
pub mod judge;
#[path = "../tests/independent/merkle.rs"]
pub mod merkle;
#[path = "../tests/independent/params.rs"]
pub mod params;
pub mod point_by_point;
#[path = "../tests/independent/proof.rs"]
pub mod proof;
#[path = "../tests/independent/rng.rs"]
pub mod rng;
#[path = "../tests/independent/sha256.rs"]
pub mod sha256;
pub mod streaming;
#[path = "../tests/independent/transcript.rs"]
pub mod transcript;
#[path = "../tests/independent/writer.rs"]
pub mod writer;

use std::slice;

use answer::{Answer, OPEN};
use field::P;
use params::Params;
use sha256::{public_hash, Digest};
use streaming::Reader;
use transcript::Transcript;

/// Coefficients are lent as a whole array, with a count of those that matter.
pub type Coefficients = [u32; 64];

/// The message must be readable for `len` bytes.
#[inline(never)]
pub unsafe extern "C" fn hash(message: *const u8, len: usize, out: &mut Digest) -> Answer {
    let message = unsafe { slice::from_raw_parts(message, len) };
    let (answer, digest) = public_hash(message);
    *out = digest;
    answer
}

#[inline(never)]
pub extern "C" fn leaf(a: u32, c: u32, out: &mut Digest) {
    *out = merkle::leaf(a, c);
}

#[inline(never)]
pub extern "C" fn node(left: &Digest, right: &Digest, out: &mut Digest) {
    *out = merkle::node(left, right);
}

#[inline(never)]
pub extern "C" fn challenge(state: &Digest) -> u32 {
    Transcript { state: *state }.challenge()
}

#[inline(never)]
pub extern "C" fn mul(a: u32, b: u32) -> u32 {
    field::mul(a, b)
}

#[inline(never)]
pub extern "C" fn pow(a: u32, e: u32) -> u32 {
    field::pow(a, e)
}

#[inline(never)]
pub extern "C" fn inv(a: u32) -> u32 {
    field::inv(a)
}

#[inline(never)]
pub extern "C" fn point(n: u8, layer: u8, index: u32) -> u32 {
    domain::point(n, layer, index)
}

#[inline(never)]
pub extern "C" fn eval(coefficients: &Coefficients, count: usize, x: u32) -> u32 {
    fold::eval(&coefficients[..count.min(coefficients.len())], x)
}

#[inline(never)]
pub extern "C" fn agrees(x: u32, beta: u32, a: u32, c: u32, v: u32) -> bool {
    fold::agrees(x, beta, a, c, v)
}

// The independent program goes another way than the library in three calls: it
// inverts by Euclid, works out the subgroup generator of each point, and tests
// a fold with an inverse. A ratio between two ways says nothing about the two
// compilers, so these peers go the library's way, in ordinary Rust.

#[inline(never)]
pub extern "C" fn inv_by_power(a: u32) -> u32 {
    field::pow(a, P - 2)
}

/// Each entry is the square of the entry after it; the last is 5^3.
static SUBGROUP_GENERATORS: [u32; 31] = {
    let mut table = [125; 31];
    let mut t = 30;
    while t > 0 {
        let after = table[t] as u64;
        t -= 1;
        table[t] = (after * after % P as u64) as u32;
    }
    table
};

#[inline(never)]
pub extern "C" fn point_by_table(n: u8, layer: u8, index: u32) -> u32 {
    let mut coset = domain::Coset {
        offset: field::GENERATOR,
        generator: SUBGROUP_GENERATORS[(n as usize).min(field::LARGEST_SUBGROUP)],
    };
    for _ in 0..layer {
        coset.offset = field::mul(coset.offset, coset.offset);
        coset.generator = field::mul(coset.generator, coset.generator);
    }
    coset.point(index)
}

#[inline(never)]
pub extern "C" fn agrees_by_products(x: u32, beta: u32, a: u32, c: u32, v: u32) -> bool {
    let right = field::add(
        field::mul(x, field::add(a, c)),
        field::mul(beta, field::sub(a, c)),
    );
    field::mul(field::mul(2, x), v) == right
}

/// The verifier over a whole slice. `size` is for the other side, which may be
/// fed in pieces; this one always has the file at once.
/// The proof must be readable for `len` bytes.
#[inline(never)]
pub unsafe extern "C" fn verdict(
    params: Params,
    context: &Digest,
    proof: *const u8,
    len: usize,
    _size: usize,
) -> Answer {
    let proof = unsafe { slice::from_raw_parts(proof, len) };
    judge::verdict(params, context, proof)
}

/// The verifier fed in pieces of `size` bytes, one byte at least.
/// The proof must be readable for `len` bytes.
#[inline(never)]
pub unsafe extern "C" fn verdict_in_pieces(
    params: Params,
    context: &Digest,
    proof: *const u8,
    len: usize,
    size: usize,
) -> Answer {
    let proof = unsafe { slice::from_raw_parts(proof, len) };
    let (opening, mut reader) = Reader::open(params, context);
    if opening.number != OPEN {
        return opening;
    }
    for piece in proof.chunks(size.max(1)) {
        reader.feed(piece);
    }
    reader.finish()
}

/// One piece, by a call that no caller can see into, as a linked library's is.
/// The bytes must be readable for `len` bytes.
#[inline(never)]
unsafe extern "C" fn feed(reader: &mut Reader, bytes: *const u8, len: usize) -> Answer {
    reader.feed(unsafe { slice::from_raw_parts(bytes, len) })
}

/// The same with one such call for each piece, whose answer the caller acts on.
/// The proof must be readable for `len` bytes.
#[inline(never)]
pub unsafe extern "C" fn verdict_by_calls(
    params: Params,
    context: &Digest,
    proof: *const u8,
    len: usize,
    size: usize,
) -> Answer {
    let proof = unsafe { slice::from_raw_parts(proof, len) };
    let (opening, mut reader) = Reader::open(params, context);
    if opening.number != OPEN {
        return opening;
    }
    for piece in proof.chunks(size.max(1)) {
        let answer = unsafe { feed(&mut reader, piece.as_ptr(), piece.len()) };
        if answer.number != OPEN {
            return answer;
        }
    }
    reader.finish()
}

/// A product and a number with one remainder: together they fit in 64 bits.
/// `field::add` of `field::mul` takes two, of the product and of the sum.
fn mul_add(a: u32, b: u32, c: u32) -> u32 {
    ((a as u64 * b as u64 + c as u64) % P as u64) as u32
}

/// Horner's rule with one remainder a step; `fold::eval` takes two.
fn eval_by_one_remainder(coefficients: &[u32], x: u32) -> u32 {
    let step = |value: u32, &coefficient: &u32| mul_add(value, x, coefficient);
    coefficients.iter().rev().fold(0, step)
}

#[inline(never)]
pub extern "C" fn eval_one_remainder(coefficients: &Coefficients, count: usize, x: u32) -> u32 {
    eval_by_one_remainder(&coefficients[..count.min(coefficients.len())], x)
}

/// Two coefficients a step, as the library takes them.
fn eval_by_pairs_of(coefficients: &[u32], x: u32) -> u32 {
    let square = field::mul(x, x);
    let (first, pairs) = coefficients.split_at(coefficients.len() % 2);
    let step = |value, pair: &[u32]| mul_add(value, square, mul_add(pair[1], x, pair[0]));
    let value = pairs.chunks_exact(2).rev().fold(0, step);
    first.iter().fold(value, |value, &c| mul_add(value, x, c))
}

#[inline(never)]
pub extern "C" fn eval_by_pairs(coefficients: &Coefficients, count: usize, x: u32) -> u32 {
    eval_by_pairs_of(&coefficients[..count.min(coefficients.len())], x)
}

/// Each pair of coefficients to the even one plus β times the odd one, in place.
fn fold_in_place(poly: &mut [u32], pair: impl Fn(u32, u32) -> u32) {
    for i in 0..poly.len() / 2 {
        poly[i] = pair(poly[2 * i], poly[2 * i + 1]);
    }
}

/// The pointer must be good for `len` numbers.
#[inline(never)]
pub unsafe extern "C" fn fold(poly: *mut u32, len: usize, beta: u32) {
    let poly = unsafe { slice::from_raw_parts_mut(poly, len) };
    fold_in_place(poly, |even, odd| field::add(even, field::mul(beta, odd)));
}

/// The pointer must be good for `len` numbers.
#[inline(never)]
pub unsafe extern "C" fn fold_one_remainder(poly: *mut u32, len: usize, beta: u32) {
    let poly = unsafe { slice::from_raw_parts_mut(poly, len) };
    fold_in_place(poly, |even, odd| mul_add(beta, odd, even));
}

/// The ordinary writer with a way to evaluate a polynomial at a point.
macro_rules! writers {
    ($($name:ident by $eval:path;)*) => {
        $(
            /// Each pointer must be good for the length after it.
            #[inline(never)]
            pub unsafe extern "C" fn $name(
                params: Params,
                context: &Digest,
                coefficients: *const u32,
                coefficients_len: usize,
                numbers: *mut u32,
                numbers_len: usize,
                bytes: *mut u8,
                bytes_len: usize,
                output: *mut u8,
                output_len: usize,
            ) -> Answer {
                point_by_point::write(
                    params,
                    context,
                    unsafe { slice::from_raw_parts(coefficients, coefficients_len) },
                    unsafe { slice::from_raw_parts_mut(numbers, numbers_len) },
                    unsafe { slice::from_raw_parts_mut(bytes, bytes_len) },
                    unsafe { slice::from_raw_parts_mut(output, output_len) },
                    $eval,
                )
            }
        )*
    };
}

writers! {
    write by fold::eval;
    write_by_one_remainder by eval_by_one_remainder;
    write_by_pairs by eval_by_pairs_of;
}
