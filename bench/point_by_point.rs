//! The ordinary writer: a proof written into lent buffers. Each layer is
//! evaluated point by point, and its tree stays in the lent bytes until the
//! queries are answered.

use crate::answer::{Answer, WRITTEN};
use crate::domain::Coset;
use crate::field::{add, mul};
use crate::merkle::{leaf, node};
use crate::params::Params;
use crate::sha256::Digest;
use crate::transcript::Transcript;
use crate::writer::tested;

/// Writes the proof to the front of the output and leaves all scratch zero, or
/// refuses and touches no buffer. `eval` is the value of a polynomial at a point.
pub fn write(
    params: Params,
    context: &Digest,
    coefficients: &[u32],
    numbers: &mut [u32],
    bytes: &mut [u8],
    output: &mut [u8],
    eval: impl Fn(&[u32], u32) -> u32,
) -> Answer {
    let length = match tested(
        params,
        coefficients,
        numbers.len(),
        bytes.len(),
        output.len(),
    ) {
        Ok(length) => length,
        Err(refusal) => return refusal,
    };

    // A layer of so many points has its values that many numbers from the front,
    // and its tree that many digests. The polynomial is in front of both.
    let layer_sizes = (0..params.k).map(|layer| 1 << (params.n - layer));
    let (trees, _) = bytes.as_chunks_mut();
    let mut file = Output(&mut output[..length]);
    file.put_count(4);
    file.put(&[params.n, params.b, params.k, params.q]);

    let mut transcript = Transcript::start(params, context);
    let mut count = coefficients.len();
    numbers[..count].copy_from_slice(coefficients);
    file.put_count(params.k.into());
    for (layer, size) in layer_sizes.clone().enumerate() {
        let (polynomial, values) = numbers[..2 * size].split_at_mut(size);
        let polynomial = &mut polynomial[..count];
        let mut coset = Coset::of_layer(params.n, layer as u8);
        for value in &mut *values {
            *value = eval(polynomial, coset.offset);
            coset.offset = mul(coset.offset, coset.generator);
        }
        let root = grow(&mut trees[size..2 * size], values);
        file.put(&root);
        transcript.absorb_root(&root);
        fold_in_place(polynomial, transcript.challenge());
        count /= 2;
    }

    let last = &numbers[..count];
    file.put_count(count);
    for &coefficient in last {
        file.put_number(coefficient);
    }
    transcript.absorb_final(last);

    file.put_count(params.q.into());
    for query in 0..params.q {
        let drawn = transcript.draw(params, query) as usize;
        for size in layer_sizes.clone() {
            let (values, tree) = (&numbers[size..2 * size], &trees[size..2 * size]);
            let half = size / 2;
            let opened = drawn % half;
            file.put_number(values[opened]);
            file.put_number(values[half + opened]);
            let mut below = half + opened;
            while below > 1 {
                file.put(&tree[below ^ 1]);
                below /= 2;
            }
        }
    }

    numbers.fill(0);
    bytes.fill(0);
    Answer::new(WRITTEN, length)
}

/// The tree over the pairs of values: the root is digest 1, and the children of
/// digest i are digests 2i and 2i + 1.
fn grow(tree: &mut [Digest], values: &[u32]) -> Digest {
    let half = values.len() / 2;
    let (first, second) = values.split_at(half);
    for ((digest, &a), &c) in tree[half..].iter_mut().zip(first).zip(second) {
        *digest = leaf(a, c);
    }
    for i in (1..half).rev() {
        tree[i] = node(&tree[2 * i], &tree[2 * i + 1]);
    }
    tree[1]
}

/// The polynomial after the fold, over the first half.
fn fold_in_place(polynomial: &mut [u32], beta: u32) {
    for i in 0..polynomial.len() / 2 {
        polynomial[i] = add(polynomial[2 * i], mul(beta, polynomial[2 * i + 1]));
    }
}

/// The part of the output that is not written yet.
struct Output<'a>(&'a mut [u8]);

impl Output<'_> {
    fn put(&mut self, part: &[u8]) {
        let front = self.0.split_off_mut(..part.len());
        front.expect("the file has room").copy_from_slice(part);
    }

    fn put_count(&mut self, count: usize) {
        self.put(&(count as u16).to_le_bytes());
    }

    fn put_number(&mut self, number: u32) {
        self.put(&number.to_le_bytes());
    }
}
