//! A proof in which a layer's challenge is the point of an opened leaf.

use super::subject::Proof;
use crate::domain::point;
use crate::layout::Kind;
use crate::params::Params;
use crate::proof::build;
use crate::rng::Rng;
use crate::sha256::Digest;
use crate::transcript::Transcript;

pub fn proof() -> Proof {
    proof_in_context(CONTEXT)
}

/// Found by `find`.
const CONTEXT: u64 = 30_515_099;

const PARAMS: Params = Params {
    n: 8,
    b: 1,
    k: 2,
    q: 64,
};

fn numbered_context(number: u64) -> Digest {
    let mut context = [0; 32];
    context[..8].copy_from_slice(&number.to_le_bytes());
    context
}

fn proof_in_context(context: u64) -> Proof {
    let params = PARAMS;
    let context = numbered_context(context);
    let polynomial = Rng::new(28).elements(1 << (params.n - params.b));
    Proof {
        params,
        context,
        bytes: build(params, &context, &polynomial),
    }
}

/// Whether layer 0's challenge is the point of a leaf that a query opens.
fn has_equal_challenge(proof: &Proof) -> bool {
    let root = proof.items(Kind::Root)[0];
    let root: &Digest = proof.bytes[root.range()].try_into().expect("32 bytes");
    let challenge = first_challenge(&proof.context, root);
    proof
        .openings()
        .iter()
        .any(|opening| opening.layer == 0 && point(proof.params.n, 0, opening.leaf) == challenge)
}

/// Layer 0's challenge. The layer's root is the same in every context.
fn first_challenge(context: &Digest, root: &Digest) -> u32 {
    let mut transcript = Transcript::start(PARAMS, context);
    transcript.absorb_root(root);
    transcript.challenge()
}

/// Searches the contexts from the given one on for a proof in which layer 0's
/// challenge is the point of an opened leaf: about one in 64 million is.
pub fn find(start: u64) -> u64 {
    let Params { n, .. } = PARAMS;
    let proof = proof_in_context(start);
    let root = proof.items(Kind::Root)[0];
    let root: Digest = proof.bytes[root.range()].try_into().expect("32 bytes");
    let mut points: Vec<u32> = (0..1 << (n - 1)).map(|leaf| point(n, 0, leaf)).collect();
    points.sort();
    (start..)
        .filter(|&number| {
            let challenge = first_challenge(&numbered_context(number), &root);
            points.binary_search(&challenge).is_ok()
        })
        .find(|&number| has_equal_challenge(&proof_in_context(number)))
        .expect("some context serves")
}

#[cfg(test)]
mod tests {
    use super::*;

    #[test]
    fn the_challenge_equals_a_point() {
        assert!(has_equal_challenge(&proof()));
        assert!(!has_equal_challenge(&proof_in_context(CONTEXT + 1)));
    }
}
