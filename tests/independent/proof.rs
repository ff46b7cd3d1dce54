//! Building a proof from a polynomial, as document 01 describes it.

use crate::domain::{leaf_of, Coset};
use crate::field::{add, mul, sub, P};
use crate::fold::fold_coefficients;
use crate::merkle::{leaf, Tree};
use crate::params::Params;
use crate::sha256::Digest;
use crate::transcript::Transcript;

/// One layer: the values at its points, one period of them where they repeat,
/// and the tree over their pairs.
pub struct Layer {
    values: Vec<u32>,
    half: usize,
    tree: Tree,
}

impl Layer {
    #[cfg(test)]
    pub fn new(values: Vec<u32>) -> Layer {
        let log_size = values.len().ilog2() as u8;
        Layer::repeating(values, log_size)
    }

    /// The layer of 2^log_size points whose values are these again and again.
    pub fn repeating(values: Vec<u32>, log_size: u8) -> Layer {
        let half = 1 << (log_size - 1);
        let pair = |m| leaf(values[m], values[(m + half) % values.len()]);
        let leaves = (0..half.min(values.len())).map(pair).collect();
        let tree = Tree::repeating(leaves, log_size as usize - 1);
        Layer { values, half, tree }
    }

    fn value(&self, index: usize) -> u32 {
        self.values[index % self.values.len()]
    }
}

/// The proof for a polynomial of at most 2^(n−b) coefficients.
pub fn build(params: Params, context: &Digest, polynomial: &[u32]) -> Vec<u8> {
    build_altered(params, context, polynomial, |_, _| {})
}

/// The same, but the numbers of each layer may be altered before they are
/// committed to, and at last, as those of layer k, the final coefficients. The
/// polynomial is folded on as if nothing had been altered.
pub fn build_altered(
    params: Params,
    context: &Digest,
    polynomial: &[u32],
    alter: impl FnMut(u8, &mut [u32]),
) -> Vec<u8> {
    Forger::default().build(params, context, polynomial, alter)
}

/// A prover that may stray from the document in some of its steps; by default
/// it does not.
#[derive(Default)]
pub struct Forger {
    /// Draws each challenge before it absorbs the layer's root.
    pub challenges_first: bool,
    /// Draws each challenge from 4 bytes, the rule before request 2026-01.
    pub narrow_challenges: bool,
    /// Opens this leaf of layer 0 for every query, whichever is drawn.
    pub leaf: Option<u32>,
    /// Takes the polynomial in x^(2^spread). The values of the first layers then
    /// repeat and only one period of them is ever made, so that a proof of 2^20
    /// points and more takes as long as one of 2^(n − spread).
    pub spread: u8,
}

impl Forger {
    pub fn build(
        &self,
        params: Params,
        context: &Digest,
        polynomial: &[u32],
        mut alter: impl FnMut(u8, &mut [u32]),
    ) -> Vec<u8> {
        assert!(params.valid(), "parameters not valid");
        let full_size = 1 << (params.n - params.b - self.spread);
        assert!(polynomial.len() <= full_size, "too many coefficients");
        assert!(polynomial.iter().all(|&coefficient| coefficient < P));

        let mut polynomial = polynomial.to_vec();
        polynomial.resize(full_size, 0);
        let challenge_of = match self.narrow_challenges {
            true => Transcript::narrow_challenge,
            false => Transcript::challenge,
        };
        let mut transcript = Transcript::start(params, context);
        let mut layers = Vec::new();
        for j in 0..params.k {
            // x^(2^spread), at a point of layer j, is a point of layer j + spread.
            let spread = self.spread.saturating_sub(j);
            let mut values = layer_values(&polynomial, params.n, j + spread);
            alter(j, &mut values);
            let layer = Layer::repeating(values, params.n - j);
            let early_challenge = challenge_of(&transcript);
            transcript.absorb_root(&layer.tree.root());
            let challenge = match self.challenges_first {
                true => early_challenge,
                false => challenge_of(&transcript),
            };
            // Without odd powers the fold is the even part: the same
            // coefficients, in a power half as high.
            if spread == 0 {
                polynomial = fold_coefficients(&polynomial, challenge);
            }
            layers.push(layer);
        }
        let spread = self.spread.saturating_sub(params.k);
        let mut polynomial = spread_out(&polynomial, spread);
        alter(params.k, &mut polynomial);
        self.assemble(params, transcript, &layers, &polynomial)
    }

    /// The bytes of a proof from its layers and final coefficients. The
    /// transcript has absorbed the layers' roots. Nothing is checked here, so
    /// that tests can also assemble proofs that must be refused.
    pub fn assemble(
        &self,
        params: Params,
        mut transcript: Transcript,
        layers: &[Layer],
        final_coefficients: &[u32],
    ) -> Vec<u8> {
        let Params { n, b, k, q } = params;
        let mut bytes = Vec::with_capacity(params.file_length());

        push_count(&mut bytes, 4);
        bytes.extend([n, b, k, q]);

        push_count(&mut bytes, layers.len());
        for layer in layers {
            bytes.extend(layer.tree.root());
        }

        push_count(&mut bytes, final_coefficients.len());
        for &coefficient in final_coefficients {
            push_number(&mut bytes, coefficient);
        }
        transcript.absorb_final(final_coefficients);

        push_count(&mut bytes, q as usize);
        for query in 0..q {
            let drawn = transcript.draw(params, query);
            let mut index = self.leaf.unwrap_or(drawn);
            for (j, layer) in layers.iter().enumerate() {
                let (leaf, _) = leaf_of(n, j as u8, index);
                push_opening(&mut bytes, layer, leaf as usize);
                index = leaf;
            }
        }
        bytes
    }
}

/// The coefficients of a polynomial in x^(2^spread), as one in x.
pub fn spread_out(coefficients: &[u32], spread: u8) -> Vec<u32> {
    let mut all = vec![0; coefficients.len() << spread];
    for (i, &coefficient) in coefficients.iter().enumerate() {
        all[i << spread] = coefficient;
    }
    all
}

fn push_opening(bytes: &mut Vec<u8>, layer: &Layer, leaf: usize) {
    push_number(bytes, layer.value(leaf));
    push_number(bytes, layer.value(leaf + layer.half));
    for sibling in layer.tree.path(leaf) {
        bytes.extend(sibling);
    }
}

fn push_count(bytes: &mut Vec<u8>, count: usize) {
    bytes.extend((count as u16).to_le_bytes());
}

fn push_number(bytes: &mut Vec<u8>, number: u32) {
    bytes.extend(number.to_le_bytes());
}

/// The polynomial's values at the points of a layer, in order.
fn layer_values(polynomial: &[u32], n: u8, layer: u8) -> Vec<u32> {
    let coset = Coset::of_layer(n, layer);
    // The value at offset · w^i is the value at w^i of the polynomial whose
    // coefficient t is multiplied by offset^t.
    let mut scaled = Vec::with_capacity(1 << (n - layer));
    let mut offset_power = 1;
    for &coefficient in polynomial {
        scaled.push(mul(coefficient, offset_power));
        offset_power = mul(offset_power, coset.offset);
    }
    scaled.resize(1 << (n - layer), 0);
    values_at_powers(&scaled, coset.generator)
}

/// The polynomial's values at 1, w, w², ..., for w of order the number of
/// coefficients: f(y) = even(y²) + y·odd(y²), and w^(i + half) = −w^i.
fn values_at_powers(coefficients: &[u32], w: u32) -> Vec<u32> {
    if coefficients.len() == 1 {
        return coefficients.to_vec();
    }
    let part = |skip| {
        coefficients
            .iter()
            .skip(skip)
            .step_by(2)
            .copied()
            .collect::<Vec<u32>>()
    };
    let even = values_at_powers(&part(0), mul(w, w));
    let odd = values_at_powers(&part(1), mul(w, w));
    let half = even.len();
    let mut values = vec![0; 2 * half];
    let mut power = 1;
    for i in 0..half {
        let term = mul(power, odd[i]);
        values[i] = add(even[i], term);
        values[i + half] = sub(even[i], term);
        power = mul(power, w);
    }
    values
}

#[cfg(test)]
mod tests {
    use super::*;
    use crate::domain::point;
    use crate::fold::eval;
    use crate::rng::Rng;

    #[test]
    fn layer_values_are_values_at_the_points() {
        let mut rng = Rng::new(3);
        for (n, layer, count) in [(2, 0, 2), (5, 0, 8), (5, 2, 3), (7, 3, 16), (8, 0, 1)] {
            let polynomial = rng.elements(count);
            let values = layer_values(&polynomial, n, layer);
            assert_eq!(values.len(), 1 << (n - layer));
            for (index, value) in values.into_iter().enumerate() {
                assert_eq!(value, eval(&polynomial, point(n, layer, index as u32)));
            }
        }
    }

    #[test]
    fn layout_of_the_document() {
        let mut rng = Rng::new(4);
        let bytes = build(Params::new(4, 2, 1, 2), &rng.digest(), &rng.elements(4));
        assert_eq!(bytes.len(), 260);
        assert_eq!(bytes[..6], [4, 0, 4, 2, 1, 2]);
        assert_eq!(bytes[6..8], [1, 0]);
        assert_eq!(bytes[8 + 32..][..2], [2, 0]);
        assert_eq!(bytes[8 + 32 + 2 + 8..][..2], [2, 0]);
        assert_eq!(8 + 32 + 2 + 8 + 2 + 2 * (8 + 96), 260);
    }

    #[test]
    fn missing_coefficients_are_zero() {
        let mut rng = Rng::new(5);
        let (params, context) = (Params::new(6, 2, 2, 3), rng.digest());
        let mut polynomial = rng.elements(11);
        let short = build(params, &context, &polynomial);
        polynomial.resize(16, 0);
        assert_eq!(short, build(params, &context, &polynomial));
        assert_eq!(build(params, &context, &[]), build(params, &context, &[0]));
    }

    #[test]
    fn a_spread_polynomial_is_the_one_with_all_its_coefficients() {
        let mut rng = Rng::new(8);
        for (n, b, k, q) in [(6, 1, 2, 5), (7, 2, 5, 9), (9, 3, 1, 4), (8, 1, 6, 3)] {
            let (params, context) = (Params::new(n, b, k, q), rng.digest());
            for spread in 0..=n - b {
                let polynomial = rng.elements(1 << (n - b - spread));
                let forger = Forger {
                    spread,
                    ..Forger::default()
                };
                let sparse = forger.build(params, &context, &polynomial, |_, _| {});
                let whole = build(params, &context, &spread_out(&polynomial, spread));
                assert_eq!(sparse, whole);
            }
        }
    }

    #[test]
    fn forgers_stray_in_one_step_only() {
        let mut rng = Rng::new(6);
        let (params, context) = (Params::new(5, 1, 2, 4), rng.digest());
        let polynomial = rng.elements(16);
        let honest = build(params, &context, &polynomial);
        let forged = |forger: Forger| forger.build(params, &context, &polynomial, |_, _| {});

        let elsewhere = forged(Forger {
            leaf: Some(3),
            ..Forger::default()
        });
        let openings = params.opening_offset(0, 0);
        assert_eq!(elsewhere[..openings], honest[..openings]);
        let query = params.opening_offset(1, 0) - openings;
        for opened in elsewhere[openings..].chunks(query) {
            assert_eq!(opened, &elsewhere[openings..][..query]);
        }

        let early = forged(Forger {
            challenges_first: true,
            ..Forger::default()
        });
        let first_root = 8 + 32;
        assert_eq!(early[..first_root], honest[..first_root]);
        assert_ne!(early[first_root..][..32], honest[first_root..][..32]);

        let narrow = forged(Forger {
            narrow_challenges: true,
            ..Forger::default()
        });
        assert_eq!(narrow[..first_root], honest[..first_root]);
        assert_ne!(narrow[first_root..][..32], honest[first_root..][..32]);
        assert_ne!(narrow[first_root..][..32], early[first_root..][..32]);
        let mut transcript = Transcript::start(params, &context);
        let mut folded = polynomial.clone();
        for root in narrow[8..][..64].chunks(32) {
            transcript.absorb_root(root.try_into().unwrap());
            folded = fold_coefficients(&folded, transcript.narrow_challenge());
        }
        let coefficients: Vec<u8> = folded.into_iter().flat_map(u32::to_le_bytes).collect();
        assert_eq!(narrow[8 + 64 + 2..][..coefficients.len()], coefficients);
    }

    /// The fold of a constant takes nothing from the challenge, and challenges
    /// are not absorbed: such a file is the same by either rule.
    #[test]
    fn a_constant_is_the_same_with_narrow_challenges() {
        let mut rng = Rng::new(7);
        let (params, context) = (Params::new(5, 1, 2, 4), rng.digest());
        let forger = Forger {
            narrow_challenges: true,
            ..Forger::default()
        };
        for (polynomial, same) in [(vec![9], true), (vec![9, 1], false)] {
            let narrow = forger.build(params, &context, &polynomial, |_, _| {});
            assert_eq!(narrow == build(params, &context, &polynomial), same);
        }
    }
}
