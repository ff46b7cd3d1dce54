//! The points of the layers, and which leaf holds a point's value.

use crate::field::{mul, pow, subgroup_generator, GENERATOR};

/// The points of one layer: offset · generator^index.
#[derive(Clone, Copy)]
pub struct Coset {
    pub offset: u32,
    pub generator: u32,
}

impl Coset {
    /// Offset 5^(2^layer) and generator g^(2^layer), g being table entry n.
    pub fn of_layer(n: u8, layer: u8) -> Coset {
        let mut coset = Coset {
            offset: GENERATOR,
            generator: subgroup_generator(n as usize),
        };
        for _ in 0..layer {
            coset.offset = mul(coset.offset, coset.offset);
            coset.generator = mul(coset.generator, coset.generator);
        }
        coset
    }

    pub fn point(self, index: u32) -> u32 {
        mul(self.offset, pow(self.generator, index))
    }
}

pub fn point(n: u8, layer: u8, index: u32) -> u32 {
    Coset::of_layer(n, layer).point(index)
}

/// Where a layer keeps the value of one of its points: the leaf, and whether
/// it is the leaf's second value.
pub fn leaf_of(n: u8, layer: u8, index: u32) -> (u32, bool) {
    let half = 1 << (n - layer - 1);
    (index % half, index >= half)
}

#[cfg(test)]
mod tests {
    use super::*;
    use crate::field::{neg, P};

    #[test]
    fn points_of_a_layer_are_the_squares_of_the_layer_before() {
        for n in [2u8, 4, 9] {
            for layer in 0..n {
                let half = 1u32 << (n - layer - 1);
                for index in 0..half {
                    let first = point(n, layer, index);
                    let second = point(n, layer, index + half);
                    assert_eq!(second, neg(first));
                    assert_eq!(point(n, layer + 1, index), mul(first, first));
                }
            }
        }
    }

    #[test]
    fn points_follow_the_rule_written_out() {
        for n in [2u8, 5, 20] {
            let g = subgroup_generator(n as usize);
            for layer in 0..=n.min(8) {
                for index in [0u32, 1, 2, 3] {
                    let rule = mul(pow(5, 1 << layer), pow(g, index << layer));
                    assert_eq!(point(n, layer, index), rule);
                }
            }
        }
        assert_eq!(point(2, 0, 0), 5);
        assert_eq!(point(2, 0, 2), P - 5);
    }

    #[test]
    fn walk_of_the_document() {
        // n=4, b=1, k=2, m=6: leaf 6, then leaf 2, second value; final index 2.
        assert_eq!(leaf_of(4, 0, 6), (6, false));
        assert_eq!(leaf_of(4, 1, 6), (2, true));
        assert_eq!(leaf_of(4, 0, 14), (6, true));
    }
}
