//! One fold, on a pair of values and on coefficients.

use crate::field::{add, inv, mul, sub, P};

/// The one number with 2·x·next = x·(a+c) + β·(a−c), for a point x that is
/// not 0; a and c are the values at x and at −x.
pub fn next(x: u32, beta: u32, a: u32, c: u32) -> u32 {
    let right = add(mul(x, add(a, c)), mul(beta, sub(a, c)));
    mul(right, inv(add(x, x)))
}

/// Whether 2·x·v = x·(a+c) + β·(a−c).
pub fn agrees(x: u32, beta: u32, a: u32, c: u32, v: u32) -> bool {
    if x % P == 0 {
        // The left side and the sum vanish, so v does not matter.
        return mul(beta, sub(a, c)) == 0;
    }
    v % P == next(x, beta, a, c)
}

/// The polynomial's value at x; coefficients from the lowest power up.
pub fn eval(coefficients: &[u32], x: u32) -> u32 {
    coefficients
        .iter()
        .rev()
        .fold(0, |value, &coefficient| add(mul(value, x), coefficient))
}

/// The polynomial after the fold: even part plus β times odd part.
pub fn fold_coefficients(coefficients: &[u32], beta: u32) -> Vec<u32> {
    coefficients
        .chunks(2)
        .map(|pair| {
            let odd = pair.get(1).copied().unwrap_or(0);
            add(pair[0], mul(beta, odd))
        })
        .collect()
}

#[cfg(test)]
mod tests {
    use super::*;
    use crate::field::neg;
    use crate::rng::Rng;

    #[test]
    fn examples_of_the_document() {
        let polynomial = [2, 3, 0, 1];
        assert_eq!(fold_coefficients(&polynomial, 7), [23, 7]);
        assert_eq!(eval(&polynomial, 3), 38);
        assert_eq!(eval(&polynomial, neg(3)), 3221225439);
        assert_eq!(next(3, 7, 38, 3221225439), 86);
        assert_eq!(eval(&[23, 7], 9), 86);
        // β equal to x is an ordinary case.
        assert_eq!(next(3, 3, 38, 3221225439), 38);
    }

    #[test]
    fn values_fold_as_coefficients_do() {
        let mut rng = Rng::new(2);
        for length in 1..30 {
            let polynomial = rng.elements(length);
            let beta = rng.element();
            let folded = fold_coefficients(&polynomial, beta);
            for _ in 0..20 {
                let x = rng.element().max(1);
                let (a, c) = (eval(&polynomial, x), eval(&polynomial, neg(x)));
                let value = eval(&folded, mul(x, x));
                assert_eq!(next(x, beta, a, c), value);
                assert!(agrees(x, beta, a, c, value));
                assert!(!agrees(x, beta, a, c, add(value, 1)));
            }
        }
    }

    #[test]
    fn agrees_is_the_equation() {
        let values = [0, 1, 2, 5, P - 1, P, P + 1, u32::MAX];
        for x in values {
            for beta in values {
                for a in values {
                    for c in values {
                        for v in values {
                            let left = mul(2, mul(x, v));
                            let right = add(mul(x, add(a, c)), mul(beta, sub(a, c)));
                            assert_eq!(agrees(x, beta, a, c, v), left == right);
                        }
                    }
                }
            }
        }
    }
}
