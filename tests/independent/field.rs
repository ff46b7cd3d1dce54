//! The prime field of document 01, p = 3·2^30 + 1, with generator 5.

use crate::answer::{Answer, INVERSE_OF_ZERO, NUMBER_NOT_BELOW_P};

pub const P: u32 = 3 * (1 << 30) + 1;
pub const GENERATOR: u32 = 5;

/// The largest t for which there is a subgroup of order 2^t.
pub const LARGEST_SUBGROUP: usize = 30;

// Unchecked arithmetic: any argument counts modulo p, every result is below p.

pub fn add(a: u32, b: u32) -> u32 {
    ((a as u64 + b as u64) % P as u64) as u32
}

pub fn sub(a: u32, b: u32) -> u32 {
    ((a as u64 + (P - b % P) as u64) % P as u64) as u32
}

pub fn mul(a: u32, b: u32) -> u32 {
    (a as u64 * b as u64 % P as u64) as u32
}

pub fn neg(a: u32) -> u32 {
    sub(0, a)
}

/// Square and multiply; 0 to the power 0 is 1.
pub fn pow(a: u32, exponent: u32) -> u32 {
    let mut power = 1;
    let mut square = a;
    let mut rest = exponent;
    while rest > 0 {
        if rest & 1 == 1 {
            power = mul(power, square);
        }
        square = mul(square, square);
        rest >>= 1;
    }
    power
}

/// The inverse by the extended Euclidean algorithm; 0 for a multiple of p.
pub fn inv(a: u32) -> u32 {
    // Each remainder stays equal to its factor times a, modulo p.
    let (mut remainder, mut next_remainder) = (P, a % P);
    let (mut factor, mut next_factor) = (0i64, 1i64);
    while next_remainder != 0 {
        let quotient = remainder / next_remainder;
        (remainder, next_remainder) = (next_remainder, remainder % next_remainder);
        (factor, next_factor) = (next_factor, factor - quotient as i64 * next_factor);
    }
    factor.rem_euclid(P as i64) as u32
}

/// Entry t of the table of subgroup generators, 5^(3·2^(30−t)), of order 2^t.
/// Above 30 the last entry stands.
pub fn subgroup_generator(t: usize) -> u32 {
    let t = t.min(LARGEST_SUBGROUP);
    pow(GENERATOR, 3 << (LARGEST_SUBGROUP - t))
}

// The public calls: an argument not below p is refused.

pub fn sum(a: u32, b: u32) -> Result<u32, Answer> {
    Ok(add(below_p(a)?, below_p(b)?))
}

pub fn difference(a: u32, b: u32) -> Result<u32, Answer> {
    Ok(sub(below_p(a)?, below_p(b)?))
}

pub fn product(a: u32, b: u32) -> Result<u32, Answer> {
    Ok(mul(below_p(a)?, below_p(b)?))
}

pub fn negation(a: u32) -> Result<u32, Answer> {
    Ok(neg(below_p(a)?))
}

/// The exponent is a plain number and is never refused.
pub fn power(a: u32, exponent: u32) -> Result<u32, Answer> {
    Ok(pow(below_p(a)?, exponent))
}

pub fn inverse(a: u32) -> Result<u32, Answer> {
    if below_p(a)? == 0 {
        return Err(Answer::new(INVERSE_OF_ZERO, 0));
    }
    Ok(inv(a))
}

fn below_p(a: u32) -> Result<u32, Answer> {
    if a < P {
        Ok(a)
    } else {
        Err(Answer::new(NUMBER_NOT_BELOW_P, 0))
    }
}

#[cfg(test)]
mod tests {
    use super::*;
    use crate::rng::Rng;

    const EDGES: [u32; 9] = [0, 1, 2, 5, P - 1, P, P + 1, 1 << 31, u32::MAX];

    #[test]
    fn examples_of_the_document() {
        assert_eq!(P, 3221225473);
        assert_eq!(subgroup_generator(30), 125);
        assert_eq!(subgroup_generator(29), 15625);
        assert_eq!(subgroup_generator(28), 244140625);
        assert_eq!(subgroup_generator(1), 3221225472);
        assert_eq!(inverse(2), Ok(1610612737));
        assert_eq!(product(P - 1, P - 1), Ok(1));
        assert_eq!(product(390625, 390625), Ok(1190293394));
    }

    #[test]
    fn subgroup_generators_have_their_order() {
        for t in 0..LARGEST_SUBGROUP {
            let after = subgroup_generator(t + 1);
            assert_eq!(subgroup_generator(t), mul(after, after));
        }
        // Entry 0 is 1 and entry 1 is −1, so by the squares above entry t has
        // order exactly 2^t.
        assert_eq!(subgroup_generator(0), 1);
        assert_eq!(subgroup_generator(1), P - 1);
        assert_eq!(subgroup_generator(31), 125);
    }

    #[test]
    fn arguments_not_below_p_are_refused() {
        let refused = Err(Answer {
            number: 22,
            place: 0,
        });
        for large in [P, P + 1, u32::MAX] {
            for other in EDGES {
                for call in [sum, difference, product] {
                    assert_eq!(call(large, other), refused);
                    assert_eq!(call(other, large), refused);
                }
                assert_eq!(power(large, other), refused);
            }
            assert_eq!(negation(large), refused);
            assert_eq!(inverse(large), refused);
        }
        assert_eq!(
            inverse(0),
            Err(Answer {
                number: 15,
                place: 0
            })
        );
        assert_eq!(power(0, 0), Ok(1));
        assert_eq!(power(0, u32::MAX), Ok(0));
        assert_eq!(power(3, P - 1), Ok(1));
    }

    #[test]
    fn results_agree_with_wide_arithmetic() {
        let mut rng = Rng::new(1);
        let mut pairs: Vec<(u32, u32)> = (0..2000).map(|_| (rng.word(), rng.word())).collect();
        pairs.extend(EDGES.iter().flat_map(|&a| EDGES.map(|b| (a, b))));
        let modulus = P as i128;
        for (a, b) in pairs {
            let (wide_a, wide_b) = (a as i128, b as i128);
            assert_eq!(add(a, b) as i128, (wide_a + wide_b).rem_euclid(modulus));
            assert_eq!(sub(a, b) as i128, (wide_a - wide_b).rem_euclid(modulus));
            assert_eq!(mul(a, b) as i128, (wide_a * wide_b).rem_euclid(modulus));
            assert_eq!(neg(a) as i128, (-wide_a).rem_euclid(modulus));
            assert_eq!(mul(a, inv(a)), if a % P == 0 { 0 } else { 1 });
            assert_eq!(inv(a), pow(a, P - 2));
            // a^b · a = a^(b+1), and a^0 = 1, fix every power.
            if b < u32::MAX {
                assert_eq!(mul(pow(a, b), a), pow(a, b + 1));
            }
            assert_eq!(pow(a, 0), 1);
        }
    }
}
