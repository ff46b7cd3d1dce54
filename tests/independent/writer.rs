//! The writer of request 2026-02: a proof, written into lent buffers.

use crate::answer::{
    Answer, COEFFICIENT_COUNT_DIFFERS, NUMBER_NOT_BELOW_P, OUTPUT_TOO_SHORT, PARAMETERS_NOT_VALID,
    SCRATCH_TOO_SHORT, WRITTEN,
};
use crate::field::P;
use crate::params::Params;
use crate::proof::build;
use crate::sha256::Digest;

/// The coefficients of a polynomial, for valid parameters.
pub fn coefficient_count(params: Params) -> usize {
    1 << (params.n - params.b)
}

/// The least scratch, for valid parameters: its numbers.
pub fn numbers_needed(params: Params) -> usize {
    2 << params.n
}

/// The least scratch, for valid parameters: its bytes.
pub fn bytes_needed(params: Params) -> usize {
    64 << params.n
}

/// The tests in their order: the file's length, or the refusal of the first
/// that fails. The last three are the buffers' lengths.
pub fn tested(
    params: Params,
    coefficients: &[u32],
    numbers: usize,
    bytes: usize,
    output: usize,
) -> Result<usize, Answer> {
    let refused = |number| Err(Answer::new(number, 0));
    if !params.valid() {
        return refused(PARAMETERS_NOT_VALID);
    }
    if coefficients.len() != coefficient_count(params) {
        return refused(COEFFICIENT_COUNT_DIFFERS);
    }
    if coefficients.iter().any(|&coefficient| coefficient >= P) {
        return refused(NUMBER_NOT_BELOW_P);
    }
    if numbers < numbers_needed(params) || bytes < bytes_needed(params) {
        return refused(SCRATCH_TOO_SHORT);
    }
    let length = params.file_length();
    if output < length {
        return refused(OUTPUT_TOO_SHORT);
    }
    Ok(length)
}

/// Writes the proof to the front of the output and leaves all scratch zero, or
/// refuses and touches no buffer.
pub fn write(
    params: Params,
    context: &Digest,
    coefficients: &[u32],
    numbers: &mut [u32],
    bytes: &mut [u8],
    output: &mut [u8],
) -> Answer {
    let length = match tested(
        params,
        coefficients,
        numbers.len(),
        bytes.len(),
        output.len(),
    ) {
        Ok(length) => length,
        Err(refusal) => return refusal,
    };

    // Building takes its own memory; of the scratch only what is left counts.
    output[..length].copy_from_slice(&build(params, context, coefficients));
    numbers.fill(0);
    bytes.fill(0);
    Answer::new(WRITTEN, length)
}

#[cfg(test)]
mod tests {
    use super::*;
    use crate::judge::verdict;
    use crate::rng::Rng;

    /// 4 coefficients, 32 numbers, 1024 bytes, a file of 260 bytes.
    const PARAMS: Params = Params {
        n: 4,
        b: 2,
        k: 1,
        q: 2,
    };
    const CONTEXT: Digest = [7; 32];

    /// Buffers of these lengths, filled with patterns.
    struct Buffers {
        numbers: Vec<u32>,
        bytes: Vec<u8>,
        output: Vec<u8>,
    }

    fn buffers(numbers: usize, bytes: usize, output: usize) -> Buffers {
        Buffers {
            numbers: vec![0xa5a5a5a5; numbers],
            bytes: vec![0x5a; bytes],
            output: vec![0xc3; output],
        }
    }

    impl Buffers {
        fn write(&mut self, params: Params, coefficients: &[u32]) -> Answer {
            write(
                params,
                &CONTEXT,
                coefficients,
                &mut self.numbers,
                &mut self.bytes,
                &mut self.output,
            )
        }

        fn untouched(&self) -> bool {
            self.numbers.iter().all(|&number| number == 0xa5a5a5a5)
                && self.bytes.iter().all(|&byte| byte == 0x5a)
                && self.output.iter().all(|&byte| byte == 0xc3)
        }
    }

    fn is_refused(number: u8, params: Params, coefficients: &[u32], mut buffers: Buffers) {
        assert_eq!(buffers.write(params, coefficients), Answer::new(number, 0));
        assert!(buffers.untouched());
    }

    fn is_written(params: Params, coefficients: &[u32], mut buffers: Buffers) {
        let length = params.file_length();
        assert_eq!(buffers.write(params, coefficients), Answer::new(0, length));
        let (file, rest) = buffers.output.split_at(length);
        assert_eq!(file, build(params, &CONTEXT, coefficients));
        assert_eq!(verdict(params, &CONTEXT, file), Answer::new(1, length));
        assert!(rest.iter().all(|&byte| byte == 0xc3));
        assert!(buffers.numbers.iter().all(|&number| number == 0));
        assert!(buffers.bytes.iter().all(|&byte| byte == 0));
    }

    #[test]
    fn buffers_just_long_enough_are_enough() {
        is_written(PARAMS, &[1, 2, 3, 4], buffers(32, 1024, 260));
        // 2,1,1,1 asks for the least of all parameters.
        let least = Params::new(2, 1, 1, 1);
        is_written(least, &[5, 6], buffers(8, 256, 88));
        let mut rng = Rng::new(50);
        let params = Params::new(10, 3, 4, 64);
        let length = params.file_length();
        is_written(params, &rng.elements(128), buffers(2048, 65536, length));
    }

    #[test]
    fn bytes_after_the_file_stay_and_all_scratch_is_zero() {
        is_written(PARAMS, &[1, 2, 3, 4], buffers(33, 1024, 260));
        is_written(PARAMS, &[1, 2, 3, 4], buffers(32, 1025, 260));
        is_written(PARAMS, &[1, 2, 3, 4], buffers(32, 1024, 261));
        is_written(PARAMS, &[1, 2, 3, 4], buffers(500, 5000, 1000));
    }

    #[test]
    fn parameters_that_are_not_valid_are_refused() {
        for (n, b, k, q) in [
            (4, 2, 1, 0),
            (4, 2, 1, 65),
            (4, 2, 0, 2),
            (4, 2, 3, 2),
            (4, 0, 1, 2),
            (1, 1, 1, 2),
            (0, 0, 0, 0),
            (9, 1, 1, 2),
            (21, 8, 12, 2),
            (20, 9, 10, 2),
            (20, 6, 13, 2),
            (20, 8, 5, 1),
            (0, 255, 1, 2),
            (255, 0, 255, 255),
            (255, 255, 255, 255),
        ] {
            let params = Params::new(n, b, k, q);
            is_refused(10, params, &[1, 2, 3, 4], buffers(32, 1024, 8000));
            is_refused(10, params, &[], buffers(0, 0, 0));
        }
    }

    #[test]
    fn the_count_of_coefficients_is_exact() {
        for count in [0, 1, 2, 3, 5, 6, 8, 16, 32] {
            let coefficients = vec![1; count];
            is_refused(30, PARAMS, &coefficients, buffers(32, 1024, 260));
        }
        is_written(PARAMS, &[1; 4], buffers(32, 1024, 260));
        // A longer buffer makes no room for more.
        is_refused(30, PARAMS, &[1; 5], buffers(64, 2048, 520));
    }

    #[test]
    fn coefficients_are_below_p_at_every_place() {
        for place in 0..4 {
            let mut coefficients = [1, 2, 3, 4];
            for wrong in [P, P + 1, u32::MAX] {
                coefficients[place] = wrong;
                is_refused(22, PARAMS, &coefficients, buffers(32, 1024, 260));
            }
            for right in [P - 1, 0] {
                coefficients[place] = right;
                is_written(PARAMS, &coefficients, buffers(32, 1024, 260));
            }
        }
        is_written(PARAMS, &[P - 1; 4], buffers(32, 1024, 260));
        is_written(PARAMS, &[0; 4], buffers(32, 1024, 260));
    }

    #[test]
    fn either_scratch_may_be_too_short() {
        for (numbers, bytes) in [
            (31, 1024),
            (32, 1023),
            (31, 1023),
            (0, 1024),
            (32, 0),
            (0, 0),
            (31, 100_000),
            (100_000, 1023),
        ] {
            is_refused(31, PARAMS, &[1, 2, 3, 4], buffers(numbers, bytes, 260));
        }
    }

    #[test]
    fn the_output_may_be_too_short() {
        for length in [0, 1, 259] {
            is_refused(32, PARAMS, &[1, 2, 3, 4], buffers(32, 1024, length));
        }
        is_refused(32, PARAMS, &[1, 2, 3, 4], buffers(1000, 10_000, 259));
    }

    /// Every set of faults gets the number of the earliest test that fails.
    #[test]
    fn the_tests_are_made_in_order() {
        for faults in 0..64 {
            let fault = |which: u32| faults >> which & 1 == 1;
            let params = match fault(0) {
                true => Params { q: 0, ..PARAMS },
                false => PARAMS,
            };
            let mut coefficients = vec![1, 2, 3, 4];
            if fault(1) {
                coefficients.push(5);
            }
            if fault(2) {
                *coefficients.last_mut().unwrap() = P;
            }
            let buffers = buffers(
                if fault(3) { 31 } else { 32 },
                if fault(4) { 1023 } else { 1024 },
                if fault(5) { 259 } else { 260 },
            );
            let numbers = [10, 30, 22, 31, 31, 32];
            match (0..6).find(|&which| fault(which)) {
                Some(first) => is_refused(numbers[first as usize], params, &coefficients, buffers),
                None => is_written(params, &coefficients, buffers),
            }
        }
    }

    /// With n = 20, where scratch is longest: nothing is built to refuse.
    #[test]
    fn the_largest_domain_has_the_same_bounds() {
        let params = Params::new(20, 8, 6, 1);
        let coefficients = vec![1; 4096];
        let (numbers, bytes) = (2 << 20, 64 << 20);
        let length = params.file_length();
        is_refused(30, params, &coefficients[1..], buffers(0, 0, 0));
        is_refused(31, params, &coefficients, buffers(0, bytes, length));
        let one_less = bytes - 1;
        is_refused(31, params, &coefficients, buffers(numbers, one_less, 0));
        let one_less = numbers - 1;
        is_refused(31, params, &coefficients, buffers(one_less, bytes, length));
        let one_less = length - 1;
        is_refused(32, params, &coefficients, buffers(numbers, bytes, one_less));
    }

    #[test]
    fn the_context_counts() {
        let mut one = buffers(32, 1024, 260);
        one.write(PARAMS, &[1, 2, 3, 4]);
        let file = build(PARAMS, &[8; 32], &[1, 2, 3, 4]);
        assert_ne!(one.output, file);
    }
}
