//! The writer: what it writes is accepted, a refusal touches no buffer, and a success nothing but
//! the file and the scratch, which is left zero.

use phieulakhon::{
    verdict, write_proof, write_proof_in, Context, Params, Refusal, Scratch, WriteRefusal,
};
use std::fs;
use std::path::Path;

const P: u32 = 3221225473;
const CONTEXT: Context = Context([7; 32]);
const DIRT: u8 = 0xa5;
const DIRTY: u32 = 0xa5a5_a5a5;

fn params(n: u8, b: u8, k: u8, q: u8) -> Params {
    Params::new(n, b, k, q)
}

fn coefficients(params: Params, seed: u64) -> Vec<u32> {
    let mut state = seed;
    let mut random = || {
        state = state
            .wrapping_mul(6364136223846793005)
            .wrapping_add(1442695040888963407);
        ((state >> 32) % u64::from(P)) as u32
    };
    let count = params.coefficient_count().expect("valid parameters");
    (0..count).map(|_| random()).collect()
}

/// The buffers of a call, dirty all over.
#[derive(Clone, Debug, PartialEq)]
struct Buffers {
    numbers: Vec<u32>,
    bytes: Vec<u8>,
    output: Vec<u8>,
}

impl Buffers {
    /// Just as long as they have to be.
    fn exact(params: Params) -> Buffers {
        let (numbers, bytes) = params.scratch_lengths().expect("valid parameters");
        Buffers {
            numbers: vec![DIRTY; numbers],
            bytes: vec![DIRT; bytes],
            output: vec![DIRT; params.file_length().expect("valid parameters")],
        }
    }

    /// Longer, each by another length.
    fn long(params: Params) -> Buffers {
        let mut buffers = Buffers::exact(params);
        buffers.numbers.extend([DIRTY; 3]);
        buffers.bytes.extend([DIRT; 70]);
        buffers.output.extend([DIRT; 11]);
        buffers
    }

    fn write(&mut self, params: Params, coefficients: &[u32]) -> Result<usize, WriteRefusal> {
        let scratch = Scratch {
            numbers: &mut self.numbers,
            bytes: &mut self.bytes,
        };
        write_proof_in(params, CONTEXT, coefficients, scratch, &mut self.output)
    }

    /// The refusal, by a call that changes nothing.
    fn refused(&self, params: Params, coefficients: &[u32]) -> u8 {
        let mut buffers = self.clone();
        let refusal = buffers.write(params, coefficients).expect_err("a refusal");
        assert!(buffers == *self, "{params:?}: {refusal} and a buffer");
        refusal.number()
    }
}

/// Writes once more in buffers that are longer and dirty, and gives the proof.
fn written(params: Params, coefficients: &[u32]) -> Vec<u8> {
    let proof = write_proof(params, CONTEXT, coefficients).expect("a proof");
    assert_eq!(Some(proof.len()), params.file_length(), "{params:?}");

    let mut buffers = Buffers::long(params);
    assert_eq!(buffers.write(params, coefficients), Ok(proof.len()));
    assert!(
        buffers.numbers.iter().all(|&number| number == 0),
        "{params:?}"
    );
    assert!(buffers.bytes.iter().all(|&byte| byte == 0), "{params:?}");
    let (file, rest) = buffers.output.split_at(proof.len());
    assert!(file == proof, "{params:?}: another file");
    assert_eq!(rest, [DIRT; 11], "{params:?}");

    let mut exact = Buffers::exact(params);
    assert_eq!(exact.write(params, coefficients), Ok(proof.len()));
    assert!(exact.output == proof, "{params:?}: another file");
    proof
}

fn accepted(params: Params, coefficients: &[u32]) {
    let proof = written(params, coefficients);
    let accepted = verdict(params, CONTEXT, &proof).expect("what is written is accepted");
    assert_eq!(accepted.length() as usize, proof.len());
}

/// All parameters of at most 64 points with one or three queries, and some of more.
#[test]
fn what_is_written_is_accepted() {
    let mut tried = 0;
    for n in 2..=6 {
        for b in 1..n {
            for k in 1..=n - b {
                for q in [1, 3] {
                    tried += 1;
                    let params = params(n, b, k, q);
                    accepted(params, &coefficients(params, tried));
                }
            }
        }
    }
    assert_eq!(tried, 70);
    for (n, b, k, q) in [(8, 1, 1, 64), (9, 8, 1, 2), (10, 3, 2, 9), (10, 1, 9, 5)] {
        let params = params(n, b, k, q);
        accepted(params, &coefficients(params, 1));
    }
}

#[test]
fn polynomials_of_all_zeros_and_of_the_greatest_numbers() {
    let params = params(6, 2, 3, 4);
    for number in [0, 1, P - 1] {
        accepted(params, &[number; 16]);
    }
}

/// The polynomial of examples/accepted.job: what tests/independent/job.rs draws from seed 1.
#[test]
fn the_accepted_example() {
    let path = Path::new(env!("CARGO_MANIFEST_DIR")).join("../../examples/accepted.job");
    let job = fs::read(path).expect("examples/accepted.job");
    let context = Context(job[4..36].try_into().expect("32 bytes"));
    let polynomial = [2457206414, 3003490612, 2558567344, 2720798432];
    let proof = write_proof(params(4, 2, 1, 2), context, &polynomial);
    assert!(proof.expect("a proof") == job[36..]);
}

/// The proof is tied to its context, and to each coefficient.
#[test]
fn another_context_or_coefficient_gives_another_proof() {
    let params = params(5, 2, 2, 8);
    let polynomial = coefficients(params, 1);
    let proof = written(params, &polynomial);
    let refusal = verdict(params, Context([8; 32]), &proof).expect_err("another context");
    assert!(
        matches!(refusal, Refusal::PathMissesRoot { .. }),
        "{refusal}"
    );
    for i in 0..polynomial.len() {
        let mut other = polynomial.clone();
        other[i] = (other[i] + 1) % P;
        assert!(written(params, &other) != proof, "coefficient {i}");
    }
}

/// Every test fails at first; they are mended one by one, in the order of the tests.
#[test]
fn the_first_test_that_fails_decides() {
    let mended = params(4, 2, 1, 2);
    let mut buffers = Buffers {
        numbers: vec![DIRTY; 31],
        bytes: vec![DIRT; 1023],
        output: vec![DIRT; 259],
    };
    assert_eq!(buffers.refused(params(4, 2, 1, 0), &[P; 5]), 10);
    assert_eq!(buffers.refused(mended, &[P; 5]), 30);
    assert_eq!(buffers.refused(mended, &[P; 4]), 22);
    assert_eq!(buffers.refused(mended, &[1; 4]), 31);
    buffers.numbers.push(DIRTY);
    assert_eq!(buffers.refused(mended, &[1; 4]), 31);
    buffers.bytes.push(DIRT);
    assert_eq!(buffers.refused(mended, &[1; 4]), 32);
    buffers.output.push(DIRT);
    assert_eq!(buffers.write(mended, &[1; 4]), Ok(260));
}

#[test]
fn each_refusal_up_to_its_bound() {
    let good = params(4, 2, 1, 2);
    let long = Buffers::long(good);
    let parameters = [
        params(1, 1, 1, 1),
        params(21, 8, 7, 1),
        params(4, 0, 1, 2),
        params(4, 2, 0, 2),
        params(4, 2, 3, 2),
        params(9, 1, 1, 2),
        params(4, 2, 1, 65),
        params(255, 255, 255, 255),
    ];
    for not_valid in parameters {
        assert_eq!(long.refused(not_valid, &[1; 4]), 10, "{not_valid:?}");
        let refused = write_proof(not_valid, CONTEXT, &[1; 4]);
        assert_eq!(refused, Err(WriteRefusal::ParametersNotValid));
    }
    for count in [0, 1, 3, 5, 8, 16] {
        assert_eq!(long.refused(good, &vec![1; count]), 30, "{count}");
        let refused = write_proof(good, CONTEXT, &vec![1; count]);
        assert_eq!(refused, Err(WriteRefusal::WrongCoefficientCount));
    }
    for number in [P, P + 1, u32::MAX] {
        for i in 0..4 {
            let mut polynomial = [P - 1; 4];
            polynomial[i] = number;
            assert_eq!(long.refused(good, &polynomial), 22, "{number} at {i}");
            let refused = write_proof(good, CONTEXT, &polynomial);
            assert_eq!(refused, Err(WriteRefusal::NotBelowModulus));
        }
    }
    let cut = |alter: fn(&mut Buffers)| {
        let mut buffers = long.clone();
        alter(&mut buffers);
        buffers.refused(good, &[1; 4])
    };
    assert_eq!(cut(|buffers| buffers.numbers.truncate(31)), 31);
    assert_eq!(cut(|buffers| buffers.numbers.clear()), 31);
    assert_eq!(cut(|buffers| buffers.bytes.truncate(1023)), 31);
    assert_eq!(cut(|buffers| buffers.bytes.clear()), 31);
    assert_eq!(cut(|buffers| buffers.output.truncate(259)), 32);
    assert_eq!(cut(|buffers| buffers.output.clear()), 32);
}
