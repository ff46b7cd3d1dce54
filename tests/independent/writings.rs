//! What the writer is given: inputs that fit, and faults to add to them.

use std::fmt;
use std::ops::RangeInclusive;

use crate::answer::{
    Answer, COEFFICIENT_COUNT_DIFFERS, NUMBER_NOT_BELOW_P, OUTPUT_TOO_SHORT, PARAMETERS_NOT_VALID,
    SCRATCH_TOO_SHORT, WRITTEN,
};
use crate::field::P;
use crate::files;
use crate::params::Params;
use crate::random_scripts::any_params_not_valid;
use crate::rng::Rng;
use crate::sha256::Digest;
use crate::writer::{bytes_needed, coefficient_count, numbers_needed};

/// Elements on either side of a lent buffer. An odd number, so that bytes are
/// lent at odd addresses.
const MARGIN: usize = 17;

/// A buffer to lend within a longer one, all of it filled with junk: what is
/// written before or after the lent part is noticed too.
#[derive(Clone)]
pub struct Lent<T> {
    whole: Vec<T>,
}

impl<T: Copy + PartialEq> Lent<T> {
    pub fn len(&self) -> usize {
        self.whole.len() - 2 * MARGIN
    }

    pub fn part(&mut self) -> &mut [T] {
        let end = self.whole.len() - MARGIN;
        &mut self.whole[MARGIN..end]
    }

    /// Where the two first differ, and what they hold there. The lent part
    /// starts at 0.
    fn first_difference(&self, other: &Lent<T>) -> Option<(isize, T, T)> {
        if self.whole == other.whole {
            return None;
        }
        let pairs = self.whole.iter().zip(&other.whole);
        let (at, (&one, &another)) = pairs.enumerate().find(|(_, (one, other))| one != other)?;
        Some((at as isize - MARGIN as isize, one, another))
    }
}

fn junk_numbers(rng: &mut Rng, length: usize) -> Lent<u32> {
    let whole = (0..length + 2 * MARGIN).map(|_| rng.word()).collect();
    Lent { whole }
}

/// Eight bytes at a time: some of these buffers are long.
fn junk_bytes(rng: &mut Rng, length: usize) -> Lent<u8> {
    let mut whole = vec![0; length + 2 * MARGIN];
    for chunk in whole.chunks_mut(8) {
        chunk.copy_from_slice(&rng.next().to_le_bytes()[..chunk.len()]);
    }
    Lent { whole }
}

pub type Writer = fn(Params, &Digest, &[u32], &mut [u32], &mut [u8], &mut [u8]) -> Answer;

/// One call of the writer.
#[derive(Clone)]
pub struct Writing {
    pub params: Params,
    pub context: Digest,
    pub coefficients: Vec<u32>,
    pub numbers: Lent<u32>,
    pub bytes: Lent<u8>,
    pub output: Lent<u8>,
}

/// The buffers are shown by their lengths.
impl fmt::Debug for Writing {
    fn fmt(&self, f: &mut fmt::Formatter) -> fmt::Result {
        f.debug_struct("Writing")
            .field("params", &self.params)
            .field("context", &self.context)
            .field("coefficients", &self.coefficients)
            .field("numbers", &self.numbers.len())
            .field("bytes", &self.bytes.len())
            .field("output", &self.output.len())
            .finish()
    }
}

impl Writing {
    /// Everything fits, and the buffers are just long enough.
    pub fn exact(rng: &mut Rng, params: Params, coefficients: Vec<u32>) -> Writing {
        let context = match rng.below(16) {
            0 => [0; 32],
            1 => [255; 32],
            _ => rng.digest(),
        };
        Writing {
            params,
            context,
            coefficients,
            numbers: junk_numbers(rng, numbers_needed(params)),
            bytes: junk_bytes(rng, bytes_needed(params)),
            output: junk_bytes(rng, params.file_length()),
        }
    }

    /// Everything fits, and each buffer is just long enough or longer.
    pub fn fitting(rng: &mut Rng, params: Params, coefficients: Vec<u32>) -> Writing {
        let mut writing = Writing::exact(rng, params, coefficients);
        let longer = |rng: &mut Rng, length: usize| match rng.below(8) {
            0 => length + 1,
            1 | 2 => length + rng.below(200),
            3 => length + rng.below(length),
            _ => length,
        };
        let numbers = longer(rng, writing.numbers.len());
        let bytes = longer(rng, writing.bytes.len());
        let output = longer(rng, writing.output.len());
        writing.numbers = junk_numbers(rng, numbers);
        writing.bytes = junk_bytes(rng, bytes);
        writing.output = junk_bytes(rng, output);
        writing
    }

    /// Calls the writer and leaves the buffers as it does.
    pub fn write(&mut self, writer: Writer) -> Answer {
        writer(
            self.params,
            &self.context,
            &self.coefficients,
            self.numbers.part(),
            self.bytes.part(),
            self.output.part(),
        )
    }

    /// Each buffer's first difference, if there is one.
    pub fn differences(&self, other: &Writing) -> [Option<(isize, u32, u32)>; 3] {
        let wide = |(at, one, other): (isize, u8, u8)| (at, one.into(), other.into());
        [
            self.numbers.first_difference(&other.numbers),
            self.bytes.first_difference(&other.bytes).map(wide),
            self.output.first_difference(&other.output).map(wide),
        ]
    }
}

/// Every n of the range with every b that it can have.
pub fn all_n_and_b(n: RangeInclusive<u8>) -> impl Iterator<Item = (u8, u8)> {
    n.flat_map(|n| (1..n.min(9)).map(move |b| (n, b)))
}

/// Valid parameters with this n and b, which leave room for them.
pub fn params_with(rng: &mut Rng, n: u8, b: u8) -> Params {
    loop {
        let (k, q) = (rng.between(1, 12) as u8, rng.between(1, 64) as u8);
        let params = Params::new(n, b, k, q);
        if params.valid() {
            return params;
        }
    }
}

/// So many coefficients that are not 0, and then zeros.
pub fn polynomial_of_length(rng: &mut Rng, params: Params, length: usize) -> Vec<u32> {
    let mut coefficients: Vec<u32> = (0..length).map(|_| rng.element().max(1)).collect();
    coefficients.resize(coefficient_count(params), 0);
    coefficients
}

/// Any polynomial, with all its coefficients.
pub fn any_polynomial(rng: &mut Rng, params: Params) -> Vec<u32> {
    let mut coefficients = files::polynomial(rng, params, 0);
    coefficients.resize(coefficient_count(params), 0);
    coefficients
}

/// What makes a fitting call one that is refused.
pub type Fault = fn(&mut Rng, &mut Writing);

/// The faults that each test finds, in the order of the tests. All but those
/// of the parameters go by the parameters, so those come last.
pub const FAULTS: [(u8, &[Fault]); 6] = [
    (
        PARAMETERS_NOT_VALID,
        &[one_parameter_not_valid, parameters_not_valid],
    ),
    (
        COEFFICIENT_COUNT_DIFFERS,
        &[
            one_coefficient_less,
            one_coefficient_more,
            no_coefficients,
            another_count,
        ],
    ),
    (
        NUMBER_NOT_BELOW_P,
        &[first_not_below_p, last_not_below_p, any_not_below_p],
    ),
    (
        SCRATCH_TOO_SHORT,
        &[one_number_short, no_numbers, fewer_numbers],
    ),
    (SCRATCH_TOO_SHORT, &[one_byte_short, no_bytes, fewer_bytes]),
    (
        OUTPUT_TOO_SHORT,
        &[one_output_byte_short, no_output, shorter_output],
    ),
];

/// A set of faults has a bit for each test.
pub const SETS_OF_FAULTS: usize = 1 << FAULTS.len();

/// Adds a fault for each test in the set. Gives the number that the writing
/// then gets.
pub fn add_faults(rng: &mut Rng, writing: &mut Writing, set: usize) -> u8 {
    let chosen = |which: &usize| set >> which & 1 == 1;
    for which in (1..FAULTS.len()).chain([0]).filter(chosen) {
        let fault = rng.pick(FAULTS[which].1);
        fault(rng, writing);
    }
    match (0..FAULTS.len()).find(chosen) {
        Some(first) => FAULTS[first].0,
        None => WRITTEN,
    }
}

/// Any parameters, with short buffers or none.
pub fn short_writing(rng: &mut Rng, params: Params) -> Writing {
    let mut below = |bound: usize| rng.below(bound) * rng.below(2);
    let [count, numbers, bytes, output] = [below(20), below(80), below(400), below(400)];
    Writing {
        params,
        context: rng.digest(),
        coefficients: (0..count).map(|_| rng.word()).collect(),
        numbers: junk_numbers(rng, numbers),
        bytes: junk_bytes(rng, bytes),
        output: junk_bytes(rng, output),
    }
}

fn one_parameter_not_valid(rng: &mut Rng, writing: &mut Writing) {
    while writing.params.valid() {
        let mut params = writing.params;
        let field = match rng.below(4) {
            0 => &mut params.n,
            1 => &mut params.b,
            2 => &mut params.k,
            _ => &mut params.q,
        };
        let other = rng.below(256) as u8;
        *field = rng.pick(&[0, *field - 1, *field + 1, 9, 13, 21, 65, 255, other]);
        if !params.valid() {
            writing.params = params;
        }
    }
}

fn parameters_not_valid(rng: &mut Rng, writing: &mut Writing) {
    writing.params = any_params_not_valid(rng);
}

fn one_coefficient_less(_: &mut Rng, writing: &mut Writing) {
    writing.coefficients.pop();
}

fn one_coefficient_more(rng: &mut Rng, writing: &mut Writing) {
    writing.coefficients.push(rng.element());
}

fn no_coefficients(_: &mut Rng, writing: &mut Writing) {
    writing.coefficients.clear();
}

fn another_count(rng: &mut Rng, writing: &mut Writing) {
    let right = writing.coefficients.len();
    let domain = 1 << writing.params.n;
    let mut count = right;
    while count == right {
        let other = rng.below(3 * right);
        count = rng.pick(&[1, right / 2, 2 * right, domain, other]);
    }
    writing.coefficients.resize(count, 1);
}

fn first_not_below_p(rng: &mut Rng, writing: &mut Writing) {
    set_not_below_p(rng, writing.coefficients.first_mut());
}

fn last_not_below_p(rng: &mut Rng, writing: &mut Writing) {
    set_not_below_p(rng, writing.coefficients.last_mut());
}

fn any_not_below_p(rng: &mut Rng, writing: &mut Writing) {
    let place = rng.below(writing.coefficients.len().max(1));
    set_not_below_p(rng, writing.coefficients.get_mut(place));
}

/// Where the count is wrong too, there may be no coefficient.
fn set_not_below_p(rng: &mut Rng, coefficient: Option<&mut u32>) {
    if let Some(coefficient) = coefficient {
        let other = rng.between(P as usize, u32::MAX as usize) as u32;
        *coefficient = rng.pick(&[P, P, u32::MAX, other]);
    }
}

fn one_number_short(rng: &mut Rng, writing: &mut Writing) {
    writing.numbers = junk_numbers(rng, numbers_needed(writing.params) - 1);
}

fn no_numbers(rng: &mut Rng, writing: &mut Writing) {
    writing.numbers = junk_numbers(rng, 0);
}

fn fewer_numbers(rng: &mut Rng, writing: &mut Writing) {
    let length = rng.below(numbers_needed(writing.params));
    writing.numbers = junk_numbers(rng, length);
}

fn one_byte_short(rng: &mut Rng, writing: &mut Writing) {
    writing.bytes = junk_bytes(rng, bytes_needed(writing.params) - 1);
}

fn no_bytes(rng: &mut Rng, writing: &mut Writing) {
    writing.bytes = junk_bytes(rng, 0);
}

fn fewer_bytes(rng: &mut Rng, writing: &mut Writing) {
    let length = rng.below(bytes_needed(writing.params));
    writing.bytes = junk_bytes(rng, length);
}

fn one_output_byte_short(rng: &mut Rng, writing: &mut Writing) {
    writing.output = junk_bytes(rng, writing.params.file_length() - 1);
}

fn no_output(rng: &mut Rng, writing: &mut Writing) {
    writing.output = junk_bytes(rng, 0);
}

fn shorter_output(rng: &mut Rng, writing: &mut Writing) {
    let length = rng.below(writing.params.file_length());
    writing.output = junk_bytes(rng, length);
}

#[cfg(test)]
mod tests {
    use super::*;
    use crate::writer::write;

    fn some_writing(rng: &mut Rng, exact: bool) -> Writing {
        let n = rng.between(2, 6);
        let params = files::valid_params(rng, n, 8);
        let coefficients = any_polynomial(rng, params);
        match exact {
            true => Writing::exact(rng, params, coefficients),
            false => Writing::fitting(rng, params, coefficients),
        }
    }

    #[test]
    fn every_set_of_faults_gets_the_number_of_its_first() {
        let mut rng = Rng::new(51);
        for set in (0..SETS_OF_FAULTS).cycle().take(20 * 64) {
            let mut writing = some_writing(&mut rng, false);
            let number = add_faults(&mut rng, &mut writing, set);
            let before = writing.clone();
            let place = match number {
                WRITTEN => writing.params.file_length(),
                _ => 0,
            };
            assert_eq!(writing.write(write), Answer::new(number, place));
            let touched = writing.differences(&before) != [None; 3];
            assert_eq!(touched, number == WRITTEN);
        }
    }

    #[test]
    fn every_fault_alone_gets_its_number() {
        let mut rng = Rng::new(52);
        for (number, faults) in FAULTS {
            for fault in faults.iter().cycle().take(200) {
                let mut writing = some_writing(&mut rng, true);
                fault(&mut rng, &mut writing);
                assert_eq!(writing.write(write), Answer::new(number, 0));
            }
        }
    }

    #[test]
    fn what_is_written_outside_is_a_difference() {
        let mut rng = Rng::new(53);
        let writing = some_writing(&mut rng, true);
        let mut other = writing.clone();
        assert_eq!(writing.differences(&other), [None; 3]);
        let end = other.numbers.len();
        other.numbers.whole[MARGIN + end] ^= 1;
        other.bytes.whole[MARGIN - 1] ^= 1;
        other.output.part()[3] ^= 1;
        let places = writing
            .differences(&other)
            .map(|difference| difference.unwrap().0);
        assert_eq!(places, [end as isize, -1, 3]);
    }

    #[test]
    fn lengths_of_polynomials_are_true() {
        let mut rng = Rng::new(54);
        for length in 0..=16 {
            let coefficients = polynomial_of_length(&mut rng, Params::new(6, 2, 2, 1), length);
            assert_eq!(coefficients.len(), 16);
            for (place, coefficient) in coefficients.into_iter().enumerate() {
                assert_eq!(coefficient != 0, place < length);
            }
        }
    }

    #[test]
    fn every_n_and_b_is_met() {
        let mut rng = Rng::new(55);
        let pairs: Vec<(u8, u8)> = all_n_and_b(2..=14).collect();
        for n in 0..=14 {
            for b in 0..=10 {
                let possible = (1..=12).any(|k| Params::new(n, b, k, 1).valid());
                assert_eq!(pairs.contains(&(n, b)), possible, "{n} {b}");
            }
        }
        for (n, b) in pairs {
            let params = params_with(&mut rng, n, b);
            assert!(params.valid());
            assert_eq!((params.n, params.b), (n, b));
        }
    }
}
