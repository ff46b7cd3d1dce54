//! The plain reader of document 01, and an ordinary verifier of whole files.
//!
//! The two are written in different ways and share no judging code: `judge`
//! lists every fault and takes the earliest, `verdict` walks the file once and
//! stops at the first fault. The tests hold them against each other.

use crate::answer::{
    Answer, ACCEPTED, CHAIN_MISSES_FINAL, CLOSED, COUNT_DIFFERS, NUMBER_NOT_BELOW_P, OPEN,
    PARAMETERS_DIFFER, PARAMETERS_NOT_VALID, PATH_MISSES_ROOT, TOO_LONG, TOO_SHORT,
    VALUE_NOT_FOLDED,
};
use crate::domain::{leaf_of, point, Coset};
use crate::field::P;
use crate::fold::{eval, next};
use crate::merkle::{climb, leaf};
use crate::params::Params;
use crate::sha256::Digest;
use crate::transcript::Transcript;

#[derive(Clone, Copy, PartialEq, Eq, Debug)]
pub enum Judgement {
    NoFault,
    Refused(Answer),
}

/// The refusal of the earliest deciding byte, for valid parameters.
pub fn judge(params: Params, context: &Digest, bytes: &[u8]) -> Judgement {
    // At one byte 22 goes before 24 and 23 before 25: the smaller number.
    all_faults(params, context, bytes)
        .into_iter()
        .filter(|fault| fault.place as usize <= bytes.len())
        .min_by_key(|fault| (fault.place, fault.number))
        .map_or(Judgement::NoFault, Judgement::Refused)
}

/// Every fault of the table, in no particular order. Missing bytes are read as
/// zeros: a fault never depends on bytes after its place, so the faults placed
/// within the bytes are the same however the file goes on.
pub fn all_faults(params: Params, context: &Digest, bytes: &[u8]) -> Vec<Answer> {
    let Params { n, b, k, q } = params;
    let length = params.file_length();
    let mut file = bytes.to_vec();
    file.resize(length.max(bytes.len()), 0);
    let count_at = |at: usize| u16::from_le_bytes([file[at], file[at + 1]]) as usize;
    let number_at =
        |at: usize| u32::from_le_bytes([file[at], file[at + 1], file[at + 2], file[at + 3]]);
    let digest_at = |at: usize| -> Digest { file[at..at + 32].try_into().expect("32 bytes") };

    let mut faults = Vec::new();
    let mut fault_if = |wrong: bool, number: u8, place: usize| {
        if wrong {
            faults.push(Answer::new(number, place));
        }
    };

    let final_count = params.final_count();
    let roots = 8;
    let coefficients = roots + 32 * k as usize + 2;
    let openings = coefficients + 4 * final_count + 2;

    fault_if(count_at(0) != 4, COUNT_DIFFERS, 2);
    fault_if(file[2..6] != [n, b, k, q], PARAMETERS_DIFFER, 6);
    fault_if(count_at(roots - 2) != k as usize, COUNT_DIFFERS, roots);
    fault_if(
        count_at(coefficients - 2) != final_count,
        COUNT_DIFFERS,
        coefficients,
    );
    fault_if(
        count_at(openings - 2) != q as usize,
        COUNT_DIFFERS,
        openings,
    );
    fault_if(bytes.len() > length, TOO_LONG, length + 1);

    let mut transcript = Transcript::start(params, context);
    let mut challenges = Vec::new();
    for layer in 0..k as usize {
        transcript.absorb_root(&digest_at(roots + 32 * layer));
        challenges.push(transcript.challenge());
    }

    let mut final_polynomial = Vec::new();
    for i in 0..final_count {
        let coefficient = number_at(coefficients + 4 * i);
        fault_if(
            coefficient >= P,
            NUMBER_NOT_BELOW_P,
            coefficients + 4 * i + 4,
        );
        final_polynomial.push(coefficient);
    }
    transcript.absorb_final(&final_polynomial);

    for query in 0..q {
        let mut index = transcript.draw(params, query);
        let mut folded = None;
        let mut end = 0;
        for layer in 0..k {
            let start = params.opening_offset(query, layer);
            let values_end = start + 8;
            end = values_end + 32 * params.height(layer);
            let (m, is_second) = leaf_of(n, layer, index);
            let (a, c) = (number_at(start), number_at(start + 4));

            fault_if(a >= P, NUMBER_NOT_BELOW_P, start + 4);
            fault_if(c >= P, NUMBER_NOT_BELOW_P, values_end);
            if let Some(value) = folded {
                let opened = if is_second { c } else { a };
                fault_if(opened != value, VALUE_NOT_FOLDED, values_end);
            }
            let top = climb(&leaf(a, c), m as usize, &file[values_end..end]);
            fault_if(
                top != digest_at(roots + 32 * layer as usize),
                PATH_MISSES_ROOT,
                end,
            );

            folded = Some(next(point(n, layer, m), challenges[layer as usize], a, c));
            index = m;
        }
        let final_value = eval(&final_polynomial, point(n, k, index));
        fault_if(folded != Some(final_value), CHAIN_MISSES_FINAL, end);
    }
    faults
}

/// The plain reader: it holds the bytes joined so far and whether it is
/// closed, and judges all the bytes anew at each call. Only a refusal is not
/// looked for again: the earliest byte decides, and no byte joined on later is
/// earlier than those that were judged.
pub struct Reader {
    params: Params,
    context: Digest,
    joined: Vec<u8>,
    closed: bool,
    judgement: Judgement,
}

impl Reader {
    pub fn open(params: Params, context: &Digest) -> (Answer, Reader) {
        let closed = !params.valid();
        let number = if closed { PARAMETERS_NOT_VALID } else { OPEN };
        let reader = Reader {
            params,
            context: *context,
            joined: Vec::new(),
            closed,
            judgement: Judgement::NoFault,
        };
        (Answer::new(number, 0), reader)
    }

    pub fn piece(&mut self, bytes: &[u8]) -> Answer {
        if self.closed {
            return Answer::new(CLOSED, 0);
        }
        self.joined.extend_from_slice(bytes);
        match self.judge_joined() {
            Judgement::Refused(refusal) => refusal,
            Judgement::NoFault => Answer::new(OPEN, self.joined.len()),
        }
    }

    pub fn end(&mut self) -> Answer {
        if self.closed {
            return Answer::new(CLOSED, 0);
        }
        self.closed = true;
        let length = self.params.file_length();
        match self.judge_joined() {
            Judgement::Refused(refusal) => refusal,
            Judgement::NoFault if self.joined.len() == length => Answer::new(ACCEPTED, length),
            Judgement::NoFault => Answer::new(TOO_SHORT, self.joined.len()),
        }
    }

    fn judge_joined(&mut self) -> Judgement {
        if self.judgement == Judgement::NoFault {
            self.judgement = judge(self.params, &self.context, &self.joined);
        }
        self.judgement
    }
}

/// The answer for a whole file: the opening's refusal or the end call's answer.
pub fn verdict(params: Params, context: &Digest, bytes: &[u8]) -> Answer {
    if !params.valid() {
        return Answer::new(PARAMETERS_NOT_VALID, 0);
    }
    match verify(params, context, bytes) {
        Ok(()) => Answer::new(ACCEPTED, params.file_length()),
        Err(refusal) => refusal,
    }
}

/// A committed layer, as the openings need it.
struct Committed<'a> {
    root: &'a Digest,
    beta: u32,
    coset: Coset,
}

/// Reads the sections in order; the first fault met is the earliest, because
/// each check is made as soon as its deciding byte has been read.
fn verify(params: Params, context: &Digest, bytes: &[u8]) -> Result<(), Answer> {
    let Params { n, b, k, q } = params;
    let mut input = Input { bytes, position: 0 };

    input.count(4)?;
    if input.take(4)? != [n, b, k, q] {
        return Err(input.refusal(PARAMETERS_DIFFER));
    }

    input.count(k as usize)?;
    let mut transcript = Transcript::start(params, context);
    let mut layers = Vec::with_capacity(k as usize);
    for layer in 0..k {
        let root = input.take(32)?.try_into().expect("32 bytes");
        transcript.absorb_root(root);
        let beta = transcript.challenge();
        layers.push(Committed {
            root,
            beta,
            coset: Coset::of_layer(n, layer),
        });
    }

    let final_count = params.final_count();
    input.count(final_count)?;
    let mut final_polynomial = Vec::with_capacity(final_count);
    for _ in 0..final_count {
        final_polynomial.push(input.number()?);
    }
    transcript.absorb_final(&final_polynomial);
    let final_coset = Coset::of_layer(n, k);

    input.count(q as usize)?;
    for query in 0..q {
        let mut index = transcript.draw(params, query);
        let mut folded = None;
        for (j, layer) in layers.iter().enumerate() {
            let (m, is_second) = leaf_of(n, j as u8, index);
            let a = input.number()?;
            let c = input.number()?;
            let opened = if is_second { c } else { a };
            if folded.is_some_and(|value| value != opened) {
                return Err(input.refusal(VALUE_NOT_FOLDED));
            }
            let siblings = input.take(32 * params.height(j as u8))?;
            if climb(&leaf(a, c), m as usize, siblings) != *layer.root {
                return Err(input.refusal(PATH_MISSES_ROOT));
            }
            folded = Some(next(layer.coset.point(m), layer.beta, a, c));
            index = m;
        }
        if folded != Some(eval(&final_polynomial, final_coset.point(index))) {
            return Err(input.refusal(CHAIN_MISSES_FINAL));
        }
    }

    if input.position < bytes.len() {
        return Err(Answer::new(TOO_LONG, input.position + 1));
    }
    Ok(())
}

/// A file and how much of it has been read.
struct Input<'a> {
    bytes: &'a [u8],
    position: usize,
}

impl<'a> Input<'a> {
    /// A refusal decided by the last byte read.
    fn refusal(&self, number: u8) -> Answer {
        Answer::new(number, self.position)
    }

    fn take(&mut self, count: usize) -> Result<&'a [u8], Answer> {
        let taken = self.bytes[self.position..]
            .get(..count)
            .ok_or_else(|| Answer::new(TOO_SHORT, self.bytes.len()))?;
        self.position += count;
        Ok(taken)
    }

    fn count(&mut self, expected: usize) -> Result<(), Answer> {
        let bytes = self.take(2)?;
        if u16::from_le_bytes([bytes[0], bytes[1]]) as usize != expected {
            return Err(self.refusal(COUNT_DIFFERS));
        }
        Ok(())
    }

    fn number(&mut self) -> Result<u32, Answer> {
        let bytes = self.take(4)?;
        let number = u32::from_le_bytes([bytes[0], bytes[1], bytes[2], bytes[3]]);
        if number >= P {
            return Err(self.refusal(NUMBER_NOT_BELOW_P));
        }
        Ok(number)
    }
}

#[cfg(test)]
mod tests {
    use super::*;
    use crate::proof::{build, Forger, Layer};
    use crate::rng::Rng;

    fn answer(number: u8, place: usize) -> Answer {
        Answer::new(number, place)
    }

    fn random_params(rng: &mut Rng, largest_n: usize) -> Params {
        loop {
            let params = Params::new(
                2 + rng.below(largest_n - 1) as u8,
                1 + rng.below(8) as u8,
                1 + rng.below(12) as u8,
                1 + rng.below(8) as u8,
            );
            if params.valid() {
                return params;
            }
        }
    }

    fn random_proof(rng: &mut Rng, params: Params) -> (Digest, Vec<u8>) {
        let context = rng.digest();
        let polynomial = rng.elements(1 << (params.n - params.b));
        let bytes = build(params, &context, &polynomial);
        (context, bytes)
    }

    /// The end call's answer of a plain reader fed the whole file, after
    /// checking that the verifier says the same.
    fn both(params: Params, context: &Digest, bytes: &[u8]) -> Answer {
        let (opening, mut reader) = Reader::open(params, context);
        assert_eq!(opening, answer(0, 0));
        reader.piece(bytes);
        let end = reader.end();
        assert_eq!(verdict(params, context, bytes), end, "{params:?}");
        end
    }

    /// A proof whose layers hold random values, so that every path is right
    /// and no fold is.
    fn unfolded_proof(rng: &mut Rng, params: Params) -> (Digest, Vec<u8>) {
        let context = rng.digest();
        let layers: Vec<Layer> = (0..params.k)
            .map(|j| Layer::new(rng.elements(1 << (params.n - j))))
            .collect();
        let coefficients = rng.elements(params.final_count());
        // Assembling once with any transcript shows the roots to absorb.
        let mut transcript = Transcript::start(params, &context);
        let forger = Forger::default();
        let draft = forger.assemble(params, transcript.clone(), &layers, &coefficients);
        for root in draft[8..].chunks_exact(32).take(params.k as usize) {
            transcript.absorb_root(root.try_into().unwrap());
        }
        (
            context,
            forger.assemble(params, transcript, &layers, &coefficients),
        )
    }

    #[test]
    fn built_proofs_are_accepted() {
        let mut rng = Rng::new(10);
        for _ in 0..120 {
            let params = random_params(&mut rng, 11);
            let (context, bytes) = random_proof(&mut rng, params);
            assert_eq!(bytes.len(), params.file_length());
            assert_eq!(both(params, &context, &bytes), answer(1, bytes.len()));
        }
    }

    #[test]
    fn short_polynomials_are_accepted() {
        let mut rng = Rng::new(11);
        for _ in 0..40 {
            let params = random_params(&mut rng, 9);
            let context = rng.digest();
            let count = rng.below(1 + (1 << (params.n - params.b)));
            let bytes = build(params, &context, &rng.elements(count));
            assert_eq!(both(params, &context, &bytes), answer(1, bytes.len()));
        }
    }

    #[test]
    fn the_longest_walk_is_accepted() {
        let mut rng = Rng::new(12);
        let params = Params::new(20, 2, 12, 64);
        let (context, bytes) = random_proof(&mut rng, params);
        assert_eq!(both(params, &context, &bytes), answer(1, 338572));
    }

    #[test]
    fn every_flipped_bit_is_refused() {
        let mut rng = Rng::new(13);
        let params = Params::new(2, 1, 1, 1);
        let (context, proof) = random_proof(&mut rng, params);
        assert_eq!(both(params, &context, &proof), answer(1, 88));
        for place in 0..88 {
            for bit in 0..8 {
                let mut bytes = proof.clone();
                bytes[place] ^= 1 << bit;
                let refusal = both(params, &context, &bytes);
                assert!(
                    (20..=25).contains(&refusal.number),
                    "{place} {bit} {refusal:?}"
                );
                assert!(refusal.place as usize > place);
            }
        }
        for bit in 0..256 {
            let mut other = context;
            other[bit / 8] ^= 1 << (bit % 8);
            assert!(both(params, &other, &proof).number >= 20);
        }
    }

    #[test]
    fn parameters_that_are_not_valid_close_the_reader() {
        for (n, b, k, q) in [(20, 8, 5, 1), (4, 2, 1, 0), (4, 2, 1, 65), (0, 0, 0, 0)] {
            let params = Params::new(n, b, k, q);
            let (opening, mut reader) = Reader::open(params, &[0; 32]);
            assert_eq!(opening, answer(10, 0));
            assert_eq!(reader.piece(&[]), answer(11, 0));
            assert_eq!(reader.end(), answer(11, 0));
            assert_eq!(reader.piece(&[4, 0]), answer(11, 0));
            assert_eq!(verdict(params, &[0; 32], &[4, 0]), answer(10, 0));
        }
        assert_eq!(
            Reader::open(Params::new(20, 8, 6, 1), &[0; 32]).0,
            answer(0, 0)
        );
    }

    #[test]
    fn examples_of_the_document() {
        let mut rng = Rng::new(14);
        let params = Params::new(4, 2, 1, 2);
        let (context, mut bytes) = random_proof(&mut rng, params);
        assert_eq!(both(params, &context, &[]), answer(26, 0));
        assert_eq!(both(params, &context, &bytes), answer(1, 260));
        bytes.push(0);
        assert_eq!(both(params, &context, &bytes), answer(27, 261));
        bytes.push(0);
        assert_eq!(both(params, &context, &bytes), answer(27, 261));

        // The first final coefficient: p − 1 is a number, p is not.
        let coefficient = 8 + 32 + 2;
        bytes.truncate(coefficient);
        bytes.extend([0x00, 0x00, 0x00, 0xc0]);
        assert_eq!(both(params, &context, &bytes), answer(26, coefficient + 4));
        bytes[coefficient] = 0x01;
        assert_eq!(both(params, &context, &bytes), answer(22, coefficient + 4));
    }

    #[test]
    fn counts_and_parameters_are_judged_at_their_last_byte() {
        let mut rng = Rng::new(15);
        let params = Params::new(6, 1, 2, 3);
        let (context, proof) = random_proof(&mut rng, params);
        let coefficients = 8 + 32 * 2 + 2;
        let openings = coefficients + 4 * 8 + 2;
        let counts = [2, 8, coefficients, openings];
        for end in counts {
            for change in [end - 2, end - 1] {
                let mut bytes = proof.clone();
                bytes[change] ^= 1;
                assert_eq!(both(params, &context, &bytes), answer(20, end));
                assert_eq!(both(params, &context, &bytes[..end]), answer(20, end));
                assert_eq!(
                    both(params, &context, &bytes[..end - 1]),
                    answer(26, end - 1)
                );
            }
            // A count of zero checks no less.
            let mut bytes = proof.clone();
            bytes[end - 2..end].fill(0);
            assert_eq!(both(params, &context, &bytes), answer(20, end));
        }
        for change in 2..6 {
            let mut bytes = proof.clone();
            bytes[change] ^= 1;
            assert_eq!(both(params, &context, &bytes), answer(21, 6));
            assert_eq!(both(params, &context, &bytes[..5]), answer(26, 5));
        }
    }

    #[test]
    fn openings_are_judged_at_their_places() {
        let mut rng = Rng::new(16);
        let params = Params::new(7, 1, 3, 4);
        let (context, proof) = random_proof(&mut rng, params);
        for query in 0..params.q {
            for layer in 0..params.k {
                let start = params.opening_offset(query, layer);
                let values_end = start + 8;
                let end = start + params.opening_length(layer);

                let mut bytes = proof.clone();
                bytes[start..start + 4].copy_from_slice(&P.to_le_bytes());
                assert_eq!(both(params, &context, &bytes), answer(22, start + 4));

                // Where the second value is the folded one, 22 and 24 meet.
                let mut bytes = proof.clone();
                bytes[start + 4..values_end].fill(0xff);
                assert_eq!(both(params, &context, &bytes), answer(22, values_end));

                let mut numbers = Vec::new();
                for value in [start, start + 4] {
                    let mut bytes = proof.clone();
                    bytes[value] ^= 1;
                    let refusal = both(params, &context, &bytes);
                    let place = if refusal.number == 24 {
                        values_end
                    } else {
                        end
                    };
                    assert_eq!(refusal.place as usize, place);
                    numbers.push(refusal.number);
                }
                numbers.sort();
                // One of the two values is the folded one, save in layer 0.
                assert_eq!(numbers, if layer == 0 { [23, 23] } else { [23, 24] });

                for sibling in [values_end, end - 1] {
                    let mut bytes = proof.clone();
                    bytes[sibling] ^= 1;
                    assert_eq!(both(params, &context, &bytes), answer(23, end));
                    let cut = &bytes[..end - 1];
                    assert_eq!(both(params, &context, cut), answer(26, end - 1));
                }
            }
        }
    }

    #[test]
    fn folds_are_judged_where_paths_are_right() {
        let mut rng = Rng::new(17);
        for k in 1..5 {
            let params = Params::new(8, 2, k, 2);
            let (context, mut bytes) = unfolded_proof(&mut rng, params);
            if k > 1 {
                let place = params.opening_offset(0, 1) + 8;
                assert_eq!(both(params, &context, &bytes), answer(24, place));
                assert_eq!(both(params, &context, &bytes[..place]), answer(24, place));
                assert_eq!(
                    both(params, &context, &bytes[..place - 1]),
                    answer(26, place - 1)
                );
                continue;
            }
            let place = params.opening_offset(1, 0);
            assert_eq!(both(params, &context, &bytes), answer(25, place));
            assert_eq!(both(params, &context, &bytes[..place]), answer(25, place));
            assert_eq!(
                both(params, &context, &bytes[..place - 1]),
                answer(26, place - 1)
            );
            // A path that misses its root goes before, at the same byte.
            bytes[place - 1] ^= 1;
            assert_eq!(both(params, &context, &bytes), answer(23, place));
        }
    }

    #[test]
    fn damaged_and_cut_files_get_one_answer() {
        let mut rng = Rng::new(18);
        for _ in 0..60 {
            let params = random_params(&mut rng, 8);
            let (context, proof) = if rng.below(4) == 0 {
                unfolded_proof(&mut rng, params)
            } else {
                random_proof(&mut rng, params)
            };
            for _ in 0..12 {
                let mut bytes = proof.clone();
                for _ in 0..rng.below(4) {
                    let place = rng.below(bytes.len());
                    bytes[place] = rng.word() as u8;
                }
                match rng.below(3) {
                    0 => bytes.truncate(rng.below(bytes.len() + 1)),
                    1 => bytes.extend(rng.digest()),
                    _ => {}
                }
                both(params, &context, &bytes);
            }
        }
    }

    #[test]
    fn pieces_are_answered_by_their_bytes_alone() {
        let mut rng = Rng::new(19);
        for round in 0..60 {
            let params = random_params(&mut rng, 6);
            let (context, mut bytes) = random_proof(&mut rng, params);
            bytes.extend([0; 3]);
            if round % 3 > 0 {
                let place = rng.below(bytes.len());
                bytes[place] ^= 1 << rng.below(8);
            }
            // The answers a verifier of whole files leads to.
            let expected = |fed: usize| match verdict(params, &context, &bytes[..fed]) {
                Answer {
                    number: 1 | 26,
                    place,
                } => answer(0, place as usize),
                refusal => refusal,
            };
            let (_, mut reader) = Reader::open(params, &context);
            let mut fed = 0;
            while fed < bytes.len() {
                let count = rng.below(40).min(bytes.len() - fed);
                fed += count;
                assert_eq!(reader.piece(&bytes[fed - count..fed]), expected(fed));
            }
            assert_eq!(reader.piece(&[]), expected(fed));
            assert_eq!(reader.end(), verdict(params, &context, &bytes));
            for _ in 0..2 {
                assert_eq!(reader.end(), answer(11, 0));
                assert_eq!(reader.piece(&bytes), answer(11, 0));
            }
        }
    }

    /// A file that was good before request 2026-01 has the right queries and
    /// paths still: its folds alone fail.
    #[test]
    fn narrow_challenges_fail_in_folds_alone() {
        let mut rng = Rng::new(21);
        let forger = Forger {
            narrow_challenges: true,
            ..Forger::default()
        };
        for _ in 0..300 {
            let params = random_params(&mut rng, 9);
            let context = rng.digest();
            let polynomial = rng.elements(1 << (params.n - params.b));
            let bytes = forger.build(params, &context, &polynomial, |_, _| {});
            let faults = all_faults(params, &context, &bytes);
            assert!(faults.iter().all(|fault| matches!(fault.number, 24 | 25)));
            assert!(matches!(both(params, &context, &bytes).number, 24 | 25));
        }
    }

    #[test]
    fn a_refusal_stays_the_same() {
        let mut rng = Rng::new(20);
        let params = Params::new(5, 1, 2, 2);
        let (context, mut bytes) = random_proof(&mut rng, params);
        bytes[6] ^= 1;
        let (_, mut reader) = Reader::open(params, &context);
        assert_eq!(reader.piece(&bytes[..7]), answer(0, 7));
        for piece in [&bytes[7..8], &bytes[8..], &[], &[9; 100]] {
            assert_eq!(reader.piece(piece), answer(20, 8));
        }
        assert_eq!(reader.end(), answer(20, 8));
        assert_eq!(reader.end(), answer(11, 0));
    }
}
