//! What is accepted, files of every length, other contexts, and the largest.

use super::equal_challenge;
use super::subject::{Proof, LARGEST, SMALL, SMALLEST};
use super::Corpus;
use crate::field::P;
use crate::layout::Kind;
use crate::params::Params;

impl Corpus {
    pub fn accepted(&mut self) {
        let document = Params::new(4, 2, 1, 2);
        self.add(
            1,
            "document_4_2_1_2",
            "document 01's example of 260 bytes",
            Proof::random(document, 0).job(),
        );
        let mut all_sizes = |what: &str, reason: &str, sizes: Vec<Params>| {
            for params in sizes {
                let Params { n, b, k, q } = params;
                let name = format!("{what}_{n}_{b}_{k}_{q}");
                let seed = self.cases.len() as u64;
                self.add(1, name, reason, Proof::random(params, seed).job());
            }
        };
        all_sizes(
            "folds",
            "every number of folds, down to one final coefficient",
            (1..=12).map(|k| Params::new(k + 1, 1, k, 1)).collect(),
        );
        all_sizes(
            "blowup",
            "every blowup",
            (1..=8).map(|b| Params::new(b + 2, b, 1, 2)).collect(),
        );
        all_sizes(
            "coefficients",
            "every number of final coefficients, 1 to 64",
            (0..=6).map(|rest| Params::new(rest + 2, 1, 1, 1)).collect(),
        );
        all_sizes(
            "domain",
            "every size of domain that the folds above leave out",
            (14..=20).map(|n| Params::new(n, 7, n - 13, 1)).collect(),
        );
        all_sizes(
            "queries",
            "the most queries on two and four leaves: they repeat",
            vec![Params::new(2, 1, 1, 64), Params::new(3, 1, 2, 64)],
        );

        let full_size = 1 << (SMALL.n - SMALL.b);
        let mut highest_power = vec![0; full_size];
        highest_power[full_size - 1] = 1;
        for (name, reason, polynomial) in [
            ("zero", "the zero polynomial: every number is 0", vec![]),
            (
                "constant",
                "a constant: every layer is the same number",
                vec![5],
            ),
            (
                "largest_constant",
                "a constant p - 1: 00 00 00 c0 everywhere is a number",
                vec![P - 1],
            ),
            (
                "highest_power",
                "only the highest power allowed",
                highest_power,
            ),
            (
                "largest_coefficients",
                "every coefficient p - 1",
                vec![P - 1; full_size],
            ),
        ] {
            let job = Proof::of(SMALL, &polynomial).job();
            self.add(1, format!("{name}_polynomial"), reason, job);
        }
        self.add(
            1,
            "challenge_equal_to_point",
            "layer 0's challenge is the point of an opened leaf; an interpolation would divide by zero",
            equal_challenge::proof().job(),
        );
    }

    pub fn lengths(&mut self) {
        let smallest = Proof::random(SMALLEST, 23);
        for length in 0..smallest.bytes.len() {
            self.add(
                26,
                format!("smallest_cut_at_{length}"),
                format!("the first {length} of 88 bytes"),
                smallest.changed(|bytes| bytes.truncate(length)),
            );
        }
        self.add(1, "smallest_whole", "all 88 bytes", smallest.job());
        let proof = Proof::random(SMALL, 24);
        for (index, item) in proof.items(Kind::Count).into_iter().enumerate() {
            self.add(
                26,
                format!("cut_after_count_{}", index + 1),
                "a good file that ends with a section's count",
                proof.changed(|bytes| bytes.truncate(item.end)),
            );
        }
        let second_query = SMALL.opening_offset(1, 0);
        self.add(
            26,
            "cut_after_first_query",
            "a good file that ends after its first query",
            proof.changed(|bytes| bytes.truncate(second_query)),
        );
        for (name, more) in [
            ("zero_byte", vec![0]),
            ("byte_of_ones", vec![0xff]),
            ("second_proof", proof.bytes.clone()),
            ("chunk", vec![0; 4096]),
            ("10000_bytes", vec![0x5a; 10_000]),
        ] {
            self.add(
                27,
                format!("more_{name}"),
                format!("a good proof and {} bytes more", more.len()),
                proof.changed(|bytes| bytes.extend(more)),
            );
        }
        self.add(
            27,
            "smallest_and_one",
            "the smallest proof and one byte more",
            smallest.changed(|bytes| bytes.push(0)),
        );
    }

    pub fn contexts(&mut self) {
        let proof = Proof::random(SMALL, 25);
        for place in [0, 15, 31] {
            let mut other = proof.clone();
            other.context[place] ^= 1;
            self.add(
                23,
                format!("context_bit_{place}"),
                format!("another batch's proof: context byte {place} differs in one bit"),
                other.job(),
            );
        }
        let mut without = proof.clone();
        without.context = [0; 32];
        self.add(
            23,
            "context_of_zeros",
            "another batch's proof: the context is all zero",
            without.job(),
        );
        let mut constant = Proof::of(SMALL, &[6]);
        constant.context[0] ^= 1;
        self.add(
            1,
            "constant_in_another_context",
            "a constant's proof has the same bytes in every context, so that this is the proof built for it",
            constant.job(),
        );
        // Parts of two good proofs in one file.
        let other = Proof::random(SMALL, 26);
        for (name, start) in [
            ("roots", 8),
            ("coefficients", proof.items(Kind::Count)[2].end),
            ("openings", SMALL.opening_offset(0, 0)),
            ("second_query", SMALL.opening_offset(1, 0)),
        ] {
            self.add(
                23,
                format!("spliced_{name}"),
                format!("two good proofs in one file, the second from byte {start} on"),
                proof.changed(|bytes| bytes[start..].copy_from_slice(&other.bytes[start..])),
            );
        }
    }

    pub fn largest(&mut self) {
        let proof = Proof::random(LARGEST, 27);
        let length = proof.bytes.len();
        self.add(
            1,
            "largest",
            "the longest proof there is, 338,572 bytes",
            proof.job(),
        );
        self.add(
            26,
            "largest_cut",
            "the longest proof without its last byte",
            proof.changed(|bytes| bytes.truncate(length - 1)),
        );
        self.add(
            23,
            "largest_last_bit",
            "the longest proof with its last bit flipped",
            proof.with_bit_flipped(length - 1, 7),
        );
    }
}
