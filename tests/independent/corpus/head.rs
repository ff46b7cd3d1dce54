//! Jobs that are too short, parameters at their bounds, and the file's first
//! section and counts.

use super::subject::{Proof, SMALL, SMALLEST};
use super::Corpus;
use crate::job::{self, HEADER};
use crate::layout::Kind;
use crate::params::Params;

impl Corpus {
    pub fn short_jobs(&mut self) {
        let job = Proof::random(SMALLEST, 1).job();
        for length in [0, 1, 3, 4, 5, 35] {
            self.add(
                12,
                format!("job_of_{length}"),
                "a job too short for its head",
                job[..length].to_vec(),
            );
        }
        self.add(
            12,
            "short_job_not_valid",
            "12 goes before 10",
            vec![0; HEADER - 1],
        );
    }

    /// Both sides of each bound of the parameters. Where a proof would be
    /// long the valid side is an empty one, which is judged: 26 at 0.
    pub fn bounds(&mut self) {
        for (n, b, k, q, reason) in [
            (2, 1, 1, 1, "the smallest n"),
            (20, 8, 6, 1, "the largest n"),
            (20, 2, 12, 64, "the largest n, k and q"),
            (8, 1, 1, 1, "the smallest b and k, n - b - k = 6"),
            (9, 8, 1, 1, "the largest b, b + k = n"),
            (13, 1, 12, 1, "the largest k, b + k = n"),
            (2, 1, 1, 64, "the largest q"),
            (20, 8, 12, 64, "every parameter at its largest"),
        ] {
            let params = Params::new(n, b, k, q);
            let name = format!("valid_{n}_{b}_{k}_{q}");
            let job = job::job(params, &[9; 32], &[]);
            self.add(26, name, format!("valid: {reason}"), job);
        }
        for (n, b, k, q, reason) in [
            (1, 1, 1, 1, "n below 2"),
            (0, 1, 1, 1, "n zero"),
            (21, 8, 12, 1, "n above 20"),
            (255, 8, 12, 1, "n the largest byte"),
            (2, 0, 1, 1, "b zero"),
            (12, 9, 1, 1, "b above 8"),
            (
                20,
                255,
                12,
                1,
                "b the largest byte, so that b + k wraps in a byte",
            ),
            (2, 1, 0, 1, "k zero"),
            (20, 1, 13, 1, "k above 12"),
            (
                20,
                1,
                255,
                1,
                "k the largest byte, so that b + k wraps in a byte",
            ),
            (2, 1, 1, 0, "q zero"),
            (2, 1, 1, 65, "q above 64"),
            (2, 1, 1, 255, "q the largest byte"),
            (2, 1, 2, 1, "b + k above n"),
            (2, 2, 1, 1, "b + k above n"),
            (9, 1, 1, 1, "n - b - k above 6"),
            (20, 8, 5, 1, "n - b - k above 6, document 01's example"),
            (20, 1, 1, 64, "n - b - k far above 6"),
            (0, 0, 0, 0, "all zero"),
            (255, 255, 255, 255, "all the largest byte"),
        ] {
            let params = Params::new(n, b, k, q);
            let name = format!("not_valid_{n}_{b}_{k}_{q}");
            self.add(10, name, reason, job::job(params, &[9; 32], &[]));
        }
        let mut asks_nothing = Proof::random(SMALLEST, 2);
        asks_nothing.params.q = 0;
        let counts = asks_nothing.items(Kind::Count);
        asks_nothing.bytes[5] = 0;
        asks_nothing.bytes[counts[3].start] = 0;
        asks_nothing.bytes.truncate(counts[3].end);
        self.add(
            10,
            "no_queries_agreed",
            "job and file agree on no queries, and the file has none",
            asks_nothing.job(),
        );
        let mut too_many = Proof::random(SMALLEST, 3);
        too_many.params.q = 65;
        too_many.bytes[5] = 65;
        self.add(
            10,
            "65_queries_agreed",
            "job and file agree on 65 queries; whatever follows is not read",
            too_many.job(),
        );
    }

    pub fn counts(&mut self) {
        let proof = Proof::random(Params::new(6, 1, 2, 3), 10);
        let counts = proof.items(Kind::Count);
        for (section, &item) in counts.iter().enumerate() {
            let right = u16::from_le_bytes(proof.bytes[item.range()].try_into().expect("2 bytes"));
            let number = section + 1;
            for (name, count) in [
                ("zero", 0),
                ("too_small", right - 1),
                ("too_large", right + 1),
                ("swapped", right.swap_bytes()),
                ("high_byte", right + 256),
                ("largest", u16::MAX),
            ] {
                self.add(
                    20,
                    format!("count_{number}_{name}"),
                    format!("section {number}'s count is {count} for {right}"),
                    proof
                        .changed(|bytes| bytes[item.range()].copy_from_slice(&count.to_le_bytes())),
                );
            }
            let end = counts.get(section + 1).map(|next| next.start);
            self.add(
                20,
                format!("section_{number}_empty"),
                match end {
                    Some(_) => format!("section {number} has count zero and nothing in it"),
                    None => "the fraud: a good header, count zero and no query".to_string(),
                },
                proof.changed(|bytes| {
                    bytes[item.range()].fill(0);
                    bytes.drain(item.end..end.unwrap_or(bytes.len()));
                }),
            );
        }
        self.add(
            20,
            "counts_high_byte_first",
            "every count high byte first: the first one decides",
            proof.changed(|bytes| counts.iter().for_each(|item| bytes[item.range()].reverse())),
        );
    }

    pub fn parameters(&mut self) {
        let proof = Proof::random(SMALL, 11);
        for (offset, what) in ["n", "b", "k", "q"].into_iter().enumerate() {
            let place = proof.items(Kind::Parameters)[0].start + offset;
            let right = proof.bytes[place];
            for (name, byte) in [
                ("zero", 0),
                ("less", right - 1),
                ("more", right + 1),
                ("high_bit", right | 0x80),
            ] {
                // b = 1 makes zero and less the same file.
                if (name, right) == ("less", 1) {
                    continue;
                }
                self.add(
                    21,
                    format!("parameter_{what}_{name}"),
                    format!("the file's {what} is {byte} for {right}"),
                    proof.changed(|bytes| bytes[place] = byte),
                );
            }
        }
        let mut other = Proof::random(Params { q: 3, ..SMALL }, 12);
        other.params = SMALL;
        self.add(
            21,
            "proof_of_other_parameters",
            "a good proof for one query more than the job's",
            other.job(),
        );
    }
}
