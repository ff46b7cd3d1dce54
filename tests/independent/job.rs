//! Jobs of document 01's program and the lines it prints for them.

use std::fs;
use std::io;
use std::path::Path;

use crate::answer::{Answer, ACCEPTED, JOB_TOO_SHORT};
use crate::field;
use crate::judge::verdict;
use crate::layout::{items, Item, Kind};
use crate::params::Params;
use crate::proof::build_altered;
use crate::rng::Rng;
use crate::sha256::Digest;

/// Bytes of a job before the proof: the parameters and the context.
pub const HEADER: usize = 36;

/// The proof of a random polynomial of full size, with a random context.
pub fn random_job(params: Params, seed: u64) -> Vec<u8> {
    altered_job(params, seed, |_, _| {})
}

/// The same, but the prover alters the numbers of a layer before it commits to them.
fn altered_job(params: Params, seed: u64, alter: impl FnMut(u8, &mut [u32])) -> Vec<u8> {
    let mut rng = Rng::new(seed);
    let context = rng.digest();
    let polynomial = rng.elements(1 << (params.n - params.b));
    let proof = build_altered(params, &context, &polynomial, alter);
    job(params, &context, &proof)
}

/// A job's bytes.
pub fn job(params: Params, context: &Digest, proof: &[u8]) -> Vec<u8> {
    let mut job = vec![params.n, params.b, params.k, params.q];
    job.extend(context);
    job.extend(proof);
    job
}

/// The line the program prints for a job, without its newline.
pub fn line(job: &[u8]) -> String {
    line_of(answer(job))
}

pub fn line_of(answer: Answer) -> String {
    match answer.number {
        ACCEPTED => format!("accepted {}", answer.place),
        number => format!("refused {number} at {}", answer.place),
    }
}

pub fn answer(job: &[u8]) -> Answer {
    match parts(job) {
        Some((params, context, proof)) => verdict(params, context, proof),
        None => Answer::new(JOB_TOO_SHORT, job.len()),
    }
}

/// The parameters, the context and the proof, if the job has a whole head.
pub fn parts(job: &[u8]) -> Option<(Params, &Digest, &[u8])> {
    let (head, proof) = job.split_at_checked(HEADER)?;
    let params = Params::new(head[0], head[1], head[2], head[3]);
    let context = head[4..].try_into().expect("32 context bytes");
    Some((params, context, proof))
}

/// Jobs with names: one that is accepted, and ways to be refused.
pub fn examples() -> Vec<(&'static str, Vec<u8>)> {
    let params = Params::new(4, 2, 1, 2);
    let accepted = random_job(params, 1);
    let altered = |alter: &dyn Fn(&mut Vec<u8>)| {
        let mut job = accepted.clone();
        alter(&mut job);
        job
    };
    let of_kind = |kind: Kind| -> Vec<Item> {
        let items = items(params).into_iter();
        items.filter(|item| item.kind == kind).collect()
    };
    let counts = of_kind(Kind::Count);
    let coefficients = of_kind(Kind::Coefficient);
    let values = of_kind(Kind::Value);
    let siblings = of_kind(Kind::Sibling);

    let one_more = |layer: u8| {
        move |j: u8, numbers: &mut [u32]| {
            if j == layer {
                numbers
                    .iter_mut()
                    .for_each(|number| *number = field::add(*number, 1));
            }
        }
    };

    let no_queries = |job: &mut Vec<u8>| {
        let count = counts[3];
        job[HEADER..][count.range()].fill(0);
        job.truncate(HEADER + count.end);
    };
    vec![
        ("accepted", accepted.clone()),
        ("count_zero", altered(&no_queries)),
        (
            "flipped_value",
            altered(&|job| job[HEADER + values[1].start] ^= 1),
        ),
        (
            "flipped_sibling",
            altered(&|job| job[HEADER + siblings[4].start] ^= 0x80),
        ),
        (
            "number_not_below_p",
            altered(&|job| {
                job[HEADER..][coefficients[0].range()].copy_from_slice(&[0x01, 0x00, 0x00, 0xc0])
            }),
        ),
        // A file of two queries, asked for three.
        ("other_parameters", altered(&|job| job[3] = 3)),
        (
            "value_not_folded",
            altered_job(Params::new(4, 1, 2, 2), 1, one_more(1)),
        ),
        (
            "final_polynomial_missed",
            altered_job(params, 1, one_more(params.k)),
        ),
        ("another_context", altered(&|job| job[HEADER - 1] ^= 1)),
        (
            "one_byte_short",
            altered(&|job| job.truncate(job.len() - 1)),
        ),
        ("one_byte_more", altered(&|job| job.push(0))),
        ("head_too_short", altered(&|job| job.truncate(HEADER - 1))),
        (
            // Not even a file that says the same may ask for no query.
            "parameters_not_valid",
            altered(&|job| {
                no_queries(job);
                job[3] = 0;
                job[HEADER + 5] = 0;
            }),
        ),
    ]
}

/// Writes each example into the directory as NAME.job, and the program's whole
/// output for it as NAME.line. Returns the names.
pub fn write_examples(directory: &Path) -> io::Result<Vec<&'static str>> {
    fs::create_dir_all(directory)?;
    let mut names = Vec::new();
    for (name, job) in examples() {
        fs::write(directory.join(format!("{name}.job")), &job)?;
        fs::write(directory.join(format!("{name}.line")), line(&job) + "\n")?;
        names.push(name);
    }
    Ok(names)
}

#[cfg(test)]
mod tests {
    use super::*;

    #[test]
    fn lines_of_the_document() {
        let mut job = random_job(Params::new(4, 2, 1, 2), 1);
        assert_eq!(job.len(), HEADER + 260);
        assert_eq!(line(&job), "accepted 260");
        assert_eq!(line(&job[..HEADER]), "refused 26 at 0");
        job.push(0);
        assert_eq!(line(&job), "refused 27 at 261");
    }

    #[test]
    fn short_jobs_are_refused_before_their_parameters() {
        assert_eq!(line(&[]), "refused 12 at 0");
        assert_eq!(line(&[0; 35]), "refused 12 at 35");
        assert_eq!(line(&[0; 36]), "refused 10 at 0");
        assert_eq!(line(&[0xff; 500]), "refused 10 at 0");
    }

    #[test]
    fn jobs_repeat_with_their_seed() {
        let params = Params::new(5, 1, 2, 3);
        assert_eq!(random_job(params, 7), random_job(params, 7));
        assert_ne!(random_job(params, 7), random_job(params, 8));
    }

    #[test]
    fn examples_have_the_lines_of_their_names() {
        // Openings end at 52 + 104 and at 260.
        let expected = [
            ("accepted", "accepted 260"),
            ("count_zero", "refused 20 at 52"),
            ("flipped_value", "refused 23 at 156"),
            ("flipped_sibling", "refused 23 at 260"),
            ("number_not_below_p", "refused 22 at 46"),
            ("other_parameters", "refused 21 at 6"),
            // 12 + 64 + 8 before the openings, 104 in layer 0, two values in layer 1
            ("value_not_folded", "refused 24 at 196"),
            ("final_polynomial_missed", "refused 25 at 156"),
            ("another_context", "refused 23 at 156"),
            ("one_byte_short", "refused 26 at 259"),
            ("one_byte_more", "refused 27 at 261"),
            ("head_too_short", "refused 12 at 35"),
            ("parameters_not_valid", "refused 10 at 0"),
        ];
        let examples = examples();
        assert_eq!(examples.len(), expected.len());
        for ((name, job), (expected_name, expected_line)) in examples.iter().zip(expected) {
            assert_eq!(*name, expected_name);
            assert_eq!(line(job), expected_line, "{name}");
        }
    }
}
