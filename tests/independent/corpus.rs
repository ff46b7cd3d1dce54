//! The corpus: jobs with a name and a reason each, for every number at every
//! place it can be given, and for what must be accepted.

mod equal_challenge;
mod head;
mod openings;
mod subject;
mod whole;

use std::fs::{self, File};
use std::io::{self, BufWriter, Write};
use std::path::Path;

use crate::answer::Counts;
use crate::job;

pub use equal_challenge::find as find_equal_challenge;

pub struct Case {
    pub name: String,
    pub reason: String,
    /// The number that the reason speaks of.
    pub number: u8,
    pub job: Vec<u8>,
}

/// Writes DIRECTORY/data/jobs and DIRECTORY/stdout, the jobs and their lines,
/// DIRECTORY/cases.txt, what each is, and DIRECTORY/corpus.json, all of it for
/// programs that know nothing of this repository.
pub fn write(directory: &Path) -> io::Result<Counts> {
    let data = directory.join("data");
    fs::create_dir_all(&data)?;
    let cases = cases();
    let mut text = String::new();
    let mut objects = Vec::new();
    for (index, case) in cases.iter().enumerate() {
        let answer = job::answer(&case.job);
        assert_eq!(answer.number, case.number, "{}", case.name);
        let line = job::line_of(answer);
        text += &format!("{} {} ({line}): {}\n", index + 1, case.name, case.reason);
        objects.push(object(case, &line));
    }
    fs::write(directory.join("cases.txt"), text)?;
    fs::write(directory.join("corpus.json"), json(&objects))?;
    let jobs = cases.into_iter().map(|case| case.job);
    write_jobs(jobs, &data.join("jobs"), &directory.join("stdout"))
}

/// The number of the file format that the cases are of: 1, and one more for each
/// request that changed what a file's bytes are or mean.
const FORMAT: u32 = 2;
const ABOUT: &str = "FRI proofs and the line that a verifier has to print for each. head: n, b, k, q and 32 bytes of context; proof: the file that is judged for them. docs/FORMAT.md has the rules, docs/REFUSALS.md the numbers.";

fn json(objects: &[String]) -> String {
    let about = quoted(ABOUT);
    let cases = objects.join(",\n");
    format!(
        "{{\n  \"about\": {about},\n  \"format\": {FORMAT},\n  \"cases\": [\n{cases}\n  ]\n}}\n"
    )
}

/// A case as a line of JSON. Where a job is too short for a head, all of it is
/// the head.
fn object(case: &Case, line: &str) -> String {
    let (head, proof) = case.job.split_at(case.job.len().min(job::HEADER));
    let fields = [
        ("name", quoted(&case.name)),
        ("reason", quoted(&case.reason)),
        ("head", quoted(&hex(head))),
        ("proof", quoted(&hex(proof))),
        ("line", quoted(line)),
    ];
    let fields = fields.map(|(name, value)| format!("\"{name}\": {value}"));
    format!("    {{{}}}", fields.join(", "))
}

fn quoted(text: &str) -> String {
    let escaped: String = text
        .chars()
        .map(|c| match c {
            '"' | '\\' => format!("\\{c}"),
            c if c < ' ' => format!("\\u{:04x}", c as u32),
            c => c.to_string(),
        })
        .collect();
    format!("\"{escaped}\"")
}

fn hex(bytes: &[u8]) -> String {
    bytes.iter().map(|byte| format!("{byte:02x}")).collect()
}

/// Writes jobs, each after its length as 4 bytes, low byte first, and the line
/// of each.
pub fn write_jobs(
    jobs: impl Iterator<Item = Vec<u8>>,
    jobs_path: &Path,
    lines_path: &Path,
) -> io::Result<Counts> {
    let mut jobs_file = BufWriter::new(File::create(jobs_path)?);
    let mut lines_file = BufWriter::new(File::create(lines_path)?);
    let mut counts = Counts::default();
    for job in jobs {
        let answer = job::answer(&job);
        jobs_file.write_all(&(job.len() as u32).to_le_bytes())?;
        jobs_file.write_all(&job)?;
        writeln!(lines_file, "{}", job::line_of(answer))?;
        counts.add(answer.number);
    }
    jobs_file.flush()?;
    lines_file.flush()?;
    Ok(counts)
}

pub fn cases() -> Vec<Case> {
    let mut corpus = Corpus { cases: Vec::new() };
    corpus.accepted();
    corpus.short_jobs();
    corpus.bounds();
    corpus.counts();
    corpus.parameters();
    corpus.numbers();
    corpus.paths();
    corpus.folds();
    corpus.final_polynomials();
    corpus.precedence();
    corpus.lengths();
    corpus.contexts();
    corpus.largest();
    corpus.cases
}

struct Corpus {
    cases: Vec<Case>,
}

impl Corpus {
    fn add(&mut self, number: u8, name: impl ToString, reason: impl ToString, job: Vec<u8>) {
        self.cases.push(Case {
            name: name.to_string(),
            reason: reason.to_string(),
            number,
            job,
        });
    }
}

#[cfg(test)]
mod tests {
    use super::*;
    use crate::answer::Answer;
    use crate::judge::{all_faults, Reader};
    use std::sync::OnceLock;

    /// All cases but the largest, which take long to judge.
    fn small_cases() -> impl Iterator<Item = &'static Case> {
        static CASES: OnceLock<Vec<Case>> = OnceLock::new();
        let cases = CASES.get_or_init(cases).iter();
        cases.filter(|case| case.job.len() < 100_000)
    }

    #[test]
    fn cases_get_the_number_of_their_reason_from_both_judges() {
        for case in small_cases() {
            let answer = job::answer(&case.job);
            assert_eq!(answer.number, case.number, "{}", case.name);
            let Some((params, context, proof)) = job::parts(&case.job) else {
                continue;
            };
            let (opening, mut reader) = Reader::open(params, context);
            if opening.number != 0 {
                assert_eq!(answer, opening, "{}", case.name);
                continue;
            }
            reader.piece(proof);
            assert_eq!(answer, reader.end(), "{}", case.name);
        }
    }

    #[test]
    fn every_number_of_a_job_is_there_and_no_name_or_job_twice() {
        let cases: Vec<&Case> = small_cases().collect();
        let mut numbers = Counts::default();
        cases.iter().for_each(|case| numbers.add(case.number));
        assert!(numbers
            .of_number
            .into_keys()
            .eq([1, 10, 12, 20, 21, 22, 23, 24, 25, 26, 27]));
        for (index, case) in cases.iter().enumerate() {
            for other in &cases[..index] {
                assert_ne!(case.name, other.name);
                assert!(case.job != other.job, "{} {}", case.name, other.name);
            }
        }
    }

    #[test]
    fn two_faults_meet_at_one_byte() {
        for (name, other) in [
            ("not_below_p_before_fold_first", 24),
            ("not_below_p_before_fold_second", 24),
            ("folded_value_not_reduced", 24),
            ("path_before_final", 25),
        ] {
            let case = small_cases().find(|case| case.name == name).unwrap();
            let Answer { place, .. } = job::answer(&case.job);
            let (params, context, proof) = job::parts(&case.job).unwrap();
            let number = other;
            assert!(all_faults(params, context, proof).contains(&Answer { number, place }));
        }
    }
}
