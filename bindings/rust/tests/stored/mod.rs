//! The jobs that the repository stores, each with the line that it must get.

use std::fs;
use std::path::{Path, PathBuf};

pub struct Stored {
    pub name: String,
    pub job: Vec<u8>,
    pub line: String,
}

pub fn repository() -> PathBuf {
    Path::new(env!("CARGO_MANIFEST_DIR")).join("../..")
}

/// The jobs of examples/.
pub fn examples() -> Vec<Stored> {
    let mut found = Vec::new();
    for entry in fs::read_dir(repository().join("examples")).expect("examples/") {
        let path = entry.expect("examples/").path();
        if path.extension().is_some_and(|e| e == "job") {
            let line = fs::read_to_string(path.with_extension("line")).expect("its line");
            found.push(Stored {
                name: path.display().to_string(),
                job: fs::read(&path).expect("a job"),
                line: line.trim_end().to_string(),
            });
        }
    }
    assert!(found.len() >= 10, "{} examples", found.len());
    found
}

/// The corpus. crates/corpus/data/jobs has each job after its length as 4 bytes,
/// the low one first; crates/corpus/stdout has a line for each.
pub fn corpus() -> Vec<Stored> {
    let folder = repository().join("crates/corpus");
    let jobs = fs::read(folder.join("data/jobs")).expect("the corpus's jobs");
    let lines = fs::read_to_string(folder.join("stdout")).expect("the corpus's lines");
    let mut rest = &jobs[..];
    let mut found = Vec::new();
    for (i, line) in lines.lines().enumerate() {
        let (length, more) = rest.split_first_chunk().expect("a length");
        let (job, more) = more.split_at(u32::from_le_bytes(*length) as usize);
        found.push(Stored {
            name: format!("job {i} of the corpus"),
            job: job.to_vec(),
            line: line.to_string(),
        });
        rest = more;
    }
    assert!(rest.is_empty(), "jobs with no line");
    found
}
