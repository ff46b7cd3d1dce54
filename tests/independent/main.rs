//! An independent program for the rules of document 01: it builds and judges
//! fold proofs, compares a linked library with itself call by call, and another
//! program's answers to lists of calls with its own.

// The comparisons need the library and are built with `--cfg linked` only;
// without them, as in the fuzzer, some parts serve the tests alone.
#![cfg_attr(not(linked), allow(dead_code))]

mod answer;
mod check;
#[cfg(linked)]
mod compare;
mod corpus;
mod domain;
#[cfg(linked)]
mod ffi;
mod field;
mod files;
mod fold;
#[cfg(fuzz)]
#[path = "../hostile/fuzz/harness.rs"]
mod harness;
mod hostile;
mod job;
mod judge;
mod layout;
mod merkle;
mod params;
mod proof;
mod random_scripts;
mod rng;
mod script;
mod sha256;
mod transcript;
mod writer;
mod writings;

use std::env;
use std::fs;
use std::io::{self, BufWriter, Read, Write};
use std::path::Path;
use std::process::ExitCode;

use params::Params;
use random_scripts::RandomScripts;

const USAGE: &str = "usage:
  independent leaves [ROUNDS]
  independent parts [ROUNDS]
  independent writer [ROUNDS]
  independent build N B K Q SEED > JOB
  independent verdict < JOB
  independent jobs DIR
  independent corpus DIR
  independent find-equal-challenge START
  independent scripts SEED COUNT > SCRIPTS
  independent check-scripts SCRIPTS ANSWERS
  independent hostile SEED COUNT
  independent hostile-job SEED > JOB
  independent hostile-jobs SEED COUNT DIR";

fn main() -> ExitCode {
    let arguments: Vec<String> = env::args().skip(1).collect();
    let arguments: Vec<&str> = arguments.iter().map(String::as_str).collect();
    match run(&arguments) {
        Ok(status) => status,
        Err(message) => {
            eprintln!("{message}");
            ExitCode::from(2)
        }
    }
}

fn run(arguments: &[&str]) -> Result<ExitCode, String> {
    match arguments {
        ["leaves" | "parts" | "writer"]
        | ["leaves" | "parts" | "writer", _]
        | ["hostile", _, _] => compare(arguments)?,
        ["build", n, b, k, q, seed] => {
            let params = Params::new(number(n)?, number(b)?, number(k)?, number(q)?);
            if !params.valid() {
                return Err("parameters not valid".to_string());
            }
            io::stdout()
                .write_all(&job::random_job(params, number(seed)?))
                .map_err(|e| e.to_string())?;
        }
        ["verdict"] => {
            let mut job = Vec::new();
            io::stdin()
                .read_to_end(&mut job)
                .map_err(|e| e.to_string())?;
            println!("{}", job::line(&job));
        }
        ["jobs", directory] => {
            let names = job::write_examples(Path::new(directory))
                .map_err(|e| format!("{directory}: {e}"))?;
            println!("{} jobs: {}", names.len(), names.join(", "));
        }
        ["corpus", directory] => {
            let counts =
                corpus::write(Path::new(directory)).map_err(|e| format!("{directory}: {e}"))?;
            println!("{counts}");
        }
        ["find-equal-challenge", start] => {
            println!("{}", corpus::find_equal_challenge(number(start)?));
        }
        ["scripts", seed, count] => {
            write_scripts(number(seed)?, number(count)?).map_err(|e| e.to_string())?
        }
        ["check-scripts", scripts, answers] => return check_scripts(scripts, answers),
        ["hostile-job", seed] => io::stdout()
            .write_all(&hostile::job(number(seed)?))
            .map_err(|e| e.to_string())?,
        ["hostile-jobs", seed, count, directory] => {
            let jobs = hostile::job_seeds(number(seed)?, number(count)?).map(hostile::job);
            let path = Path::new(directory);
            let counts = corpus::write_jobs(jobs, &path.join("jobs"), &path.join("lines"))
                .map_err(|e| format!("{directory}: {e}"))?;
            println!("{counts}");
        }
        _ => return Err(USAGE.to_string()),
    }
    Ok(ExitCode::SUCCESS)
}

fn number<T: std::str::FromStr>(text: &str) -> Result<T, String> {
    text.parse()
        .map_err(|_| format!("not a fitting number: {text}"))
}

#[cfg(linked)]
fn compare(arguments: &[&str]) -> Result<(), String> {
    match arguments {
        ["leaves"] => compare::leaves(compare::LEAVES_ROUNDS),
        ["leaves", rounds] => compare::leaves(number(rounds)?),
        ["parts"] => compare::parts(compare::PARTS_ROUNDS),
        ["parts", rounds] => compare::parts(number(rounds)?),
        ["writer"] => println!("{}", compare::writer(compare::WRITER_ROUNDS)),
        ["writer", rounds] => println!("{}", compare::writer(number(rounds)?)),
        ["hostile", seed, count] => {
            println!("{}", compare::hostile(number(seed)?, number(count)?))
        }
        _ => return Err(USAGE.to_string()),
    }
    Ok(())
}

#[cfg(not(linked))]
fn compare(_: &[&str]) -> Result<(), String> {
    Err("built without the library to compare with; see README.md".to_string())
}

fn write_scripts(seed: u64, count: usize) -> io::Result<()> {
    let mut out = BufWriter::new(io::stdout().lock());
    for script in RandomScripts::new(seed).take(count) {
        out.write_all(&script.to_bytes())?;
    }
    out.flush()
}

fn check_scripts(scripts_path: &str, answers_path: &str) -> Result<ExitCode, String> {
    let read = |path: &str| fs::read(path).map_err(|e| format!("{path}: {e}"));
    let scripts = script::read_scripts(&read(scripts_path)?)
        .map_err(|message| format!("{scripts_path}: {message}"))?;
    // What is not text is no right answer either.
    let answers = read(answers_path)?;
    match check::check(&scripts, &String::from_utf8_lossy(&answers)) {
        Ok(agreement) => {
            println!("{agreement}");
            Ok(ExitCode::SUCCESS)
        }
        Err(disagreement) => {
            println!("{disagreement}");
            Ok(ExitCode::from(1))
        }
    }
}
