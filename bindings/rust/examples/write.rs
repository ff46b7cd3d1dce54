//! Writes the job of a polynomial's proof, for test rigs:
//!
//!     write N B K Q [CONTEXT] < coefficients > job
//!
//! N, B, K and Q are the parameters; CONTEXT is 64 hexadecimal digits, all zero if left out.
//! Standard input has exactly 2^(N−B) coefficients, lowest power first, as decimal numbers below
//! 3221225473 with white space between. The job is what the program `verify` reads; the proof alone
//! is `tail -c +37 job`. A refusal goes to standard error, with status 1 and no job.
//!
//!     echo 2 3 0 1 | write 4 2 1 2 | verify

use phieulakhon::{write_proof, Context, Params};
use std::env;
use std::error::Error;
use std::io::{self, Write};
use std::process::ExitCode;

const USAGE: &str = "usage: write N B K Q [CONTEXT] < coefficients > job";

fn job() -> Result<Vec<u8>, Box<dyn Error>> {
    let arguments: Vec<String> = env::args().skip(1).collect();
    let [n, b, k, q, rest @ ..] = &arguments[..] else {
        return Err(USAGE.into());
    };
    let [n, b, k, q] = [n.parse()?, b.parse()?, k.parse()?, q.parse()?];
    let context = match rest {
        [] => Context([0; 32]),
        [digits] => digits.parse()?,
        _ => return Err(USAGE.into()),
    };
    let coefficients = io::read_to_string(io::stdin())?
        .split_whitespace()
        .map(str::parse)
        .collect::<Result<Vec<u32>, _>>()?;
    let proof = write_proof(Params::new(n, b, k, q), context, &coefficients)?;
    Ok([&[n, b, k, q], &context.0[..], &proof].concat())
}

fn main() -> ExitCode {
    let mut out = io::stdout().lock();
    match job().and_then(|job| Ok(out.write_all(&job).and_then(|()| out.flush())?)) {
        Ok(()) => ExitCode::SUCCESS,
        Err(error) => {
            eprintln!("{error}");
            ExitCode::FAILURE
        }
    }
}
