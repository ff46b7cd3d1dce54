//! Judges a job from standard input (n, b, k, q, 32 context bytes, then the proof), and prints the
//! line that the program `verify` prints.

use phieulakhon::{verify_reader, Context, Params, VerifyError};
use std::error::Error;
use std::io::{self, Read};

fn main() -> Result<(), Box<dyn Error>> {
    let mut input = io::stdin().lock();
    let mut head = Vec::new();
    input.by_ref().take(36).read_to_end(&mut head)?;
    let Ok([n, b, k, q, context @ ..]) = <[u8; 36]>::try_from(&head[..]) else {
        println!("refused 12 at {}", head.len());
        return Ok(());
    };
    match verify_reader(input, Params::new(n, b, k, q), Context(context)) {
        Ok(accepted) => println!("{}", accepted.line()),
        Err(VerifyError::Refused(refusal)) => println!("{}", refusal.line()),
        Err(error) => return Err(error.into()),
    }
    Ok(())
}
