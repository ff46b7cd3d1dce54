//! What a proof is judged for: parameters and context, from options or from a file of 36 bytes.

use crate::arguments::{Arguments, Known};
use crate::Failure;
use phieulakhon::{Context, Params};
use std::fs::File;
use std::io::Read;

pub const PARAMETER_OPTIONS: &[Known] =
    &[("--n", true), ("--b", true), ("--k", true), ("--q", true)];
pub const HEAD_OPTIONS: &[Known] = &[
    ("--n", true),
    ("--b", true),
    ("--k", true),
    ("--q", true),
    ("--context", true),
    ("--head", true),
];

const LENGTH: usize = 36;

pub struct Head {
    pub params: Params,
    pub context: Context,
}

impl Head {
    /// As they stand before a proof in a job.
    pub fn bytes(&self) -> Vec<u8> {
        let Params { n, b, k, q, .. } = self.params;
        [&[n, b, k, q], &self.context.0[..]].concat()
    }
}

pub fn params(arguments: &Arguments) -> Result<Params, Failure> {
    let number = |name| arguments.number(name);
    Ok(Params::new(
        number("--n")?,
        number("--b")?,
        number("--k")?,
        number("--q")?,
    ))
}

pub fn head(arguments: &Arguments) -> Result<Head, Failure> {
    let Some(file) = arguments.value("--head") else {
        let params = params(arguments)?;
        let digits = arguments.wanted("--context")?.to_str().unwrap_or_default();
        let context = digits
            .parse()
            .map_err(|error| format!("--context: {error}"))?;
        return Ok(Head { params, context });
    };
    for (name, _) in HEAD_OPTIONS.iter().filter(|(name, _)| *name != "--head") {
        if arguments.has(name) {
            return Err(format!("{name} and --head are both given").into());
        }
    }
    if file == "-" {
        return Err("--head wants a file; one called - is ./-".into());
    }
    // Opened and read once, so that a pipe will do, and with room for all of it, so that one read takes a file as it
    // is at one time.
    let mut bytes = Vec::with_capacity(2 * LENGTH);
    File::open(file)
        .and_then(|input| input.take(LENGTH as u64 + 1).read_to_end(&mut bytes))
        .map_err(|error| format!("--head {file:?}: {error}"))?;
    match <[u8; LENGTH]>::try_from(&bytes[..]) {
        Ok([n, b, k, q, context @ ..]) => Ok(Head {
            params: Params::new(n, b, k, q),
            context: Context(context),
        }),
        Err(_) if bytes.len() > LENGTH => {
            Err(format!("--head {file:?}: more than {LENGTH} bytes").into())
        }
        Err(_) => Err(format!("--head {file:?}: {} bytes, not {LENGTH}", bytes.len()).into()),
    }
}
