//! The front end for operators, over the proved calls. `phieulakhon --help` says what it does.
#![forbid(unsafe_code)]

mod arguments;
mod explain;
mod guard;
mod head;
mod help;
mod record;
mod sha256;

use arguments::Arguments;
use head::{head, params, HEAD_OPTIONS, PARAMETER_OPTIONS};
use phieulakhon::{opening, verify_reader, write_proof, Refusal, VerifyError, FORMAT, VERSION};
use std::env;
use std::ffi::OsString;
use std::fs::File;
use std::io::{self, IsTerminal, Read, Write};
use std::process::ExitCode;

const REFUSED: u8 = 1;
const COULD_NOT: u8 = 2;

/// Why there is no answer: a sentence for the person who asked.
pub struct Failure(String);

impl<T: Into<String>> From<T> for Failure {
    fn from(sentence: T) -> Failure {
        Failure(sentence.into())
    }
}

/// Says a line on standard error. Where that is closed or full there is nobody to tell.
pub fn say(line: impl AsRef<str>) {
    let _ = writeln!(io::stderr(), "{}", line.as_ref());
}

/// Writes to standard output, all of it or a failure.
fn print(bytes: &[u8]) -> Result<(), Failure> {
    let mut out = io::stdout().lock();
    out.write_all(bytes)
        .and_then(|()| out.flush())
        .map_err(|error| format!("standard output: {error}").into())
}

fn main() -> ExitCode {
    let mut words = env::args_os().skip(1);
    let name = words.next();
    let words: Vec<OsString> = words.collect();
    let Some(name) = name.as_ref().and_then(|name| name.to_str()) else {
        say(help::USAGE);
        return COULD_NOT.into();
    };
    let Some(text) = help::of(name) else {
        say(format!("phieulakhon: there is no {name:?}"));
        say(help::USAGE);
        return COULD_NOT.into();
    };
    // Alone only: a file with that name must not make a status 0 of a verdict.
    if words == ["--help"] {
        return status(name, print(text.as_bytes()).map(|()| 0));
    }
    if name.starts_with("--") && !words.is_empty() {
        say(help::USAGE);
        return COULD_NOT.into();
    }
    let answer = match name {
        "verify" => verify(words),
        "guard" => return guard::run(words).into(),
        "write" => write(words),
        "length" => length(words),
        "lookup" => look_up(words),
        "--version" => {
            print(format!("phieulakhon {VERSION}, format {FORMAT}\n").as_bytes()).map(|()| 0)
        }
        _ => print(text.as_bytes()).map(|()| 0),
    };
    status(name, answer)
}

fn status(name: &str, answer: Result<u8, Failure>) -> ExitCode {
    answer
        .unwrap_or_else(|Failure(sentence)| {
            say(format!("phieulakhon {name}: {sentence}"));
            COULD_NOT
        })
        .into()
}

/// A refusal that is no verdict on a proof goes to standard error.
fn refused(refusal: impl ToString) -> u8 {
    say(refusal.to_string());
    REFUSED
}

fn verify(words: Vec<OsString>) -> Result<u8, Failure> {
    let arguments = Arguments::read(words, &[HEAD_OPTIONS, &[("--explain", false)]].concat())?;
    let head = head(&arguments)?;
    let [file] = arguments.words() else {
        return Err("one FILE is wanted, or - for standard input".into());
    };
    let input: Box<dyn Read> = match file.to_str() {
        Some("-") => Box::new(io::stdin().lock()),
        _ => Box::new(File::open(file).map_err(|error| format!("{file:?}: {error}"))?),
    };
    let answer = match verify_reader(input, head.params, head.context) {
        Ok(accepted) => Ok(accepted),
        Err(VerifyError::Refused(refusal)) => Err(refusal),
        Err(error) => return Err(format!("{file:?}: {error}").into()),
    };
    let line = match &answer {
        Ok(accepted) => accepted.line(),
        Err(refusal) => refusal.line(),
    };
    print(format!("{line}\n").as_bytes())?;
    if arguments.has("--explain") || io::stdout().is_terminal() {
        let lines = match &answer {
            Ok(accepted) => explain::acceptance(accepted),
            Err(refusal) => explain::refusal(*refusal, head.params),
        };
        lines.iter().for_each(say);
    }
    Ok(if answer.is_ok() { 0 } else { REFUSED })
}

fn write(words: Vec<OsString>) -> Result<u8, Failure> {
    let arguments = Arguments::read(words, &[HEAD_OPTIONS, &[("--job", false)]].concat())?;
    let head = head(&arguments)?;
    arguments.no_words()?;
    if io::stdout().is_terminal() {
        return Err("a proof is no text: send standard output to a file".into());
    }
    let text =
        io::read_to_string(io::stdin()).map_err(|error| format!("standard input: {error}"))?;
    let coefficients = text
        .split_whitespace()
        .map(|word| {
            word.parse()
                .map_err(|_| format!("{word:?} is no coefficient"))
        })
        .collect::<Result<Vec<u32>, String>>()?;
    match write_proof(head.params, head.context, &coefficients) {
        Err(refusal) => Ok(refused(refusal)),
        Ok(proof) => {
            let before = if arguments.has("--job") {
                head.bytes()
            } else {
                Vec::new()
            };
            print(&[before, proof].concat())?;
            Ok(0)
        }
    }
}

fn length(words: Vec<OsString>) -> Result<u8, Failure> {
    let arguments = Arguments::read(words, PARAMETER_OPTIONS)?;
    let params = params(&arguments)?;
    arguments.no_words()?;
    match params.file_length() {
        None => Ok(refused(Refusal::ParametersNotValid)),
        Some(length) => print(format!("{length}\n").as_bytes()).map(|()| 0),
    }
}

fn look_up(words: Vec<OsString>) -> Result<u8, Failure> {
    let asked = [PARAMETER_OPTIONS, &[("--query", true), ("--layer", true)]].concat();
    let arguments = Arguments::read(words, &asked)?;
    let params = params(&arguments)?;
    let (query, layer) = (arguments.number("--query")?, arguments.number("--layer")?);
    let [file] = arguments.words() else {
        return Err("one FILE is wanted".into());
    };
    let mut proof = Vec::new();
    // One byte more than a whole file is enough to be refused.
    let most = params.file_length().map_or(0, |length| length as u64 + 1);
    File::open(file)
        .and_then(|input| input.take(most).read_to_end(&mut proof))
        .map_err(|error| format!("{file:?}: {error}"))?;
    let part = match opening(params, &proof, query, layer) {
        Err(refusal) => return Ok(refused(refusal)),
        Ok(part) => part,
    };
    // The part is a slice of the proof itself.
    let start = part.as_ptr() as usize - proof.as_ptr() as usize;
    let mut text = format!("bytes {} to {}\n", start + 1, start + part.len());
    let (values, siblings) = part.split_at(explain::VALUES * 4);
    for value in values.chunks(4) {
        let value = u32::from_le_bytes(value.try_into().expect("four bytes"));
        text += &format!("value {value}\n");
    }
    for (height, sibling) in siblings.chunks(32).enumerate() {
        text += &format!("sibling {height} {}\n", sha256::hex(sibling));
    }
    print(text.as_bytes())?;
    Ok(0)
}
