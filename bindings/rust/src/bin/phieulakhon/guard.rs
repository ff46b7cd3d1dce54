//! `guard`: runs a command if, and only if, a proof is accepted and that is on record.

use crate::arguments::Arguments;
use crate::head::{head, Head, HEAD_OPTIONS};
use crate::record::{Folder, Kept};
use crate::{explain, say, Failure};
use phieulakhon::{verdict, Refusal};
use std::ffi::{OsStr, OsString};
use std::fs::{Metadata, OpenOptions};
use std::io::Read;
use std::os::unix::fs::{MetadataExt, OpenOptionsExt};
use std::os::unix::process::ExitStatusExt;
use std::path::Path;
use std::process::Command;

// Of the platform that the library is for.
const O_NONBLOCK: i32 = 0o4000;

/// Each way in which the command is not run has a status of its own below 10.
pub const STATUSES: [(u8, &str); 9] = [
    (0, "the command ran and ended with 0"),
    (1, "kept: the proof is refused"),
    (
        2,
        "kept: the command line is wrong, or the head is not 36 bytes",
    ),
    (3, "kept: the proof is no file that can be read"),
    (4, "kept: the record could not be written"),
    (5, "kept: the proof changed while it was read"),
    (6, "kept: the command could not be started"),
    (10, "the command ran and ended with another status than 0"),
    (
        11,
        "the command ran and was ended by a signal, or how it ended is not known",
    ),
];

/// Why the command was not run.
enum Stay {
    Refused(Refusal, Head),
    Usage(String),
    Unreadable(String),
    NoRecord(String),
    Changed(String),
    NotStarted(String),
}

impl From<Failure> for Stay {
    fn from(Failure(sentence): Failure) -> Stay {
        Stay::Usage(sentence)
    }
}

/// What is asked for.
struct Asked {
    head: Head,
    folder: OsString,
    proof: OsString,
    command: Vec<OsString>,
}

pub fn run(words: Vec<OsString>) -> u8 {
    let (status, sentence, lines) = match guarded(words) {
        Ok(status) => return status,
        Err(Stay::Refused(refusal, head)) => {
            (1, refusal.line(), explain::refusal(refusal, head.params))
        }
        Err(Stay::Usage(sentence)) => (2, sentence, vec!["try: phieulakhon guard --help".into()]),
        Err(Stay::Unreadable(sentence)) => (3, sentence, vec![]),
        Err(Stay::NoRecord(sentence)) => (4, sentence, vec![]),
        Err(Stay::Changed(sentence)) => (5, sentence, vec![]),
        Err(Stay::NotStarted(sentence)) => (6, sentence, vec![]),
    };
    say(format!("kept: {sentence}"));
    lines.iter().for_each(say);
    status
}

fn guarded(words: Vec<OsString>) -> Result<u8, Stay> {
    let Asked {
        head,
        folder,
        proof,
        command,
    } = asked(words)?;
    let Some(length) = head.params.file_length() else {
        return Err(Stay::Refused(Refusal::ParametersNotValid, head));
    };
    let folder = Folder::open(Path::new(&folder)).map_err(Stay::NoRecord)?;
    let read = read_once(&proof, length)?;
    let mut snapshot = folder.snapshot(&read, &head).map_err(Stay::NoRecord)?;
    // From here on the copy is the proof: what is judged, hashed and kept are these bytes.
    let bytes = snapshot.bytes().map_err(Stay::NoRecord)?;
    if bytes != read {
        return Err(Stay::NoRecord(
            "the copy is not what was written to it".into(),
        ));
    }
    let accepted = match verdict(head.params, head.context, &bytes) {
        Ok(accepted) => accepted,
        Err(refusal) => return Err(Stay::Refused(refusal, head)),
    };
    let kept = snapshot
        .keep(&bytes, &head, &accepted, &command)
        .map_err(Stay::NoRecord)?;
    start(&command, &kept)
}

fn asked(words: Vec<OsString>) -> Result<Asked, Stay> {
    let arguments = Arguments::read_before(words, &[HEAD_OPTIONS, &[("--record", true)]].concat())?;
    let folder = arguments.wanted("--record")?.to_owned();
    let [proof] = arguments.words() else {
        return Err(Stay::Usage("one PROOF is wanted before --".into()));
    };
    if proof == "-" {
        return Err(Stay::Usage(
            "the proof has to be a file; one called - is ./-".into(),
        ));
    }
    let command = arguments.after().unwrap_or_default().to_vec();
    if command.is_empty() {
        return Err(Stay::Usage("a command is wanted after --".into()));
    }
    Ok(Asked {
        head: head(&arguments)?,
        folder,
        proof: proof.clone(),
        command,
    })
}

/// The file's bytes, but no more than one after the length, which are enough to be refused. It is
/// opened once and read once.
fn read_once(path: &OsStr, length: usize) -> Result<Vec<u8>, Stay> {
    let said = |error| Stay::Unreadable(format!("{path:?}: {error}"));
    // What is no file must not make us wait before we see that.
    let mut options = OpenOptions::new();
    let file = options
        .read(true)
        .custom_flags(O_NONBLOCK)
        .open(path)
        .map_err(said)?;
    let before = file.metadata().map_err(said)?;
    if !before.is_file() {
        return Err(Stay::Unreadable(format!("{path:?} is no regular file")));
    }
    // With room for all of it, so that one read takes the file as it is at one time.
    let mut bytes = Vec::with_capacity(length + 64);
    let most = length as u64 + 1;
    (&file).take(most).read_to_end(&mut bytes).map_err(said)?;
    let after = file.metadata().map_err(said)?;
    let as_long = bytes.len() as u64 == before.len().min(most);
    if !as_long || stamp(&before) != stamp(&after) {
        return Err(Stay::Changed(format!("{path:?} changed while it was read")));
    }
    Ok(bytes)
}

fn stamp(about: &Metadata) -> (u64, i64, i64, i64, i64) {
    let (mtime, ctime) = (about.mtime(), about.ctime());
    (
        about.len(),
        mtime,
        about.mtime_nsec(),
        ctime,
        about.ctime_nsec(),
    )
}

/// Runs the command, not through a shell, and tells how it ended.
fn start(command: &[OsString], kept: &Kept) -> Result<u8, Stay> {
    let mut child = Command::new(&command[0])
        .args(&command[1..])
        .env("PHIEULAKHON_RECORD", &kept.record)
        .env("PHIEULAKHON_PROOF", &kept.proof)
        .spawn()
        .map_err(|error| Stay::NotStarted(format!("the command {:?}: {error}", command[0])))?;
    let (status, sentence) = match child.wait() {
        Ok(status) if status.success() => return Ok(0),
        Ok(status) => match (status.code(), status.signal()) {
            (Some(code), _) => (10, format!("ended with status {code}")),
            (None, Some(signal)) => (11, format!("was ended by signal {signal}")),
            (None, None) => (11, "ended, and nobody knows how".into()),
        },
        Err(error) => (
            11,
            format!("was started, and how it ended is not known: {error}"),
        ),
    };
    say(format!(
        "ran: the command {sentence}; the record is {:?}",
        kept.record
    ));
    Ok(status)
}
