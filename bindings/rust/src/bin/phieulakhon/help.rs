//! What the program says of itself.

use crate::guard::STATUSES;

pub const USAGE: &str =
    "usage: phieulakhon verify|guard|write|length|lookup ...; phieulakhon --help";

const WHOLE: &str = "\
phieulakhon: judges and writes FRI proofs, by calls that are proved

  phieulakhon verify HEAD FILE                     judges a proof
  phieulakhon guard HEAD --record DIR PROOF -- COMMAND...
                                                   runs a command only if a proof is accepted
  phieulakhon write HEAD < COEFFICIENTS > PROOF    writes a proof
  phieulakhon length PARAMETERS                    prints the length of every proof that can be accepted
  phieulakhon lookup PARAMETERS --query I --layer J FILE
                                                   prints an opening of a proof
  phieulakhon --version                            prints the version and the file format's number

HEAD is what a proof is judged for. Take it from your own records, never from where the proof comes from:
  PARAMETERS --context HEX     64 hexadecimal digits that name the batch
  or --head FILE               36 bytes: n, b, k, q and the context; read once
PARAMETERS are --n N --b B --k K --q Q: 2^N points, blowup 2^B, K folds, Q queries.

phieulakhon COMMAND --help says more of each.
";

const VERIFY: &str = "\
phieulakhon verify HEAD [--explain] FILE

Judges the proof in FILE, or from standard input where FILE is -, and prints one line: 'accepted L' or
'refused NUMBER at PLACE'. With --explain, or on a terminal, it says on standard error what that means: the
rule, what stands at the place, and what to do. A file that is called - is ./-.

HEAD is --n N --b B --k K --q Q --context HEX, or --head FILE with the 36 bytes of these.

Exit status:
  0  accepted
  1  refused
  2  not judged: the command line is wrong, or something could not be read or written
";

const WRITE: &str = "\
phieulakhon write HEAD [--job] < COEFFICIENTS > PROOF

Writes the proof of a polynomial. Standard input has exactly 2^(N-B) coefficients, lowest power first, as
decimal numbers below 3221225473 with white space between. With --job the 36 bytes of the head stand before
the proof, as the program verify reads them.

HEAD is --n N --b B --k K --q Q --context HEX, or --head FILE with the 36 bytes of these.

Exit status:
  0  written
  1  refused: 'refused NUMBER at 0' is on standard error, and nothing is written
  2  the command line is wrong, or something could not be read or written
";

const LENGTH: &str = "\
phieulakhon length --n N --b B --k K --q Q

Prints the length in bytes of every proof that can be accepted with these parameters.

Exit status:
  0  printed
  1  refused: the parameters are not valid
  2  the command line is wrong, or something could not be written
";

const LOOK_UP: &str = "\
phieulakhon lookup --n N --b B --k K --q Q --query I --layer J FILE

Prints the opening of query I in layer J, both counted from 0: the bytes of the file that it stands in, its
values, and its siblings from the leaf up. It does not judge the proof.

Exit status:
  0  printed
  1  refused: the parameters are not valid, the file's length is not that of a proof, or there is no such
     query or layer
  2  the command line is wrong, or something could not be read or written
";

fn guard() -> String {
    let statuses: String = STATUSES
        .iter()
        .map(|(status, words)| format!("  {status:2}  {words}\n"))
        .collect();
    format!(
        "\
phieulakhon guard HEAD --record DIR PROOF -- COMMAND...

Runs COMMAND if, and only if, the proof in the file PROOF is accepted and that is on record. PROOF is opened
and read once, and copied to a private file in DIR; what is judged is the copy. If it is accepted, a record is
written beside it: the program, the time, the head, the line, the SHA-256 of the copy, and the command. When
both are on the disk the command is started, not through a shell; it finds the paths of the two files in the
environment, as PHIEULAKHON_RECORD and PHIEULAKHON_PROOF. A record says that the command was allowed, not that
it has ended; if the guard is killed meanwhile, the command goes on. Name the command by its whole path where
others choose what PATH has.

DIR must be there, be no symbolic link, and be writable by its owner alone: mkdir -m 700 DIR.
PROOF must be a regular file; - is none, and a file called - is ./-.
HEAD is --n N --b B --k K --q Q --context HEX, or --head FILE with the 36 bytes of these.

Exit status, with a sentence on standard error for every one but 0:
{statuses}"
    )
}

/// The help of a command; none where there is no such command.
pub fn of(name: &str) -> Option<String> {
    Some(match name {
        "--help" | "--version" => WHOLE.into(),
        "verify" => VERIFY.into(),
        "guard" => guard(),
        "write" => WRITE.into(),
        "length" => LENGTH.into(),
        "lookup" => LOOK_UP.into(),
        _ => return None,
    })
}
