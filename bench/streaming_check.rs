//! Holds the streaming reader against the independent program's judges: on files
//! against the verdict, on lists of calls against the plain reader.

// The independent program's modules name each other from the root, and have more
// than is needed here.
#![allow(dead_code)]

#[path = "../tests/independent/answer.rs"]
mod answer;
#[path = "../tests/independent/domain.rs"]
mod domain;
#[path = "../tests/independent/field.rs"]
mod field;
#[path = "../tests/independent/files.rs"]
mod files;
#[path = "../tests/independent/fold.rs"]
mod fold;
#[path = "../tests/independent/hostile.rs"]
mod hostile;
#[path = "../tests/independent/job.rs"]
mod job;
#[path = "../tests/independent/judge.rs"]
mod judge;
#[path = "../tests/independent/layout.rs"]
mod layout;
#[path = "../tests/independent/merkle.rs"]
mod merkle;
#[path = "../tests/independent/params.rs"]
mod params;
#[path = "../tests/independent/proof.rs"]
mod proof;
#[path = "../tests/independent/random_scripts.rs"]
mod random_scripts;
#[path = "../tests/independent/rng.rs"]
mod rng;
#[path = "../tests/independent/script.rs"]
mod script;
#[path = "../tests/independent/sha256.rs"]
mod sha256;
mod streaming;
#[path = "../tests/independent/transcript.rs"]
mod transcript;

use answer::{Answer, Counts, ACCEPTED, CLOSED, OPEN, PARAMETERS_NOT_VALID, TOO_SHORT};
use judge::verdict;
use params::Params;
use random_scripts::RandomScripts;
use rng::Rng;
use script::Call;
use sha256::Digest;
use streaming::Reader;

const FILES: usize = 10_000;
const LARGEST_FILES: usize = 40;
const LISTS: usize = 2_000;

/// Every number that a reader can answer.
const NUMBERS: [u8; 12] = [0, 1, 10, 11, 20, 21, 22, 23, 24, 25, 26, 27];

fn main() {
    let mut counts = Counts::default();
    for seed in hostile::job_seeds(1, FILES) {
        let job = hostile::job(seed);
        if let Some((params, context, file)) = job::parts(&job) {
            let name = format!("hostile job {seed}");
            check_file(
                &name,
                params,
                context,
                file,
                &mut Rng::new(seed),
                &mut counts,
            );
        }
    }
    check_largest(&mut counts);
    check_lists(&mut counts);

    for number in NUMBERS {
        let met = counts.of_number.contains_key(&number);
        assert!(met, "no answer had the number {number}");
    }
    let answers: usize = counts.of_number.values().sum();
    println!(
        "streaming reader: {} files, {LISTS} lists of calls, {answers} answers, 0 disagreements",
        FILES + LARGEST_FILES
    );
}

/// A file in pieces of random sizes, and calls after the end call.
fn check_file(
    name: &str,
    params: Params,
    context: &Digest,
    file: &[u8],
    rng: &mut Rng,
    counts: &mut Counts,
) {
    let mut check = |answer: Answer, expected: Answer, fed: usize| {
        assert_eq!(answer, expected, "{name}: {params:?}, after {fed} bytes");
        counts.add(answer.number);
    };
    let whole = verdict(params, context, file);
    // The byte that decides a refusal also decides it when it is the last one fed.
    let so_far = |fed: usize| match whole.number {
        PARAMETERS_NOT_VALID => Answer::new(CLOSED, 0),
        ACCEPTED | TOO_SHORT => Answer::new(OPEN, fed),
        _ if fed < whole.place as usize => Answer::new(OPEN, fed),
        _ => whole,
    };

    let (opening, mut reader) = Reader::open(params, context);
    let refused = whole.number == PARAMETERS_NOT_VALID;
    check(opening, if refused { whole } else { so_far(0) }, 0);
    let longest = rng.pick(&[1, 2, 3, 7, 31, 32, 33, 64, 100, 1000, 4096, usize::MAX - 1]);
    let mut fed = 0;
    while fed < file.len() {
        let size = rng.between(0, longest).min(file.len() - fed);
        let answer = reader.feed(&file[fed..fed + size]);
        fed += size;
        check(answer, so_far(fed), fed);
    }
    check(reader.feed(&[]), so_far(fed), fed);
    check(
        reader.finish(),
        if refused { so_far(fed) } else { whole },
        fed,
    );
    for _ in 0..2 {
        check(reader.feed(file), Answer::new(CLOSED, 0), fed);
        check(reader.finish(), Answer::new(CLOSED, 0), fed);
    }
}

/// Files that fill the reader's tables, most of them damaged.
fn check_largest(counts: &mut Counts) {
    let mut rng = Rng::new(2);
    let params = Params::new(20, 2, 12, 64);
    let context = rng.digest();
    let proof = proof::build(params, &context, &rng.elements(100));
    for round in 0..LARGEST_FILES {
        let mut file = proof.clone();
        if round % 4 > 0 {
            file[rng.below(proof.len())] ^= 1 << rng.below(8);
        }
        let name = format!("largest file {round}");
        check_file(&name, params, &context, &file, &mut rng, counts);
    }
}

/// Calls in any order, each of them answered as by the plain reader.
fn check_lists(counts: &mut Counts) {
    for (list, script) in RandomScripts::new(3).take(LISTS).enumerate() {
        let (expected_opening, expected) = script.answers();
        let (opening, mut reader) = Reader::open(script.params, &script.context);
        assert_eq!(opening, expected_opening, "list {list}");
        counts.add(opening.number);
        for (index, call) in script.calls.iter().enumerate() {
            let answer = match call {
                Call::Piece(piece) => reader.feed(piece),
                Call::End => reader.finish(),
            };
            assert_eq!(answer, expected[index], "list {list}, call {index}");
            counts.add(answer.number);
        }
    }
}
