//! The jobs of examples/ and of the corpus: each gets the line that is stored
//! for it, whole, in random pieces, and from an input.

use phieulakhon::{
    opening, verdict, verify_reader, Accepted, Context, Params, Reader, Refusal, VerifyError,
};
use std::fs;
use std::io::{self, ErrorKind};
use stored::repository;

mod stored;

fn random(seed: &mut u64) -> usize {
    *seed = seed
        .wrapping_mul(6364136223846793005)
        .wrapping_add(1442695040888963407);
    (*seed >> 33) as usize
}

/// The answer to the proof cut at random; a refused reader keeps to its refusal.
fn in_pieces(
    params: Params,
    context: Context,
    proof: &[u8],
    longest: usize,
    seed: &mut u64,
) -> Result<Accepted, Refusal> {
    let mut reader = Reader::open(params, context)?;
    let mut at = 0;
    while at < proof.len() {
        let to = proof.len().min(at + random(seed) % (longest + 1));
        match reader.feed(&proof[at..to]) {
            Ok(so_far) => assert_eq!(so_far as usize, to),
            Err(refusal) => {
                assert_eq!(reader.feed(&proof[to..]), Err(refusal));
                assert_eq!(reader.clone().finish(), Err(refusal));
                return Err(refusal);
            }
        }
        at = to;
    }
    reader.finish()
}

/// The answer to the proof written as to a file, where an error is the refusal.
fn written_to(params: Params, context: Context, proof: &[u8]) -> Result<Accepted, Refusal> {
    let mut reader = Reader::open(params, context)?;
    if let Err(error) = io::copy(&mut &proof[..], &mut reader) {
        assert_eq!(error.kind(), ErrorKind::InvalidData);
        let inner = error.into_inner().expect("a refusal");
        let refusal = *inner.downcast::<Refusal>().expect("a refusal");
        assert_eq!(reader.finish(), Err(refusal));
        return Err(refusal);
    }
    reader.finish()
}

fn line(answer: Result<Accepted, Refusal>) -> String {
    answer.map_or_else(|refusal| refusal.line(), |accepted| accepted.line())
}

fn check(name: &str, job: &[u8], want: &str, seed: &mut u64) {
    let (head, proof) = job.split_at(job.len().min(36));
    let Ok([n, b, k, q, context @ ..]) = <[u8; 36]>::try_from(head) else {
        assert_eq!(format!("refused 12 at {}", job.len()), want, "{name}");
        return;
    };
    let (params, context) = (Params::new(n, b, k, q), Context(context));
    let answer = verdict(params, context, proof);
    assert_eq!(line(verdict(params, context, proof)), want, "{name}, whole");
    for longest in [3, 100, 10_000] {
        assert_eq!(
            in_pieces(params, context, proof, longest, seed),
            answer,
            "{name}, in pieces of at most {longest} bytes"
        );
    }
    let from_an_input = verify_reader(proof, params, context).map_err(|error| match error {
        VerifyError::Refused(refusal) => refusal,
        error => panic!("{name}: {error}"),
    });
    assert_eq!(from_an_input, answer, "{name}, from an input");
    assert_eq!(
        written_to(params, context, proof),
        answer,
        "{name}, written"
    );
    if let Ok(accepted) = answer {
        assert!(accepted.is_for(params, context), "{name}");
        assert_eq!(
            Some(accepted.length() as usize),
            params.file_length(),
            "{name}"
        );
    }
}

#[test]
fn examples() {
    let seed = &mut 1;
    for stored in stored::examples() {
        check(&stored.name, &stored.job, &stored.line, seed);
    }
}

#[test]
fn corpus() {
    let seed = &mut 2;
    for stored in stored::corpus() {
        check(&stored.name, &stored.job, &stored.line, seed);
    }
}

/// The openings of an accepted proof lie side by side from the first to the end.
#[test]
fn openings() {
    let job = fs::read(repository().join("examples/accepted.job")).expect("a job");
    let [n, b, k, q] = job[..4] else {
        unreachable!()
    };
    let (params, proof) = (Params::new(n, b, k, q), &job[36..]);
    let mut parts = Vec::new();
    for query in 0..q.into() {
        for layer in 0..k.into() {
            parts.push(opening(params, proof, query, layer).expect("an opening"));
        }
    }
    assert!(proof.ends_with(&parts.concat()));
    assert_eq!(parts.concat().len(), 2 * 104);
    assert_eq!(
        opening(params, proof, 0, k.into()),
        Err(Refusal::NoSuchOpening)
    );
    assert_eq!(
        opening(params, proof, usize::MAX, usize::MAX),
        Err(Refusal::NoSuchOpening)
    );
    let not_valid = Params::new(n, b, k, 0);
    assert_eq!(
        opening(not_valid, proof, 0, 0),
        Err(Refusal::ParametersNotValid)
    );
}

/// An input that fails after a whole proof is not judged.
#[test]
fn an_input_that_fails_is_no_verdict() {
    struct Fails;
    impl io::Read for Fails {
        fn read(&mut self, _: &mut [u8]) -> io::Result<usize> {
            Err(io::Error::other("the line is cut"))
        }
    }
    let job = fs::read(repository().join("examples/accepted.job")).expect("a job");
    let [n, b, k, q] = job[..4] else {
        unreachable!()
    };
    let context = Context(job[4..36].try_into().expect("32 bytes"));
    let input = io::Read::chain(&job[36..], Fails);
    let answer = verify_reader(input, Params::new(n, b, k, q), context);
    assert!(matches!(answer, Err(VerifyError::Io(_))), "{answer:?}");
}
