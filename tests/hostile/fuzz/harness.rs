//! The fuzzer's target: an input is a job or a recipe for one, and the exported
//! calls, through the Rust binding, must answer it as this program does: the
//! length, the verdict, every piece, the end call and a look-up. The first byte's
//! lowest bit says which it is; its others are the size of the pieces, and what is
//! looked up.

use std::fmt::Debug;
use std::process::exit;
use std::slice;
use std::sync::Mutex;

use phieulakhon::{opening, verdict, Accepted, Context, Reader, Refusal};

use crate::answer::{Answer, Counts, ACCEPTED, OPEN, TOO_SHORT};
use crate::field::{add, P};
use crate::files::same_modulo_p;
use crate::job;
use crate::layout::look_up;
use crate::params::Params;
use crate::proof::Forger;

static COUNTS: Mutex<Option<Counts>> = Mutex::new(None);

extern "C" {
    fn atexit(call: extern "C" fn()) -> i32;
}

/// At a disagreement the target itself exits, and holds the lock.
extern "C" fn print_counts() {
    if let Ok(Some(counts)) = COUNTS.try_lock().as_deref() {
        eprintln!("{counts}");
    }
}

#[no_mangle]
pub extern "C" fn LLVMFuzzerTestOneInput(input: *const u8, size: usize) -> i32 {
    // The fuzzer lends so many bytes for the whole call, none of them at null.
    let input = match size {
        0 => &[],
        _ => unsafe { slice::from_raw_parts(input, size) },
    };
    let Some((&first, rest)) = input.split_first() else {
        return 0;
    };
    let job = match first & 1 {
        0 => rest.to_vec(),
        _ => follow(&mut Recipe { rest }),
    };
    let mut counts = COUNTS.lock().expect("one thread");
    let counts = counts.get_or_insert_with(|| {
        unsafe { atexit(print_counts) };
        Counts::default()
    });
    counts.add(compare(&job, first as usize >> 1).number);
    0
}

/// Every call on the job's proof against the one answer that this program gives.
fn compare(job: &[u8], choice: usize) -> Answer {
    let answer = job::answer(job);
    let Some((params, context, proof)) = job::parts(job) else {
        return answer;
    };
    let theirs = phieulakhon::Params::new(params.n, params.b, params.k, params.q);
    let length = params.valid().then(|| params.file_length());
    same("the length", length, theirs.file_length());
    let whole = verdict(theirs, Context(*context), proof);
    same("the verdict", answer, ended(whole));
    match Reader::open(theirs, Context(*context)) {
        Err(refusal) => same("the opening", answer, refused(refusal)),
        Ok(reader) => in_pieces(reader, proof, choice.max(1), answer),
    }
    let (query, layer) = (choice % 8, choice / 8);
    let (found, part) = look_up(params, proof.len(), query, layer);
    let theirs = match opening(theirs, proof, query, layer) {
        Ok(part) => (Answer::DONE, part),
        Err(refusal) => (refused(refusal), &[][..]),
    };
    same("the look-up", (found, &proof[part]), theirs);
    answer
}

/// Before the byte that decides a reader is open; from it on the answer stays.
fn in_pieces(mut reader: Reader, proof: &[u8], size: usize, answer: Answer) {
    let decided = answer.number != ACCEPTED && answer.number != TOO_SHORT;
    let mut fed = 0;
    for piece in proof.chunks(size) {
        fed += piece.len();
        let expected = match decided && answer.place as usize <= fed {
            true => answer,
            false => Answer::new(OPEN, fed),
        };
        let theirs = match reader.feed(piece) {
            Ok(place) => Answer {
                number: OPEN,
                place,
            },
            Err(refusal) => refused(refusal),
        };
        same("a piece", expected, theirs);
    }
    same("the end call", answer, ended(reader.finish()));
}

fn ended(result: Result<Accepted, Refusal>) -> Answer {
    match result {
        Ok(accepted) => Answer {
            number: ACCEPTED,
            place: accepted.length(),
        },
        Err(refusal) => refused(refusal),
    }
}

fn refused(refusal: Refusal) -> Answer {
    Answer {
        number: refusal.number(),
        place: refusal.place(),
    }
}

/// Ends the run at the first disagreement; the fuzzer then writes its input.
fn same<T: PartialEq + Debug>(call: &str, ours: T, theirs: T) {
    if ours != theirs {
        eprintln!("{call}: disagreement");
        eprintln!("  independent program: {ours:?}");
        eprintln!("  exported call:       {theirs:?}");
        exit(1);
    }
}

/// The bytes that choose; when there are no more, zeros.
struct Recipe<'a> {
    rest: &'a [u8],
}

impl Recipe<'_> {
    fn byte(&mut self) -> u8 {
        let Some((&first, rest)) = self.rest.split_first() else {
            return 0;
        };
        self.rest = rest;
        first
    }

    fn below(&mut self, bound: usize) -> usize {
        let wide = u16::from_le_bytes([self.byte(), self.byte()]);
        wide as usize % bound
    }

    fn between(&mut self, least: u8, most: u8) -> u8 {
        least + self.byte() % (most - least + 1)
    }

    fn element(&mut self) -> u32 {
        match self.byte() {
            0xff => P - 1,
            byte => byte as u32 * 0x0001_0203 % P,
        }
    }
}

/// A change of one number or of all of a layer, before they are committed to.
struct Alteration {
    layer: u8,
    index: usize,
    change: u8,
}

impl Alteration {
    fn apply(&self, numbers: &mut [u32]) {
        let index = self.index % numbers.len();
        match self.change % 6 {
            0 => numbers[index] = add(numbers[index], 1),
            1 => numbers[index] = same_modulo_p(numbers[index]),
            2 => numbers[index] = P,
            3 => numbers.fill(0),
            4 => numbers.rotate_left(numbers.len() / 2),
            _ => numbers
                .iter_mut()
                .for_each(|number| *number = add(*number, 1)),
        }
    }
}

/// The job of a recipe: small parameters, a polynomial, where the prover
/// strays, and damage to what it built.
fn follow(recipe: &mut Recipe) -> Vec<u8> {
    let n = recipe.between(2, 7);
    let b = recipe.between(1, n - 1);
    let k = recipe.between(1, n - b);
    let q = recipe.between(1, 4);
    let params = Params::new(n, b, k, q);
    let context = [recipe.byte(); 32];
    let count = recipe.below((1 << (n - b)) + 1);
    let polynomial: Vec<u32> = (0..count).map(|_| recipe.element()).collect();
    let challenges = recipe.byte();
    let forger = Forger {
        spread: 0,
        challenges_first: matches!(challenges, 1 | 3),
        narrow_challenges: matches!(challenges, 2 | 3),
        leaf: match recipe.byte() {
            0 => None,
            leaf => Some((leaf as u32 - 1) % (1 << (n - 1))),
        },
    };
    let alterations: Vec<Alteration> = (0..recipe.byte() % 4)
        .map(|_| Alteration {
            layer: recipe.between(0, k),
            index: recipe.below(128),
            change: recipe.byte(),
        })
        .collect();
    let proof = forger.build(params, &context, &polynomial, |layer, numbers| {
        for alteration in &alterations {
            if alteration.layer == layer {
                alteration.apply(numbers);
            }
        }
    });
    let mut job = job::job(params, &context, &proof);
    for _ in 0..recipe.byte() % 8 {
        damage(recipe, &mut job);
    }
    job
}

fn damage(recipe: &mut Recipe, job: &mut Vec<u8>) {
    let kind = recipe.byte();
    let place = recipe.below(job.len() + 1);
    let byte = recipe.byte();
    match kind % 6 {
        0 => job.truncate(place),
        1 => job.extend(vec![byte; place % 64 + 1]),
        2 => job[place..].iter_mut().take(4).for_each(|at| *at = byte),
        3 => job[place..]
            .iter_mut()
            .take(1)
            .for_each(|at| *at ^= 1 << (byte % 8)),
        4 => job[place..].iter_mut().take(1).for_each(|at| *at = byte),
        _ => {
            let count = (byte as usize).min(job.len() - place);
            job.copy_within(..count, place);
        }
    }
}
