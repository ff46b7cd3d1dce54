//! The proved calls beside ordinary Rust, in time.

mod ours;
mod plot;
mod table;

use peers::answer::Answer;
use peers::fold;
use peers::params::Params;
use peers::proof;
use peers::rng::Rng;
use peers::sha256::Digest;
use peers::writer;
use peers::Coefficients;
use table::{Batch, Sides, Table};

fn main() {
    let mut table = Table::default();
    let mut rng = Rng::new(1);
    hashes(&mut table, &mut rng);
    trees(&mut table, &mut rng);
    challenges(&mut table, &mut rng);
    products(&mut table, &mut rng);
    powers(&mut table, &mut rng);
    inverses(&mut table, &mut rng);
    points(&mut table, &mut rng);
    evaluations(&mut table, &mut rng);
    coefficient_folds(&mut table, &mut rng);
    folds(&mut table, &mut rng);
    verdicts(&mut table, &mut rng);
    writings(&mut table, &mut rng);

    let mut wanted: Vec<String> = std::env::args().skip(1).collect();
    let plot = (wanted.first().map(String::as_str) == Some("--plot")).then(|| {
        assert!(wanted.len() > 1, "--plot FILE");
        wanted.drain(..2).next_back().unwrap()
    });
    if !wanted.is_empty() {
        table.keep(&wanted);
    }
    table.time();
    table.print();
    if let Some(file) = plot {
        std::fs::write(&file, plot::svg(&table.growth())).expect("the plot is written");
    }
}

const NO_DIGEST: Digest = [0; 32];

/// Inputs of the calls that branch on their bits: so many that the processor
/// does not know the branches from the round before.
const BRANCHING: usize = 2048;

fn hash_batch(messages: Vec<Vec<u8>>) -> Batch {
    type Call = unsafe extern "C" fn(*const u8, usize, &mut Digest) -> Answer;
    let sides = Sides::<Call> {
        ours: ours::test_hash,
        peer: peers::hash,
    };
    let blank = (Answer::DONE, NO_DIGEST);
    Batch::each(sides, messages, blank, |call, message, (answer, digest)| {
        // The pointer and the length are those of one slice.
        *answer = unsafe { call(message.as_ptr(), message.len(), digest) };
    })
}

fn hashes(table: &mut Table, rng: &mut Rng) {
    for (name, length, count) in [
        ("SHA-256 of 4,096 bytes", 4096, 4),
        ("SHA-256 of 65 bytes", 65, 128),
        ("SHA-256 of 9 bytes", 9, 256),
    ] {
        let messages = (0..count).map(|_| rng.bytes(length)).collect();
        table.row(name, hash_batch(messages));
    }
}

fn node_batch(children: Vec<[Digest; 2]>) -> Batch {
    type Call = extern "C" fn(&Digest, &Digest, &mut Digest);
    let sides = Sides::<Call> {
        ours: ours::test_node,
        peer: peers::node,
    };
    Batch::each(sides, children, NO_DIGEST, |call, [left, right], digest| {
        call(left, right, digest)
    })
}

fn trees(table: &mut Table, rng: &mut Rng) {
    type Call = extern "C" fn(u32, u32, &mut Digest);
    let sides = Sides::<Call> {
        ours: ours::test_leaf,
        peer: peers::leaf,
    };
    let values = (0..256).map(|_| [rng.element(), rng.element()]).collect();
    table.row(
        "Merkle leaf",
        Batch::each(sides, values, NO_DIGEST, |call, &[a, c], digest| {
            call(a, c, digest)
        }),
    );

    let children: Vec<[Digest; 2]> = (0..128).map(|_| [rng.digest(), rng.digest()]).collect();
    table.row("Merkle node", node_batch(children.clone()));

    let messages = children
        .iter()
        .map(|[left, right]| [&[1][..], left, right].concat())
        .collect();
    table.overhead(
        "Merkle node over SHA-256 of its 65 bytes",
        node_batch(children),
        hash_batch(messages),
    );
}

fn challenges(table: &mut Table, rng: &mut Rng) {
    type Call = extern "C" fn(&Digest) -> u32;
    let sides = Sides::<Call> {
        ours: ours::test_challenge,
        peer: peers::challenge,
    };
    let states = (0..256).map(|_| rng.digest()).collect();
    table.row(
        "challenge",
        Batch::each(sides, states, 0, |call, state, challenge| {
            *challenge = call(state)
        }),
    );
}

// A product takes no longer than a call. Neither side's is inlined, so the rows
// compare a call and a product with a call and a product.
fn products(table: &mut Table, rng: &mut Rng) {
    const COUNT: usize = 4096;
    type Call = extern "C" fn(u32, u32) -> u32;
    let sides = Sides::<Call> {
        ours: ours::test_mul,
        peer: peers::mul,
    };
    let factors = rng.elements(COUNT);
    table.row(
        "product, dependent chain, each a call on both sides",
        Batch::new(COUNT, sides, 1, move |call, product| {
            *product = factors.iter().fold(1, |chain, &factor| call(chain, factor))
        }),
    );

    let pairs = (0..COUNT).map(|_| [rng.element(), rng.element()]).collect();
    table.row(
        "product over slices, each a call on both sides",
        Batch::each(sides, pairs, 0, |call, &[a, b], product| {
            *product = call(a, b)
        }),
    );
}

fn powers(table: &mut Table, rng: &mut Rng) {
    type Call = extern "C" fn(u32, u32) -> u32;
    let sides = Sides::<Call> {
        ours: ours::test_pow,
        peer: peers::pow,
    };
    let pairs = (0..BRANCHING)
        .map(|_| [rng.element(), rng.word()])
        .collect();
    table.row(
        "power, exponents of 32 bits",
        Batch::each(sides, pairs, 0, |call, &[a, e], power| *power = call(a, e)),
    );
}

fn inverses(table: &mut Table, rng: &mut Rng) {
    type Call = extern "C" fn(u32) -> u32;
    let ours = ours::test_inv;
    let numbers = rng.elements(BRANCHING);
    let batch = |peer: Call| {
        let sides = Sides::<Call> { ours, peer };
        Batch::each(sides, numbers.clone(), 0, |call, &a, inverse| {
            *inverse = call(a)
        })
    };
    table.row("inverse; Rust by Euclid", batch(peers::inv));
    table.row(
        "inverse; Rust by the same power",
        batch(peers::inv_by_power),
    );
}

fn points(table: &mut Table, rng: &mut Rng) {
    type Call = extern "C" fn(u8, u8, u32) -> u32;
    /// The largest domain has 2^20 points and layers 0 to 11.
    const N: u8 = 20;
    let ours = ours::test_point;
    for layer in [0, 11] {
        let indices: Vec<u32> = (0..BRANCHING)
            .map(|_| rng.below(1 << (N - layer)) as u32)
            .collect();
        let batch = |peer: Call| {
            let sides = Sides::<Call> { ours, peer };
            Batch::each(sides, indices.clone(), 0, move |call, &index, point| {
                *point = call(N, layer, index)
            })
        };
        table.row(
            format!("point of layer {layer}; Rust without a table"),
            batch(peers::point),
        );
        table.row(
            format!("point of layer {layer}; Rust with the same table"),
            batch(peers::point_by_table),
        );
    }
}

fn evaluations(table: &mut Table, rng: &mut Rng) {
    type Call = extern "C" fn(&Coefficients, usize, u32) -> u32;
    let coefficients: Coefficients = std::array::from_fn(|_| rng.element());
    let points = rng.elements(128);
    for count in [1, 8, 64] {
        let batch = |peer: Call| {
            let ours = ours::test_eval;
            let sides = Sides::<Call> { ours, peer };
            Batch::each(sides, points.clone(), 0, move |call, &x, value| {
                *value = call(&coefficients, count, x)
            })
        };
        table.row(format!("eval of {count} coefficients"), batch(peers::eval));
        table.row(
            format!("eval of {count} coefficients; Rust with one remainder a step"),
            batch(peers::eval_one_remainder),
        );
        table.row(
            format!("eval of {count} coefficients; Rust by the same pairs"),
            batch(peers::eval_by_pairs),
        );
    }
}

// A slice of products in one call: each pair of coefficients is folded in place.
fn coefficient_folds(table: &mut Table, rng: &mut Rng) {
    const COUNT: usize = 2048;
    type Call = unsafe extern "C" fn(*mut u32, usize, u32);
    let poly = rng.elements(COUNT);
    let beta = rng.element();
    let batch = |peer: Call| {
        let ours = ours::test_fold_in_place;
        let sides = Sides::<Call> { ours, peer };
        let poly = poly.clone();
        Batch::new(COUNT / 2, sides, vec![0; COUNT], move |call, folded| {
            folded.copy_from_slice(&poly);
            // The pointer and the length are those of one slice.
            unsafe { call(folded.as_mut_ptr(), folded.len(), beta) }
        })
    };
    table.row(
        "fold of coefficients over a slice, a product and a sum each",
        batch(peers::fold),
    );
    table.row(
        "fold of coefficients over a slice; Rust with one remainder",
        batch(peers::fold_one_remainder),
    );
}

fn folds(table: &mut Table, rng: &mut Rng) {
    type Call = extern "C" fn(u32, u32, u32, u32, u32) -> bool;
    let ours = ours::test_agrees;
    // Every second value is the folded one.
    let cases: Vec<[u32; 5]> = (0..BRANCHING)
        .map(|case| {
            let [x, beta, a, c] = [0; 4].map(|_| rng.element().max(1));
            let folded = fold::next(x, beta, a, c);
            let v = if case % 2 == 0 { folded } else { rng.element() };
            [x, beta, a, c, v]
        })
        .collect();
    let batch = |peer: Call| {
        let sides = Sides::<Call> { ours, peer };
        Batch::each(
            sides,
            cases.clone(),
            false,
            |call, &[x, beta, a, c, v], agreed| *agreed = call(x, beta, a, c, v),
        )
    };
    table.row("agrees; Rust by an inverse", batch(peers::agrees));
    table.row(
        "agrees; Rust by the same products",
        batch(peers::agrees_by_products),
    );
}

type Verdict = unsafe extern "C" fn(Params, &Digest, *const u8, usize, usize) -> Answer;

/// Pieces are of `size` bytes, for the sides that are fed in pieces.
fn verdict_batch(
    sides: Sides<Verdict>,
    params: Params,
    context: Digest,
    file: Vec<u8>,
    size: usize,
) -> Batch {
    Batch::each(
        sides,
        vec![file],
        Answer::DONE,
        move |call, file, answer| {
            // The pointer and the length are those of one slice.
            *answer = unsafe { call(params, &context, file.as_ptr(), file.len(), size) };
        },
    )
}

/// The calls that hash, in the verdict and in the writer: a node, a leaf, and a
/// challenge, which takes as long as the draw of a query.
type Hashing = (
    extern "C" fn(&Digest, &Digest, &mut Digest),
    extern "C" fn(u32, u32, &mut Digest),
    extern "C" fn(&Digest) -> u32,
);

const HASHING: Sides<Hashing> = Sides {
    ours: (ours::test_node, ours::test_leaf, ours::test_challenge),
    peer: (peers::node, peers::leaf, peers::challenge),
};

/// What a verdict hashes, and nothing else, as one call: the nodes of its paths,
/// its leaves, and the draws of its queries.
fn hashing_batch(params: Params) -> Batch {
    let heights: Vec<usize> = (0..params.k).map(|layer| params.height(layer)).collect();
    Batch::new(1, HASHING, NO_DIGEST, move |(node, leaf, draw), digest| {
        let mut below = NO_DIGEST;
        for query in 0..params.q {
            below[0] ^= draw(&below) as u8;
            for &height in &heights {
                leaf(query.into(), height as u32, digest);
                for _ in 0..height {
                    below = *digest;
                    node(&below, &NO_DIGEST, digest);
                }
            }
        }
    })
}

/// The verdict on built proofs of several sizes, in one piece and in smaller ones,
/// and what the largest takes beside its hashing.
fn verdicts(table: &mut Table, rng: &mut Rng) {
    const WHOLE: usize = usize::MAX;
    let whole_slice = Sides::<Verdict> {
        ours: ours::test_verdict_in_pieces,
        peer: peers::verdict,
    };
    let in_pieces = Sides::<Verdict> {
        peer: peers::verdict_in_pieces,
        ..whole_slice
    };
    let binding = Sides::<Verdict> {
        ours: ours::binding_in_pieces,
        peer: peers::verdict_by_calls,
    };
    let binding_inlined = Sides::<Verdict> {
        ours: ours::binding_in_pieces,
        ..in_pieces
    };
    let sizes = [
        [6, 2, 2, 8],
        [10, 2, 4, 16],
        [12, 2, 6, 64],
        [16, 4, 8, 32],
        [16, 2, 10, 64],
        [20, 2, 12, 16],
        [20, 2, 12, 64],
    ];
    let mut largest = None;
    for [n, b, k, q] in sizes {
        let params = Params::new(n, b, k, q);
        let context = rng.digest();
        // Most of a large proof's time is building it, so its polynomial is short.
        let file = proof::build(params, &context, &rng.elements(3));
        let name = format!(
            "verdict {n},{b},{k},{q} ({} bytes) in one piece",
            file.len()
        );
        let batch = verdict_batch(whole_slice, params, context, file.clone(), WHOLE);
        table.growing(name, file.len(), batch);
        largest = Some((params, context, file));
    }
    let (params, context, file) = largest.expect("there are sizes");
    let cuts = [(4096, "4,096 bytes"), (64, "64 bytes"), (1, "one byte")];
    for (sides, way, other) in [
        (in_pieces, "", ""),
        (binding, " through the binding", ""),
        (binding_inlined, " through the binding", "; Rust inlined"),
        (whole_slice, "", "; Rust with the whole slice"),
    ] {
        for (size, cut) in cuts {
            let batch = verdict_batch(sides, params, context, file.clone(), size);
            table.row(format!("the last{way}, in pieces of {cut}{other}"), batch);
        }
    }
    let verdict = || verdict_batch(whole_slice, params, context, file.clone(), WHOLE);
    let hashing = || hashing_batch(params);
    table.overhead("the last, over its hashing alone", verdict(), hashing());
    table.rest(
        "the last, a byte read, without its hashing",
        file.len(),
        verdict(),
        hashing(),
    );
}

type Write = unsafe extern "C" fn(
    Params,
    &Digest,
    *const u32,
    usize,
    *mut u32,
    usize,
    *mut u8,
    usize,
    *mut u8,
    usize,
) -> Answer;

/// What a writing answers and leaves in the lent buffers.
#[derive(Clone, PartialEq, Debug)]
struct Written {
    answer: Answer,
    output: Vec<u8>,
    numbers: Vec<u32>,
    bytes: Vec<u8>,
}

fn write_batch(
    sides: Sides<Write>,
    params: Params,
    context: Digest,
    coefficients: Vec<u32>,
) -> Batch {
    // Filled with a pattern, so that scratch that is left as it was is noticed.
    let blank = Written {
        answer: Answer::DONE,
        output: vec![0xc3; params.file_length()],
        numbers: vec![0xa5a5a5a5; writer::numbers_needed(params)],
        bytes: vec![0x5a; writer::bytes_needed(params)],
    };
    Batch::new(1, sides, blank, move |call, written| {
        let Written {
            answer,
            output,
            numbers,
            bytes,
        } = written;
        // Each pointer and the length after it are those of one slice.
        *answer = unsafe {
            call(
                params,
                &context,
                coefficients.as_ptr(),
                coefficients.len(),
                numbers.as_mut_ptr(),
                numbers.len(),
                bytes.as_mut_ptr(),
                bytes.len(),
                output.as_mut_ptr(),
                output.len(),
            )
        };
    })
}

/// What a writer hashes, and nothing else, as one call: the trees of its layers,
/// and the draws of its queries.
fn trees_batch(params: Params) -> Batch {
    let leaves: Vec<u32> = (0..params.k)
        .map(|layer| 1 << params.height(layer))
        .collect();
    Batch::new(1, HASHING, NO_DIGEST, move |(node, leaf, draw), digest| {
        let mut below = NO_DIGEST;
        for &leaves in &leaves {
            for index in 0..leaves {
                leaf(index, leaves, digest);
            }
            for _ in 1..leaves {
                below = *digest;
                node(&below, &NO_DIGEST, digest);
            }
        }
        for _ in 0..params.q {
            below[0] ^= draw(&below) as u8;
        }
    })
}

/// The writer at a small size and at a larger one with ever more coefficients: at
/// first it mostly hashes, at last it mostly evaluates.
fn writings(table: &mut Table, rng: &mut Rng) {
    let two_remainders = Sides::<Write> {
        ours: ours::test_write,
        peer: peers::write,
    };
    let one_remainder = Sides::<Write> {
        peer: peers::write_by_one_remainder,
        ..two_remainders
    };
    let pairs = Sides::<Write> {
        peer: peers::write_by_pairs,
        ..two_remainders
    };
    let ways = [
        (two_remainders, ""),
        (one_remainder, "; Rust with one remainder a step"),
        (pairs, "; Rust by the same pairs"),
    ];
    for [n, b, k, q] in [[6, 2, 2, 8], [10, 6, 4, 16], [10, 3, 5, 16], [10, 1, 5, 32]] {
        let params = Params::new(n, b, k, q);
        let context = rng.digest();
        let coefficients = rng.elements(writer::coefficient_count(params));
        let count = coefficients.len();
        let name = format!("Write a proof, 2^{n} points, {count} coefficients");
        let batch = |sides| write_batch(sides, params, context, coefficients.clone());
        for (sides, way) in ways {
            table.row(format!("{name}{way}"), batch(sides));
        }
        table.overhead(
            format!("{name}, over its hashing alone"),
            batch(two_remainders),
            trees_batch(params),
        );
    }
}
