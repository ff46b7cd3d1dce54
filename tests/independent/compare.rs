//! Compares the linked library with this program, call by call.

use std::fmt::Debug;
use std::ops::RangeInclusive;
use std::process::exit;

use crate::answer::{Answer, Counts, ACCEPTED, WRITTEN};
use crate::domain::point;
use crate::ffi::{self, Coefficients, Felt, FieldAnswer};
use crate::field::{self, P};
use crate::files;
use crate::fold;
use crate::hostile;
use crate::job;
use crate::judge::verdict;
use crate::layout::look_up;
use crate::merkle;
use crate::params::Params;
use crate::rng::Rng;
use crate::sha256::public_hash;
use crate::transcript::Transcript;
use crate::writer::{coefficient_count, write};
use crate::writings::{
    add_faults, all_n_and_b, any_polynomial, params_with, polynomial_of_length, short_writing,
    Writing, FAULTS, SETS_OF_FAULTS,
};

pub const LEAVES_ROUNDS: usize = 1_000_000;
pub const PARTS_ROUNDS: usize = 20_000;
pub const WRITER_ROUNDS: usize = 3_000;

const EDGES: [u32; 9] = [0, 1, 2, 5, P - 1, P, P + 1, 1 << 31, u32::MAX];

/// One compared thing and how many cases of it agreed.
struct Comparison {
    name: &'static str,
    cases: usize,
}

impl Comparison {
    fn of(name: &'static str) -> Comparison {
        Comparison { name, cases: 0 }
    }

    /// Stops the whole run at the first disagreement.
    fn case<T: PartialEq + Debug>(&mut self, ours: T, theirs: T, inputs: impl Debug) {
        if ours != theirs {
            println!("{}: disagreement on {inputs:?}", self.name);
            println!("  independent program: {ours:?}");
            println!("  linked library:      {theirs:?}");
            exit(1);
        }
        self.cases += 1;
    }

    fn done(self) {
        println!("{}: {} cases", self.name, self.cases);
    }
}

/// The hash, the field and its constants.
pub fn leaves(rounds: usize) {
    compare_hash();
    compare_constants();
    compare_field(rounds);
    println!("0 disagreements");
}

/// Parameters, points, Merkle trees, the transcript and the fold.
pub fn parts(rounds: usize) {
    compare_params();
    compare_offsets(rounds);
    compare_look_ups(rounds);
    compare_points();
    compare_merkle(rounds);
    compare_transcripts(rounds);
    compare_final_counts();
    compare_folds(rounds);
    compare_eval(rounds);
    compare_folds_in_place(rounds);
    println!("0 disagreements");
}

fn compare_hash() {
    let mut rng = Rng::new(100);
    let mut hash = Comparison::of("hash");
    for length in 0..=4200 {
        let message = rng.bytes(length);
        hash.case(public_hash(&message), ffi::hash(&message), &message);
    }
    hash.done();
}

fn compare_constants() {
    let mut constants = Comparison::of("constants");
    constants.case(P, ffi::modulus(), "modulus");
    constants.case(Felt { value: 0 }, ffi::zero(), "zero");
    constants.case(Felt { value: 1 }, ffi::one(), "one");
    constants.case(
        Felt {
            value: field::GENERATOR,
        },
        ffi::generator(),
        "generator",
    );
    constants.done();

    let mut generators = Comparison::of("subgroup generators");
    for t in 0..=40 {
        generators.case(field::subgroup_generator(t), ffi::subgroup_generator(t), t);
    }
    generators.done();
}

fn compare_field(rounds: usize) {
    let mut edges = EDGES.to_vec();
    edges.extend((0..=field::LARGEST_SUBGROUP).map(field::subgroup_generator));
    edges.extend(
        [16, 17, 30, 31]
            .map(|bits| 1 << bits)
            .iter()
            .flat_map(|&x: &u32| [x - 1, x, x + 1]),
    );
    let mut pairs = Vec::new();
    for &a in &edges {
        pairs.extend(edges.iter().map(|&b| (a, b)));
    }
    let mut rng = Rng::new(101);
    for round in 0..rounds {
        pairs.push(match round % 3 {
            0 => (rng.word(), rng.word()),
            1 => (rng.element(), rng.element()),
            // A product whose remainder is next to 0 or next to p.
            _ => {
                let a = rng.element();
                let product = [0, 1, 2, P - 2, P - 1][rng.below(5)];
                (a, field::mul(product, field::inv(a)))
            }
        });
    }

    let checked = |result: Result<u32, Answer>| match result {
        Ok(value) => FieldAnswer {
            answer: Answer::DONE,
            value: Felt { value },
        },
        Err(answer) => FieldAnswer {
            answer,
            value: Felt { value: 0 },
        },
    };
    on_pairs("sum", &pairs, |a, b| checked(field::sum(a, b)), ffi::sum);
    on_pairs(
        "difference",
        &pairs,
        |a, b| checked(field::difference(a, b)),
        ffi::difference,
    );
    on_pairs(
        "product",
        &pairs,
        |a, b| checked(field::product(a, b)),
        ffi::product,
    );
    on_pairs(
        "negation",
        &pairs,
        |a, _| checked(field::negation(a)),
        |a, _| ffi::negation(a),
    );
    on_pairs(
        "power",
        &pairs,
        |a, e| checked(field::power(a, e)),
        ffi::power,
    );
    on_pairs(
        "inverse",
        &pairs,
        |a, _| checked(field::inverse(a)),
        |a, _| ffi::inverse(a),
    );
    on_pairs("add", &pairs, field::add, ffi::add);
    on_pairs("sub", &pairs, field::sub, ffi::sub);
    on_pairs("mul", &pairs, field::mul, ffi::mul);
    on_pairs("neg", &pairs, |a, _| field::neg(a), |a, _| ffi::neg(a));
    on_pairs("pow", &pairs, field::pow, ffi::pow);
    on_pairs("inv", &pairs, |a, _| field::inv(a), |a, _| ffi::inv(a));

    // Numbers next to a multiple of p or of a power of two, 2^64 included.
    let mut reduce = Comparison::of("reduce");
    for round in 0..rounds {
        let word = u64::from(rng.word()) << 32 | u64::from(rng.word());
        let step = [1, u64::from(P), 1 << 30, 1 << 32, 1 << 33][round % 5];
        let multiple = if round < 5 { 0 } else { word - word % step };
        for number in [multiple.wrapping_sub(1), multiple, multiple.wrapping_add(1)] {
            let remainder = (number % u64::from(P)) as u32;
            reduce.case(remainder, ffi::reduce(number), number);
        }
    }
    reduce.done();

    let mut mul_add = Comparison::of("mul_add");
    for (&(a, b), &(c, _)) in pairs.iter().zip(pairs.iter().rev()) {
        let sum = field::add(field::mul(a, b), c);
        mul_add.case(sum, ffi::mul_add(a, b, c), (a, b, c));
    }
    mul_add.done();
}

fn on_pairs<T: PartialEq + Debug>(
    name: &'static str,
    pairs: &[(u32, u32)],
    ours: impl Fn(u32, u32) -> T,
    theirs: impl Fn(u32, u32) -> T,
) {
    let mut comparison = Comparison::of(name);
    for &(a, b) in pairs {
        comparison.case(ours(a, b), theirs(a, b), (a, b));
    }
    comparison.done();
}

const ALL_N: RangeInclusive<u8> = 0..=24;
const ALL_B: RangeInclusive<u8> = 0..=10;
const ALL_K: RangeInclusive<u8> = 0..=14;
const SOME_Q: [u8; 7] = [0, 1, 2, 63, 64, 65, 255];

fn compare_params() {
    let mut valid = Comparison::of("validity");
    let mut final_count = Comparison::of("final count");
    let mut file_length = Comparison::of("file length");
    let mut height = Comparison::of("height");
    for n in ALL_N {
        for b in ALL_B {
            for k in ALL_K {
                for q in SOME_Q {
                    let p = Params::new(n, b, k, q);
                    valid.case(p.valid(), ffi::is_valid(p), p);
                    final_count.case(p.final_count(), ffi::final_count(p), p);
                    file_length.case(p.file_length(), ffi::file_length(p), p);
                    for layer in (0..=n + 1).chain([254, 255]) {
                        height.case(p.height(layer), ffi::height(p, layer), (p, layer));
                    }
                }
            }
        }
    }
    valid.done();
    final_count.done();
    file_length.done();
    height.done();
}

fn compare_offsets(rounds: usize) {
    let mut rng = Rng::new(102);
    let mut offset = Comparison::of("opening offset");
    for round in 0..rounds {
        // One in four with any bytes, where few are valid.
        let params = match round % 4 {
            0 => any_params(&mut rng),
            _ => valid_params(&mut rng),
        };
        let query = byte(&mut rng);
        let layer = rng.below(22) as u8;
        for (query, layer) in [(query, layer), (query % 64, layer % 12), (255, 255)] {
            let ours = params.opening_offset(query, layer);
            offset.case(
                ours,
                ffi::opening_offset(params, query, layer),
                (params, query, layer),
            );
        }
    }
    offset.done();
}

fn compare_look_ups(rounds: usize) {
    let mut rng = Rng::new(109);
    let mut found = Comparison::of("look-up");
    for round in 0..rounds {
        let params = match round % 4 {
            0 => any_params(&mut rng),
            _ => valid_params(&mut rng),
        };
        let whole = params.file_length();
        let length = match round % 3 {
            0 => whole.saturating_add_signed(rng.below(3) as isize - 1),
            _ => whole,
        };
        let query = rng.below(params.q as usize + 2);
        let layer = rng.below(params.k as usize + 2);
        // Numbers that a byte cannot hold are no queries and no layers.
        for (query, layer) in [(query, layer), (query + 256, layer), (query, layer + 256)] {
            let (answer, part) = look_up(params, length, query, layer);
            let theirs = ffi::look_up(params, length, query, layer);
            found.case(
                (answer, part),
                (
                    Answer::new(theirs.number, theirs.place as usize),
                    theirs.start..theirs.start + theirs.length,
                ),
                (params, length, query, layer),
            );
        }
    }
    found.done();
}

fn compare_points() {
    let mut rng = Rng::new(103);
    let mut points = Comparison::of("point");
    for n in 0..=30u8 {
        for layer in 0..=n {
            let size = 1u32 << (n - layer);
            let mut indices = vec![0, 1, size / 2, size - 1, size, u32::MAX];
            indices.extend((0..20).map(|_| rng.word() % size));
            indices.extend((0..10).map(|_| rng.word()));
            for index in indices {
                points.case(
                    point(n, layer, index),
                    ffi::point(n, layer, index),
                    (n, layer, index),
                );
            }
        }
    }
    points.done();
}

fn compare_merkle(rounds: usize) {
    let mut rng = Rng::new(104);
    let mut leaf = Comparison::of("leaf");
    let numbers = [0, 1, 2, 5, 255, 256, 65536, 1 << 31, P - 1];
    let mut pairs: Vec<(u32, u32)> = numbers
        .iter()
        .flat_map(|&a| numbers.map(|c| (a, c)))
        .collect();
    pairs.extend((0..rounds).map(|_| (rng.element(), rng.element())));
    for (a, c) in pairs {
        leaf.case(merkle::leaf(a, c), ffi::leaf(a, c), (a, c));
    }
    leaf.done();

    let mut node = Comparison::of("node");
    let mut parent = Comparison::of("parent");
    for round in 0..rounds {
        let (left, right) = (rng.digest(), rng.digest());
        node.case(
            merkle::node(&left, &right),
            ffi::node(&left, &right),
            (left, right),
        );
        let index = match round % 4 {
            0 => rng.next() as usize,
            1 => [0, 1, usize::MAX - 1, usize::MAX][rng.below(4)],
            _ => rng.below(1 << 20),
        };
        let ours = merkle::parent(&left, index, &right);
        parent.case(
            ours,
            ffi::parent(&left, index, &right),
            (left, index, right),
        );
    }
    node.done();
    parent.done();

    let mut climb = Comparison::of("climb");
    for round in 0..rounds {
        let leaf = rng.digest();
        let height = rng.below(20);
        let index = match round % 4 {
            0 => rng.next() as usize,
            _ => rng.below(1 << height),
        };
        // Some paths end within a sibling; those last bytes do not count.
        let extra = if round % 3 == 0 { rng.below(32) } else { 0 };
        let siblings = rng.bytes(32 * height + extra);
        let ours = merkle::climb(&leaf, index, &siblings);
        climb.case(
            ours,
            ffi::climb(&leaf, index, &siblings),
            (leaf, index, &siblings),
        );
    }
    climb.done();
}

/// Whole transcripts, the two programs side by side from the start on.
fn compare_transcripts(rounds: usize) {
    let mut rng = Rng::new(105);
    let mut start = Comparison::of("transcript start");
    let mut root = Comparison::of("absorb root");
    let mut challenge = Comparison::of("challenge");
    let mut absorb_final = Comparison::of("absorb final");
    let mut draw = Comparison::of("draw");
    for _ in 0..rounds / 10 {
        let params = any_params(&mut rng);
        let context = rng.digest();
        let ours = Transcript::start(params, &context);
        start.case(ours.state, ffi::start(params, &context), (params, context));

        let params = valid_params(&mut rng);
        let context = rng.digest();
        let mut ours = Transcript::start(params, &context);
        let mut theirs = ffi::start(params, &context);
        start.case(ours.state, theirs, (params, context));
        for _ in 0..params.k {
            let before = ours.state;
            let digest = rng.digest();
            ours.absorb_root(&digest);
            theirs = ffi::absorb_root(&theirs, &digest);
            root.case(ours.state, theirs, (before, digest));
            challenge.case(ours.challenge(), ffi::challenge(&theirs), ours.state);
        }

        let before = ours.state;
        let coefficients = elements_64(&mut rng);
        let count = params.final_count();
        ours.absorb_final(&coefficients[..count]);
        theirs = ffi::absorb_final(&theirs, &coefficients, count);
        absorb_final.case(ours.state, theirs, (before, coefficients, count));
        for query in (0..params.q).chain([255]) {
            let drawn = ffi::draw(&theirs, params, query);
            draw.case(ours.draw(params, query), drawn, (ours.state, params, query));
        }
    }
    start.done();
    root.done();
    challenge.done();
    absorb_final.done();
    draw.done();
}

/// Every count of final coefficients; above 64 it counts as 64.
fn compare_final_counts() {
    let mut rng = Rng::new(106);
    let mut absorb_final = Comparison::of("absorb final, every count");
    for count in (0..=70).chain([256, 1 << 32, usize::MAX]) {
        let state = rng.digest();
        for mut coefficients in [[0; 64], [P - 1; 64], elements_64(&mut rng)] {
            coefficients[63] = rng.element();
            let mut ours = Transcript { state };
            ours.absorb_final(&coefficients[..count.min(64)]);
            let theirs = ffi::absorb_final(&state, &coefficients, count);
            absorb_final.case(ours.state, theirs, (state, coefficients, count));
        }
    }
    absorb_final.done();
}

fn compare_folds(rounds: usize) {
    let mut rng = Rng::new(107);
    let mut cases: Vec<[u32; 4]> = Vec::new();
    for x in EDGES {
        for beta in EDGES {
            cases.extend(EDGES.iter().flat_map(|&a| EDGES.map(|c| [x, beta, a, c])));
        }
    }
    for round in 0..rounds {
        let mut case = [0; 4].map(|_| any_number(&mut rng));
        match round % 4 {
            // β equal to x is an ordinary case.
            0 => case[1] = case[0],
            // A point of a layer, as the reader meets them.
            1 => case[0] = point(20, rng.below(13) as u8, rng.word() >> 12),
            _ => {}
        }
        cases.push(case);
    }

    let mut next = Comparison::of("next");
    let mut agrees = Comparison::of("agrees");
    for [x, beta, a, c] in cases {
        let mut values = vec![0, a, c, any_number(&mut rng)];
        // At x = 0 the equation does not fix a next value.
        if x % P != 0 {
            let value = fold::next(x, beta, a, c);
            next.case(value, ffi::next(x, beta, a, c), (x, beta, a, c));
            values.extend([
                value,
                field::add(value, 1),
                field::sub(value, 1),
                field::neg(value),
            ]);
            if let Some(same_modulo_p) = value.checked_add(P) {
                values.push(same_modulo_p);
            }
        }
        for v in values {
            let ours = fold::agrees(x, beta, a, c, v);
            agrees.case(ours, ffi::agrees(x, beta, a, c, v), (x, beta, a, c, v));
        }
    }
    next.done();
    agrees.done();
}

fn compare_eval(rounds: usize) {
    let mut rng = Rng::new(108);
    let mut eval = Comparison::of("eval");
    let mut compare = |coefficients: &Coefficients, count: usize, x: u32| {
        let ours = fold::eval(&coefficients[..count], x);
        eval.case(
            ours,
            ffi::eval(coefficients, count, x),
            (coefficients, count, x),
        );
    };
    for count in 0..=64 {
        for x in EDGES {
            compare(&[P - 1; 64], count, x);
            compare(&[u32::MAX; 64], count, x);
            compare(&elements_64(&mut rng), count, x);
        }
    }
    for _ in 0..rounds {
        let coefficients = [0; 64].map(|_| any_number(&mut rng));
        let count = rng.below(65);
        compare(&coefficients, count, any_number(&mut rng));
        compare(&elements_64(&mut rng), count, rng.element());
    }
    eval.done();
}

fn compare_folds_in_place(rounds: usize) {
    let mut rng = Rng::new(111);
    let mut folds = Comparison::of("fold in place");
    let mut compare = |poly: &[u32], beta: u32| {
        // The second half keeps its numbers, and so does a polynomial of odd length.
        let mut ours = poly.to_vec();
        if poly.len() % 2 == 0 {
            let folded = fold::fold_coefficients(poly, beta);
            ours[..folded.len()].copy_from_slice(&folded);
        }
        let mut theirs = poly.to_vec();
        ffi::fold_in_place(&mut theirs, beta);
        folds.case(ours, theirs, (poly, beta));
    };
    for length in 0..=70 {
        for beta in EDGES {
            compare(&vec![u32::MAX; length], beta);
            compare(&rng.elements(length), beta);
        }
    }
    for _ in 0..rounds {
        let length = rng.below(71);
        let poly: Vec<u32> = (0..length).map(|_| any_number(&mut rng)).collect();
        compare(&poly, any_number(&mut rng));
    }
    folds.done();
}

/// The writer, on inputs that fit and on inputs that do not.
pub fn writer(rounds: usize) -> Counts {
    let counts = compare_writer(rounds);
    println!("0 disagreements");
    counts
}

fn compare_writer(rounds: usize) -> Counts {
    let mut rng = Rng::new(110);
    let mut writers = Writers::new();
    writers.polynomials_of_every_length(&mut rng);
    writers.every_count_of_folds(&mut rng);
    writers.coefficients_at_the_edge(&mut rng);
    writers.every_fault(&mut rng);
    writers.parameters_not_valid(&mut rng);
    for _ in 0..rounds {
        let n = rng.between(2, 10);
        let params = files::valid_params(&mut rng, n, 64);
        let coefficients = any_polynomial(&mut rng, params);
        let mut writing = Writing::fitting(&mut rng, params, coefficients);
        writers.call(writing.clone());
        // Each test is the first to fail as often as the others.
        let first = rng.below(FAULTS.len());
        let set = (rng.below(SETS_OF_FAULTS) >> first | 1) << first;
        add_faults(&mut rng, &mut writing, set);
        writers.call(writing);
    }
    writers.left.done();
    writers.judged.done();
    writers.counts
}

/// Both writers on equal inputs, the verdicts on what they wrote, and how often
/// each number was answered. The library's writer evaluates point by point, so
/// only few polynomials are long.
struct Writers {
    left: Comparison,
    judged: Comparison,
    counts: Counts,
}

impl Writers {
    fn new() -> Writers {
        Writers {
            left: Comparison::of("writer"),
            judged: Comparison::of("verdicts on a written file"),
            counts: Counts::default(),
        }
    }

    /// Compares the answers and all that is left in the buffers; of these, only
    /// the first differences are shown.
    fn call(&mut self, writing: Writing) {
        let (mut ours, mut theirs) = (writing.clone(), writing);
        let our_answer = ours.write(write);
        let their_answer = theirs.write(ffi::write);
        let differences = ours.differences(&theirs);
        let our_buffers = differences.map(|found| found.map(|(at, ours, _)| (at, ours)));
        let their_buffers = differences.map(|found| found.map(|(at, _, theirs)| (at, theirs)));
        self.counts.add(our_answer.number);
        self.left.case(
            (our_answer, our_buffers),
            (their_answer, their_buffers),
            &ours,
        );
        if our_answer.number == WRITTEN {
            // Either program's verdict; before them, what they must be.
            let length = ours.params.file_length();
            let file = &theirs.output.part()[..length];
            let verdicts = [
                verdict(ours.params, &ours.context, file),
                ffi::verdict(ours.params, &ours.context, file),
            ];
            let accepted = Answer::new(ACCEPTED, length);
            self.judged.case([accepted; 2], verdicts, &ours);
        }
    }

    /// Every n up to 14 and every b; every length where that takes little time,
    /// else the shortest, the full one and one between, of n = 14 only some.
    fn polynomials_of_every_length(&mut self, rng: &mut Rng) {
        for (n, b) in all_n_and_b(2..=14) {
            let full = 1 << (n - b);
            let between = rng.between(2, full.max(3) - 1);
            let lengths: Vec<usize> = match n {
                _ if n <= 9 || n - b <= 5 => (0..=full).collect(),
                14 => vec![rng.pick(&[0, 1, between]), full],
                _ => vec![0, 1, between, full],
            };
            for length in lengths {
                let params = params_with(rng, n, b);
                let coefficients = polynomial_of_length(rng, params, length);
                self.call(Writing::fitting(rng, params, coefficients));
            }
        }
    }

    fn every_count_of_folds(&mut self, rng: &mut Rng) {
        for (n, b) in all_n_and_b(2..=11) {
            for k in ALL_K {
                for q in [1, 64] {
                    let params = Params::new(n, b, k, q);
                    if params.valid() {
                        let coefficients = rng.elements(coefficient_count(params));
                        self.call(Writing::exact(rng, params, coefficients));
                    }
                }
            }
        }
    }

    /// Coefficients next to p on both sides, first, last, anywhere and
    /// everywhere.
    fn coefficients_at_the_edge(&mut self, rng: &mut Rng) {
        for (n, b) in all_n_and_b(2..=9) {
            let params = params_with(rng, n, b);
            let count = coefficient_count(params);
            for edge in [0, 1, P - 1, P, P + 1, u32::MAX] {
                for place in [0, count - 1, rng.below(count)] {
                    let mut coefficients = rng.elements(count);
                    coefficients[place] = edge;
                    self.call(Writing::exact(rng, params, coefficients));
                }
                self.call(Writing::exact(rng, params, vec![edge; count]));
            }
        }
    }

    /// Each fault alone, for n up to 20, and every set of faults.
    fn every_fault(&mut self, rng: &mut Rng) {
        for n in (2..=14).chain([15, 17, 20]) {
            for fault in FAULTS.iter().flat_map(|(_, faults)| *faults) {
                let params = files::valid_params(rng, n, 64);
                let coefficients = any_polynomial(rng, params);
                let mut writing = Writing::exact(rng, params, coefficients);
                fault(rng, &mut writing);
                self.call(writing);
            }
        }
        for n in 2..=9 {
            for set in 0..SETS_OF_FAULTS {
                let params = files::valid_params(rng, n, 64);
                let coefficients = any_polynomial(rng, params);
                let mut writing = Writing::fitting(rng, params, coefficients);
                add_faults(rng, &mut writing, set);
                self.call(writing);
            }
        }
    }

    /// Bytes at and around all bounds, and any four bytes. Most of those that
    /// are valid have other faults.
    fn parameters_not_valid(&mut self, rng: &mut Rng) {
        for n in ALL_N.chain([64, 128, 255]) {
            for b in ALL_B.chain([255]) {
                for k in ALL_K.chain([255]) {
                    for q in SOME_Q {
                        self.call(short_writing(rng, Params::new(n, b, k, q)));
                    }
                }
            }
        }
        for _ in 0..10_000 {
            let params = any_params(rng);
            self.call(short_writing(rng, params));
        }
    }
}

/// Hostile jobs: the verdict on each, whole and in pieces of any size.
pub fn hostile(seed: u64, count: usize) -> Counts {
    let mut sizes = Rng::new(!seed);
    let mut verdicts = Verdicts::new();
    for job_seed in hostile::job_seeds(seed, count) {
        let size = match sizes.below(4) {
            0 => sizes.between(0, 3),
            1 => sizes.between(30, 40),
            2 => sizes.between(4, 300),
            _ => sizes.next() as usize,
        };
        verdicts.job(&hostile::job(job_seed), size, ("hostile-job", job_seed));
    }
    verdicts.whole.done();
    verdicts.in_pieces.done();
    println!("0 disagreements");
    verdicts.counts
}

/// The verdicts on jobs, and how often each number was answered.
pub struct Verdicts {
    whole: Comparison,
    in_pieces: Comparison,
    pub counts: Counts,
}

impl Verdicts {
    pub fn new() -> Verdicts {
        Verdicts {
            whole: Comparison::of("verdict on a whole proof"),
            in_pieces: Comparison::of("verdict on a proof in pieces"),
            counts: Counts::default(),
        }
    }

    /// The library knows no jobs too short for a head.
    pub fn job(&mut self, job: &[u8], size: usize, inputs: impl Debug) {
        let ours = job::answer(job);
        self.counts.add(ours.number);
        let Some((params, context, proof)) = job::parts(job) else {
            return;
        };
        if (22..=25).contains(&ours.number) && ours.place as usize > params.opening_offset(1, 0) {
            self.counts.add_later(ours.number);
        }
        self.whole
            .case(ours, ffi::verdict(params, context, proof), &inputs);
        let theirs = ffi::verdict_in_pieces(params, context, proof, size);
        self.in_pieces.case(ours, theirs, (&inputs, size));
    }
}

fn byte(rng: &mut Rng) -> u8 {
    rng.below(256) as u8
}

/// Half of them field numbers, half any 32 bits.
fn any_number(rng: &mut Rng) -> u32 {
    match rng.below(2) {
        0 => rng.element(),
        _ => rng.word(),
    }
}

fn elements_64(rng: &mut Rng) -> Coefficients {
    [0; 64].map(|_| rng.element())
}

fn any_params(rng: &mut Rng) -> Params {
    Params::new(byte(rng), byte(rng), byte(rng), byte(rng))
}

fn valid_params(rng: &mut Rng) -> Params {
    loop {
        let params = Params::new(
            2 + rng.below(19) as u8,
            1 + rng.below(8) as u8,
            1 + rng.below(12) as u8,
            1 + rng.below(64) as u8,
        );
        if params.valid() {
            return params;
        }
    }
}
