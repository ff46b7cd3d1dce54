//! Random scripts: parameters, a file, its cuts into pieces, and the calls.

use crate::files::{any_file, valid_params};
use crate::judge::verdict;
use crate::layout;
use crate::params::Params;
use crate::rng::Rng;
use crate::script::{Call, Script, LONGEST_PIECE};
use crate::sha256::Digest;

/// Calls in a script, at most.
pub const MOST_CALLS: usize = 400;

/// Of these, calls beside the pieces of the file, at most.
const MOST_OTHER_CALLS: usize = 10;

/// Pieces that a file is cut into because one would be too long, at most.
const MOST_SPLITS: usize = 4;

/// Cuts of a file, at most; between them lies one piece more.
const MOST_CUTS: usize = MOST_CALLS - MOST_OTHER_CALLS - MOST_SPLITS - 1;

/// Cuts of a file that takes long to judge, at most.
const FEW_CUTS: usize = 6;

/// The plain reader judges all bytes anew at each piece. This bounds the
/// digests it computes for a script.
const DIGESTS_OF_A_SCRIPT: usize = 40_000;

/// Endless scripts; equal seeds give equal ones.
pub struct RandomScripts {
    rng: Rng,
}

impl RandomScripts {
    pub fn new(seed: u64) -> RandomScripts {
        RandomScripts {
            rng: Rng::new(seed),
        }
    }
}

impl Iterator for RandomScripts {
    type Item = Script;

    fn next(&mut self) -> Option<Script> {
        Some(script(&mut self.rng))
    }
}

fn script(rng: &mut Rng) -> Script {
    let context = rng.digest();
    // A refused opening gets a file too, one for other parameters.
    let file_params = any_valid_params(rng);
    let mut file = any_file(rng, file_params, &context);
    let mut params = file_params;
    if rng.one_in(20) {
        params = any_params_not_valid(rng);
        if file.len() >= 6 {
            file[2..6].copy_from_slice(&[params.n, params.b, params.k, params.q]);
        }
    }
    let cuts = any_cuts(rng, file_params, &context, &file);
    let calls = any_calls(rng, pieces(&file, &cuts));
    Script {
        params,
        context,
        calls,
    }
}

fn any_valid_params(rng: &mut Rng) -> Params {
    let n = match rng.below(8) {
        0 => rng.between(10, 13),
        _ => rng.between(2, 9),
    };
    let most_queries = rng.weighted(&[(6, 3), (3, 8), (1, 64)]);
    let mut params = valid_params(rng, n, most_queries);
    if rng.one_in(50) {
        params.q = 64;
    }
    params
}

/// Parameters that cross one bound, each bound as often as the others, or any
/// four bytes. An n below 2 leaves no room for b and k either.
pub fn any_params_not_valid(rng: &mut Rng) -> Params {
    let b = rng.between(1, 8);
    let k = rng.between(1, 12);
    let q = rng.between(1, 64);
    let rest = rng.below(7);
    let (n, b, k, q) = match rng.below(11) {
        0 => (rng.below(2), 1, 1, q),
        1 => (rng.pick(&[21, 21, 22, 26]), 8, 12, q),
        2 => (k.max(2) + rest, 0, k.max(2), q),
        3 => {
            let b = rng.pick(&[9, 9, 10]);
            (b + k.min(4) + rest, b, k.min(4), q)
        }
        4 => ((b + rest).max(2), b, 0, q),
        5 => (20, b.min(7), 13, q),
        6 => (b + k, b, k, 0),
        7 => (b + k, b, k, rng.pick(&[65, 65, 66, 255])),
        8 => (b + k.min(11), b, k.min(11) + 1, q),
        9 => (b.min(6) + k.min(7) + 7, b.min(6), k.min(7), q),
        _ => {
            let mut byte = || rng.below(256);
            (byte(), byte(), byte(), byte())
        }
    };
    let params = Params::new(n as u8, b as u8, k as u8, q as u8);
    if params.valid() {
        // Four bytes that happen to be valid.
        return any_params_not_valid(rng);
    }
    params
}

#[derive(Clone, Copy)]
enum Cuts {
    None,
    Bytes,
    AtDecidingByte,
    Random,
    Steps,
    Items,
    NearItems,
}

const CUTS: [(usize, Cuts); 7] = [
    (14, Cuts::None),
    (14, Cuts::Bytes),
    (18, Cuts::AtDecidingByte),
    (12, Cuts::Random),
    (18, Cuts::Steps),
    (12, Cuts::Items),
    (12, Cuts::NearItems),
];

/// Where the file is cut, in order. A place that repeats makes an empty piece.
fn any_cuts(rng: &mut Rng, params: Params, context: &Digest, file: &[u8]) -> Vec<usize> {
    let length = file.len();
    let most = most_cuts(params);
    let mut cuts: Vec<usize> = match rng.weighted(&CUTS) {
        Cuts::None => Vec::new(),
        Cuts::Bytes => (1..length).collect(),
        Cuts::AtDecidingByte => {
            let place = verdict(params, context, file).place as usize;
            let reach = rng.pick(&[0, 1, 2, 3, 5, 35]);
            (place.saturating_sub(reach)..=place + reach).collect()
        }
        Cuts::Random => {
            let count = rng.between(1, 30);
            (0..count).map(|_| rng.between(0, length)).collect()
        }
        Cuts::Steps => {
            let longest = rng.pick(&[1, 3, 5, 33, 40, 100, 1000]);
            let mut cuts = Vec::new();
            let mut at = 0;
            while at < length {
                at += rng.between(0, longest);
                cuts.push(at);
            }
            cuts
        }
        Cuts::Items => item_ends(params).collect(),
        Cuts::NearItems => item_ends(params)
            .map(|end| end - 1 + rng.below(3))
            .collect(),
    };
    if rng.one_in(3) {
        let repeated: Vec<usize> = cuts.iter().copied().filter(|_| rng.one_in(4)).collect();
        cuts.extend(repeated);
    }
    cuts.retain(|&cut| cut <= length);
    cuts.sort();
    thin_out(rng, &mut cuts, most);
    cuts
}

fn item_ends(params: Params) -> impl Iterator<Item = usize> {
    layout::items(params).into_iter().map(|item| item.end)
}

/// Keeps no more than so many cuts, either neighbours or some here and there.
fn thin_out(rng: &mut Rng, cuts: &mut Vec<usize>, most: usize) {
    let surplus = cuts.len().saturating_sub(most);
    if rng.one_in(2) {
        cuts.drain(..rng.between(0, surplus));
    } else if surplus > 0 {
        let last = cuts.len() - 1;
        for place in 0..most {
            cuts.swap(place, rng.between(place, last));
        }
    }
    cuts.truncate(most);
    cuts.sort();
}

fn most_cuts(params: Params) -> usize {
    let path_digests: usize = (0..params.k).map(|layer| params.height(layer) + 1).sum();
    let digests = params.q as usize * path_digests;
    (DIGESTS_OF_A_SCRIPT / digests).clamp(FEW_CUTS, MOST_CUTS)
}

fn pieces(file: &[u8], cuts: &[usize]) -> Vec<Vec<u8>> {
    let mut pieces = Vec::new();
    let mut start = 0;
    for &end in cuts.iter().chain([&file.len()]) {
        let mut rest = &file[start..end];
        while rest.len() > LONGEST_PIECE {
            let (piece, after) = rest.split_at(LONGEST_PIECE);
            pieces.push(piece.to_vec());
            rest = after;
        }
        pieces.push(rest.to_vec());
        start = end;
    }
    pieces
}

#[derive(Clone, Copy)]
enum Ending {
    Once,
    Never,
    Early,
    Anywhere,
    Repeated,
    WithCallsAfter,
    WithPiecesBefore,
    WithoutPieces,
}

const ENDINGS: [(usize, Ending); 8] = [
    (40, Ending::Once),
    (12, Ending::Never),
    (12, Ending::Early),
    (4, Ending::Anywhere),
    (10, Ending::Repeated),
    (12, Ending::WithCallsAfter),
    (9, Ending::WithPiecesBefore),
    (1, Ending::WithoutPieces),
];

/// The pieces of the file in order, with end calls and further pieces.
fn any_calls(rng: &mut Rng, pieces: Vec<Vec<u8>>) -> Vec<Call> {
    let mut calls: Vec<Call> = pieces.into_iter().map(Call::Piece).collect();
    match rng.weighted(&ENDINGS) {
        Ending::Once => calls.push(Call::End),
        Ending::Never => {}
        Ending::Early => {
            calls.insert(rng.between(0, calls.len()), Call::End);
            if rng.one_in(2) {
                calls.push(Call::End);
            }
        }
        Ending::Anywhere => {
            for _ in 0..rng.between(2, 4) {
                calls.insert(rng.between(0, calls.len()), Call::End);
            }
        }
        Ending::Repeated => calls.extend(vec![Call::End; rng.between(2, 4)]),
        Ending::WithCallsAfter => {
            calls.push(Call::End);
            for _ in 0..rng.between(1, 8) {
                calls.push(if rng.one_in(3) {
                    Call::End
                } else {
                    short_piece(rng)
                });
            }
        }
        Ending::WithPiecesBefore => {
            for _ in 0..rng.between(1, 5) {
                calls.push(short_piece(rng));
            }
            if rng.one_in(2) {
                calls.push(Call::End);
            }
        }
        Ending::WithoutPieces => calls = vec![Call::End; rng.below(3)],
    }
    calls
}

fn short_piece(rng: &mut Rng) -> Call {
    let length = rng.pick(&[0, 0, 1, 2, 33, 100]);
    Call::Piece(rng.bytes(length))
}

#[cfg(test)]
mod tests {
    use super::*;
    use crate::answer::Answer;

    const SOME: usize = 800;

    fn some_scripts() -> Vec<Script> {
        RandomScripts::new(60).take(SOME).collect()
    }

    /// The answers to the calls by the verifier of whole files.
    fn answers_by_verdicts(script: &Script) -> Vec<Answer> {
        let mut joined = Vec::new();
        let mut closed = !script.params.valid();
        let answer_to = |call: &Call| {
            if closed {
                return Answer::new(11, 0);
            }
            if let Call::Piece(piece) = call {
                joined.extend_from_slice(piece);
            }
            closed = *call == Call::End;
            let whole = verdict(script.params, &script.context, &joined);
            match (call, whole.number) {
                (Call::Piece(_), 1 | 26) => Answer::new(0, joined.len()),
                _ => whole,
            }
        };
        script.calls.iter().map(answer_to).collect()
    }

    #[test]
    fn both_judges_answer_alike_and_every_number_is_met() {
        let mut openings = [0; 28];
        let mut numbers = [0; 28];
        for (index, script) in some_scripts().iter().enumerate() {
            let (opening, answers) = script.answers();
            assert_eq!(answers, answers_by_verdicts(script), "script {index}");
            openings[opening.number as usize] += 1;
            for answer in answers {
                numbers[answer.number as usize] += 1;
            }
        }
        assert!((20..70).contains(&openings[10]), "{openings:?}");
        assert_eq!(openings[0] + openings[10], SOME);
        for number in [0, 1, 11, 20, 21, 22, 23, 24, 25, 26, 27] {
            assert!(numbers[number] >= 20, "{number}: {numbers:?}");
        }
    }

    #[test]
    fn equal_seeds_repeat_and_others_do_not() {
        let first: Vec<Script> = RandomScripts::new(61).take(30).collect();
        let again: Vec<Script> = RandomScripts::new(61).take(30).collect();
        let other: Vec<Script> = RandomScripts::new(62).take(30).collect();
        assert_eq!(first, again);
        assert!(first.iter().zip(&other).all(|(one, two)| one != two));
    }

    #[test]
    fn scripts_keep_to_their_limits() {
        for script in some_scripts() {
            assert!(script.calls.len() <= MOST_CALLS);
            script.to_bytes();
        }
        // The most cuts, the longest file and the most further calls.
        let mut rng = Rng::new(63);
        let params = Params::new(13, 1, 12, 64);
        let longest = vec![0; params.file_length() + 1000];
        let cuts = vec![0; MOST_CUTS];
        for _ in 0..200 {
            let calls = any_calls(&mut rng, pieces(&longest, &cuts));
            assert!(calls.len() <= MOST_CALLS);
        }
    }

    #[test]
    fn every_size_of_parameters_is_met() {
        let scripts = some_scripts();
        let met = |holds: &dyn Fn(Params) -> bool| scripts.iter().any(|s| holds(s.params));
        for n in 2..=13 {
            assert!(met(&|params| params.valid() && params.n == n), "{n}");
        }
        for q in [1, 2, 3, 8, 64] {
            assert!(met(&|params| params.valid() && params.q == q), "{q}");
        }
        let small = scripts.iter().filter(|script| script.params.n <= 9);
        assert!(small.count() > SOME * 3 / 4);
    }

    #[test]
    fn each_bound_is_crossed_alone() {
        let mut rng = Rng::new(64);
        let mut crossed_alone = [0; 10];
        let mut edges = Vec::new();
        for _ in 0..2000 {
            let params = any_params_not_valid(&mut rng);
            assert!(!params.valid());
            let Params { n, b, k, q } = params;
            let (n, b, k) = (n as usize, b as usize, k as usize);
            // An n below 2 leaves no room for b and k.
            let room = n.max(2);
            let crossed = [
                n < 2,
                n > 20,
                b < 1,
                b > 8,
                k < 1,
                k > 12,
                q < 1,
                q > 64,
                b + k > room,
                b + k + 6 < n,
            ];
            if crossed.iter().filter(|&&crossed| crossed).count() == 1 {
                let bound = crossed.iter().position(|&crossed| crossed).unwrap();
                crossed_alone[bound] += 1;
                edges.extend([(0, n), (1, b), (2, k), (3, q as usize)]);
                edges.push((4, (b + k).wrapping_sub(n)));
                edges.push((5, n.wrapping_sub(b + k)));
            }
        }
        assert!(crossed_alone.iter().all(|&times| times > 20));
        for edge in [
            (0, 1),
            (0, 21),
            (1, 0),
            (1, 9),
            (2, 0),
            (2, 13),
            (3, 0),
            (3, 65),
            (4, 1),
            (5, 7),
        ] {
            assert!(edges.contains(&edge), "{edge:?}");
        }
    }

    #[test]
    fn pieces_join_to_the_file() {
        let mut rng = Rng::new(65);
        let mut empty_pieces = 0;
        for _ in 0..300 {
            let params = any_valid_params(&mut rng);
            let context = rng.digest();
            let file = any_file(&mut rng, params, &context);
            let cuts = any_cuts(&mut rng, params, &context, &file);
            assert!(cuts.len() <= most_cuts(params));
            let pieces = pieces(&file, &cuts);
            assert!(pieces.iter().all(|piece| piece.len() <= LONGEST_PIECE));
            assert_eq!(pieces.concat(), file);
            empty_pieces += pieces.iter().filter(|piece| piece.is_empty()).count();
        }
        assert!(empty_pieces > 100);
    }
}
