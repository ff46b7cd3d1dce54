//! Files to feed to a reader: built proofs, forged ones, and damage to both.

use crate::field::P;
use crate::layout::{self, Item, Kind, ALL_KINDS};
use crate::params::Params;
use crate::proof::Forger;
use crate::rng::Rng;
use crate::sha256::Digest;

type Source = fn(&mut Rng, Params, &Digest) -> Vec<u8>;
type Damage = fn(&mut Rng, Params, &mut Vec<u8>);

const SOURCES: [(usize, Source); 9] = [
    (68, built),
    (4, spliced),
    (7, wrong_numbers_committed),
    (8, one_wrong_value_in_the_last_layer),
    (4, same_numbers_modulo_p_committed),
    (4, of_another_context),
    (2, of_other_parameters),
    (2, random_bytes),
    (1, empty),
];

/// How often a file is damaged. Of several faults the earliest decides.
const DAMAGES_OF_A_FILE: [(usize, usize); 4] = [(35, 0), (55, 1), (7, 2), (3, 3)];

const DAMAGES: [(usize, Damage); 9] = [
    (36, flip_bit),
    (12, replace_number),
    (8, replace_count),
    (4, empty_section),
    (12, cut_off),
    (10, extend),
    (6, swap_values),
    (6, swap_siblings),
    (6, randomize_rest),
];

/// Any file to feed to a reader opened with the parameters, which are valid,
/// and the context.
pub fn any_file(rng: &mut Rng, params: Params, context: &Digest) -> Vec<u8> {
    let source = rng.weighted(&SOURCES);
    let mut bytes = source(rng, params, context);
    for _ in 0..rng.weighted(&DAMAGES_OF_A_FILE) {
        let damage = rng.weighted(&DAMAGES);
        damage(rng, params, &mut bytes);
    }
    bytes
}

/// Valid parameters for the given n, with at most the given number of queries.
pub fn valid_params(rng: &mut Rng, n: usize, most_queries: usize) -> Params {
    loop {
        let params = Params::new(
            n as u8,
            rng.between(1, 8) as u8,
            rng.between(1, 12) as u8,
            rng.between(1, most_queries) as u8,
        );
        if params.valid() {
            return params;
        }
    }
}

/// Up to this n a polynomial may have every coefficient; above it is one in a
/// power of x, so that no more than 2^10 points of a layer differ.
const DENSE: u8 = 12;

/// In which power of x, as its log, the polynomial of a file is.
fn any_spread(rng: &mut Rng, params: Params) -> u8 {
    match params.n {
        n if n <= DENSE => 0,
        n => rng.between(n as usize - 10, (n - params.b.max(6)) as usize) as u8,
    }
}

/// A polynomial of any length, none and the full one more often than others.
pub fn polynomial(rng: &mut Rng, params: Params, spread: u8) -> Vec<u32> {
    let full_size = 1 << (params.n - params.b - spread);
    let count = match rng.below(8) {
        0 => 0,
        1 => 1,
        2 | 3 => full_size,
        _ => rng.between(0, full_size),
    };
    let mut polynomial = rng.elements(count);
    if rng.one_in(8) {
        // Coefficients at the edges of the field.
        for coefficient in &mut polynomial {
            *coefficient = rng.pick(&[0, 1, P - 1]);
        }
    }
    polynomial
}

fn built(rng: &mut Rng, params: Params, context: &Digest) -> Vec<u8> {
    build_altered(rng, params, context, |_, _, _| {})
}

fn build_altered(
    rng: &mut Rng,
    params: Params,
    context: &Digest,
    mut alter: impl FnMut(&mut Rng, u8, &mut [u32]),
) -> Vec<u8> {
    let spread = any_spread(rng, params);
    let polynomial = polynomial(rng, params, spread);
    let forger = Forger {
        spread,
        ..Forger::default()
    };
    forger.build(params, context, &polynomial, |layer, numbers| {
        alter(rng, layer, numbers)
    })
}

/// The parts of two proofs in one file, joined at the end of an item or
/// anywhere. Most often they are proofs in one context.
fn spliced(rng: &mut Rng, params: Params, context: &Digest) -> Vec<u8> {
    let mut bytes = built(rng, params, context);
    let other = match rng.below(4) {
        0 => of_another_context(rng, params, context),
        _ => built(rng, params, context),
    };
    let middle = match rng.below(2) {
        0 => rng.pick(&layout::items(params)).end,
        _ => rng.between(0, bytes.len()),
    };
    bytes[middle..].copy_from_slice(&other[middle..]);
    bytes
}

/// The paths are right, but in one layer, or among the final coefficients,
/// about one number, half of them or all are wrong.
fn wrong_numbers_committed(rng: &mut Rng, params: Params, context: &Digest) -> Vec<u8> {
    altered(rng, params, context, |rng, _| rng.element())
}

/// One value of the last layer is wrong: 24 or 25 at the first query that
/// opens it, which is seldom the first of all.
fn one_wrong_value_in_the_last_layer(rng: &mut Rng, params: Params, context: &Digest) -> Vec<u8> {
    build_altered(rng, params, context, |rng, layer, numbers| {
        if layer + 1 == params.k {
            let index = rng.below(numbers.len());
            numbers[index] = rng.element();
        }
    })
}

/// Everything would be right if numbers were reduced modulo p, but some are
/// not below p.
fn same_numbers_modulo_p_committed(rng: &mut Rng, params: Params, context: &Digest) -> Vec<u8> {
    altered(rng, params, context, |_, number| same_modulo_p(number))
}

fn altered(
    rng: &mut Rng,
    params: Params,
    context: &Digest,
    change: fn(&mut Rng, u32) -> u32,
) -> Vec<u8> {
    let altered_layer = rng.between(0, params.k as usize);
    build_altered(rng, params, context, |rng, layer, numbers| {
        if layer as usize == altered_layer {
            let one_in = rng.pick(&[1, 2, numbers.len()]);
            for number in numbers {
                if rng.one_in(one_in) {
                    *number = change(rng, *number);
                }
            }
        }
    })
}

/// The other 32-bit number with the same meaning modulo p, if there is one.
pub fn same_modulo_p(number: u32) -> u32 {
    number.checked_add(P).unwrap_or(number)
}

fn of_another_context(rng: &mut Rng, params: Params, context: &Digest) -> Vec<u8> {
    let mut other = *context;
    if rng.one_in(2) {
        other[rng.below(32)] ^= 1 << rng.below(8);
    } else {
        other = rng.digest();
    }
    built(rng, params, &other)
}

fn of_other_parameters(rng: &mut Rng, params: Params, context: &Digest) -> Vec<u8> {
    let n = rng.between(2, params.n as usize);
    let other = valid_params(rng, n, params.q as usize);
    built(rng, other, context)
}

/// Of any length up to a little more than that of a proof.
fn random_bytes(rng: &mut Rng, params: Params, _: &Digest) -> Vec<u8> {
    let length = rng.between(0, params.file_length() + 20);
    rng.bytes(length)
}

fn empty(_: &mut Rng, _: Params, _: &Digest) -> Vec<u8> {
    Vec::new()
}

/// The items that lie within the bytes.
fn items_within(params: Params, bytes: &[u8]) -> Vec<Item> {
    let mut items = layout::items(params);
    items.retain(|item| item.end <= bytes.len());
    items
}

/// An item within the bytes, if there is one of the kind that is drawn. Every
/// kind is drawn as often as the others, however many items it has.
fn any_item(rng: &mut Rng, params: Params, bytes: &[u8], kinds: &[Kind]) -> Option<Item> {
    let kind = rng.pick(kinds);
    let mut items = items_within(params, bytes);
    items.retain(|item| item.kind == kind);
    if items.is_empty() {
        return None;
    }
    Some(rng.pick(&items))
}

fn flip_bit(rng: &mut Rng, params: Params, bytes: &mut Vec<u8>) {
    if let Some(item) = any_item(rng, params, bytes, &ALL_KINDS) {
        bytes[rng.between(item.start, item.end - 1)] ^= 1 << rng.below(8);
    }
}

fn replace_number(rng: &mut Rng, params: Params, bytes: &mut Vec<u8>) {
    if let Some(item) = any_item(rng, params, bytes, &[Kind::Coefficient, Kind::Value]) {
        let number = u32::from_le_bytes(bytes[item.range()].try_into().expect("4 bytes"));
        let others = [
            0,
            P - 1,
            P,
            P + 1,
            u32::MAX,
            same_modulo_p(number),
            rng.word(),
        ];
        bytes[item.range()].copy_from_slice(&rng.pick(&others).to_le_bytes());
    }
}

fn replace_count(rng: &mut Rng, params: Params, bytes: &mut Vec<u8>) {
    if let Some(item) = any_item(rng, params, bytes, &[Kind::Count]) {
        let count = u16::from_le_bytes(bytes[item.range()].try_into().expect("2 bytes"));
        let others = [
            0,
            count.wrapping_sub(1),
            count.wrapping_add(1),
            count.swap_bytes(),
            count | 1 << 15,
            u16::MAX,
            rng.word() as u16,
        ];
        bytes[item.range()].copy_from_slice(&rng.pick(&others).to_le_bytes());
    }
}

/// A count of zero with nothing behind it, as if the file decided what is to
/// be checked.
fn empty_section(rng: &mut Rng, params: Params, bytes: &mut Vec<u8>) {
    let mut counts = items_within(params, bytes);
    counts.retain(|item| item.kind == Kind::Count);
    if counts.is_empty() {
        return;
    }
    let section = rng.below(counts.len());
    let count = counts[section];
    let end = counts
        .get(section + 1)
        .map_or(bytes.len(), |next| next.start);
    bytes[count.range()].fill(0);
    bytes.drain(count.end..end);
}

fn cut_off(rng: &mut Rng, params: Params, bytes: &mut Vec<u8>) {
    let length = match rng.below(4) {
        0 => bytes.len().saturating_sub(1),
        1 => match any_item(rng, params, bytes, &ALL_KINDS) {
            Some(item) => item.end - rng.below(2),
            None => 0,
        },
        _ => rng.between(0, bytes.len()),
    };
    bytes.truncate(length);
}

fn extend(rng: &mut Rng, _: Params, bytes: &mut Vec<u8>) {
    match rng.below(4) {
        0 => bytes.push(0),
        1 => bytes.extend(rng.bytes(1)),
        2 => bytes.extend_from_within(..bytes.len().min(100)),
        _ => {
            let count = rng.between(2, 40);
            bytes.extend(rng.bytes(count));
        }
    }
}

/// The two values of a pair change places.
fn swap_values(rng: &mut Rng, params: Params, bytes: &mut Vec<u8>) {
    let mut values = items_within(params, bytes);
    values.retain(|item| item.kind == Kind::Value);
    let pairs: Vec<(Item, Item)> = values
        .chunks_exact(2)
        .map(|pair| (pair[0], pair[1]))
        .collect();
    if !pairs.is_empty() {
        let (first, second) = rng.pick(&pairs);
        swap_items(bytes, first, second);
    }
}

/// A sibling changes places with its neighbour in the path, or with any other
/// digest of the file.
fn swap_siblings(rng: &mut Rng, params: Params, bytes: &mut Vec<u8>) {
    let mut digests = items_within(params, bytes);
    digests.retain(|item| matches!(item.kind, Kind::Root | Kind::Sibling));
    if digests.len() < 2 {
        return;
    }
    let second = rng.between(1, digests.len() - 1);
    let first = match rng.below(2) {
        0 => second - 1,
        _ => rng.below(second),
    };
    swap_items(bytes, digests[first], digests[second]);
}

/// The first item is the earlier one, and the two are of one length.
fn swap_items(bytes: &mut [u8], first: Item, second: Item) {
    let (before, after) = bytes.split_at_mut(second.start);
    let length = second.end - second.start;
    before[first.range()].swap_with_slice(&mut after[..length]);
}

fn randomize_rest(rng: &mut Rng, _: Params, bytes: &mut Vec<u8>) {
    let start = rng.between(0, bytes.len());
    rng.fill(&mut bytes[start..]);
}

#[cfg(test)]
mod tests {
    use super::*;
    use crate::judge::verdict;
    use crate::proof::build;

    fn numbers_of(source: Source, rounds: usize) -> Vec<u8> {
        let mut rng = Rng::new(31);
        let mut numbers: Vec<u8> = (0..rounds)
            .map(|_| {
                let n = rng.between(2, 7);
                let params = valid_params(&mut rng, n, 4);
                let context = rng.digest();
                let bytes = source(&mut rng, params, &context);
                verdict(params, &context, &bytes).number
            })
            .collect();
        numbers.sort();
        numbers.dedup();
        numbers
    }

    #[test]
    fn sources_are_what_they_are_called() {
        assert_eq!(numbers_of(built, 200), [1]);
        // Committed numbers that are wrong leave every path right. They may
        // lie where no query looks.
        assert_eq!(numbers_of(wrong_numbers_committed, 400), [1, 24, 25]);
        let numbers = numbers_of(one_wrong_value_in_the_last_layer, 400);
        assert_eq!(numbers, [1, 24, 25]);
        assert_eq!(numbers_of(same_numbers_modulo_p_committed, 400), [1, 22]);
        let numbers = numbers_of(of_another_context, 400);
        assert!(numbers
            .iter()
            .all(|number| [1, 23, 24, 25].contains(number)));
        assert!(numbers.contains(&23));
        assert!(numbers_of(of_other_parameters, 200).contains(&21));
        // A proof spliced at its very start or end is whole.
        let numbers = numbers_of(spliced, 400);
        assert!(numbers
            .iter()
            .all(|number| [1, 23, 24, 25].contains(number)));
        assert!(numbers.contains(&1) && numbers.contains(&23));
        assert_eq!(numbers_of(empty, 20), [26]);
        assert!(numbers_of(random_bytes, 200).contains(&20));
    }

    #[test]
    fn proofs_of_many_points_are_accepted_and_refused() {
        let mut rng = Rng::new(36);
        for n in 13..=20 {
            let params = valid_params(&mut rng, n, 8);
            let context = rng.digest();
            let bytes = built(&mut rng, params, &context);
            assert_eq!(verdict(params, &context, &bytes).number, 1);
            let bytes = wrong_numbers_committed(&mut rng, params, &context);
            assert!([1, 24, 25].contains(&verdict(params, &context, &bytes).number));
        }
    }

    /// Which items of a proof differ after the damage, and the lengths.
    fn damaged(damage: Damage, rounds: usize) -> Vec<(Vec<Kind>, usize, usize)> {
        let mut rng = Rng::new(32);
        (0..rounds)
            .map(|_| {
                let n = rng.between(2, 7);
                let params = valid_params(&mut rng, n, 4);
                let context = rng.digest();
                let bytes = build(params, &context, &rng.elements(1));
                let mut after = bytes.clone();
                damage(&mut rng, params, &mut after);
                let kinds = items_within(params, &after)
                    .into_iter()
                    .filter(|item| bytes[item.range()] != after[item.range()])
                    .map(|item| item.kind)
                    .collect();
                (kinds, bytes.len(), after.len())
            })
            .collect()
    }

    #[test]
    fn one_item_of_every_kind_is_flipped() {
        let mut hits = Vec::new();
        for (kinds, before, after) in damaged(flip_bit, 600) {
            assert_eq!((kinds.len(), after), (1, before));
            hits.extend(kinds);
        }
        for kind in ALL_KINDS {
            let count = hits.iter().filter(|&&hit| hit == kind).count();
            assert!((60..140).contains(&count), "{kind:?} {count}");
        }
    }

    #[test]
    fn replacements_hit_their_kinds() {
        for (damage, allowed) in [
            (
                replace_number as Damage,
                &[Kind::Coefficient, Kind::Value][..],
            ),
            (replace_count, &[Kind::Count]),
            (swap_values, &[Kind::Value]),
            (swap_siblings, &[Kind::Root, Kind::Sibling]),
        ] {
            let mut changed = Vec::new();
            for (kinds, before, after) in damaged(damage, 300) {
                assert_eq!(before, after);
                assert!(kinds.iter().all(|kind| allowed.contains(kind)));
                changed.extend(kinds);
            }
            // A pair of equal values looks the same when swapped.
            let swapped_equals = allowed == [Kind::Value];
            for kind in allowed {
                assert!(changed.contains(kind) || swapped_equals, "{kind:?}");
            }
        }
    }

    #[test]
    fn lengths_change_as_they_should() {
        for (_, before, after) in damaged(cut_off, 200) {
            assert!(after <= before);
        }
        assert!(damaged(cut_off, 200)
            .iter()
            .any(|(_, before, after)| after + 1 == *before));
        for (_, before, after) in damaged(extend, 200) {
            assert!(after > before);
        }
        for (_, before, after) in damaged(randomize_rest, 200) {
            assert_eq!(before, after);
        }
    }

    #[test]
    fn empty_sections_have_nothing_behind_their_count() {
        let params = Params::new(4, 2, 1, 2);
        let mut rng = Rng::new(33);
        let mut lengths = Vec::new();
        for _ in 0..100 {
            let bytes = build(params, &[0; 32], &[1, 2, 3]);
            let mut after = bytes.clone();
            empty_section(&mut rng, params, &mut after);
            let refusal = verdict(params, &[0; 32], &after);
            assert_eq!(refusal.number, 20);
            lengths.push(after.len());
        }
        lengths.sort();
        lengths.dedup();
        assert_eq!(lengths, [52, 260 - 32, 260 - 8, 260 - 4]);
    }

    #[test]
    fn swapped_values_are_refused() {
        let mut rng = Rng::new(34);
        let params = Params::new(6, 1, 2, 3);
        let bytes = build(params, &[7; 32], &rng.elements(32));
        for damage in [swap_values as Damage, swap_siblings] {
            for _ in 0..50 {
                let mut after = bytes.clone();
                damage(&mut rng, params, &mut after);
                // Repeated queries may swap a digest with its equal.
                assert_eq!(
                    verdict(params, &[7; 32], &after).number == 1,
                    after == bytes
                );
            }
        }
    }

    #[test]
    fn damage_takes_any_bytes() {
        let mut rng = Rng::new(35);
        let params = Params::new(3, 1, 1, 1);
        for (_, damage) in DAMAGES {
            for length in 0..=params.file_length() + 2 {
                let mut bytes = rng.bytes(length);
                damage(&mut rng, params, &mut bytes);
            }
        }
    }
}
