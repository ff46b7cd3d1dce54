//! The items of a proof, one by one: where each starts and what it is.

use std::ops::Range;

use crate::answer::{Answer, NO_SUCH_OPENING, PARAMETERS_NOT_VALID};
use crate::params::Params;

#[derive(Clone, Copy, PartialEq, Eq, Debug)]
pub enum Kind {
    Count,
    Parameters,
    Root,
    Coefficient,
    Value,
    Sibling,
}

pub const ALL_KINDS: [Kind; 6] = [
    Kind::Count,
    Kind::Parameters,
    Kind::Root,
    Kind::Coefficient,
    Kind::Value,
    Kind::Sibling,
];

#[derive(Clone, Copy, PartialEq, Eq, Debug)]
pub struct Item {
    pub kind: Kind,
    pub start: usize,
    pub end: usize,
}

impl Item {
    pub fn range(self) -> Range<usize> {
        self.start..self.end
    }
}

/// All items of a proof in order, without gaps; for valid parameters.
pub fn items(params: Params) -> Vec<Item> {
    let mut items = Vec::new();
    let mut start = 0;
    let mut push = |kind, times| {
        let length = match kind {
            Kind::Count => 2,
            Kind::Parameters | Kind::Coefficient | Kind::Value => 4,
            Kind::Root | Kind::Sibling => 32,
        };
        for _ in 0..times {
            let end = start + length;
            items.push(Item { kind, start, end });
            start = end;
        }
    };
    push(Kind::Count, 1);
    push(Kind::Parameters, 1);
    push(Kind::Count, 1);
    push(Kind::Root, params.k as usize);
    push(Kind::Count, 1);
    push(Kind::Coefficient, params.final_count());
    push(Kind::Count, 1);
    for _ in 0..params.q {
        for layer in 0..params.k {
            push(Kind::Value, 2);
            push(Kind::Sibling, params.height(layer));
        }
    }
    items
}

/// The look-up of an opening in a proof of that length: its answer, and which of
/// the proof's bytes it hands back.
pub fn look_up(
    params: Params,
    length: usize,
    query: usize,
    layer: usize,
) -> (Answer, Range<usize>) {
    if !params.valid() {
        return (Answer::new(PARAMETERS_NOT_VALID, 0), 0..0);
    }
    if length != params.file_length() || query >= params.q as usize || layer >= params.k as usize {
        return (Answer::new(NO_SUCH_OPENING, 0), 0..0);
    }
    let items = items(params);
    let mut openings = items.chunk_by(|a, b| !(a.kind == Kind::Sibling && b.kind == Kind::Value));
    let opening = openings
        .nth(query * params.k as usize + layer)
        .expect("the opening is in the file");
    let values = opening.iter().position(|item| item.kind == Kind::Value);
    let first = opening[values.expect("an opening has values")];
    let last = opening[opening.len() - 1];
    (Answer::DONE, first.start..last.end)
}

#[cfg(test)]
mod tests {
    use super::*;

    #[test]
    fn items_fill_the_file() {
        for (n, b, k, q) in [(2, 1, 1, 1), (4, 2, 1, 2), (9, 1, 3, 5), (13, 1, 12, 64)] {
            let params = Params::new(n, b, k, q);
            let items = items(params);
            let mut end = 0;
            for item in &items {
                assert_eq!(item.start, end);
                end = item.end;
            }
            assert_eq!(end, params.file_length());
            for query in 0..q {
                for layer in 0..k {
                    let start = params.opening_offset(query, layer);
                    let first = items.iter().position(|item| item.start == start).unwrap();
                    let values = &items[first..first + 2];
                    assert!(values.iter().all(|item| item.kind == Kind::Value));
                }
            }
            for kind in ALL_KINDS {
                assert!(items.iter().any(|item| item.kind == kind));
            }
        }
    }
}
