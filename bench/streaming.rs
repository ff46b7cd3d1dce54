//! The ordinary verifier as a reader that is fed in pieces: the checks of
//! `judge::verdict` in the same order, each made at the byte that decides it.

use crate::answer::{
    Answer, ACCEPTED, CHAIN_MISSES_FINAL, CLOSED, COUNT_DIFFERS, NUMBER_NOT_BELOW_P, OPEN,
    PARAMETERS_DIFFER, PARAMETERS_NOT_VALID, PATH_MISSES_ROOT, TOO_LONG, TOO_SHORT,
    VALUE_NOT_FOLDED,
};
use crate::domain::{leaf_of, Coset};
use crate::field::P;
use crate::fold::{eval, next};
use crate::merkle::{leaf, parent};
use crate::params::Params;
use crate::sha256::Digest;
use crate::transcript::Transcript;

const MOST_LAYERS: usize = 12;
const MOST_COEFFICIENTS: usize = 64;
const LONGEST_ITEM: usize = 32;

/// What the file goes on with.
#[derive(Clone, Copy)]
enum Item {
    ParameterCount,
    Parameters,
    RootCount,
    Root,
    CoefficientCount,
    Coefficient,
    QueryCount,
    FirstValue,
    SecondValue,
    Sibling,
    /// The proof is whole; any byte is one too many.
    Surplus,
    /// Refused or closed; every piece gets this answer.
    Nothing(Answer),
}

impl Item {
    fn length(self) -> usize {
        match self {
            Item::ParameterCount | Item::RootCount | Item::CoefficientCount | Item::QueryCount => 2,
            Item::Parameters | Item::Coefficient | Item::FirstValue | Item::SecondValue => 4,
            Item::Root | Item::Sibling => 32,
            Item::Surplus => 1,
            // No piece ends inside it, so that every piece comes to its answer.
            Item::Nothing(_) => 0,
        }
    }
}

/// A committed layer, as the openings need it.
#[derive(Clone, Copy)]
struct Layer {
    root: Digest,
    challenge: u32,
    coset: Coset,
}

impl Layer {
    const NONE: Layer = Layer {
        root: [0; 32],
        challenge: 0,
        coset: Coset {
            offset: 0,
            generator: 0,
        },
    };
}

/// A query on its way through the layers.
#[derive(Clone, Copy)]
struct Walk {
    query: u8,
    layer: u8,
    /// The index in the layer; from the second value on, the leaf.
    index: u32,
    /// What the layer before folds to; layer 0 has none before it.
    folded: Option<u32>,
    /// The leaf's first value, until the second is there.
    first: u32,
    /// The node that the siblings so far lead to, and its index at its height.
    node: Digest,
    node_index: usize,
    siblings_left: usize,
}

/// A reader of one proof. It keeps the layers, the final polynomial and the
/// current item, never the file.
pub struct Reader {
    item: Item,
    /// The item's length, kept beside it for pieces of a few bytes.
    length: usize,
    /// The item's bytes that came with earlier pieces.
    buffer: [u8; LONGEST_ITEM],
    held: usize,
    /// Bytes before the item.
    start: u32,
    params: Params,
    transcript: Transcript,
    layers: [Layer; MOST_LAYERS],
    layer_count: usize,
    coefficients: [u32; MOST_COEFFICIENTS],
    coefficient_count: usize,
    final_coset: Coset,
    walk: Walk,
}

impl Reader {
    pub fn open(params: Params, context: &Digest) -> (Answer, Reader) {
        let mut reader = Reader {
            item: Item::ParameterCount,
            length: Item::ParameterCount.length(),
            buffer: [0; LONGEST_ITEM],
            held: 0,
            start: 0,
            params,
            transcript: Transcript::start(params, context),
            layers: [Layer::NONE; MOST_LAYERS],
            layer_count: 0,
            coefficients: [0; MOST_COEFFICIENTS],
            coefficient_count: 0,
            final_coset: Layer::NONE.coset,
            walk: Walk {
                query: 0,
                layer: 0,
                index: 0,
                folded: None,
                first: 0,
                node: [0; 32],
                node_index: 0,
                siblings_left: 0,
            },
        };
        if !params.valid() {
            reader.stop(Answer::new(CLOSED, 0));
            return (Answer::new(PARAMETERS_NOT_VALID, 0), reader);
        }
        (reader.so_far(OPEN), reader)
    }

    /// The refusal of the earliest deciding byte, or 0 at the bytes so far.
    #[inline]
    pub fn feed(&mut self, piece: &[u8]) -> Answer {
        // Nothing is decided inside an item, where most short pieces end.
        if self.held + piece.len() < self.length {
            self.hold(piece);
            return self.so_far(OPEN);
        }
        self.feed_items(piece)
    }

    /// The verdict. Afterwards the reader is closed.
    pub fn finish(&mut self) -> Answer {
        let answer = match self.item {
            Item::Nothing(answer) => answer,
            Item::Surplus => self.so_far(ACCEPTED),
            _ => self.so_far(TOO_SHORT),
        };
        self.stop(Answer::new(CLOSED, 0));
        answer
    }

    fn so_far(&self, number: u8) -> Answer {
        Answer {
            number,
            place: self.start + self.held as u32,
        }
    }

    fn stop(&mut self, answer: Answer) -> Answer {
        self.expect(Item::Nothing(answer));
        self.held = 0;
        answer
    }

    fn expect(&mut self, item: Item) {
        self.item = item;
        self.length = item.length();
    }

    /// Keeps bytes of the current item.
    #[inline]
    fn hold(&mut self, bytes: &[u8]) {
        let held = self.held + bytes.len();
        match *bytes {
            // A store, where a copy of any length would be a call.
            [byte] => self.buffer[self.held] = byte,
            _ => self.buffer[self.held..held].copy_from_slice(bytes),
        }
        self.held = held;
    }

    /// A piece that has the last byte of the current item.
    #[inline(never)]
    fn feed_items(&mut self, piece: &[u8]) -> Answer {
        if let Item::Nothing(answer) = self.item {
            return answer;
        }
        match self.read_items(piece) {
            Ok(()) => self.so_far(OPEN),
            Err(number) => self.stop(Answer {
                number,
                place: self.start,
            }),
        }
    }

    /// Only an item split between pieces goes through the buffer; the others are
    /// read where they stand.
    fn read_items(&mut self, mut piece: &[u8]) -> Result<(), u8> {
        if self.held > 0 {
            let (bytes, rest) = piece.split_at(self.length - self.held);
            self.hold(bytes);
            self.held = 0;
            let item = self.buffer;
            self.read_item(&item[..self.length])?;
            piece = rest;
        }
        while let Some((item, rest)) = piece.split_at_checked(self.length) {
            self.read_item(item)?;
            piece = rest;
        }
        self.hold(piece);
        Ok(())
    }

    /// A whole item. Every fault in it is decided by its last byte.
    fn read_item(&mut self, item: &[u8]) -> Result<(), u8> {
        self.start += self.length as u32;
        match self.item {
            Item::Sibling => self.read_sibling(digest(item))?,
            Item::FirstValue => {
                self.walk.first = number(item)?;
                self.expect(Item::SecondValue);
            }
            Item::SecondValue => self.read_second_value(number(item)?)?,
            Item::ParameterCount => self.read_count(item, 4, Item::Parameters)?,
            Item::Parameters => {
                let Params { n, b, k, q } = self.params;
                if item != [n, b, k, q] {
                    return Err(PARAMETERS_DIFFER);
                }
                self.expect(Item::RootCount);
            }
            Item::RootCount => self.read_count(item, self.params.k as usize, Item::Root)?,
            Item::Root => self.read_root(digest(item)),
            Item::CoefficientCount => {
                self.read_count(item, self.params.final_count(), Item::Coefficient)?
            }
            Item::Coefficient => self.read_coefficient(number(item)?),
            Item::QueryCount => {
                self.read_count(item, self.params.q as usize, Item::FirstValue)?;
                self.start_query(0);
            }
            Item::Surplus => return Err(TOO_LONG),
            Item::Nothing(_) => unreachable!("a stopped reader reads no item"),
        }
        Ok(())
    }

    fn read_count(&mut self, item: &[u8], expected: usize, then: Item) -> Result<(), u8> {
        if u16::from_le_bytes([item[0], item[1]]) as usize != expected {
            return Err(COUNT_DIFFERS);
        }
        self.expect(then);
        Ok(())
    }

    fn read_root(&mut self, root: &Digest) {
        self.transcript.absorb_root(root);
        let layer = self.layer_count;
        self.layers[layer] = Layer {
            root: *root,
            challenge: self.transcript.challenge(),
            coset: Coset::of_layer(self.params.n, layer as u8),
        };
        self.layer_count += 1;
        if self.layer_count == self.params.k as usize {
            self.final_coset = Coset::of_layer(self.params.n, self.params.k);
            self.expect(Item::CoefficientCount);
        }
    }

    fn read_coefficient(&mut self, coefficient: u32) {
        self.coefficients[self.coefficient_count] = coefficient;
        self.coefficient_count += 1;
        if self.coefficient_count == self.params.final_count() {
            self.transcript
                .absorb_final(&self.coefficients[..self.coefficient_count]);
            self.expect(Item::QueryCount);
        }
    }

    fn start_query(&mut self, query: u8) {
        self.walk.query = query;
        self.walk.layer = 0;
        self.walk.index = self.transcript.draw(self.params, query);
        self.walk.folded = None;
        self.expect(Item::FirstValue);
    }

    fn read_second_value(&mut self, second: u32) -> Result<(), u8> {
        let walk = &mut self.walk;
        let layer = &self.layers[walk.layer as usize];
        let (m, is_second) = leaf_of(self.params.n, walk.layer, walk.index);
        let opened = if is_second { second } else { walk.first };
        if walk.folded.is_some_and(|value| value != opened) {
            return Err(VALUE_NOT_FOLDED);
        }
        walk.folded = Some(next(
            layer.coset.point(m),
            layer.challenge,
            walk.first,
            second,
        ));
        walk.index = m;
        walk.node = leaf(walk.first, second);
        walk.node_index = m as usize;
        walk.siblings_left = self.params.height(walk.layer);
        self.expect(Item::Sibling);
        Ok(())
    }

    fn read_sibling(&mut self, sibling: &Digest) -> Result<(), u8> {
        let walk = &mut self.walk;
        walk.node = parent(&walk.node, walk.node_index, sibling);
        walk.node_index /= 2;
        walk.siblings_left -= 1;
        if walk.siblings_left > 0 {
            return Ok(());
        }
        self.end_opening()
    }

    /// The path is whole: on to the next layer, the next query or the end.
    fn end_opening(&mut self) -> Result<(), u8> {
        let walk = &mut self.walk;
        if walk.node != self.layers[walk.layer as usize].root {
            return Err(PATH_MISSES_ROOT);
        }
        walk.layer += 1;
        if walk.layer < self.params.k {
            self.expect(Item::FirstValue);
            return Ok(());
        }
        let final_polynomial = &self.coefficients[..self.coefficient_count];
        let final_value = eval(final_polynomial, self.final_coset.point(walk.index));
        if walk.folded != Some(final_value) {
            return Err(CHAIN_MISSES_FINAL);
        }
        let query = walk.query + 1;
        if query < self.params.q {
            self.start_query(query);
        } else {
            self.expect(Item::Surplus);
        }
        Ok(())
    }
}

fn digest(item: &[u8]) -> &Digest {
    item.try_into().expect("32 bytes")
}

fn number(item: &[u8]) -> Result<u32, u8> {
    let number = u32::from_le_bytes([item[0], item[1], item[2], item[3]]);
    if number >= P {
        return Err(NUMBER_NOT_BELOW_P);
    }
    Ok(number)
}
