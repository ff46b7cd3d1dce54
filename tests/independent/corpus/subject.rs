//! The proofs that the cases are made from, and where their parts stand.

use crate::domain::leaf_of;
use crate::job;
use crate::layout::{items, Item, Kind};
use crate::params::Params;
use crate::proof::{build, Forger};
use crate::rng::Rng;
use crate::sha256::Digest;
use crate::transcript::Transcript;

/// A proof and what it is judged by.
#[derive(Clone)]
pub struct Proof {
    pub params: Params,
    pub context: Digest,
    pub bytes: Vec<u8>,
}

impl Proof {
    /// The proof of a random polynomial of full size.
    pub fn random(params: Params, seed: u64) -> Proof {
        Proof::altered(params, seed, |_, _| {})
    }

    /// The same with its numbers altered before they are committed to.
    pub fn altered(params: Params, seed: u64, alter: impl FnMut(u8, &mut [u32])) -> Proof {
        Proof::forged(&Forger::default(), params, seed, alter)
    }

    pub fn forged(
        forger: &Forger,
        params: Params,
        seed: u64,
        alter: impl FnMut(u8, &mut [u32]),
    ) -> Proof {
        let mut rng = Rng::new(seed);
        let context = rng.digest();
        let polynomial = rng.elements(1 << (params.n - params.b));
        Proof {
            params,
            context,
            bytes: forger.build(params, &context, &polynomial, alter),
        }
    }

    pub fn of(params: Params, polynomial: &[u32]) -> Proof {
        let context = Rng::new(7).digest();
        Proof {
            params,
            context,
            bytes: build(params, &context, polynomial),
        }
    }

    pub fn job(&self) -> Vec<u8> {
        job::job(self.params, &self.context, &self.bytes)
    }

    /// The job after a change of the proof's bytes.
    pub fn changed(&self, change: impl FnOnce(&mut Vec<u8>)) -> Vec<u8> {
        let mut other = self.clone();
        change(&mut other.bytes);
        other.job()
    }

    pub fn with_bit_flipped(&self, place: usize, bit: usize) -> Vec<u8> {
        self.changed(|bytes| bytes[place] ^= 1 << bit)
    }

    pub fn with_number(&self, item: Item, number: u32) -> Vec<u8> {
        self.changed(|bytes| bytes[item.range()].copy_from_slice(&number.to_le_bytes()))
    }

    pub fn items(&self, kind: Kind) -> Vec<Item> {
        let mut items = items(self.params);
        items.retain(|item| item.kind == kind);
        items
    }

    pub fn number(&self, item: Item) -> u32 {
        u32::from_le_bytes(self.bytes[item.range()].try_into().expect("4 bytes"))
    }

    pub fn openings(&self) -> Vec<Opening> {
        let Params { n, k, q, .. } = self.params;
        let mut transcript = Transcript::start(self.params, &self.context);
        for root in self.items(Kind::Root) {
            transcript.absorb_root(self.bytes[root.range()].try_into().expect("32 bytes"));
        }
        let coefficients = self.items(Kind::Coefficient).into_iter();
        let coefficients: Vec<u32> = coefficients.map(|item| self.number(item)).collect();
        transcript.absorb_final(&coefficients);

        let items = items(self.params);
        let mut openings = Vec::new();
        for query in 0..q {
            let mut index = transcript.draw(self.params, query);
            for layer in 0..k {
                let (leaf, is_second) = leaf_of(n, layer, index);
                let start = self.params.opening_offset(query, layer);
                let first = items.iter().position(|item| item.start == start);
                let first = first.expect("an opening starts with a value");
                openings.push(Opening {
                    query,
                    layer,
                    leaf,
                    is_second,
                    values: [items[first], items[first + 1]],
                    siblings: items[first + 2..][..self.params.height(layer)].to_vec(),
                });
                index = leaf;
            }
        }
        openings
    }
}

/// What a query opens in a layer.
pub struct Opening {
    pub query: u8,
    pub layer: u8,
    pub leaf: u32,
    /// Whether the folded value must be the second one, from layer 1 on.
    pub is_second: bool,
    pub values: [Item; 2],
    pub siblings: Vec<Item>,
}

/// The first of the proofs, by seed, that is as wanted.
pub fn first_proof(make: impl Fn(u64) -> Proof, wanted: impl Fn(&Proof) -> bool) -> Proof {
    let mut proofs = (1..10_000).map(make);
    proofs.find(wanted).expect("a seed that serves")
}

pub const ORDINAL: [&str; 2] = ["first", "second"];

/// Small parameters with several layers, coefficients and queries.
pub const SMALL: Params = Params {
    n: 5,
    b: 1,
    k: 2,
    q: 2,
};

pub const SMALLEST: Params = Params {
    n: 2,
    b: 1,
    k: 1,
    q: 1,
};

pub const LARGEST: Params = Params {
    n: 20,
    b: 2,
    k: 12,
    q: 64,
};
