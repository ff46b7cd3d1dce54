//! An answer of document 01: a number of its table and a place in bytes.

use std::collections::BTreeMap;
use std::fmt;

/// Laid out as in C, because the linked library hands answers over by value.
#[repr(C)]
#[derive(Clone, Copy, PartialEq, Eq, Debug)]
pub struct Answer {
    pub number: u8,
    pub place: u32,
}

pub const OPEN: u8 = 0;
pub const ACCEPTED: u8 = 1;
pub const PARAMETERS_NOT_VALID: u8 = 10;
pub const CLOSED: u8 = 11;
pub const JOB_TOO_SHORT: u8 = 12;
pub const HASH_TOO_LONG: u8 = 14;
pub const INVERSE_OF_ZERO: u8 = 15;
pub const NO_SUCH_OPENING: u8 = 16;
pub const COUNT_DIFFERS: u8 = 20;
pub const PARAMETERS_DIFFER: u8 = 21;
pub const NUMBER_NOT_BELOW_P: u8 = 22;
pub const PATH_MISSES_ROOT: u8 = 23;
pub const VALUE_NOT_FOLDED: u8 = 24;
pub const CHAIN_MISSES_FINAL: u8 = 25;
pub const TOO_SHORT: u8 = 26;
pub const TOO_LONG: u8 = 27;

// The writer's own, of request 2026-02.
pub const WRITTEN: u8 = 0;
pub const COEFFICIENT_COUNT_DIFFERS: u8 = 30;
pub const SCRATCH_TOO_SHORT: u8 = 31;
pub const OUTPUT_TOO_SHORT: u8 = 32;

impl Answer {
    /// What a successful field call or hash answers beside its value.
    pub const DONE: Answer = Answer {
        number: 0,
        place: 0,
    };

    pub fn new(number: u8, place: usize) -> Answer {
        let place = u32::try_from(place).expect("places fit in 32 bits");
        Answer { number, place }
    }
}

/// How often each number was answered.
#[derive(Default)]
pub struct Counts {
    pub of_number: BTreeMap<u8, usize>,
    /// How many of them were decided in a query after the first.
    pub later: BTreeMap<u8, usize>,
}

impl Counts {
    pub fn add(&mut self, number: u8) {
        *self.of_number.entry(number).or_default() += 1;
    }

    pub fn add_later(&mut self, number: u8) {
        *self.later.entry(number).or_default() += 1;
    }
}

impl fmt::Display for Counts {
    fn fmt(&self, f: &mut fmt::Formatter) -> fmt::Result {
        let sum: usize = self.of_number.values().sum();
        write!(f, "answers: {sum}")?;
        for (number, count) in &self.of_number {
            write!(f, "\n  number {number}: {count}")?;
            if let Some(later) = self.later.get(number) {
                write!(f, ", {later} after the first query")?;
            }
        }
        Ok(())
    }
}
