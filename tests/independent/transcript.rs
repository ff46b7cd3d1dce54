//! The transcript: what was said so far as one digest, from which challenges
//! and queries are drawn.

use crate::field::P;
use crate::params::Params;
use crate::sha256::{sha256, Digest};

const START_TAG: u8 = 0x10;
const ROOT_TAG: u8 = 0x11;
const FINAL_TAG: u8 = 0x12;
const CHALLENGE_TAG: u8 = 0x13;
const QUERY_TAG: u8 = 0x14;

#[derive(Clone)]
pub struct Transcript {
    pub state: Digest,
}

impl Transcript {
    pub fn start(params: Params, context: &Digest) -> Transcript {
        let mut message = [0; 37];
        message[..5].copy_from_slice(&[START_TAG, params.n, params.b, params.k, params.q]);
        message[5..].copy_from_slice(context);
        Transcript {
            state: sha256(&message),
        }
    }

    pub fn absorb_root(&mut self, root: &Digest) {
        let mut message = [ROOT_TAG; 65];
        message[1..33].copy_from_slice(&self.state);
        message[33..].copy_from_slice(root);
        self.state = sha256(&message);
    }

    pub fn challenge(&self) -> u32 {
        to_challenge(&self.challenge_digest())
    }

    /// The challenge by the rule before request 2026-01: from 4 bytes.
    pub fn narrow_challenge(&self) -> u32 {
        first_number(&self.challenge_digest()) % P
    }

    fn challenge_digest(&self) -> Digest {
        let mut message = [CHALLENGE_TAG; 33];
        message[1..].copy_from_slice(&self.state);
        sha256(&message)
    }

    pub fn absorb_final(&mut self, coefficients: &[u32]) {
        let mut message = Vec::with_capacity(33 + 4 * coefficients.len());
        message.push(FINAL_TAG);
        message.extend_from_slice(&self.state);
        for coefficient in coefficients {
            message.extend_from_slice(&coefficient.to_le_bytes());
        }
        self.state = sha256(&message);
    }

    /// The leaf of layer 0 that the query opens.
    pub fn draw(&self, params: Params, query: u8) -> u32 {
        let mut message = [QUERY_TAG; 34];
        message[1..33].copy_from_slice(&self.state);
        message[33] = query;
        first_number(&sha256(&message)) % (1 << (params.n - 1))
    }
}

/// From the first 8 bytes: 4 would give some numbers twice as often as others.
fn to_challenge(digest: &Digest) -> u32 {
    let first = digest[..8].try_into().expect("8 bytes");
    (u64::from_le_bytes(first) % P as u64) as u32
}

/// The first 4 bytes: a query's index is reduced by a power of two.
fn first_number(digest: &Digest) -> u32 {
    u32::from_le_bytes([digest[0], digest[1], digest[2], digest[3]])
}

#[cfg(test)]
mod tests {
    use super::*;

    #[test]
    fn example_of_the_document() {
        let mut digest = [0x5a; 32];
        digest[..8].fill(0xff);
        assert_eq!(to_challenge(&digest), 1789569708);
    }

    /// Literal numbers, computed elsewhere: 4 bytes of the first digest would
    /// draw 67305985, 7 bytes 66692261, 9 bytes 2035218955, and the 8 with the
    /// high byte first 1135477507.
    #[test]
    fn a_challenge_is_8_bytes_low_byte_first() {
        let counting: Digest = std::array::from_fn(|place| place as u8 + 1);
        assert_eq!(to_challenge(&counting), 2035218939);

        // What a 1 at each place draws: 256^place modulo p, and nothing from
        // the ninth byte on.
        let powers = [
            1, 256, 65536, 16777216, 1073741823, 1073741483, 1073654443, 1051372203,
        ];
        for place in 0..32 {
            let mut digest = [0; 32];
            digest[place] = 1;
            let drawn = powers.get(place).copied().unwrap_or(0);
            assert_eq!(to_challenge(&digest), drawn, "{place}");
        }

        // Reduced modulo p: p - 1, p and 2^32 as 8 bytes.
        for (first, drawn) in [
            ([0x00, 0x00, 0x00, 0xc0, 0, 0, 0, 0], 3221225472),
            ([0x01, 0x00, 0x00, 0xc0, 0, 0, 0, 0], 0),
            ([0x00, 0x00, 0x00, 0x00, 1, 0, 0, 0], 1073741823),
        ] {
            let mut digest = [0x5a; 32];
            digest[..8].copy_from_slice(&first);
            assert_eq!(to_challenge(&digest), drawn);
        }
    }

    /// The domain has at most 2^20 points, so that only the first 3 of the 4
    /// bytes reach a query's leaf.
    #[test]
    fn a_query_is_4_bytes_low_byte_first() {
        let counting: Digest = std::array::from_fn(|place| place as u8 + 1);
        assert_eq!(first_number(&counting), 0x04030201);

        let transcript = Transcript { state: [9; 32] };
        for n in 2..=20 {
            let params = Params::new(n, 1, 1, 64);
            for query in 0..64 {
                let drawn = sha256(&[&[0x14][..], &[9; 32], &[query]].concat());
                let [low, middle, high] = [0, 1, 2].map(|place| drawn[place] as u32);
                let number = low + 256 * middle + 65536 * high;
                assert_eq!(transcript.draw(params, query), number % (1 << (n - 1)));
            }
        }
    }

    #[test]
    fn messages_are_laid_out_by_the_document() {
        let params = Params::new(4, 2, 1, 2);
        let mut transcript = Transcript::start(params, &[3; 32]);
        let mut state = sha256(&[&[0x10, 4, 2, 1, 2][..], &[3; 32]].concat());
        assert_eq!(transcript.state, state);

        transcript.absorb_root(&[8; 32]);
        state = sha256(&[&[0x11][..], &state, &[8; 32]].concat());
        assert_eq!(transcript.state, state);

        let drawn = sha256(&[&[0x13][..], &state].concat());
        let value = u64::from_le_bytes(drawn[..8].try_into().unwrap());
        assert_eq!(transcript.challenge() as u64, value % 3221225473);
        let value = u32::from_le_bytes(drawn[..4].try_into().unwrap());
        assert_eq!(transcript.narrow_challenge(), value % 3221225473);
        assert_eq!(transcript.state, state);

        transcript.absorb_final(&[1, 0x01020304]);
        state = sha256(&[&[0x12][..], &state, &[1, 0, 0, 0, 4, 3, 2, 1]].concat());
        assert_eq!(transcript.state, state);

        for query in 0..=255 {
            let drawn = sha256(&[&[0x14][..], &state, &[query]].concat());
            assert_eq!(transcript.draw(params, query), (drawn[0] % 8) as u32);
        }
    }
}
