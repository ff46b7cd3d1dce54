//! SHA-256 as FIPS 180-4 describes it.

use crate::answer::{Answer, HASH_TOO_LONG};

pub type Digest = [u8; 32];

/// The longest message the public hash takes.
pub const LONGEST_PUBLIC_MESSAGE: usize = 4096;

const BLOCK: usize = 64;

/// First 32 bits of the fractional parts of the cube roots of the first 64 primes.
/// Computed from that rule, so that there is no table to mistype.
static ROUND_CONSTANTS: [u32; 64] = fractions_of_roots(3);

/// The same of the square roots of the first 8 primes.
static INITIAL_STATE: [u32; 8] = fractions_of_roots(2);

/// The low 32 bits of the whole part of the root of prime · 2^(32·degree),
/// over the first N primes.
const fn fractions_of_roots<const N: usize>(degree: u32) -> [u32; N] {
    let mut fractions = [0; N];
    let mut found = 0;
    let mut candidate: u128 = 2;
    while found < N {
        if is_prime(candidate) {
            fractions[found] = whole_root(candidate << (32 * degree), degree) as u32;
            found += 1;
        }
        candidate += 1;
    }
    fractions
}

const fn is_prime(candidate: u128) -> bool {
    let mut divisor = 2;
    while divisor * divisor <= candidate {
        if candidate % divisor == 0 {
            return false;
        }
        divisor += 1;
    }
    true
}

/// The largest number whose power is not above the value, found bit by bit.
const fn whole_root(value: u128, degree: u32) -> u128 {
    let mut root = 0;
    // The largest prime needed is 311, so every root is below 2^37.
    let mut bit: u128 = 1 << 36;
    while bit > 0 {
        let trial = root | bit;
        if trial.pow(degree) <= value {
            root = trial;
        }
        bit >>= 1;
    }
    root
}

fn compress(state: &mut [u32; 8], block: &[u8; BLOCK]) {
    let mut schedule = [0u32; 64];
    for (word, bytes) in schedule.iter_mut().zip(block.chunks_exact(4)) {
        *word = u32::from_be_bytes([bytes[0], bytes[1], bytes[2], bytes[3]]);
    }
    for t in 16..64 {
        let before2 = schedule[t - 2];
        let before15 = schedule[t - 15];
        let sigma1 = before2.rotate_right(17) ^ before2.rotate_right(19) ^ (before2 >> 10);
        let sigma0 = before15.rotate_right(7) ^ before15.rotate_right(18) ^ (before15 >> 3);
        schedule[t] = sigma1
            .wrapping_add(schedule[t - 7])
            .wrapping_add(sigma0)
            .wrapping_add(schedule[t - 16]);
    }

    let [mut a, mut b, mut c, mut d, mut e, mut f, mut g, mut h] = *state;
    // Eight rounds bring every word back to its own name, so the compiler can
    // unroll them without moving words around.
    for (words, constants) in schedule
        .chunks_exact(8)
        .zip(ROUND_CONSTANTS.chunks_exact(8))
    {
        for t in 0..8 {
            let sum1 = e.rotate_right(6) ^ e.rotate_right(11) ^ e.rotate_right(25);
            let choice = (e & f) ^ (!e & g);
            let temp1 = h
                .wrapping_add(sum1)
                .wrapping_add(choice)
                .wrapping_add(constants[t])
                .wrapping_add(words[t]);
            let sum0 = a.rotate_right(2) ^ a.rotate_right(13) ^ a.rotate_right(22);
            let majority = (a & b) ^ (a & c) ^ (b & c);
            let temp2 = sum0.wrapping_add(majority);
            h = g;
            g = f;
            f = e;
            e = d.wrapping_add(temp1);
            d = c;
            c = b;
            b = a;
            a = temp1.wrapping_add(temp2);
        }
    }
    for (word, change) in state.iter_mut().zip([a, b, c, d, e, f, g, h]) {
        *word = word.wrapping_add(change);
    }
}

pub fn sha256(message: &[u8]) -> Digest {
    let mut state = INITIAL_STATE;
    let mut blocks = message.chunks_exact(BLOCK);
    for block in &mut blocks {
        compress(&mut state, block.try_into().expect("a whole block"));
    }

    // The rest, one 1 bit, zeros and the length in bits: one block, or two
    // when the length does not fit into the first.
    let rest = blocks.remainder();
    let mut tail = [0u8; 2 * BLOCK];
    tail[..rest.len()].copy_from_slice(rest);
    tail[rest.len()] = 0x80;
    let tail_length = if rest.len() + 9 <= BLOCK {
        BLOCK
    } else {
        2 * BLOCK
    };
    let length_in_bits = message.len() as u64 * 8;
    tail[tail_length - 8..tail_length].copy_from_slice(&length_in_bits.to_be_bytes());
    for block in tail[..tail_length].chunks_exact(BLOCK) {
        compress(&mut state, block.try_into().expect("a whole block"));
    }

    let mut digest = [0; 32];
    for (bytes, word) in digest.chunks_exact_mut(4).zip(state) {
        bytes.copy_from_slice(&word.to_be_bytes());
    }
    digest
}

/// The hash as document 01 offers it: longer messages are refused.
pub fn public_hash(message: &[u8]) -> (Answer, Digest) {
    if message.len() > LONGEST_PUBLIC_MESSAGE {
        return (Answer::new(HASH_TOO_LONG, 0), [0; 32]);
    }
    (Answer::DONE, sha256(message))
}

#[cfg(test)]
mod tests {
    use super::*;

    fn hex(digest: Digest) -> String {
        digest.iter().map(|byte| format!("{byte:02x}")).collect()
    }

    #[test]
    fn constants_are_those_of_the_standard() {
        assert_eq!(
            ROUND_CONSTANTS[..4],
            [0x428a2f98, 0x71374491, 0xb5c0fbcf, 0xe9b5dba5]
        );
        assert_eq!(
            ROUND_CONSTANTS[60..],
            [0x90befffa, 0xa4506ceb, 0xbef9a3f7, 0xc67178f2]
        );
        assert_eq!(
            INITIAL_STATE,
            [
                0x6a09e667, 0xbb67ae85, 0x3c6ef372, 0xa54ff53a, 0x510e527f, 0x9b05688c, 0x1f83d9ab,
                0x5be0cd19
            ]
        );
    }

    #[test]
    fn published_vectors() {
        let vectors: [(&[u8], &str); 13] = [
            (
                b"",
                "e3b0c44298fc1c149afbf4c8996fb92427ae41e4649b934ca495991b7852b855",
            ),
            (
                b"abc",
                "ba7816bf8f01cfea414140de5dae2223b00361a396177a9cb410ff61f20015ad",
            ),
            (
                b"abcdbcdecdefdefgefghfghighijhijkijkljklmklmnlmnomnopnopq",
                "248d6a61d20638b8e5c026930c3e6039a33ce45964ff2167f6ecedd419db06c1",
            ),
            (
                b"abcdefghbcdefghicdefghijdefghijkefghijklfghijklmghijklmn\
                  hijklmnoijklmnopjklmnopqklmnopqrlmnopqrsmnopqrstnopqrstu",
                "cf5b16a778af8380036ce59e7b0492370b249b11e8f07a51afac45037afee9d1",
            ),
            (
                &[0xbd],
                "68325720aabd7c82f30f554b313d0570c95accbb7dc4b5aae11204c08ffe732b",
            ),
            (
                &[0xc9, 0x8c, 0x8e, 0x55],
                "7abc22c0ae5af26ce93dbb94433a0e0b2e119d014f8e7f65bd56c61ccccd9504",
            ),
            (
                &[0; 55],
                "02779466cdec163811d078815c633f21901413081449002f24aa3e80f0b88ef7",
            ),
            (
                &[0; 56],
                "d4817aa5497628e7c77e6b606107042bbba3130888c5f47a375e6179be789fbb",
            ),
            (
                &[0; 57],
                "65a16cb7861335d5ace3c60718b5052e44660726da4cd13bb745381b235a1785",
            ),
            (
                &[0; 64],
                "f5a5fd42d16a20302798ef6ed309979b43003d2320d9f0e8ea9831a92759fb4b",
            ),
            (
                &[0; 1000],
                "541b3e9daa09b20bf85fa273e5cbd3e80185aa4ec298e765db87742b70138a53",
            ),
            (
                &[0x41; 1000],
                "c2e686823489ced2017f6059b8b239318b6364f6dcd835d0a519105a1eadd6e4",
            ),
            (
                &[0x55; 1005],
                "f4d62ddec0f3dd90ea1380fa16a5ff8dc4c54b21740650f24afc4120903552b0",
            ),
        ];
        for (message, expected) in vectors {
            assert_eq!(hex(sha256(message)), expected);
            assert_eq!(public_hash(message), (Answer::DONE, sha256(message)));
        }
        assert_eq!(
            hex(sha256(&vec![b'a'; 1_000_000])),
            "cdc76e5c9914fb9281a1c7e284d73e67f1809a48a497200e046d39ccc7112cd0"
        );
    }

    #[test]
    fn public_hash_stops_at_its_longest_message() {
        assert_eq!(public_hash(&[7; 4096]), (Answer::DONE, sha256(&[7; 4096])));
        let refused = (
            Answer {
                number: 14,
                place: 0,
            },
            [0; 32],
        );
        assert_eq!(public_hash(&[7; 4097]), refused);
        assert_eq!(public_hash(&[7; 9000]), refused);
    }
}
