//! SHA-256, FIPS 180-4: for the record of a proof's bytes. No verdict rests on it.

/// The first 32 bits of the fractional part of a root of a prime, by integers alone: `power` 2 for
/// the square root, 3 for the cube root.
fn fraction(prime: u128, power: u32) -> u32 {
    // The greatest r with r^power <= prime * 2^(32 * power); its low 32 bits are the fraction.
    let (mut low, mut high) = (0u128, 1u128 << 37);
    let bound = prime << (32 * power);
    while high - low > 1 {
        let middle = (low + high) / 2;
        if middle.pow(power) <= bound {
            low = middle;
        } else {
            high = middle;
        }
    }
    low as u32
}

fn primes() -> impl Iterator<Item = u128> {
    (2u128..).filter(|&n| (2..n).all(|d| n % d != 0))
}

pub fn sha256(message: &[u8]) -> [u8; 32] {
    let constants: Vec<u32> = primes().take(64).map(|p| fraction(p, 3)).collect();
    let mut state: Vec<u32> = primes().take(8).map(|p| fraction(p, 2)).collect();
    let mut padded = message.to_vec();
    padded.push(0x80);
    padded.resize(padded.len().next_multiple_of(64), 0);
    if padded.len() - message.len() < 9 {
        padded.resize(padded.len() + 64, 0);
    }
    let end = padded.len() - 8;
    padded[end..].copy_from_slice(&(8 * message.len() as u64).to_be_bytes());
    for block in padded.chunks(64) {
        let mut w: Vec<u32> = block
            .chunks(4)
            .map(|word| u32::from_be_bytes(word.try_into().expect("four bytes")))
            .collect();
        for t in 16..64 {
            let (x, y) = (w[t - 15], w[t - 2]);
            let s0 = x.rotate_right(7) ^ x.rotate_right(18) ^ (x >> 3);
            let s1 = y.rotate_right(17) ^ y.rotate_right(19) ^ (y >> 10);
            w.push(
                s1.wrapping_add(w[t - 7])
                    .wrapping_add(s0)
                    .wrapping_add(w[t - 16]),
            );
        }
        let [mut a, mut b, mut c, mut d, mut e, mut f, mut g, mut h] =
            <[u32; 8]>::try_from(&state[..]).expect("eight words");
        for t in 0..64 {
            let s1 = e.rotate_right(6) ^ e.rotate_right(11) ^ e.rotate_right(25);
            let t1 = h
                .wrapping_add(s1)
                .wrapping_add((e & f) ^ (!e & g))
                .wrapping_add(constants[t])
                .wrapping_add(w[t]);
            let s0 = a.rotate_right(2) ^ a.rotate_right(13) ^ a.rotate_right(22);
            let t2 = s0.wrapping_add((a & b) ^ (a & c) ^ (b & c));
            (h, g, f, e, d, c, b, a) = (g, f, e, d.wrapping_add(t1), c, b, a, t1.wrapping_add(t2));
        }
        for (word, add) in state.iter_mut().zip([a, b, c, d, e, f, g, h]) {
            *word = word.wrapping_add(add);
        }
    }
    let bytes: Vec<u8> = state.iter().flat_map(|word| word.to_be_bytes()).collect();
    bytes.try_into().expect("32 bytes")
}

pub fn hex(bytes: &[u8]) -> String {
    bytes.iter().map(|byte| format!("{byte:02x}")).collect()
}

#[cfg(test)]
mod tests {
    use super::*;
    use std::fs;
    use std::path::Path;

    fn bytes(digits: &str) -> Vec<u8> {
        let byte = |i| u8::from_str_radix(&digits[i..i + 2], 16).expect("two digits");
        (0..digits.len()).step_by(2).map(byte).collect()
    }

    /// NIST's vectors as published, short and long.
    #[test]
    fn vectors() {
        let folder = Path::new(env!("CARGO_MANIFEST_DIR")).join("../../tests/vectors/nist-sha256");
        let mut tried = 0;
        for name in ["SHA256ShortMsg.rsp", "SHA256LongMsg.rsp"] {
            let text = fs::read_to_string(folder.join(name)).expect("the vectors");
            let (mut length, mut message) = (0, Vec::new());
            for line in text.lines() {
                match line.split_once(" = ") {
                    Some(("Len", bits)) => {
                        length = bits.trim().parse::<usize>().expect("a number") / 8
                    }
                    Some(("Msg", digits)) => message = bytes(digits.trim())[..length].to_vec(),
                    Some(("MD", digest)) => {
                        assert_eq!(hex(&sha256(&message)), digest.trim(), "{length} bytes");
                        tried += 1;
                    }
                    _ => {}
                }
            }
        }
        assert!(tried > 120, "{tried} vectors");
    }
}
