//! The exported calls behind safe functions: the crate's only unsafe code. The structs are those of
//! bindings/c/phieulakhon.h, field by field.
//!
//! Each call's contract has no `requires`, so every state is an argument that it takes. It reads
//! what is lent to it, writes nothing but the reader's arrays or the writer's buffers, and keeps
//! nothing.
#![allow(unsafe_code)]

use crate::Params;

#[repr(C)]
#[derive(Clone, Copy, Debug, PartialEq, Eq)]
pub struct Answer {
    pub number: u8,
    pub place: u32,
}

/// The numbers of one byte that a reader holds: six, and the parameter bytes.
const U8S: usize = 6 + size_of::<Params>();

/// A reader between two calls: arrays of numbers, lent to each call and changed in place.
#[repr(C)]
#[derive(Clone)]
pub struct Held {
    u8s: [u8; U8S],
    u32s: [u32; 10],
    sizes: [usize; 2],
    item: [u8; 32],
    node: [u8; 32],
    transcript: [u8; 32],
    roots: [u8; 512],
    challenges: [u32; 16],
    coefficients: [u32; 64],
}

#[repr(C)]
pub struct Span {
    pub number: u8,
    pub place: u32,
    pub start: usize,
    pub length: usize,
}

extern "C" {
    fn phieulakhon_verdict(
        p: Params,
        context: *const [u8; 32],
        proof: *const u8,
        length: usize,
    ) -> Answer;
    fn phieulakhon_file_length(p: Params) -> usize;
    fn phieulakhon_open(
        p: Params,
        context: *const [u8; 32],
        u8s: *mut [u8; U8S],
        u32s: *mut [u32; 10],
        sizes: *mut [usize; 2],
        item: *mut [u8; 32],
        node: *mut [u8; 32],
        transcript: *mut [u8; 32],
        roots: *mut [u8; 512],
        challenges: *mut [u32; 16],
        coefficients: *mut [u32; 64],
    ) -> Answer;
    fn phieulakhon_piece(
        u8s: *mut [u8; U8S],
        u32s: *mut [u32; 10],
        sizes: *mut [usize; 2],
        item: *mut [u8; 32],
        bytes: *const u8,
        length: usize,
        node: *mut [u8; 32],
        transcript: *mut [u8; 32],
        roots: *mut [u8; 512],
        challenges: *mut [u32; 16],
        coefficients: *mut [u32; 64],
    ) -> Answer;
    fn phieulakhon_end(
        u8s: *mut [u8; U8S],
        u32s: *mut [u32; 10],
        sizes: *mut [usize; 2],
        item: *mut [u8; 32],
        node: *mut [u8; 32],
        transcript: *mut [u8; 32],
        roots: *mut [u8; 512],
        challenges: *mut [u32; 16],
        coefficients: *mut [u32; 64],
    ) -> Answer;
    fn phieulakhon_look_up(p: Params, length: usize, query: usize, layer: usize) -> Span;
    fn phieulakhon_write(
        p: Params,
        context: *const [u8; 32],
        coefficients: *const u32,
        count: usize,
        numbers: *mut u32,
        numbers_length: usize,
        bytes: *mut u8,
        bytes_length: usize,
        output: *mut u8,
        output_length: usize,
    ) -> Answer;
}

pub fn verdict(p: Params, context: &[u8; 32], proof: &[u8]) -> Answer {
    // SAFETY: the callee reads the 32 bytes and `proof.len()` bytes that are lent to it; shared
    // references keep writers away until it returns.
    unsafe { phieulakhon_verdict(p, context, proof.as_ptr(), proof.len()) }
}

pub fn file_length(p: Params) -> usize {
    // SAFETY: numbers in and out.
    unsafe { phieulakhon_file_length(p) }
}

pub fn open(p: Params, context: &[u8; 32]) -> (Answer, Held) {
    let mut held = Held {
        u8s: [0; U8S],
        u32s: [0; 10],
        sizes: [0; 2],
        item: [0; 32],
        node: [0; 32],
        transcript: [0; 32],
        roots: [0; 512],
        challenges: [0; 16],
        coefficients: [0; 64],
    };
    // SAFETY: the callee reads the 32 bytes and writes the arrays that are lent to it.
    let answer = unsafe {
        phieulakhon_open(
            p,
            context,
            &mut held.u8s,
            &mut held.u32s,
            &mut held.sizes,
            &mut held.item,
            &mut held.node,
            &mut held.transcript,
            &mut held.roots,
            &mut held.challenges,
            &mut held.coefficients,
        )
    };
    (answer, held)
}

// A caller may feed single bytes, so nothing but the proved call itself stands between.
#[inline]
pub fn piece(held: &mut Held, bytes: &[u8]) -> Answer {
    // SAFETY: whatever numbers the arrays have, the callee takes them. It reads the `bytes.len()`
    // bytes and reads and writes the arrays that are lent to it; nobody else can reach them
    // meanwhile.
    unsafe {
        phieulakhon_piece(
            &mut held.u8s,
            &mut held.u32s,
            &mut held.sizes,
            &mut held.item,
            bytes.as_ptr(),
            bytes.len(),
            &mut held.node,
            &mut held.transcript,
            &mut held.roots,
            &mut held.challenges,
            &mut held.coefficients,
        )
    }
}

pub fn end(held: &mut Held) -> Answer {
    // SAFETY: as for a piece.
    unsafe {
        phieulakhon_end(
            &mut held.u8s,
            &mut held.u32s,
            &mut held.sizes,
            &mut held.item,
            &mut held.node,
            &mut held.transcript,
            &mut held.roots,
            &mut held.challenges,
            &mut held.coefficients,
        )
    }
}

pub fn look_up(p: Params, length: usize, query: usize, layer: usize) -> Span {
    // SAFETY: numbers in and out.
    unsafe { phieulakhon_look_up(p, length, query, layer) }
}

pub fn write(
    p: Params,
    context: &[u8; 32],
    coefficients: &[u32],
    numbers: &mut [u32],
    bytes: &mut [u8],
    output: &mut [u8],
) -> Answer {
    // SAFETY: whatever the buffers' lengths and contents, the callee takes them. It reads the 32
    // bytes and the coefficients, and reads and writes the three buffers, each within the length
    // beside it; as they are borrowed, they lie apart and nobody else can reach them meanwhile.
    unsafe {
        phieulakhon_write(
            p,
            context,
            coefficients.as_ptr(),
            coefficients.len(),
            numbers.as_mut_ptr(),
            numbers.len(),
            bytes.as_mut_ptr(),
            bytes.len(),
            output.as_mut_ptr(),
            output.len(),
        )
    }
}

#[cfg(test)]
mod tests {
    use super::*;
    use crate::header;
    use std::collections::BTreeSet;
    use std::fmt::Write;
    use std::mem::{offset_of, size_of};

    type Image = [u8; size_of::<Held>()];

    fn held(image: Image) -> Held {
        // SAFETY: every field is a number, so all bytes are what a caller could hold.
        unsafe { std::mem::transmute(image) }
    }

    fn random(seed: &mut u64) -> u64 {
        *seed = seed
            .wrapping_mul(6364136223846793005)
            .wrapping_add(1442695040888963407);
        *seed >> 33
    }

    /// Each call returns, with a number that the table has for it.
    fn all_calls_return(mut h: Held, bytes: &[u8]) {
        for bytes in [bytes, &[]] {
            let number = piece(&mut h, bytes).number;
            assert!(matches!(number, 0 | 11 | 20..=25 | 27), "{number}");
        }
        let number = end(&mut h).number;
        assert!(matches!(number, 1 | 11 | 20..=27), "{number}");
        assert_eq!(
            piece(&mut h, bytes),
            Answer {
                number: 11,
                place: 0
            }
        );
    }

    #[test]
    fn a_forged_state_is_safe() {
        let seed = &mut 1;
        let bytes: Vec<u8> = (0..2000).map(|_| random(seed) as u8).collect();
        for turn in 0..30_000 {
            let mut h = held(std::array::from_fn(|_| random(seed) as u8));
            if turn % 3 > 0 {
                // A stage that there is, and a fill and a cursor near the bounds of those that a
                // call leaves.
                h.u8s[0] = (random(seed) % 12) as u8;
                h.sizes[0] = (random(seed) % 34) as usize;
                h.sizes[1] = (random(seed) % 66) as usize;
                h.u32s[0] = if turn % 3 == 1 {
                    random(seed) as u32 % 4
                } else {
                    u32::MAX - random(seed) as u32 % 4
                };
                h.u8s[1] %= 130;
                h.u8s[2] %= 17;
                h.u8s[3] %= 5;
                h.u8s[4] %= 33;
            }
            all_calls_return(h, &bytes[..random(seed) as usize % 200]);
        }
    }

    #[test]
    fn a_state_of_zeros_is_closed() {
        let closed = Answer {
            number: 11,
            place: 0,
        };
        let mut zeros = held([0; size_of::<Held>()]);
        assert_eq!(piece(&mut zeros, &[]), closed);
        assert_eq!(piece(&mut zeros, &[4, 0]), closed);
        assert_eq!(end(&mut zeros), closed);
        assert_eq!(end(&mut held([0; size_of::<Held>()])), closed);
    }

    #[test]
    fn verdict_of_any_parameters_and_bytes_returns() {
        let seed = &mut 2;
        for _ in 0..30_000 {
            let p = Params {
                n: random(seed) as u8,
                b: random(seed) as u8,
                k: random(seed) as u8,
                q: random(seed) as u8,
            };
            let bytes: Vec<u8> = (0..random(seed) % 64).map(|_| random(seed) as u8).collect();
            assert_ne!(verdict(p, &[0; 32], &bytes).number, 1);
        }
    }

    /// Parameters, lengths and coefficients on both sides of each of the writer's bounds.
    #[test]
    fn a_write_of_any_arguments_returns() {
        let near = |length: usize, seed: &mut u64| match random(seed) % 12 {
            0 => length.saturating_sub(1),
            1 => length + 1,
            _ => length,
        };
        let seed = &mut 3;
        let mut given = BTreeSet::new();
        for _ in 0..10_000 {
            let p = Params {
                n: (random(seed) % 6) as u8,
                b: (random(seed) % 4) as u8,
                k: (random(seed) % 4) as u8,
                q: (random(seed) % 3) as u8,
            };
            let coefficient = 3221225472 + u32::from(random(seed) % 8 == 0);
            let coefficients = vec![coefficient; near(1 << p.n >> p.b, seed)];
            let mut numbers = vec![7; near(2 << p.n, seed)];
            let mut bytes = vec![7; near(64 << p.n, seed)];
            let mut output = vec![7; near(file_length(p), seed)];
            let answer = write(
                p,
                &[0; 32],
                &coefficients,
                &mut numbers,
                &mut bytes,
                &mut output,
            );
            given.insert(answer.number);
            if answer.number == 0 {
                assert_eq!(answer.place as usize, file_length(p));
            } else {
                assert_eq!(answer.place, 0);
                assert!(numbers.iter().all(|&number| number == 7));
                assert!(bytes.iter().chain(&output).all(|&byte| byte == 7));
            }
        }
        assert_eq!(given, BTreeSet::from([0, 10, 22, 30, 31, 32]));
    }

    /// The layout of the C header, as bindings/c/layout.c prints it.
    #[test]
    fn the_layout_is_the_headers() {
        let said = header::said("layout.c");
        let mut ours = String::new();
        macro_rules! rows {
            ($($struct:ty: $($($field:ident).+),+;)+) => {
                $($(
                    let name = concat!($(".", stringify!($field)),+);
                    writeln!(ours, "{name} {}", offset_of!($struct, $($field).+)).unwrap();
                )+)+
            };
        }
        let sizes = [
            size_of::<Params>(),
            size_of::<Answer>(),
            size_of::<Span>(),
            size_of::<Held>(),
        ];
        let sizes = sizes.map(|size| size.to_string());
        writeln!(ours, "{}", sizes.join(" ")).unwrap();
        rows! {
            Params: n, b, k, q;
            Answer: number, place;
            Span: number, place, start, length;
            Held: u8s, u32s, sizes, item, node, transcript;
            Held: roots, challenges, coefficients;
        }
        assert_eq!(ours, said);
    }
}
