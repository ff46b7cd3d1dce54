//! Scripts: an opening and a list of calls, as bytes, and what the plain
//! reader answers to them.

use crate::answer::Answer;
use crate::judge::Reader;
use crate::params::Params;
use crate::sha256::Digest;

/// Stands where the length of a piece would, for the end call.
const END: u16 = 0xffff;

/// A longer piece cannot be written.
pub const LONGEST_PIECE: usize = 0xfffe;

#[derive(Clone, PartialEq, Eq, Debug)]
pub enum Call {
    Piece(Vec<u8>),
    End,
}

#[derive(Clone, PartialEq, Eq, Debug)]
pub struct Script {
    pub params: Params,
    pub context: Digest,
    pub calls: Vec<Call>,
}

impl Script {
    pub fn to_bytes(&self) -> Vec<u8> {
        let Params { n, b, k, q } = self.params;
        let mut bytes = vec![n, b, k, q];
        bytes.extend(self.context);
        let calls = u16::try_from(self.calls.len()).expect("the calls fit in their count");
        bytes.extend(calls.to_le_bytes());
        for call in &self.calls {
            match call {
                Call::Piece(piece) => {
                    assert!(piece.len() <= LONGEST_PIECE, "a piece is too long");
                    bytes.extend((piece.len() as u16).to_le_bytes());
                    bytes.extend(piece);
                }
                Call::End => bytes.extend(END.to_le_bytes()),
            }
        }
        bytes
    }

    /// The plain reader's answers to the opening and to each call.
    pub fn answers(&self) -> (Answer, Vec<Answer>) {
        let (opening, mut reader) = Reader::open(self.params, &self.context);
        let answers = self
            .calls
            .iter()
            .map(|call| match call {
                Call::Piece(piece) => reader.piece(piece),
                Call::End => reader.end(),
            })
            .collect();
        (opening, answers)
    }

    /// The same as lines: that of the opening, then one for each call.
    pub fn lines(&self) -> Vec<String> {
        let text = |answer: Answer| format!("{} {}", answer.number, answer.place);
        let (opening, answers) = self.answers();
        let mut lines = vec![format!("open {}", text(opening))];
        lines.extend(answers.into_iter().map(text));
        lines
    }
}

/// All scripts of a file, one after the other.
pub fn read_scripts(bytes: &[u8]) -> Result<Vec<Script>, String> {
    let mut scripts = Vec::new();
    let mut rest = bytes;
    while !rest.is_empty() {
        let script = read_script(&mut rest)
            .ok_or_else(|| format!("script {} is cut short", scripts.len() + 1))?;
        scripts.push(script);
    }
    Ok(scripts)
}

fn read_script(rest: &mut &[u8]) -> Option<Script> {
    let [n, b, k, q] = *take_array(rest)?;
    let context = *take_array(rest)?;
    let count = u16::from_le_bytes(*take_array(rest)?);
    let mut calls = Vec::with_capacity(count as usize);
    for _ in 0..count {
        calls.push(match u16::from_le_bytes(*take_array(rest)?) {
            END => Call::End,
            length => Call::Piece(take(rest, length as usize)?.to_vec()),
        });
    }
    Some(Script {
        params: Params::new(n, b, k, q),
        context,
        calls,
    })
}

fn take<'a>(rest: &mut &'a [u8], count: usize) -> Option<&'a [u8]> {
    let (taken, after) = rest.split_at_checked(count)?;
    *rest = after;
    Some(taken)
}

fn take_array<'a, const N: usize>(rest: &mut &'a [u8]) -> Option<&'a [u8; N]> {
    take(rest, N)?.try_into().ok()
}

#[cfg(test)]
mod tests {
    use super::*;
    use crate::proof::build;
    use crate::rng::Rng;

    fn example() -> Script {
        Script {
            params: Params::new(4, 2, 1, 2),
            context: [9; 32],
            calls: vec![
                Call::Piece(vec![4, 0, 4]),
                Call::Piece(vec![]),
                Call::End,
                Call::Piece(vec![7; 300]),
            ],
        }
    }

    #[test]
    fn scripts_are_laid_out_as_described() {
        let expected = [
            &[4, 2, 1, 2][..],
            &[9; 32],
            &[4, 0],
            &[3, 0, 4, 0, 4],
            &[0, 0],
            &[0xff, 0xff],
            &[44, 1],
            &[7; 300],
        ]
        .concat();
        assert_eq!(example().to_bytes(), expected);
    }

    #[test]
    fn scripts_are_read_as_written() {
        let mut rng = Rng::new(40);
        let mut scripts = vec![example(), example()];
        scripts[1].calls.clear();
        let mut longest = example();
        longest.calls.push(Call::Piece(rng.bytes(LONGEST_PIECE)));
        scripts.push(longest);
        scripts.push(Script {
            params: Params::new(255, 0, 255, 0),
            context: rng.digest(),
            calls: vec![Call::End; 65535],
        });
        let bytes: Vec<u8> = scripts.iter().flat_map(Script::to_bytes).collect();
        assert_eq!(read_scripts(&bytes), Ok(scripts));
        assert_eq!(read_scripts(&[]), Ok(vec![]));
    }

    #[test]
    fn a_script_cut_short_is_not_read() {
        let bytes = example().to_bytes();
        for length in 1..bytes.len() {
            let message = read_scripts(&bytes[..length]).unwrap_err();
            assert_eq!(message, "script 1 is cut short");
            let message = read_scripts(&[&bytes, &bytes[..length]].concat()).unwrap_err();
            assert_eq!(message, "script 2 is cut short");
        }
    }

    #[test]
    fn lines_are_the_plain_readers_answers() {
        assert_eq!(
            example().lines(),
            ["open 0 0", "0 3", "0 3", "26 3", "11 0"]
        );
        let mut script = example();
        script.params.q = 65;
        assert_eq!(
            script.lines(),
            ["open 10 0", "11 0", "11 0", "11 0", "11 0"]
        );

        let mut script = example();
        let proof = build(script.params, &script.context, &[5, 6, 7]);
        script.calls = vec![
            Call::Piece(proof[..100].to_vec()),
            Call::Piece(proof[100..].to_vec()),
            Call::End,
            Call::End,
        ];
        assert_eq!(
            script.lines(),
            ["open 0 0", "0 100", "0 260", "1 260", "11 0"]
        );
        script.calls.insert(2, Call::Piece(vec![0; 2]));
        script.calls.insert(3, Call::Piece(vec![]));
        assert_eq!(
            script.lines(),
            ["open 0 0", "0 100", "0 260", "27 261", "27 261", "27 261", "11 0"]
        );
    }
}
