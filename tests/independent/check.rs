//! Compares another program's answers to scripts with the plain reader's.

use std::fmt;

use crate::params::Params;
use crate::script::{Call, Script};

#[derive(PartialEq, Eq, Debug)]
pub struct Agreement {
    pub scripts: usize,
    pub calls: usize,
}

impl fmt::Display for Agreement {
    fn fmt(&self, f: &mut fmt::Formatter) -> fmt::Result {
        let Agreement { scripts, calls } = self;
        write!(f, "{scripts} scripts, {calls} calls, 0 disagreements")
    }
}

/// The first line that differs. Without a line of our own there is no script
/// it could belong to.
#[derive(PartialEq, Eq, Debug)]
pub struct Disagreement {
    at: String,
    ours: Option<String>,
    theirs: Option<String>,
}

impl fmt::Display for Disagreement {
    fn fmt(&self, f: &mut fmt::Formatter) -> fmt::Result {
        let text = |line: &Option<String>| line.clone().unwrap_or("no line".to_string());
        writeln!(f, "disagreement {}", self.at)?;
        writeln!(f, "  independent program: {}", text(&self.ours))?;
        write!(f, "  program under test:  {}", text(&self.theirs))
    }
}

/// The answers are lines in the order of `Script::lines`, of all scripts one
/// after the other.
pub fn check(scripts: &[Script], answers: &str) -> Result<Agreement, Disagreement> {
    let mut calls = 0;
    let mut theirs = answers.split_terminator('\n');
    for (script_index, script) in scripts.iter().enumerate() {
        for (line, ours) in script.lines().into_iter().enumerate() {
            let line_of_theirs = theirs.next();
            if line_of_theirs != Some(&ours) {
                return Err(Disagreement {
                    at: describe(script_index + 1, script, line),
                    ours: Some(ours),
                    theirs: line_of_theirs.map(str::to_string),
                });
            }
        }
        calls += script.calls.len();
    }
    if let Some(surplus) = theirs.next() {
        return Err(Disagreement {
            at: "after the last line of the last script".to_string(),
            ours: None,
            theirs: Some(surplus.to_string()),
        });
    }
    Ok(Agreement {
        scripts: scripts.len(),
        calls,
    })
}

/// Line 0 is the opening's, line i that of call i; scripts count from 1 too.
fn describe(script_number: usize, script: &Script, line: usize) -> String {
    let Params { n, b, k, q } = script.params;
    let script_text = format!("in script {script_number} ({n}, {b}, {k}, {q})");
    let Some(before) = line.checked_sub(1) else {
        return format!("{script_text}, the opening");
    };
    let fed: usize = script.calls[..before].iter().map(bytes_fed).sum();
    let call = match &script.calls[before] {
        Call::Piece(piece) => format!("a piece of {} bytes", piece.len()),
        Call::End => "the end call".to_string(),
    };
    format!("{script_text}, call {line}, {call} after {fed} bytes")
}

fn bytes_fed(call: &Call) -> usize {
    match call {
        Call::Piece(piece) => piece.len(),
        Call::End => 0,
    }
}

#[cfg(test)]
mod tests {
    use super::*;
    use crate::random_scripts::RandomScripts;

    fn scripts() -> Vec<Script> {
        RandomScripts::new(50).take(40).collect()
    }

    fn answers(scripts: &[Script]) -> Vec<String> {
        scripts.iter().flat_map(Script::lines).collect()
    }

    fn text(lines: &[String]) -> String {
        lines.iter().map(|line| format!("{line}\n")).collect()
    }

    #[test]
    fn the_plain_readers_own_answers_agree() {
        let scripts = scripts();
        let lines = answers(&scripts);
        let agreement = check(&scripts, &text(&lines)).unwrap();
        let calls = lines.len() - scripts.len();
        assert_eq!(agreement, Agreement { scripts: 40, calls });
        assert_eq!(
            agreement.to_string(),
            format!("40 scripts, {calls} calls, 0 disagreements")
        );
        let without_last_newline = text(&lines);
        let without_last_newline = without_last_newline.strip_suffix('\n').unwrap();
        assert!(check(&scripts, without_last_newline).is_ok());
    }

    #[test]
    fn tampered_answers_are_caught() {
        // Short ones, because they are judged anew for each tampered line.
        let is_short = |script: &Script| script.to_bytes().len() < 1000 && script.calls.len() < 9;
        let scripts: Vec<Script> = RandomScripts::new(51).filter(is_short).take(15).collect();
        let lines = answers(&scripts);
        for at in 0..lines.len() {
            let mut altered = lines.clone();
            let (before, place) = lines[at].rsplit_once(' ').unwrap();
            let other_number = format!("{before}0 {place}");
            let other_place = format!("{before} {}", place.parse::<usize>().unwrap() + 1);
            for line in [
                other_number,
                other_place,
                String::new(),
                format!("{} ", lines[at]),
                format!("{}\r", lines[at]),
                format!("0{}", lines[at]),
            ] {
                altered[at] = line.clone();
                let disagreement = check(&scripts, &text(&altered)).unwrap_err();
                assert_eq!(disagreement.ours.as_ref(), Some(&lines[at]));
                assert_eq!(disagreement.theirs, Some(line));
            }

            let mut missing = lines.clone();
            missing.remove(at);
            assert!(check(&scripts, &text(&missing)).is_err());
            assert!(check(&scripts, &text(&lines[..at])).is_err());

            let mut surplus = lines.clone();
            surplus.insert(at, lines[at].clone());
            assert!(check(&scripts, &text(&surplus)).is_err());
        }
        for surplus in ["\n", "11 0", "11 0\n", " "] {
            let disagreement = check(&scripts, &(text(&lines) + surplus)).unwrap_err();
            assert_eq!(disagreement.ours, None);
        }
    }

    #[test]
    fn disagreements_tell_where_they_are() {
        let script = Script {
            params: Params::new(4, 2, 1, 2),
            context: [0; 32],
            calls: vec![Call::Piece(vec![4; 1]), Call::Piece(vec![0; 2]), Call::End],
        };
        let scripts = [script.clone(), script];
        let mut lines = answers(&scripts);
        assert_eq!(lines[4..], ["open 0 0", "0 1", "0 3", "26 3"]);
        lines[6] = "20 2".to_string();
        assert_eq!(
            check(&scripts, &text(&lines)).unwrap_err().to_string(),
            "disagreement in script 2 (4, 2, 1, 2), call 2, a piece of 2 bytes after 1 bytes\n  \
             independent program: 0 3\n  \
             program under test:  20 2"
        );
        assert_eq!(
            check(&scripts, &text(&lines[..4])).unwrap_err().to_string(),
            "disagreement in script 2 (4, 2, 1, 2), the opening\n  \
             independent program: open 0 0\n  \
             program under test:  no line"
        );
    }
}
