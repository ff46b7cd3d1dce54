//! The program phieulakhon: its lines and statuses on the jobs of examples/ and of the corpus, and what is said where it cannot judge. Attacks on
//! its guard are in tests/guard.py of the repository.

use std::fs;
use std::io::Write;
use std::process::{Command, Output, Stdio};
use stored::repository;

mod stored;

const PROGRAM: &str = env!("CARGO_BIN_EXE_phieulakhon");
const PARAMETERS: [&str; 8] = ["--n", "4", "--b", "2", "--k", "1", "--q", "2"];

fn run(words: &[&str], input: &[u8]) -> Output {
    let mut program = Command::new(PROGRAM)
        .args(words)
        .stdin(Stdio::piped())
        .stdout(Stdio::piped())
        .stderr(Stdio::piped())
        .spawn()
        .expect("the program");
    // It may have seen enough before all is written.
    let _ = program.stdin.take().expect("a pipe").write_all(input);
    program.wait_with_output().expect("the program")
}

fn text(bytes: &[u8]) -> &str {
    std::str::from_utf8(bytes).expect("text")
}

fn hex(bytes: &[u8]) -> String {
    bytes.iter().map(|byte| format!("{byte:02x}")).collect()
}

/// The words for a job's head, if it has a whole one.
fn head(job: &[u8]) -> Option<Vec<String>> {
    let head = job.get(..36)?;
    let mut words = Vec::new();
    for (name, number) in ["--n", "--b", "--k", "--q"].iter().zip(head) {
        words.extend([name.to_string(), number.to_string()]);
    }
    words.extend(["--context".to_string(), hex(&head[4..])]);
    Some(words)
}

/// The line on standard output alone, the status, and the explanation beside it where it is asked for.
fn check(job: &[u8], want: &str) {
    let Some(head) = head(job) else { return };
    let status = if want.starts_with("accepted") { 0 } else { 1 };
    for explain in [false, true] {
        let mut words = vec!["verify"];
        words.extend(head.iter().map(String::as_str));
        words.extend(explain.then_some("--explain"));
        words.push("-");
        let done = run(&words, &job[36..]);
        assert_eq!(text(&done.stdout), format!("{want}\n"));
        assert_eq!(done.status.code(), Some(status), "{want}");
        assert_eq!(done.stderr.is_empty(), !explain, "{want}");
    }
}

#[test]
fn examples() {
    for stored in stored::examples() {
        check(&stored.job, &stored.line);
    }
}

/// Every seventh job of the corpus: the library is tested on all of them.
#[test]
fn corpus() {
    for stored in stored::corpus().iter().step_by(7) {
        check(&stored.job, &stored.line);
    }
}

#[test]
fn an_explanation_says_where_and_what_to_do() {
    let job = fs::read(repository().join("examples/count_zero.job")).expect("a job");
    let head = head(&job).expect("a head");
    let mut words = vec!["verify", "--explain", "-"];
    words.extend(head.iter().map(String::as_str));
    let said = run(&words, &job[36..]).stderr;
    let lines: Vec<&str> = text(&said).lines().collect();
    let [why, place, to_do] = lines[..] else {
        panic!("{lines:?}")
    };
    assert!(why.starts_with("why: a section's count"), "{why}");
    assert!(place.contains("section 4, the queries"), "{place}");
    assert!(to_do.starts_with("to do: keep the raw table; "), "{to_do}");
}

/// What cannot be judged gets status 2, a sentence and no line.
#[test]
fn no_verdict() {
    let context = "00".repeat(32);
    let all = [&["verify"], &PARAMETERS[..], &["--context", &context]].concat();
    let with = |more: &[&'static str]| run(&[&all[..], more].concat(), b"");
    let without = |gone: &str| {
        let kept: Vec<&str> = all.iter().copied().filter(|word| *word != gone).collect();
        run(&[&kept[..], &["-"]].concat(), b"")
    };
    let mut tried = vec![
        with(&[]),
        with(&["-", "-"]),
        with(&["/"]),
        with(&["/nonexistent/file"]),
        with(&["--n", "4", "-"]),
        with(&["--head", "/dev/null", "-"]),
        with(&["--unknown", "-"]),
        // names of files that a sender could choose
        with(&["--help"]),
        with(&["--version"]),
        with(&["--explain"]),
        with(&["--"]),
        run(&["--help", "verify"], b""),
        without("--n"),
        without("4"),
        without("--context"),
        without(&context),
        run(&["verify", "--head", "/dev/null", "-"], b""),
        run(&["verify", "--head", "-", "-"], &[4; 36]),
        run(&["nothing"], b""),
        run(&[], b""),
    ];
    tried.push(run(&[&all[..], &["--n=300", "-"]].concat(), b""));
    for (i, done) in tried.iter().enumerate() {
        assert_eq!(
            done.status.code(),
            Some(2),
            "case {i}: {}",
            text(&done.stderr)
        );
        assert!(
            done.stdout.is_empty() && !done.stderr.is_empty(),
            "case {i}"
        );
    }
}

/// A verdict that nobody could be told is none.
#[test]
fn a_line_that_cannot_be_written() {
    let job = fs::read(repository().join("examples/accepted.job")).expect("a job");
    let full = fs::OpenOptions::new()
        .write(true)
        .open("/dev/full")
        .expect("/dev/full");
    let proof = std::env::temp_dir().join(format!("phieulakhon_proof_{}", std::process::id()));
    fs::write(&proof, &job[36..]).expect("a file");
    let mut command = Command::new(PROGRAM);
    command
        .arg("verify")
        .args(head(&job).expect("a head"))
        .arg(&proof);
    assert_eq!(
        command.output().expect("the program").status.code(),
        Some(0)
    );
    let done = command
        .stdout(full)
        .stderr(Stdio::piped())
        .output()
        .expect("the program");
    fs::remove_file(&proof).expect("ours");
    assert_eq!(done.status.code(), Some(2), "{}", text(&done.stderr));
}

#[test]
fn what_is_written_is_accepted_and_looked_up() {
    let context = "a7".repeat(32);
    let head = [&PARAMETERS[..], &["--context", &context]].concat();
    let written = run(&[&["write"], &head[..]].concat(), b"1 2\n3 4\n");
    assert_eq!(written.status.code(), Some(0));
    let judged = run(&[&["verify"], &head[..], &["-"]].concat(), &written.stdout);
    assert_eq!(text(&judged.stdout), "accepted 260\n");

    let job = run(&[&["write", "--job"], &head[..]].concat(), b"1 2 3 4").stdout;
    assert_eq!(hex(&job[..36]), format!("04020102{context}"));
    assert!(job[36..] == written.stdout);

    for (coefficients, line) in [
        ("1 2 3", "refused 30 at 0"),
        ("1 2 3 3221225473", "refused 22 at 0"),
    ] {
        let refused = run(&[&["write"], &head[..]].concat(), coefficients.as_bytes());
        assert_eq!(refused.status.code(), Some(1));
        assert!(refused.stdout.is_empty() && text(&refused.stderr).starts_with(line));
    }
    let wrong = run(&[&["write"], &head[..]].concat(), b"1 2 3 four");
    assert_eq!(wrong.status.code(), Some(2));

    let length = run(&[&["length"], &PARAMETERS[..]].concat(), b"");
    assert_eq!(
        (text(&length.stdout), length.status.code()),
        ("260\n", Some(0))
    );
    let not_valid = run(
        &["length", "--n", "4", "--b", "2", "--k", "1", "--q", "0"],
        b"",
    );
    assert_eq!(
        (text(&not_valid.stdout), not_valid.status.code()),
        ("", Some(1))
    );

    let file = std::env::temp_dir().join(format!("phieulakhon_looked_up_{}", std::process::id()));
    fs::write(&file, &written.stdout).expect("a file");
    let name = file.to_str().expect("a name");
    let found = run(
        &[
            &["lookup"],
            &PARAMETERS[..],
            &["--query", "1", "--layer", "0", name],
        ]
        .concat(),
        b"",
    );
    let lines: Vec<&str> = text(&found.stdout).lines().collect();
    assert_eq!((lines.len(), lines[0]), (6, "bytes 157 to 260"));
    let value = u32::from_le_bytes(written.stdout[156..160].try_into().expect("four bytes"));
    assert_eq!(lines[1], format!("value {value}"));
    assert_eq!(
        lines[5],
        format!("sibling 2 {}", hex(&written.stdout[228..260]))
    );
    let none = run(
        &[
            &["lookup"],
            &PARAMETERS[..],
            &["--query", "2", "--layer", "0", name],
        ]
        .concat(),
        b"",
    );
    assert_eq!(none.status.code(), Some(1));
    assert!(text(&none.stderr).starts_with("refused 16 at 0"));
    fs::remove_file(&file).expect("ours");
}

/// Each command has a help text and a part of the man page; the guard's statuses are the same in both.
#[test]
fn help_and_man_page() {
    let page = fs::read_to_string(repository().join("docs/phieulakhon.1")).expect("the man page");
    let page = page.replace("\\-", "-");
    let version = text(&run(&["--version"], b"").stdout).to_string();
    assert!(page.contains(version.trim_end()), "{version}");
    for name in ["verify", "guard", "write", "length", "lookup"] {
        let help = run(&[name, "--help"], b"");
        assert_eq!(help.status.code(), Some(0));
        assert!(page.contains(&format!("phieulakhon {name}")), "{name}");
        let help = text(&help.stdout).to_string();
        let options = help.split(|c: char| !(c.is_ascii_lowercase() || c == '-'));
        for option in options.filter(|word| word.len() > 2 && word.starts_with("--")) {
            assert!(page.contains(option), "{name}: {option}");
        }
        if name == "guard" {
            let (_, statuses) = help.split_once("Exit status").expect("statuses");
            for line in statuses.lines().skip(1) {
                let (status, words) = line.trim().split_once("  ").expect("a status");
                assert!(page.contains(&format!("{status}\n{words}\n")), "{line}");
            }
        }
    }
    let whole = run(&["--help"], b"");
    assert!(text(&whole.stdout).contains("phieulakhon guard"));
}
