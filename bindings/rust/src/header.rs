//! For the tests that compare this crate with the C header: what a program over it prints.

use std::path::Path;
use std::process::{self, Command};

/// The standard output of a program of bindings/c.
pub fn said(source: &str) -> String {
    let c = Path::new(env!("CARGO_MANIFEST_DIR"))
        .join("../c")
        .join(source);
    let program = std::env::temp_dir().join(format!("phieulakhon_{source}_{}", process::id()));
    let built = Command::new("cc")
        .arg(&c)
        .arg("-o")
        .arg(&program)
        .status()
        .expect("the C compiler `cc`");
    assert!(built.success());
    let run = Command::new(&program).output().expect("the built program");
    std::fs::remove_file(&program).expect("the built program");
    assert!(run.status.success());
    String::from_utf8(run.stdout).expect("text")
}
