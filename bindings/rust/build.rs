//! Finds the proved static library: in the folder that PHIEULAKHON_LIB names, as the repository builds it or as
//! `./install` installs it, or else in the repository's crates/exports/out.

use std::env;
use std::path::{Path, PathBuf};
use std::process::exit;

const VARIABLE: &str = "PHIEULAKHON_LIB";
const ARCHIVES: [&str; 2] = ["exports", "phieulakhon"];

fn main() {
    println!("cargo:rerun-if-env-changed={VARIABLE}");
    let target = |name| env::var(format!("CARGO_CFG_TARGET_{name}")).unwrap_or_default();
    let platform = ["ARCH", "POINTER_WIDTH", "OS"].map(target);
    if platform != ["x86_64", "64", "linux"] {
        eprintln!("phieulakhon: the proved library is compiled for x86-64 Linux, and there is none for this platform");
        exit(1);
    }
    let built = Path::new(env!("CARGO_MANIFEST_DIR")).join("../../crates/exports/out");
    let folder = env::var_os(VARIABLE).map_or(built, PathBuf::from);
    let archive = |name| folder.join(format!("lib{name}.a"));
    for name in ARCHIVES {
        println!("cargo:rerun-if-changed={}", archive(name).display());
    }
    let Some(name) = ARCHIVES.into_iter().find(|name| archive(name).is_file()) else {
        eprintln!(
            "phieulakhon: {} is missing.",
            archive(ARCHIVES[0]).display()
        );
        eprintln!("Run `rt lib` in the repository's crates/exports, which proves the calls and writes it, or set");
        eprintln!("{VARIABLE} to the folder that holds libexports.a or, where it is installed, libphieulakhon.a.");
        exit(1);
    };
    println!("cargo:rustc-link-search=native={}", folder.display());
    println!("cargo:rustc-link-lib=static={name}");
}
