//! `include/warzhigo.h` from C: a program is compiled with the system's C compiler (the one that links Rust programs), linked and run.

use std::path::{Path, PathBuf};
use std::process::Command;

#[test]
fn a_c_program_links_and_runs() {
    let here = Path::new(env!("CARGO_MANIFEST_DIR"));
    let root = here.join("../..");
    let library = std::env::var_os("WARZHIGO_LIB").map_or(root.join("crates/warzhigo_c/out"), PathBuf::from).join("libwarzhigo_c.a");
    let program = Path::new(env!("CARGO_TARGET_TMPDIR")).join("header");
    let compiled = Command::new("cc")
        .args(["-std=c99", "-Wall", "-Wextra", "-Werror", "-pedantic", "-I"])
        .arg(root.join("include"))
        .arg(here.join("tests/header.c"))
        .arg(library)
        .arg("-o")
        .arg(&program)
        .status()
        .expect("a C compiler, cc");
    assert!(compiled.success());
    assert_eq!(Command::new(program).status().expect("it runs").code(), Some(0));
}
