//! Links `libwarzhigo_c.a`, which `rt lib` in the folder `crates/warzhigo_c` writes to `crates/warzhigo_c/out`. The variable `WARZHIGO_LIB` names another
//! folder to look in.

use std::path::{Path, PathBuf};
use std::{env, process};

fn main() {
    println!("cargo:rerun-if-env-changed=WARZHIGO_LIB");
    let folder = match env::var_os("WARZHIGO_LIB") {
        Some(folder) => PathBuf::from(folder),
        None => Path::new(env!("CARGO_MANIFEST_DIR")).join("../../crates/warzhigo_c/out"),
    };
    let library = folder.join("libwarzhigo_c.a");
    println!("cargo:rerun-if-changed={}", library.display());
    if !library.is_file() {
        println!(
            "cargo:error={} is not there. Run `rt lib` in crates/warzhigo_c, or set WARZHIGO_LIB to the folder that holds libwarzhigo_c.a.",
            library.display()
        );
        process::exit(1);
    }
    println!("cargo:rustc-link-search=native={}", folder.display());
    println!("cargo:rustc-link-lib=static=warzhigo_c");
}
