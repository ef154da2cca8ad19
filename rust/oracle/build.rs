//! Cuts out of pliron's cloning.rs, as whole lines, the struct `IrMapping` with its `impl`, and what clones within one context; the rest of
//! that file needs parts of pliron that have no shim.

use std::{env, fs, path::Path};

const CLONING: &str = "pliron/src/irbuild/cloning.rs";

/// The parts, each by how its first line begins, and the line behind its last; the last part goes to the end.
const MAPPING: (&str, &str) = ("/// Mapping between IR entities", "/// Errors from cloning IR into another");
const CLONING_PARTS: [(&str, &str); 5] = [
    ("/// Common functionality shared by same-context", "/// Cross [Context] cloning."),
    ("/// Clone `op` (and the contents of its regions).", "/// Clone `op` (and the contents of its regions) from"),
    ("fn clone_operation_in<E: CloneEnv>(", "/// Clone every block of `src_region` into"),
    ("fn clone_region_in<E: CloneEnv>(", "/// Clone `blocks` (and their operations) into"),
    ("fn clone_blocks_in<E: CloneEnv>(", ""),
];

fn main() {
    println!("cargo::rerun-if-changed=build.rs");
    println!("cargo::rerun-if-changed={CLONING}");
    let text = fs::read_to_string(CLONING).unwrap_or_else(|e| panic!("{CLONING}: {e}"));
    let out_dir = env::var_os("OUT_DIR").expect("cargo sets OUT_DIR");
    for (name, parts) in [("ir_mapping.rs", [MAPPING].as_slice()), ("cloning.rs", &CLONING_PARTS)] {
        let out = Path::new(&out_dir).join(name);
        let cut: String = parts.iter().map(|part| cut(&text, part)).collect();
        fs::write(&out, cut).unwrap_or_else(|e| panic!("{}: {e}", out.display()));
    }
}

/// The lines from the first up to the one behind, without that one; to the end where there is none.
fn cut(text: &str, (first, behind): &(&str, &str)) -> String {
    let lines: Vec<&str> = text.split_inclusive('\n').collect();
    let first = place(&lines, 0, first);
    let behind = if behind.is_empty() { lines.len() } else { place(&lines, first, behind) };
    lines[first..behind].concat()
}

/// Where the first line from `from` on begins with `start`.
fn place(lines: &[&str], from: usize, start: &str) -> usize {
    let found = lines[from..].iter().position(|l| l.starts_with(start));
    from + found.unwrap_or_else(|| panic!("{CLONING} has no line that begins `{start}`"))
}
