//! The crate `warzhigo_c`, the header and the Rust declarations have the same functions and structs: names, order and types.

use std::collections::BTreeMap;

use warzhigo::Inherent;

const HEADER: &str = include_str!("../../../include/warzhigo.h");
const RUST: &str = include_str!("../src/ffi.rs");
const RATTLE: [&str; 7] = [
    include_str!("../../../crates/warzhigo_c/src/answers.rt"),
    include_str!("../../../crates/warzhigo_c/src/groups.rt"),
    include_str!("../../../crates/warzhigo_c/src/known.rt"),
    include_str!("../../../crates/warzhigo_c/src/lengths.rt"),
    include_str!("../../../crates/warzhigo_c/src/listings.rt"),
    include_str!("../../../crates/warzhigo_c/src/offered.rt"),
    include_str!("../../../crates/warzhigo_c/src/words.rt"),
];
const RATTLE_ROOT: &str = include_str!("../../../crates/warzhigo_c/src/lib.rt");

/// By name: a function's types, those of the parameters and last the result's; or a struct's fields, as `name: type`.
type Declared = BTreeMap<String, Vec<String>>;

/// The text between the first `open` and the next `close` behind it, and what follows.
fn cut<'a>(text: &'a str, open: &str, close: &str) -> Option<(&'a str, &'a str)> {
    let (_, rest) = text.split_once(open)?;
    rest.split_once(close)
}

/// The parts of a list, in single blanks, without comments and empty ones.
fn parts(list: &str, separator: char) -> Vec<String> {
    let code: Vec<&str> = list.lines().map(|line| line.split("//").next().unwrap()).collect();
    let plain = |part: &str| part.split_whitespace().collect::<Vec<_>>().join(" ");
    code.join(" ").split(separator).map(plain).filter(|part| !part.is_empty()).collect()
}

/// Functions of Rattle or Rust, each `fn NAME(NAME: TYPE, ..) -> TYPE`; `crossing` gives what a type crosses as.
fn functions(mut text: &str, before: &str, crossing: fn(&str) -> Vec<String>) -> Declared {
    let mut found = Declared::new();
    while let Some((name, rest)) = cut(text, before, "(") {
        let (parameters, rest) = rest.split_once(')').unwrap();
        let result = rest.trim_start().strip_prefix("-> ").expect("every function answers");
        let result = result.split(|c: char| !c.is_alphanumeric()).next().unwrap();
        let words = parts(parameters, ',');
        let mut types: Vec<String> = words.iter().flat_map(|parameter| crossing(parameter.split_once(": ").unwrap().1)).collect();
        types.extend(crossing(result));
        assert!(found.insert(name.to_string(), types).is_none(), "{name} is there twice");
        text = rest;
    }
    found
}

/// Structs of Rattle or Rust that cross.
fn structs(mut text: &str) -> Declared {
    let mut found = Declared::new();
    while let Some((_, rest)) = text.split_once("#[repr(C)]") {
        let (name, rest) = cut(rest, "struct ", " {").unwrap();
        let (fields, rest) = rest.split_once('}').unwrap();
        let fields = parts(fields, ',').iter().map(|field| field.replace("pub(crate) ", "").replace("pub ", "")).collect();
        found.insert(name.to_string(), fields);
        text = rest;
    }
    found
}

/// A slice of Rattle crosses as a pointer and a length.
fn from_rattle(word: &str) -> Vec<String> {
    let pointer = match word {
        "&[u32]" => "*const u32",
        "&mut [u32]" => "*mut u32",
        "&[u8]" => "*const u8",
        "&mut [u8]" => "*mut u8",
        plain => return vec![plain.to_string()],
    };
    vec![pointer.to_string(), "usize".to_string()]
}

/// Whether an attribute is inherent crosses as its number.
fn from_rust(word: &str) -> Vec<String> {
    vec![word.replace("Inherent", "u32")]
}

/// What C declares: its type as in Rust, and its name.
fn from_c(declaration: &str) -> (String, String) {
    let (word, name) = declaration.rsplit_once([' ', '*']).expect("a type and a name");
    let plain = match word.trim_start_matches("const ").trim_end_matches([' ', '*']) {
        "uint8_t" => "u8",
        "uint32_t" | "wz_inherent" => "u32",
        "uint64_t" => "u64",
        "int32_t" => "i32",
        "size_t" => "usize",
        "bool" => "bool",
        "wz_verdict" => "Verdict",
        "wz_sum" => "HashAnswer",
        "wz_key_answer" => "KeyAnswer",
        "wz_extent_answer" => "ExtentAnswer",
        "wz_run_answer" => "RunAnswer",
        "wz_independence" => "Independence",
        "wz_grouped" => "Grouped",
        "wz_outcome" => "Outcome",
        "wz_output" => "Output",
        "wz_entries" => "Entries",
        other => panic!("{other} is no type that crosses"),
    };
    let pointer = match (declaration.contains('*'), word.starts_with("const ")) {
        (true, true) => "*const ",
        (true, false) => "*mut ",
        (false, _) => "",
    };
    (format!("{pointer}{plain}"), name.to_string())
}

/// The header without comments and without what is for the preprocessor or C++.
fn header() -> String {
    let mut text = HEADER.to_string();
    while let Some(start) = text.find("/*") {
        let end = text.find("*/").unwrap() + 2;
        text.replace_range(start..end, "");
    }
    let code = |line: &&str| !line.starts_with('#') && !line.starts_with("extern") && *line != "}";
    text.lines().filter(code).collect::<Vec<_>>().join("\n")
}

fn header_functions() -> Declared {
    let mut found = Declared::new();
    for declaration in parts(&header(), ';').iter().filter(|part| part.contains('(')) {
        let (head, rest) = declaration.split_once('(').unwrap();
        let (result, name) = from_c(head);
        let parameters = rest.strip_suffix(')').expect("one declaration to a semicolon");
        let mut types: Vec<String> = parts(parameters, ',').iter().filter(|p| *p != "void").map(|p| from_c(p).0).collect();
        types.push(result);
        assert!(found.insert(name.clone(), types).is_none(), "{name} is there twice");
    }
    found
}

fn header_structs() -> Declared {
    let (header, mut found) = (header(), Declared::new());
    let mut text = header.as_str();
    while let Some((fields, rest)) = cut(text, "typedef struct {", "}") {
        let name = rest.split(';').next().unwrap().trim();
        let fields = parts(fields, ';').iter().map(|field| from_c(field)).map(|(word, name)| format!("{name}: {word}")).collect();
        found.insert(from_c(&format!("{name} answer")).0, fields);
        text = rest;
    }
    found
}

#[test]
fn all_modules_of_link_are_read() {
    let modules = RATTLE_ROOT.lines().filter(|line| line.starts_with("pub mod ")).count();
    assert_eq!(modules, RATTLE.len());
}

#[test]
fn functions_are_the_same() {
    let rattle = functions(&RATTLE.concat(), "pub extern \"C\" fn ", from_rattle);
    let rust = functions(RUST.split_once("unsafe extern \"C\" {").unwrap().1, "fn ", from_rust);
    assert_eq!(rattle.len(), RATTLE.concat().matches("#[unsafe(no_mangle)]").count());
    assert!(rattle.contains_key("wz_twins") && rattle.keys().all(|name| name.starts_with("wz_")));
    assert_eq!(rattle, rust);
    assert_eq!(rattle, header_functions());
}

#[test]
fn inherent_has_the_same_numbers() {
    let (names, rest) = cut(HEADER, "typedef enum {", "}").unwrap();
    assert_eq!(rest.split(';').next().unwrap().trim(), "wz_inherent");
    assert_eq!(parts(names, ','), ["WZ_INHERENT_NO", "WZ_INHERENT_YES"]);
    assert_eq!([Inherent::No as u32, Inherent::Yes as u32], [0, 1]);
}

#[test]
fn structs_are_the_same() {
    let rattle = structs(&RATTLE.concat());
    assert_eq!(rattle.len(), 10);
    assert_eq!(rattle, structs(RUST));
    assert_eq!(rattle, header_structs());
}
