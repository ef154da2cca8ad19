//! The program `calls`: lines in, answers out.

use std::io::Write;
use std::process::{Command, Output, Stdio};

const DOCUMENT: &str = include_str!("../../../docs/CALLS.md");

fn run(lines: &str) -> Output {
    let mut calls = Command::new(env!("CARGO_BIN_EXE_calls"))
        .stdin(Stdio::piped())
        .stdout(Stdio::piped())
        .stderr(Stdio::piped())
        .spawn()
        .expect("the program starts");
    calls.stdin.take().unwrap().write_all(lines.as_bytes()).expect("it reads");
    calls.wait_with_output().expect("it ends")
}

/// The answers of lines that are all of the form.
fn answers(lines: &str) -> String {
    let output = run(lines);
    assert!(output.status.success() && output.stderr.is_empty(), "{lines}");
    String::from_utf8(output.stdout).unwrap()
}

/// The indented lines behind a line of the document.
fn example(behind: &str) -> String {
    let lines = DOCUMENT.lines().skip_while(|line| *line != behind).skip(2);
    lines.map_while(|line| line.strip_prefix("    ")).map(|line| format!("{line}\n")).collect()
}

/// Two forms with a block each, and an operation in it.
const TWO: &str = "o,7,-,5,1,0,0,0\nb,0,5,1,3\no,8,0,5,0,1,3,1,0,0\no,7,-,6,1,0,0,0\nb,1,6,1,3\no,8,1,6,0,1,3,1,2,0\n";

/// What they answer.
const MADE: &str = "0\n0\n1\n2\n1\n3\n";

#[test]
fn the_documents_example() {
    assert_eq!(answers(&example("For example")), example("answers"));
}

#[test]
fn building_calls_answer_numbers_or_ok() {
    assert_eq!(answers(TWO), MADE);
    let more = "a,o,1,4,63,9\na,b,1,4,0,1\ns,1,0,3\na,o,1,4,64,9\ns,1,1,0\ns,9,0,0\no,1,9,0,0,0,0,0\nb,2,0,0\n";
    assert_eq!(answers(&format!("{TWO}{more}")), format!("{MADE}ok\nok\nok\nrefused,6\nrefused,7\nrefused,2\nrefused,2\nrefused,2\n"));
    let inherent = "i,o,1,4,63,9\ni,b,1,4,0,1\ni,o,1,4,64,9\ni,o,4,4,63,9\ni,b,2,4,63,9\n";
    assert_eq!(answers(&format!("{TWO}{inherent}")), format!("{MADE}ok\nok\nrefused,6\nrefused,2\nrefused,2\n"));
}

#[test]
fn inherent_attributes_count_though_their_kind_is_ignored() {
    // kind 5 is ignored: inherent on the left alone, then plain on the right, the same on both sides, and plain on both with other contents
    let lines = "i,o,1,4,5,9\nQ\na,o,3,4,5,9\nQ\ni,o,3,4,5,9\nQ\na,o,1,4,5,9\na,o,3,4,5,8\nQ\n".replace('Q', "q,o,0,2,1,32");
    assert_eq!(answers(&format!("{TWO}{lines}")), format!("{MADE}ok\nop,1,3,2\nok\nop,1,3,2\nok\neq,-,-,3\nok\nok\neq,-,-,3\n"));
}

#[test]
fn comparisons_and_their_mappings() {
    let lines = format!("{TWO}P\nq,o,0,2,1,0\nP\nq,o,0,2,0,0\nP\nq,b,0,1,1,0\nq,r,0,1,1,0\nP\nq,o,0,4,1,0\nP\n");
    let region = "v0>2 v1>3/b0>1/o1>3";
    let expected =
        format!("{MADE}//\neq,-,-,3\nv0>2 v1>3/b0>1/o0>2 o1>3\nop,0,2,0\n//\neq,-,-,2\neq,-,-,2\n{region}\nrefused,2\n{region}\n");
    assert_eq!(answers(&lines), expected);
}

#[test]
fn entered_images_serve_the_next_comparison_alone() {
    // operation 1's operand, value 0, has no entry of its own: unequal to operation 3, which names value 2
    let alone = "q,o,1,3,1,0\n";
    let lines = format!("{TWO}{alone}E,v,0,2\n{alone}P\n{alone}E,o,0,0\nE,b,1,0\nE,v,3,0\n{alone}P\n");
    let expected = format!("{MADE}op,1,3,1\neq,-,-,1\nv0>2 v1>3//o1>3\nop,1,3,1\nop,1,3,1\nv1>3 v3>0/b1>0/o0>0 o1>3\n");
    assert_eq!(answers(&lines), expected);
}

#[test]
fn entries_that_are_not_allowed() {
    let refused =
        ["E,v,4,0", "E,v,0,4", "E,b,2,0", "E,b,0,2", "E,o,4,0", "E,o,0,4", "E,v,2048,0", "E,b,256,0", "E,o,512,0", "E,o,4294967295,0"];
    for entry in refused {
        assert_eq!(answers(&format!("{TWO}{entry}\nq,o,0,9,1,0\nq,o,0,2,1,0\n")), format!("{MADE}refused,8\neq,-,-,3\n"), "{entry}");
    }
    // no image is an allowed one
    assert_eq!(answers(&format!("{TWO}E,v,9,4294967295\nq,o,0,2,1,0\n")), format!("{MADE}eq,-,-,3\n"));
}

#[test]
fn copies_and_their_mappings() {
    let lines = "X,0,-\nP\nX,1,1\nP\nX,1,0\nq,o,1,7,1,0\nX,0,0\nX,0,9\nX,9,-\nP\nE,v,0,2\nE,o,3,0\nX,1,-\nP\nE,v,99,0\nX,9,0\nX,9,0\nS\n";
    let copied = "copy,4\nv0>4 v1>5/b0>2/o0>4 o1>5\ncopy,6\nv1>6//o1>6\ncopy,7\neq,-,-,1\nrefused,18\nrefused,2\nrefused,2\nv1>7//o1>7\n";
    let into_entries = "copy,8\nv1>8//o1>8\nrefused,8\nrefused,2\nsound\n";
    assert_eq!(answers(&format!("{TWO}{lines}")), format!("{MADE}{copied}{into_entries}"));
    // an argument in the operation's own region is named before it has a number
    let early = "o,7,-,5,1,0,1,0,0\nb,2,5,1,3\nX,4,-\ns,4,0,4\nX,4,-\n";
    assert_eq!(answers(&format!("{TWO}{early}")), format!("{MADE}4\n2\ncopy,5\nok\nrefused,19\n"));
    // marks take copies away, and remember nothing of them
    marks("M,1\nX,0,-\nX,0,1\n", "totals 4 0 0|marks [1] remembered 0");
    marks("M,1\nX,0,-\nX,0,1\nG,1\n", "value 3 3 o3.0|totals 2 0 0|marks [1] remembered 0");
}

#[test]
fn hashes_are_sixteen_digits() {
    let lines = format!("{TWO}H,o,0,1,0\nH,o,2,1,0\nH,b,0,1,0\nH,b,1,1,0\nH,r,0,1,0\nH,r,1,1,0\nH,r,2,1,0\n");
    let text = answers(&lines);
    let hashes: Vec<&str> = text.lines().skip(6).collect();
    assert!(hashes[..6].iter().all(|hash| hash.len() == 16 && u64::from_str_radix(hash, 16).is_ok()));
    assert_eq!((hashes[0], hashes[2], hashes[4]), (hashes[1], hashes[3], hashes[5]));
    assert_ne!(hashes[0], hashes[2]);
    assert_eq!(hashes[6], "refused,2");
}

#[test]
fn keys_in_lent_bytes() {
    // kind 7, 1 region, location 5, no attributes, results, operands and successors; the region has no blocks
    let key = "0700000001000000000000000500000000000000000000000000000000000000000000000000000000000000000000000000000000000000";
    let operation = "o,7,-,5,1,0,0,0\n";
    let rooms = "K,o,0,0,0,56\nK,o,0,0,0,58\nK,o,0,0,0,55\nK,o,0,0,0,0\nK,o,1,0,0,0\nK,b,0,0,0,99\n";
    let expected = format!("0\nkey,56,{key}\nkey,56,{key}eeee\nrefused,13\nrefused,13\nrefused,2\nrefused,2\n");
    assert_eq!(answers(&format!("{operation}{rooms}")), expected);
    assert_eq!(answers(&format!("{operation}K,r,0,0,0,9\nK,r,1,0,0,9\n")), "0\nkey,8,0000000000000000ee\nrefused,2\n");
    // without the location, and with an attribute whose kind is ignored or not
    let ignored = format!("0\nok\nkey,52,{}{}\nrefused,13\n", &key[..24], &key[32..]);
    assert_eq!(answers(&format!("{operation}a,o,0,9,2,3\nK,o,0,1,4,52\nK,o,0,1,3,52\n")), ignored);
    // a counted attribute has 13 bytes: key 9, kind 2, content 3, and whether it is inherent
    for (line, counted, flag) in [("a", 3, "00"), ("i", 3, "01"), ("i", 4, "01")] {
        let attribute = format!("0100000000000000090000000200000003000000{flag}");
        let expected = format!("0\nok\nkey,65,{}{attribute}{}\nrefused,13\n", &key[..24], &key[48..]);
        let lines = format!("{line},o,0,9,2,3\nK,o,0,1,{counted},65\nK,o,0,1,{counted},64\n");
        assert_eq!(answers(&format!("{operation}{lines}")), expected, "{lines}");
    }
}

#[test]
fn how_large_a_key_will_be() {
    let sizes = "Z,r,0,0,0\nZ,o,0,0,0\nZ,o,0,1,0\nZ,o,1,0,0\nZ,b,0,0,0\n";
    let expected = "0\nsize,8,0,0,0,0\nsize,56,0,0,1,0\nsize,52,0,0,1,0\nrefused,2\nrefused,2\n";
    assert_eq!(answers(&format!("o,7,-,5,1,0,0,0\n{sizes}")), expected);
    // a block with an argument, and in it an operation that names it; no list of types is lent
    let lines = format!("{TWO}T,3,3\nZ,o,0,0,0\nZ,b,1,0,0\nZ,r,1,1,0\nT\na,o,1,9,2,3\nZ,r,0,0,4\nZ,r,0,0,0\n");
    let sizes = "size,149,2,1,2,1\nsize,101,2,1,1,0\nsize,93,2,1,1,0\nok\nsize,101,2,1,1,0\nsize,114,2,1,1,0\n";
    assert_eq!(answers(&lines), format!("{MADE}{sizes}"));
}

#[test]
fn keys_compared() {
    let lines = format!("{TWO}C,o,0,2,1,0\nC,o,0,2,0,0\nC,o,2,0,0,0\nC,b,0,1,1,0\nC,r,0,1,0,0\nC,o,0,4,1,0\nC,r,2,0,1,0\n");
    assert_eq!(answers(&lines), format!("{MADE}0\n-1\n1\n0\n-1\nrefused,2\nrefused,2\n"));
}

#[test]
fn bytes_compared_as_keys() {
    let lines = "B,,\nB,,00\nB,00,\nB,00,0000\nB,7f,80\nB,ff,01\nB,0aBc,0Abc\nB,01ff,0200\n";
    assert_eq!(answers(lines), "0\n-1\n1\n-1\n-1\n1\n0\n-1\n");
}

#[test]
fn independence_of_two_fragments() {
    let lines = "I,o,0,2\nI,o,0,0\nI,o,0,1\nI,o,1,0\nI,o,1,3\nI,b,0,1\nI,r,0,1\nI,o,0,4\nI,b,2,0\nI,r,2,2\n";
    assert_eq!(answers(&format!("{TWO}{lines}")), format!("{MADE}yes\nyes\nno\nno\nyes\nyes\nyes\nrefused,2\nrefused,2\nrefused,2\n"));
    // operation 3 now names the result of operation 1; and block 2 is made inside block 0
    let named = "s,3,0,1\nI,o,1,3\nI,o,3,1\nI,b,1,0\nI,r,1,0\no,9,0,0,1,0,0,0\nb,2,0,0\nI,b,2,0\nI,r,0,2\n";
    assert_eq!(answers(&format!("{TWO}{named}")), format!("{MADE}ok\nno\nno\nno\nno\n4\n2\nno\nno\n"));
    // it is lent no list of types
    assert_eq!(answers(&format!("{TWO}T,3,3\nI,o,0,2\n")), format!("{MADE}yes\n"));
}

#[test]
fn twins_of_all_operations() {
    // operations 1 and 3 name different values, from an empty mapping
    assert_eq!(answers(&format!("{TWO}U,1,0\nU,0,0\n")), format!("{MADE}-,-,0,-\n-,-,-,-\n"));
    // types 3 and 4, which are the same once the one is renamed, and an attribute of kind 2
    let more = "o,8,-,5,0,1,3,0,0\no,8,-,5,0,1,4,0,0\nU,0,0\nT,4,3\nU,0,0\na,o,5,1,2,9\nU,0,0\nU,0,4\nT,4,4\nU,0,0\nT\nU,1,4\n";
    let expected = "4\n5\n-,-,-,-,-,-\n-,-,-,-,-,4\nok\n-,-,-,-,-,-\n-,-,-,-,-,4\nrefused,14\n-,-,0,-,-,-\n";
    assert_eq!(answers(&format!("{TWO}{more}")), format!("{MADE}{expected}"));
    // none but of those before: an operation and the one that names it are not independent
    let named = "o,8,-,0,0,1,3,1,0,0\no,8,-,0,0,1,3,1,0,0\nU,0,0\ns,1,0,1\nU,0,0\n";
    assert_eq!(answers(&format!("o,1,-,0,0,1,3,0,0\n{named}")), "0\n1\n2\n-,-,1\nok\n-,-,-\n");
    assert_eq!(answers("U,0,0\nS\n"), "\nsound\n");
    let full: String = (0..512).map(|number| format!("{number}\n")).collect();
    let twins = format!("-{}\n", ",0".repeat(511));
    assert_eq!(answers(&format!("{}U,0,0\n", "o,1,-,0,0,0,0,0\n".repeat(512))), format!("{full}{twins}"));
}

#[test]
fn the_store_as_text() {
    let lines = format!("{TWO}a,o,1,9,3,4\ni,o,1,2,63,5\ni,b,1,0,1,1\no,1,1,2,0,0,0,2,1,0\nS\nD\n");
    let store = "op 0 7 - 5 r[0] v[] u[] s[] a[]|op 1 8 0 5 r[] v[1] u[0] s[] a[2:63:5:i,9:3:4]|op 2 7 - 6 r[1] v[] u[] s[] a[]\
        |op 3 8 1 6 r[] v[3] u[2] s[] a[]|op 4 1 1 2 r[] v[] u[] s[1,0] a[]\
        |block 0 0 5 v[0] o[1] a[]|block 1 1 6 v[2] o[3,4] a[0:1:1:i]|region 0 0 b[0]|region 1 2 b[1]\
        |value 0 3 b0.0|value 1 3 o1.0|value 2 3 b1.0|value 3 3 o3.0|totals 2 2 3|marks [] remembered 0";
    assert_eq!(answers(&lines), format!("{MADE}ok\nok\nok\n4\nsound\n{store}\n"));
    assert_eq!(answers("D\nS\n"), "totals 0 0 0|marks [] remembered 0\nsound\n");
}

/// Asserts that the store after these lines is sound, and that its text ends so.
fn marks(lines: &str, end: &str) {
    let text = answers(&format!("{TWO}{lines}D\nS\n"));
    assert!(text.ends_with(&format!("|{end}\nsound\n")), "{lines}: {text}");
}

#[test]
fn marks_are_set_and_gone_back_to() {
    let lines = "M,1\nM,2\nM,1\nG,2\nG,1\nM,0\nM,9\nG,4294967295\nG,2\n";
    assert_eq!(answers(lines), "ok\nok\nok\nok\nrefused,16\nrefused,16\nrefused,16\nrefused,16\nok\n");
    marks("M,1\nM,2\nM,1\ns,1,0,3\na,o,1,4,1,9\na,o,1,4,1,9\ns,1,0,3\n", "totals 2 0 1|marks [2,1] remembered 3");
    marks("M,1\nM,2\nM,1\ns,1,0,3\ni,o,1,4,1,9\nG,1\n", "totals 2 0 0|marks [2,1] remembered 0");
    marks("M,8\no,1,-,0,1,1,7,1,0,1,0\nM,3\nb,2,0,0\nG,8\n", "value 3 3 o3.0|totals 2 0 0|marks [8] remembered 0");
    let again = "M,1\no,1,-,0,0,0,0,0\nG,1\nq,o,4,4,0,0\no,2,-,0,0,0,0,0\nE,o,4,4\nG,1\nq,o,0,0,0,0\n";
    assert_eq!(answers(&format!("{TWO}{again}")), format!("{MADE}ok\n4\nok\nrefused,2\n4\nok\nrefused,8\n"));
}

#[test]
fn replacements_that_cannot_be_remembered() {
    let many = "s,1,0,3\n".repeat(1024);
    let more = "s,1,0,3\na,o,1,1,1,1\na,o,1,1,1,1\ns,1,1,3\nG,1\ns,1,0,3\n";
    let expected = "refused,17\nok\nrefused,17\nrefused,7\nok\nok\n";
    assert_eq!(answers(&format!("{TWO}M,1\n{many}{more}")), format!("{MADE}ok\n{}{expected}", "ok\n".repeat(1024)));
}

#[test]
fn empty_lines_are_passed_over() {
    assert_eq!(answers("\n\no,7,-,5,1,0,0,0\n\nS"), "0\nsound\n");
    assert_eq!(answers(""), "");
}

/// Lines that `calls` doesn't take.
#[rustfmt::skip]
const NOT_OF_THE_FORM: [&str; 80] = [
    "x", "o", "O,7,-,5,1,0,0,0", "o,7,-,5,1,0,0", "o,7,-,5,1,0,0,0,0", "o,7,-,5,1,2,3,0,0", "o,-,-,5,1,0,0,0", "o,+7,-,5,1,0,0,0",
    "o,07,-,5,1,0,0,0", "o,4294967296,-,5,1,0,0,0", "o, 7,-,5,1,0,0,0", "o,,-,5,1,0,0,0", "b,0,5", "b,0,-,0", "b,0,0,5,1,3", "a,r,0,1,1,1",
    "a,o,0,1,1", "a,o,0,1,1,1,i", "i", "i,r,0,1,1,1", "i,o,0,1,1", "i,o,0,1,1,1,1", "s,0,0", "q,x,0,0,0,0", "q,o,0,0,2,0", "q,o,0,0,0",
    "q,o,0,0,0,18446744073709551616", "q,o,0,0,0,0,", "E,r,0,0", "E,v,0", "P,1", "H,o,0,0", "D,0", "S,0", "S\r", " S", "o,7,-,5,1,0,0,0 ",
    "o,7,-,5,1,4294967295,0,0", "K,o,0,0,0", "K,v,0,0,0,9", "K,o,0,0,0,-", "K,o,0,0,0,4294967296", "C,o,0,0,0", "C,o,0,0,2,0", "B,00",
    "B,0,00", "B,00,000", "B,0g,00", "B,00,00,00", "B,+1,00", "M", "M,", "M,-", "M,01", "M,1,1", "G", "G,1,1", "m,1", "X", "X,0",
    "X,-,-", "X,0,", "X,0,-,0", "x,0,-", "Z,o,0,0", "Z,o,0,2,0", "Z,v,0,0,0", "Z,o,0,0,0,9", "I", "I,o,0", "I,v,0,0", "I,o,0,-",
    "I,o,0,0,0", "I,o,0,0,0,0", "U", "U,0", "U,2,0", "U,0,-", "U,0,0,0", "u,0,0",
];

#[test]
fn a_line_of_another_form_ends_the_program() {
    for line in NOT_OF_THE_FORM {
        let output = run(&format!("S\n\n{line}\nS\n"));
        assert_eq!(output.status.code(), Some(2), "{line}");
        assert_eq!(output.stdout, b"sound\n", "{line}");
        assert!(String::from_utf8(output.stderr).unwrap().contains("line 3"), "{line}");
    }
}
