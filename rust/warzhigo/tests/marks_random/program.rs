//! A list of calls as lines of the program `calls`, with the store as text behind each.

use std::io::Write;
use std::process::{Command, Stdio};

use warzhigo::lent::Owner;
use warzhigo::{Attribute, Inherent};

use crate::common::call::{Answer, Call, New};
use crate::common::marked::Step;
use crate::trial::Trial;

/// How many calls of a list are read by the program.
pub const BY_LINE: usize = 100;

fn list(items: &[u32]) -> String {
    let items = items.iter().map(|item| format!(",{item}"));
    format!(",{}{}", items.len(), items.collect::<String>())
}

fn line(step: &Step) -> String {
    match step {
        Step::Mark(mark) => format!("M,{mark}"),
        Step::Back(mark) => format!("G,{mark}"),
        Step::Build(Call::Operation(New { kind, parent, location, regions, result_types, operands, successors })) => {
            let parent = parent.map_or("-".to_string(), |block| block.to_string());
            let lists = [result_types, operands, successors].map(|items| list(items)).concat();
            format!("o,{kind},{parent},{location},{regions}{lists}")
        }
        Step::Build(Call::Block { region, location, argument_types }) => {
            format!("b,{region},{location}{}", list(argument_types))
        }
        Step::Build(Call::Attribute(owner, Attribute { key, kind, content, inherent })) => {
            let owner = match owner {
                Owner::Op(n) => format!("o,{n}"),
                Owner::Block(n) => format!("b,{n}"),
            };
            let letter = if *inherent == Inherent::Yes { 'i' } else { 'a' };
            format!("{letter},{owner},{key},{kind},{content}")
        }
        Step::Build(Call::Operand { op, index, value }) => format!("s,{op},{index},{value}"),
        Step::Build(Call::Copy { op, parent }) => {
            let parent = parent.map_or("-".to_string(), |block| block.to_string());
            format!("X,{op},{parent}")
        }
    }
}

fn answered(step: &Step, answer: Answer) -> String {
    match (step, answer) {
        (Step::Build(Call::Copy { .. }), Ok(Some(copy))) => format!("copy,{copy}"),
        (_, answer) => plain(answer),
    }
}

fn plain(answer: Answer) -> String {
    match answer {
        Ok(Some(number)) => number.to_string(),
        Ok(None) => "ok".to_string(),
        Err(cause) => format!("refused,{cause}"),
    }
}

/// Asserts that the program answers as the model does, and shows the same store after each call.
pub fn answers(trial: &Trial) {
    let log = &trial.log[..trial.log.len().min(BY_LINE)];
    let lines: String = log.iter().map(|(step, ..)| format!("{}\nD\n", line(step))).collect();
    let expected: String = log.iter().map(|(step, answer, text)| format!("{}\n{text}\n", answered(step, *answer))).collect();
    let program = Command::new(env!("CARGO_BIN_EXE_calls")).stdin(Stdio::piped()).stdout(Stdio::piped()).spawn();
    let mut calls = program.expect("the program starts");
    let mut input = calls.stdin.take().expect("its input");
    let writer = std::thread::spawn(move || input.write_all(lines.as_bytes()));
    let output = calls.wait_with_output().expect("it ends");
    writer.join().expect("it was written to").expect("it reads");
    assert_eq!(String::from_utf8_lossy(&output.stdout), expected, "seed {}", trial.seed);
}
