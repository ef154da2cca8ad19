//! Every offered call, one to a line: docs/CALLS.md. What a build logs can be replayed, and cases can be written by hand.
//!
//!     calls < log

mod fields;
mod line;
mod replay;
mod text;

use std::io::{self, BufRead, BufReader, BufWriter, Write};
use std::process::ExitCode;

use line::Line;
use replay::Replay;

/// How a run ended before its last line.
enum Ended {
    /// Reading or writing failed.
    Failed(io::Error),
    /// This line, from 1, is not of the form.
    NotOfTheForm(usize),
}

impl From<io::Error> for Ended {
    fn from(error: io::Error) -> Ended {
        Ended::Failed(error)
    }
}

fn main() -> ExitCode {
    let mut answers = BufWriter::new(io::stdout().lock());
    let ended = run(BufReader::new(io::stdin().lock()), &mut answers);
    match ended.and(answers.flush().map_err(Ended::from)) {
        Ok(()) => ExitCode::SUCCESS,
        Err(Ended::NotOfTheForm(number)) => {
            eprintln!("calls: line {number} is not of the form that docs/CALLS.md describes");
            ExitCode::from(2)
        }
        Err(Ended::Failed(error)) => {
            eprintln!("calls: {error}");
            ExitCode::from(1)
        }
    }
}

/// Answers the lines one after the other. Answers go out before more is waited for, so that a caller can wait for them.
fn run(mut lines: BufReader<impl io::Read>, answers: &mut impl Write) -> Result<(), Ended> {
    let mut replay = Replay::default();
    let mut bytes = Vec::new();
    for number in 1.. {
        if lines.buffer().is_empty() {
            answers.flush()?;
        }
        bytes.clear();
        if lines.read_until(b'\n', &mut bytes)? == 0 {
            break;
        }
        let text = bytes.strip_suffix(b"\n").unwrap_or(&bytes);
        if text.is_empty() {
            continue;
        }
        let line = std::str::from_utf8(text).ok().and_then(Line::parse).ok_or(Ended::NotOfTheForm(number))?;
        if let Some(answer) = replay.answer(&line) {
            writeln!(answers, "{answer}")?;
        }
    }
    Ok(())
}
