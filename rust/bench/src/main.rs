//! How fast the library is beside pliron's own text: measures both in one process, and writes docs/BENCHMARK.md and docs/benchmark.svg.
//!
//!     cargo run --release --offline -p bench [-- --quick]
//!
//! `--quick` measures less, prints the tables and writes nothing.

mod building;
mod cases;
mod checks;
mod converting;
mod copying;
mod fragments;
mod grouping;
mod keys;
mod listings;
mod marks;
mod plot;
mod programs;
mod race;
mod reader;
mod renaming;
mod report;
mod runs;
mod shapes;
mod sides;
mod table;

use std::path::Path;
use std::process::ExitCode;
use std::time::Instant;
use std::{env, fs, io};

use race::{Effort, Pass};
use report::{Efforts, Results};

const FULL: Efforts = Efforts {
    passes: 5,
    short: Effort { rounds: 60, round: 150_000 },
    middle: Effort { rounds: 20, round: 150_000 },
    long: Effort { rounds: 2, round: 3_000_000 },
};

const QUICK: Efforts = Efforts {
    passes: 1,
    short: Effort { rounds: 10, round: 100_000 },
    middle: Effort { rounds: 5, round: 100_000 },
    long: Effort { rounds: 1, round: 1_000_000 },
};

fn main() -> ExitCode {
    let options: Vec<String> = env::args().skip(1).collect();
    let quick = options == ["--quick"];
    if !quick && !options.is_empty() {
        eprintln!("usage: bench [--quick]");
        return ExitCode::from(2);
    }
    let results = measure(if quick { QUICK } else { FULL });
    println!("{}", report::page(&results));
    if quick {
        return ExitCode::SUCCESS;
    }
    match write(&results) {
        Ok(()) => ExitCode::SUCCESS,
        Err(error) => {
            eprintln!("bench: {error}");
            ExitCode::FAILURE
        }
    }
}

/// Measures everything, pass by pass. A panic says that two sides answer differently.
fn measure(efforts: Efforts) -> Results {
    let Efforts { passes, short, middle, long } = efforts;
    let (mut shapes, mut around) = (fragments::shapes(short), fragments::around(short));
    let (mut keys, mut lists, mut runs) = (keys::shapes(short), renaming::lists(short), runs::runs(middle));
    let mut twins = grouping::twins(middle);
    let (mut calls, mut stores) = (building::each_call(middle), building::whole_stores(middle));
    let mut copies = copying::shapes(middle);
    let (mut soundness, mut allowed, mut emptying) = (checks::soundness(short), checks::allowed(short), checks::emptying(middle));
    let (mut marks, mut programs, mut conversions) = (marks::all(middle, short), programs::all(long), converting::all(middle));
    for number in 1..=passes {
        let parts: [&mut dyn Pass; 15] = [
            &mut shapes,
            &mut around,
            &mut keys,
            &mut lists,
            &mut runs,
            &mut twins,
            &mut calls,
            &mut stores,
            &mut copies,
            &mut soundness,
            &mut allowed,
            &mut emptying,
            &mut marks,
            &mut programs,
            &mut conversions,
        ];
        parts.into_iter().for_each(|part| told(number, part));
    }
    Results {
        efforts,
        shapes: fragments::by_shape(shapes),
        around: fragments::measured(around),
        keys: keys::by_shape(keys),
        lists: renaming::rows(lists),
        runs: runs::rows(runs),
        twins: grouping::rows(twins),
        calls: building::built(calls),
        stores: building::built(stores),
        copies: copying::by_shape(copies),
        soundness: checks::sound_rows(soundness),
        allowed: checks::allowed_rows(allowed),
        emptying: checks::emptying_rows(emptying),
        marks: marks.rows(),
        programs: programs::rows(programs),
        conversions: converting::rows(conversions),
    }
}

/// Measures once, and tells how long it took: a full run takes minutes.
fn told(number: u32, part: &mut dyn Pass) {
    let start = Instant::now();
    part.pass();
    eprintln!("pass {number}, {}: {:.1} s", part.name(), start.elapsed().as_secs_f64());
}

fn write(results: &Results) -> io::Result<()> {
    let docs = Path::new(env!("CARGO_MANIFEST_DIR")).join("../../docs");
    fs::write(docs.join("BENCHMARK.md"), report::page(results))?;
    fs::write(docs.join("benchmark.svg"), plot::svg(&results.shapes))
}
