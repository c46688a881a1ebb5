//! Compares the compiled library with the reference: `second [--seed S] [--rounds N]`.
//! `second --streams FOLDER [--seed S]` writes damaged job streams, N.in, and what the job program must print, N.out.

#[cfg(library_missing)]
compile_error!("target/native/libtippovrain.a is missing: run tools/native-lib tippovrain first");

mod cases;
mod library;

use std::path::{Path, PathBuf};
use std::process::ExitCode;
use std::{env, fs, io};

use cases::{Call, Dice, Tally, CALLS};
use reference::job::printed;

struct Options {
    seed: u64,
    rounds: u64,
    streams: Option<PathBuf>,
}

fn options() -> Option<Options> {
    let mut options = Options {
        seed: 1,
        rounds: 5,
        streams: None,
    };
    let mut words = env::args().skip(1);
    while let Some(word) = words.next() {
        let value = words.next()?;
        match word.as_str() {
            "--seed" => options.seed = value.parse().ok()?,
            "--rounds" => options.rounds = value.parse().ok().filter(|rounds| *rounds > 0)?,
            "--streams" => options.streams = Some(PathBuf::from(value)),
            _ => return None,
        }
    }
    Some(options)
}

/// So many streams, each with what the job program must print for it.
const STREAMS: usize = 300;

fn write_streams(folder: &Path, seed: u64) -> io::Result<()> {
    fs::create_dir_all(folder)?;
    let mut dice = Dice::new(seed, "streams", 0);
    for number in 0..STREAMS {
        let stream = cases::damaged_stream(&mut dice);
        fs::write(folder.join(format!("{number}.out")), printed(&stream))?;
        fs::write(folder.join(format!("{number}.in")), stream)?;
    }
    Ok(())
}

fn run(call: &Call, options: &Options) -> Tally {
    let mut tally = Tally::new();
    for round in 0..options.rounds {
        (call.round)(&mut tally, &mut Dice::new(options.seed, call.name, round));
    }
    tally
}

/// What the call's cases have to reach and did not.
fn missing(call: &Call, tally: &Tally) -> Vec<String> {
    let numbers = call
        .required
        .iter()
        .filter(|number| !tally.numbers.contains_key(number))
        .map(|number| format!("number {number} was not reached"));
    let kinds = call
        .kinds
        .iter()
        .flat_map(|kinds| kinds.iter())
        .filter(|kind| !tally.kinds.contains_key(**kind))
        .map(|kind| format!("no case of the kind '{kind}' was met"));
    numbers.chain(kinds).collect()
}

fn print(call: &Call, tally: &Tally, missing: &[String]) {
    let accepted = tally.numbers.get(&0).copied().unwrap_or(0);
    let refused: Vec<String> = tally
        .numbers
        .iter()
        .filter(|(number, _)| **number != 0)
        .map(|(number, times)| format!("{number}:{times}"))
        .collect();
    let cases = tally.cases;
    println!(
        "{}: {cases} cases, {accepted} accepted, refused {}",
        call.name,
        refused.join(" ")
    );
    if !tally.kinds.is_empty() {
        let kinds: Vec<String> = tally
            .kinds
            .iter()
            .map(|(kind, times)| format!("{kind}:{times}"))
            .collect();
        println!("  kinds: {}", kinds.join(", "));
    }
    for line in missing {
        println!("  {line}");
    }
    for difference in &tally.shown {
        println!("{difference}");
    }
}

fn main() -> ExitCode {
    let Some(options) = options() else {
        eprintln!("usage: second [--seed S] [--rounds N] | --streams FOLDER [--seed S]");
        return ExitCode::from(2);
    };
    if let Some(folder) = &options.streams {
        return match write_streams(folder, options.seed) {
            Ok(()) => ExitCode::SUCCESS,
            Err(error) => {
                eprintln!("{}: {error}", folder.display());
                ExitCode::FAILURE
            }
        };
    }
    let (mut cases, mut differences, mut missed) = (0, 0, 0);
    for call in CALLS {
        let tally = run(call, &options);
        let missing = missing(call, &tally);
        print(call, &tally, &missing);
        cases += tally.cases;
        differences += tally.differences;
        missed += missing.len();
    }
    println!("second: {cases} cases, {differences} differences");
    if differences == 0 && missed == 0 {
        ExitCode::SUCCESS
    } else {
        ExitCode::FAILURE
    }
}
