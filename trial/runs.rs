//! Random runs of calls on the library: whole runs beside the recognizer, and calls on memory of any numbers.
mod garbage;
#[path = "../examples/beachwhisk/calls.rs"]
mod library;
mod reads;
mod whole;

use std::process::ExitCode;
use trial::generator::random::Random;

const USAGE: &str = "expected: whole or garbage, COUNT SEED: how many runs, and the first seed";

type Run = fn(&mut Random) -> Result<usize, String>;

fn asked(arguments: &[String]) -> Option<(Run, u64, u64)> {
    let [mode, count, seed] = arguments else {
        return None;
    };
    let run: Run = match &mode[..] {
        "whole" => whole::run,
        "garbage" => garbage::run,
        _ => return None,
    };
    Some((run, count.parse().ok()?, seed.parse().ok()?))
}

// Makes the runs, and answers how many calls they were.
fn make_runs(run: Run, seeds: std::ops::Range<u64>) -> Result<usize, String> {
    let one = |seed| {
        run(&mut Random::new(seed)).map_err(|difference| format!("seed {seed}: {difference}"))
    };
    seeds.map(one).sum()
}

fn main() -> ExitCode {
    let arguments: Vec<String> = std::env::args().skip(1).collect();
    let (run, count, first) = match asked(&arguments) {
        Some(asked) => asked,
        None => {
            eprintln!("{USAGE}");
            return ExitCode::from(2);
        }
    };
    match make_runs(run, first..first + count) {
        Ok(calls) => println!(
            "{}: {count} runs, {calls} calls, no difference",
            arguments[0]
        ),
        Err(difference) => {
            println!("{difference}");
            return ExitCode::FAILURE;
        }
    }
    ExitCode::SUCCESS
}
