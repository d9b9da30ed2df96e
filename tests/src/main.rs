//! `differential`: the programs `frame`, `report`, `replay` and `explain` against the separately written reader
//! and gate, on made-up input.

use differential::compare::Difference;
use differential::phases::Run;
use differential::program::{Place, Programs};
use differential::tally::Tally;
use std::path::PathBuf;
use std::process::ExitCode;
use std::time::Instant;

const USAGE: &str = "usage: differential [--seed N] [--frames N] [--reports N] [--traces N] [--full] \
                     [--programs FOLDER]";

/// What the command line asks for.
struct Options {
    seed: u64,
    frames: usize,
    reports: usize,
    traces: usize,
    programs: Place,
}

/// Reads the command line; a folder of programs may come from the environment variable PROGRAMS too. With
/// none, they are where each is built.
fn options() -> Result<Options, String> {
    let crates = concat!(env!("CARGO_MANIFEST_DIR"), "/../crates");
    let folder = std::env::var_os("PROGRAMS").map(PathBuf::from);
    let programs = folder.map_or(Place::Crates(PathBuf::from(crates)), Place::Folder);
    let mut options = Options { seed: 1, frames: 60_000, reports: 20_000, traces: 1500, programs };
    let mut words = std::env::args().skip(1);
    while let Some(word) = words.next() {
        if word == "--full" {
            options.frames = 200_000;
            options.reports = 50_000;
            options.traces = 5000;
            continue;
        }
        let value = words.next().ok_or(USAGE)?;
        let number = || value.parse::<u64>().map_err(|_| format!("{value} is not a number"));
        match word.as_str() {
            "--seed" => options.seed = number()?,
            "--frames" => options.frames = number()? as usize,
            "--reports" => options.reports = number()? as usize,
            "--traces" => options.traces = number()? as usize,
            "--programs" => options.programs = Place::Folder(PathBuf::from(value)),
            _ => return Err(USAGE.to_string()),
        }
    }
    Ok(options)
}

/// Runs one phase and prints how long it took.
fn timed(title: &str, phase: impl FnOnce() -> Result<(), Difference>) -> Result<(), Difference> {
    let start = Instant::now();
    phase()?;
    println!("{title}: no difference, {:.1} s", start.elapsed().as_secs_f64());
    Ok(())
}

/// All phases.
fn run(options: &Options, run: &Run) -> Result<(), Difference> {
    timed("fixed cases", || run.fixed())?;
    timed(&format!("{} request frames", options.frames), || run.frames(options.frames))?;
    timed(&format!("{} report frames", options.reports), || run.reports(options.reports))?;
    timed(&format!("{} traces", options.traces), || run.traces(options.traces))
}

/// Exit status 0: no difference; 1: a difference, or a count of 0; 2: no run.
fn main() -> ExitCode {
    let options = match options() {
        Ok(options) => options,
        Err(message) => {
            eprintln!("{message}");
            return ExitCode::from(2);
        }
    };
    println!("seed {}", options.seed);
    let programs = match Programs::new(options.programs.clone()) {
        Ok(programs) => programs,
        Err(message) => {
            eprintln!("{message}");
            return ExitCode::from(2);
        }
    };
    let state = Run { programs, tally: Tally::default(), seed: options.seed };
    if let Err(difference) = run(&options, &state) {
        println!("{difference}");
        return ExitCode::FAILURE;
    }
    if !state.tally.print() {
        println!("a count is 0: that check could not fail");
        return ExitCode::FAILURE;
    }
    ExitCode::SUCCESS
}
