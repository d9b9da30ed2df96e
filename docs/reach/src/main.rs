//! `reach`: what the contracts and statements of the crates reach among the definitions, and the checks of
//! docs/MAP.md and README.md that follow from it. It is run at the repository's top.

mod believed;
mod claims;
mod code;
mod definitions;
mod graph;
mod imports;
mod lexer;
mod link;
mod map;
mod mentions;
mod readme;
mod reads;
#[cfg(test)]
mod sample;
mod sources;

use graph::Graph;
use sources::read_text;
use std::fs;
use std::path::Path;
use std::process::ExitCode;

const USAGE: &str = "usage: reach map | reads STATEMENT.. | readme [--write] | claims | believed";

/// What is wrong, one line each.
type Faults = Vec<String>;

/// A value where nothing is wrong.
fn unless<T>(faults: Faults, value: T) -> Result<T, Faults> {
    if faults.is_empty() {
        Ok(value)
    } else {
        Err(faults)
    }
}

/// Runs a command; what it has to say.
fn run(words: &[&str]) -> Result<String, Faults> {
    let graph = || sources::read(Path::new(".")).and_then(Graph::new);
    let readme = Path::new("README.md");
    match words {
        ["map"] => map::check(&graph()?, &read_text(Path::new("docs/MAP.md"))?),
        ["reads", names @ ..] if !names.is_empty() => reads::list(&graph()?, names),
        ["readme"] => readme::check(&graph()?, &read_text(readme)?),
        ["readme", "--write"] => {
            let text = readme::renewed(&graph()?, &read_text(readme)?)?;
            fs::write(readme, text).map_err(|e| vec![format!("README.md: {e}")])?;
            Ok("README.md: written".to_string())
        }
        ["claims"] => claims::check(&graph()?, &read_text(readme)?),
        ["believed"] => {
            believed::check(&graph()?, &readme::statements(&read_text(readme)?), &believed::ENTRIES)
        }
        _ => Err(vec![USAGE.to_string()]),
    }
}

fn main() -> ExitCode {
    let words: Vec<String> = std::env::args().skip(1).collect();
    let words: Vec<&str> = words.iter().map(String::as_str).collect();
    match run(&words) {
        Ok(text) => {
            println!("{text}");
            ExitCode::SUCCESS
        }
        Err(faults) => {
            faults.iter().for_each(|fault| eprintln!("reach: {fault}"));
            ExitCode::FAILURE
        }
    }
}
