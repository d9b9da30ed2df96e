//! `straight`: is the conversion to TUs one straight path (document 02, (b))? It is run at the repository's top.

mod code;
mod compiled;
mod follow;
mod lexer;

use follow::Source;
use std::fs;
use std::io::ErrorKind;
use std::path::Path;
use std::process::{Command, ExitCode};

const USAGE: &str = "usage: straight source | compiled";

/// The conversion.
const CONVERSION: &str = "units::TimeUnits::from_milliseconds";

/// The function that is the conversion by itself (crates/conversion), and the archive that has it.
const EXPORTED: &str = "tus_of";
const ARCHIVE: &str = "crates/conversion/out/libconversion.a";

/// The files of every crate's src/.
fn sources(top: &Path) -> std::io::Result<Vec<Source>> {
    let mut sources = Vec::new();
    for krate in fs::read_dir(top.join("crates"))? {
        let krate = krate?;
        let name = krate.file_name().to_string_lossy().into_owned();
        for file in fs::read_dir(krate.path().join("src"))? {
            let file = file?;
            let path = format!("crates/{name}/src/{}", file.file_name().to_string_lossy());
            sources.push(Source { krate: name.clone(), path, text: fs::read_to_string(file.path())? });
        }
    }
    Ok(sources)
}

fn check_source() -> Result<String, Vec<String>> {
    let sources = sources(Path::new(".")).map_err(|e| vec![format!("crates: {e}")])?;
    let count = follow::follow(&sources, CONVERSION)?;
    Ok(format!("{CONVERSION}: no comparison, branch or loop in {count} function(s)"))
}

fn check_compiled() -> Result<String, Vec<String>> {
    if !Path::new(ARCHIVE).exists() {
        return Err(vec![format!("no {ARCHIVE}: rt lib, in crates/conversion, writes it")]);
    }
    let output = match Command::new("objdump").args(["-d", "--no-show-raw-insn", ARCHIVE]).output() {
        Ok(output) => output,
        Err(e) if e.kind() == ErrorKind::NotFound => {
            return Ok("compiled: skipped, no objdump here".to_string())
        }
        Err(e) => return Err(vec![format!("objdump: {e}")]),
    };
    let count = compiled::check(&String::from_utf8_lossy(&output.stdout), EXPORTED)?;
    Ok(format!("{EXPORTED}: no jump, conditional set or move in {count} instructions"))
}

fn main() -> ExitCode {
    let words: Vec<String> = std::env::args().skip(1).collect();
    let result = match words.iter().map(String::as_str).collect::<Vec<_>>()[..] {
        ["source"] => check_source(),
        ["compiled"] => check_compiled(),
        _ => Err(vec![USAGE.to_string()]),
    };
    match result {
        Ok(text) => {
            println!("straight: {text}");
            ExitCode::SUCCESS
        }
        Err(faults) => {
            faults.iter().for_each(|fault| eprintln!("straight: {fault}"));
            ExitCode::FAILURE
        }
    }
}

#[cfg(test)]
mod tests {
    use super::*;

    /// The repository's sources, with a statement at the beginning of the conversion.
    fn planted(statement: &str) -> Result<usize, Vec<String>> {
        let top = Path::new(env!("CARGO_MANIFEST_DIR")).join("../..");
        let mut sources = sources(&top).unwrap();
        let units = sources.iter_mut().find(|source| source.path == "crates/units/src/lib.rt").unwrap();
        let start = units.text.find("fn from_milliseconds").unwrap();
        let body = start + units.text[start..].find("\n    {\n").unwrap();
        units.text.insert_str(body + "\n    {\n".len(), statement);
        follow::follow(&sources, CONVERSION)
    }

    #[test]
    fn the_conversion_is_straight() {
        assert_eq!(planted(""), Ok(1));
    }

    /// A method's name is followed in every type that has one, so there may be more faults than one.
    #[test]
    fn what_is_planted_in_it_is_found() {
        for (statement, fault) in [
            ("if over { return age; }", "`if`"),
            ("let over = match over { n => n };", "`match`"),
            ("while over { over -= 1; }", "`while`"),
            ("loop { break; }", "`loop`"),
            ("for i in 0..over { tus -= i; }", "`for`"),
            ("let most = least && over;", "`&&`"),
            ("let most = least || over;", "`||`"),
            ("let most = tus == over;", "`==`"),
            ("let most = tus != over;", "`!=`"),
            ("let most = tus < over;", "`<`"),
            ("let most = tus <= over;", "`<=`"),
            ("let most = tus > over;", "`>`"),
            ("let most = tus >= over;", "`>=`"),
            ("let most = TimeUnits(1).at_least(TimeUnits(2));", "`at_least` has `<=`"),
            ("let age = age.since(age);", "`since` calls `.wrapping_sub`: cannot be followed"),
            ("let tus = std::num::min(tus, 1);", "`std::num::min`: cannot be followed"),
        ] {
            let faults = planted(statement).unwrap_err();
            assert!(faults.iter().any(|found| found.contains(fault)), "{statement}: {faults:?}");
        }
    }
}
