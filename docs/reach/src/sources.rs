//! The source files of the crates.

use crate::Faults;
use std::fs;
use std::path::Path;

#[derive(Clone, Copy, Debug, PartialEq)]
pub enum Part {
    Code,
    Specs,
    Proofs,
}

/// The parts of a crate in the order in which they are read.
const PARTS: [Part; 3] = [Part::Code, Part::Specs, Part::Proofs];

impl Part {
    fn folder(self) -> &'static str {
        match self {
            Part::Code => "src",
            Part::Specs => "specs",
            Part::Proofs => "proofs",
        }
    }

    fn suffix(self) -> &'static str {
        match self {
            Part::Code => ".rt",
            Part::Specs | Part::Proofs => ".antt",
        }
    }
}

/// A file of a crate; its module is the path below the part's folder, without the suffix.
#[derive(Debug)]
pub struct Source {
    pub krate: String,
    pub part: Part,
    pub module: String,
    pub text: String,
}

impl Source {
    pub fn path(&self) -> String {
        format!("crates/{}/{}/{}{}", self.krate, self.part.folder(), self.module, self.part.suffix())
    }
}

pub fn read_text(path: &Path) -> Result<String, Faults> {
    fs::read_to_string(path).map_err(|e| vec![format!("{}: {e}", path.display())])
}

/// What the proof of a function is written in, in proofs/FUNCTION/.
const FUNCTION_PROOFS: [&str; 3] = ["/Invariants", "/Answers", "/Proof"];

/// The modules of a part, in the order of its Lib.antt where it has one. Left out are that file, and the proof
/// of a function, which no other file can use.
fn modules(folder: &Path, part: Part) -> Vec<String> {
    let mut found = Vec::new();
    gather(folder, "", part.suffix(), &mut found);
    found.retain(|module| module != "Lib" && !FUNCTION_PROOFS.iter().any(|name| module.ends_with(name)));
    let lib = fs::read_to_string(folder.join("Lib.antt")).unwrap_or_default();
    let order: Vec<&str> = lib.lines().filter_map(|line| line.strip_prefix("pub mod ")).collect();
    let place = |module: &String| order.iter().position(|name| name == module).unwrap_or(order.len());
    found.sort_by_key(|module| (place(module), module.clone()));
    found
}

/// The files of a folder that have the suffix, those of its folders too.
fn gather(folder: &Path, prefix: &str, suffix: &str, found: &mut Vec<String>) {
    let Ok(entries) = fs::read_dir(folder) else { return };
    for entry in entries.flatten() {
        let name = entry.file_name().to_string_lossy().into_owned();
        if entry.path().is_dir() {
            gather(&entry.path(), &format!("{prefix}{name}/"), suffix, found);
        } else if let Some(stem) = name.strip_suffix(suffix) {
            found.push(format!("{prefix}{stem}"));
        }
    }
}

/// The crates of crates.txt, a line `NAME: ..` or `NAME staticlib: ..` each, in their order.
fn crates(list: &str) -> Vec<&str> {
    let lines = list.lines().map(|line| line.split('#').next().unwrap_or_default());
    let heads = lines.filter_map(|line| line.split_once(':'));
    heads.filter_map(|(head, _)| head.split_whitespace().next()).collect()
}

/// Every file, crate by crate in the order of crates.txt.
pub fn read(top: &Path) -> Result<Vec<Source>, Faults> {
    let mut sources = Vec::new();
    for krate in crates(&read_text(&top.join("crates.txt"))?) {
        let before = sources.len();
        for part in PARTS {
            let folder = top.join("crates").join(krate).join(part.folder());
            for module in modules(&folder, part) {
                let text = read_text(&folder.join(format!("{module}{}", part.suffix())))?;
                sources.push(Source { krate: krate.to_string(), part, module, text });
            }
        }
        if sources.len() == before {
            return Err(vec![format!("crates.txt: no file of the crate {krate}")]);
        }
    }
    Ok(sources)
}

#[cfg(test)]
mod tests {
    use super::*;

    #[test]
    fn crates_and_static_libraries() {
        let list = "# a line: of words\nlow:\n\nhigh staticlib: low # behind: it\ntop: high low\n";
        assert_eq!(crates(list), ["low", "high", "top"]);
    }
}
