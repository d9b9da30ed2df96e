//! README.md's reading lists: between `<!-- reading-list:begin NAME.. -->` and `<!-- reading-list:end -->`
//! stands what `reads NAME..` prints.

use crate::graph::Graph;
use crate::reads;
use crate::Faults;

const BEGIN: &str = "<!-- reading-list:begin ";
const END: &str = "<!-- reading-list:end -->";
const WRITE: &str = "cargo run --release --offline --manifest-path docs/reach/Cargo.toml -- readme --write";

/// The statements that a line begins a list of.
fn begun(line: &str) -> Option<Vec<&str>> {
    Some(line.strip_prefix(BEGIN)?.strip_suffix("-->")?.split_whitespace().collect())
}

/// The statements of all lists.
pub fn statements(text: &str) -> Vec<&str> {
    text.lines().filter_map(begun).flatten().filter(|name| *name != "/").collect()
}

/// The text with each list as it is now.
pub fn renewed(graph: &Graph, text: &str) -> Result<String, Faults> {
    let mut new = String::new();
    let mut lines = text.lines();
    while let Some(line) = lines.next() {
        new += &format!("{line}\n");
        if let Some(names) = begun(line) {
            if !lines.any(|line| line == END) {
                return Err(vec![format!("README.md: a reading list without its end: {line}")]);
            }
            new += &format!("{}\n{END}\n", reads::list(graph, &names)?);
        }
    }
    Ok(new)
}

pub fn check(graph: &Graph, text: &str) -> Result<String, Faults> {
    let names = statements(text);
    if names.is_empty() {
        return Err(vec!["README.md has no reading list".to_string()]);
    }
    if renewed(graph, text)? != text {
        return Err(vec![format!("README.md: a reading list is not what it is now; to write it: {WRITE}")]);
    }
    Ok(format!("README.md: the reading list of {} is what it is now", names.join(", ")))
}

#[cfg(test)]
mod tests {
    use super::*;
    use crate::sample;

    const EMPTY: &str =
        "# Text\n\n<!-- reading-list:begin Claim both -->\n<!-- reading-list:end -->\n\nMore.\n";

    #[test]
    fn what_is_written_is_what_it_is_now() {
        let graph = sample::crates();
        assert!(check(&graph, EMPTY).is_err());
        let written = renewed(&graph, EMPTY).unwrap();
        assert!(written.contains(&reads::list(&graph, &["Claim", "both"]).unwrap()));
        assert!(written.ends_with("\n<!-- reading-list:end -->\n\nMore.\n"));
        assert!(check(&graph, &written).is_ok());
    }

    #[test]
    fn a_wrong_line_count() {
        let graph = sample::crates();
        let written = renewed(&graph, EMPTY).unwrap();
        let wrong = written.replace("Low.antt` | 5 | 8 |", "Low.antt` | 4 | 8 |");
        assert_ne!(wrong, written);
        assert!(check(&graph, &wrong).is_err());
    }

    #[test]
    fn no_list_and_no_end() {
        let graph = sample::crates();
        assert!(check(&graph, "# Text\n").is_err());
        assert!(check(&graph, "<!-- reading-list:begin Claim -->\n").is_err());
    }
}
