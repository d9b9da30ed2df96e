//! README.md's theorems: each row of the table below "## What is proved" names statements that stand in the
//! row's file of specs/, and a law of the same crate has just that statement for its type.

use crate::definitions;
use crate::graph::Graph;
use crate::map::names;
use crate::sources::Part;
use crate::{unless, Faults};

const HEADING: &str = "## What is proved";

/// The cells of the table's rows: the theorems, and the file that states them.
fn rows<'a>(text: &'a str) -> Vec<(&'a str, &'a str)> {
    let section = text.lines().skip_while(|line| *line != HEADING).skip(1);
    let table = section.take_while(|line| !line.starts_with("## ")).filter(|line| line.starts_with('|'));
    let cell = |line: &'a str, at: usize| line.split('|').nth(at).unwrap_or_default();
    table.skip(2).map(|line| (cell(line, 2), cell(line, 3))).collect()
}

/// The statement of a name in a file of specs/.
fn stated(graph: &Graph, name: &str, path: &str) -> Option<usize> {
    graph.named(Part::Specs, name).into_iter().find(|&node| graph.source(node).path() == path)
}

/// Is there a law of the statement's crate whose type is that statement alone?
fn is_proved(graph: &Graph, statement: usize) -> bool {
    let krate = &graph.source(statement).krate;
    let name = graph.nodes[statement].name.as_str();
    let mut files =
        graph.sources.iter().filter(|source| source.part == Part::Proofs && source.krate == *krate);
    files.any(|source| definitions::parse(&source.text).iter().any(|law| law.ty == [":", name]))
}

pub fn check(graph: &Graph, text: &str) -> Result<String, Faults> {
    let mut faults = Faults::new();
    let mut count = 0;
    for (theorems, file) in rows(text) {
        let path = names(file).first().copied().unwrap_or_default();
        for name in names(theorems) {
            count += 1;
            match stated(graph, name, path) {
                None => faults.push(format!("README.md: no statement `{name}` in {path}")),
                Some(node) if !is_proved(graph, node) => {
                    faults.push(format!("README.md: no law of the type `{name}`"))
                }
                Some(_) => {}
            }
        }
    }
    if count == 0 {
        faults.push(format!("README.md: no theorem below \"{HEADING}\""));
    }
    unless(faults, format!("README.md: {count} theorems, each stated in its file and proved"))
}

#[cfg(test)]
mod tests {
    use super::*;
    use crate::sample;

    fn crate_with(law: &str) -> Graph {
        let specs = "abbrev pub Claim : Type 0\nClaim = ℕ\n";
        let proofs = format!("use Rattle.a.specs.Claims.{{Claim}}\n\n{law}\n");
        sample::graph(&[("a", Part::Specs, "Claims", specs), ("a", Part::Proofs, "Claims", &proofs)]).unwrap()
    }

    fn readme(row: &str) -> String {
        format!("# A\n\n{HEADING}\n\n| Demand | Theorem | Stated in |\n|---|---|---|\n{row}\n\n## More\n\n| a | `b` | `c` |\n")
    }

    const ROW: &str = "| 1 | `Claim`, of all | `crates/a/specs/Claims.antt` |";

    #[test]
    fn a_statement_with_its_law() {
        assert!(check(&crate_with("pub claim : Claim\nclaim = 0"), &readme(ROW)).is_ok());
    }

    #[test]
    fn a_statement_without_a_law() {
        let fault = "README.md: no law of the type `Claim`";
        assert_eq!(
            check(&crate_with("pub claim : Claim → ℕ → Claim\nclaim c n = c"), &readme(ROW)).unwrap_err(),
            [fault]
        );
    }

    #[test]
    fn a_name_that_is_not_there() {
        let row = ROW.replace("`Claim`", "`Other`");
        let fault = "README.md: no statement `Other` in crates/a/specs/Claims.antt";
        assert_eq!(check(&crate_with("pub claim : Claim\nclaim = 0"), &readme(&row)).unwrap_err(), [fault]);
    }

    #[test]
    fn no_theorem() {
        assert!(check(&crate_with("pub claim : Claim\nclaim = 0"), "# A\n").is_err());
    }
}
