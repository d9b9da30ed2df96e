//! docs/MAP.md: in each row the functions' contracts and the laws' statements in the last column reach the
//! definitions in the middle one. Laws in the middle column, behind the word "law" or "laws", only have to
//! exist. A name that several files define is reached where one of them is.

use crate::graph::{Graph, Nodes};
use crate::sources::Part;
use crate::{unless, Faults};

/// A row of a table: the names in its columns.
struct Row<'a> {
    line: usize,
    definitions: Vec<&'a str>,
    laws: Vec<&'a str>,
    citing: Vec<&'a str>,
}

/// The names in a cell, between backquotes.
pub fn names(cell: &str) -> Vec<&str> {
    cell.split('`').skip(1).step_by(2).collect()
}

/// The definitions and the laws that a cell names.
fn definitions_and_laws(cell: &str) -> (Vec<&str>, Vec<&str>) {
    let is_law = |text: &str| text.split_whitespace().any(|word| word == "law" || word == "laws");
    let parts: Vec<&str> = cell.split('`').collect();
    let laws = parts.iter().step_by(2).position(|text| is_law(text)).unwrap_or(parts.len());
    let mut definitions = names(cell);
    let laws = definitions.split_off(laws.min(definitions.len()));
    (definitions, laws)
}

fn rows(text: &str) -> Vec<Row<'_>> {
    let mut rows = Vec::new();
    let mut in_body = false;
    for (number, line) in text.lines().enumerate() {
        if !line.starts_with('|') {
            in_body = false;
        } else if line.starts_with("|-") {
            in_body = true;
        } else if in_body {
            let cells: Vec<&str> = line.split('|').collect();
            let cell = |at: usize| cells.get(at).copied().unwrap_or_default();
            let (definitions, laws) = definitions_and_laws(cell(2));
            rows.push(Row { line: number + 1, definitions, laws, citing: names(cell(3)) });
        }
    }
    rows
}

fn definitions_of(graph: &Graph, name: &str) -> Nodes {
    let specs = graph.named(Part::Specs, name);
    if specs.is_empty() {
        graph.named(Part::Proofs, name)
    } else {
        specs
    }
}

/// What the contract of `crate::function`, or the statement of a law, reaches; none if there is no such.
fn reached_by(graph: &Graph, citing: &str) -> Option<Nodes> {
    let contracts = graph.contracts_of(citing).into_iter().map(|contract| &contract.uses);
    let laws = graph.named(Part::Proofs, citing).into_iter().map(|law| &graph.nodes[law].stated);
    let uses: Vec<&Nodes> = contracts.chain(laws).collect();
    (!uses.is_empty()).then(|| graph.reach(&uses.into_iter().flatten().copied().collect()))
}

fn check_row(graph: &Graph, row: &Row, faults: &mut Faults) {
    let mut fault = |text: String| faults.push(format!("docs/MAP.md:{}: {text}", row.line));
    if row.definitions.is_empty() || row.citing.is_empty() {
        return fault("a row without a definition, or without a function or law that reaches it".to_string());
    }
    for law in row.laws.iter().filter(|law| graph.named(Part::Proofs, law).is_empty()) {
        fault(format!("no law `{law}`"));
    }
    let definitions: Vec<Nodes> = row.definitions.iter().map(|name| definitions_of(graph, name)).collect();
    for (name, _) in row.definitions.iter().zip(&definitions).filter(|(_, nodes)| nodes.is_empty()) {
        fault(format!("no definition `{name}`"));
    }
    let mut all = Nodes::new();
    for citing in &row.citing {
        let Some(reached) = reached_by(graph, citing) else {
            fault(format!("no function or law `{citing}`"));
            continue;
        };
        if definitions.iter().all(|nodes| nodes.is_disjoint(&reached)) {
            fault(format!("`{citing}` reaches none of the row's definitions"));
        }
        all.extend(reached);
    }
    for (name, nodes) in row.definitions.iter().zip(&definitions) {
        if !nodes.is_empty() && nodes.is_disjoint(&all) {
            fault(format!("`{name}` is reached by none of {}", row.citing.join(", ")));
        }
    }
}

pub fn check(graph: &Graph, text: &str) -> Result<String, Faults> {
    let rows = rows(text);
    let mut faults = Faults::new();
    for row in &rows {
        check_row(graph, row, &mut faults);
    }
    if rows.is_empty() {
        faults.push("docs/MAP.md has no row".to_string());
    }
    unless(faults, format!("docs/MAP.md: {} rows, each reaches its definitions", rows.len()))
}

#[cfg(test)]
mod tests {
    use super::*;
    use crate::sample;

    fn faults(row: &str) -> Faults {
        let text = format!("| Document | Definition | Contract |\n|---|---|---|\n| a sentence | {row} |\n");
        check(&sample::crates(), &text).err().unwrap_or_default()
    }

    #[test]
    fn rows_that_reach() {
        assert_eq!(faults("`one`, `two` | `high::count`"), [""; 0]);
        assert_eq!(faults("`one`, `two` | `high::first`, `high::count`"), [""; 0]);
        assert_eq!(faults("`only`; law `claim` | `high::first`"), [""; 0]);
        assert_eq!(faults("`one`, `Claim` | `claim`"), [""; 0]);
    }

    #[test]
    fn a_definition_that_is_not_reached() {
        assert_eq!(
            faults("`one`, `two` | `high::first`"),
            ["docs/MAP.md:3: `two` is reached by none of high::first"]
        );
    }

    #[test]
    fn a_function_that_reaches_nothing() {
        let fault = "docs/MAP.md:3: `high::first` reaches none of the row's definitions";
        assert_eq!(faults("`two` | `high::count`, `high::first`"), [fault]);
    }

    #[test]
    fn names_of_nothing() {
        assert_eq!(faults("`one`, `three` | `high::count`"), ["docs/MAP.md:3: no definition `three`"]);
        assert_eq!(faults("`one`; laws `three` | `high::count`"), ["docs/MAP.md:3: no law `three`"]);
        assert_eq!(
            faults("`one` | `high::count`, `low::count`"),
            ["docs/MAP.md:3: no function or law `low::count`"]
        );
    }

    #[test]
    fn an_empty_column() {
        assert_eq!(faults("`one` | -").len(), 1);
        assert_eq!(faults("laws `claim` | `claim`").len(), 1);
        assert!(check(&sample::crates(), "no table").is_err());
    }
}
