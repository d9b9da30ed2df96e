//! What there is to read for a statement: the definitions that it reaches, file by file, and the types of the
//! code.

use crate::graph::{Graph, Nodes};
use crate::sources::Part;
use crate::Faults;

/// The statement of a name: a definition in specs/, or what the contract of `crate::function` mentions.
pub fn statement(graph: &Graph, name: &str) -> Result<Nodes, Faults> {
    let definitions = graph.named(Part::Specs, name);
    match (definitions.len(), &graph.contracts_of(name)[..]) {
        (1, []) => Ok(definitions),
        (0, [contract]) => Ok(contract.uses.clone()),
        (0, []) => Err(vec![format!("no statement `{name}`")]),
        _ => Err(vec![format!("several statements `{name}`")]),
    }
}

fn lines(graph: &Graph, nodes: &[usize]) -> usize {
    nodes.iter().map(|&node| graph.nodes[node].lines).sum()
}

/// What one group of statements reaches.
fn reached(graph: &Graph, names: &[&str]) -> Result<Nodes, Faults> {
    let mut from = Nodes::new();
    for name in names {
        from.extend(statement(graph, name)?);
    }
    Ok(graph.reach(&from))
}

/// A group's nodes of one file.
fn of_file(graph: &Graph, group: &Nodes, file: usize) -> Vec<usize> {
    group.iter().copied().filter(|&node| graph.nodes[node].source == file).collect()
}

/// A row: what it is of, a number for each group, and more cells.
fn row(name: &str, numbers: &[usize], more: &str) -> String {
    let cells: Vec<String> =
        numbers.iter().map(|n| if *n == 0 { String::new() } else { n.to_string() }).collect();
    format!("| {name} | {} |{more}\n", cells.join(" | "))
}

/// The table of a part: for each of its files the lines that each group reaches; the sums; how many definitions.
fn table(graph: &Graph, groups: &[Nodes], part: Part, title: &str) -> String {
    let heads: Vec<String> = (1..=groups.len()).map(|n| n.to_string()).collect();
    let mut table = format!("| {title} | {} | Whole file |\n|---|", heads.join(" | "));
    table += &"---|".repeat(groups.len() + 1);
    table.push('\n');
    let mut sums = vec![0; groups.len()];
    let mut counts = vec![0; groups.len()];
    for file in (0..graph.sources.len()).filter(|&file| graph.sources[file].part == part) {
        let nodes: Vec<Vec<usize>> = groups.iter().map(|group| of_file(graph, group, file)).collect();
        if nodes.iter().all(Vec::is_empty) {
            continue;
        }
        let lines: Vec<usize> = nodes.iter().map(|nodes| lines(graph, nodes)).collect();
        for (i, nodes) in nodes.iter().enumerate() {
            sums[i] += lines[i];
            counts[i] += nodes.len();
        }
        let source = &graph.sources[file];
        table +=
            &row(&format!("`{}`", source.path()), &lines, &format!(" {} |", source.text.lines().count()));
    }
    table += &row("lines in all", &sums, " |");
    table + &row("definitions", &counts, " |")
}

/// The reading lists of groups of statements, which a `/` stands between, as Markdown.
pub fn list(graph: &Graph, names: &[&str]) -> Result<String, Faults> {
    let groups: Result<Vec<Nodes>, Faults> =
        names.split(|name| *name == "/").map(|names| reached(graph, names)).collect();
    let groups = groups?;
    let definitions = table(graph, &groups, Part::Specs, "Definitions");
    let types = table(graph, &groups, Part::Code, "Types of the code");
    Ok(format!("{definitions}\n{}", types.trim_end()))
}

#[cfg(test)]
mod tests {
    use super::*;
    use crate::sample;

    #[test]
    fn files_definitions_and_lines() {
        let list = list(&sample::crates(), &["both"]).unwrap();
        assert!(list.contains("| `crates/low/specs/Low.antt` | 5 | 8 |\n"));
        assert!(list.contains("| `crates/high/specs/High.antt` | 3 | 13 |\n"));
        assert!(list.contains("| lines in all | 8 | |\n| definitions | 3 | |\n"));
        assert!(list.contains("| `crates/low/src/lib.rt` | 5 |"));
    }

    #[test]
    fn a_contract_and_a_statement() {
        let graph = sample::crates();
        assert_eq!(list(&graph, &["high::count"]), list(&graph, &["both"]));
        assert_ne!(list(&graph, &["Claim"]), list(&graph, &["both"]));
        assert_eq!(list(&graph, &["three"]).unwrap_err(), ["no statement `three`"]);
    }

    #[test]
    fn groups_have_a_column_each() {
        let graph = sample::crates();
        let lists = list(&graph, &["Claim", "/", "both"]).unwrap();
        assert!(lists.starts_with("| Definitions | 1 | 2 | Whole file |\n|---|---|---|---|\n"));
        assert!(lists.lines().any(
            |line| line.starts_with("| `crates/high/specs/High.antt` |") && line.ends_with("| 3 | 13 |")
        ));
    }
}
