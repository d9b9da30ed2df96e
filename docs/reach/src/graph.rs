//! What each definition, type and contract mentions, and what it reaches by that.

use crate::link::Linker;
use crate::sources::{Part, Source};
use crate::Faults;
use std::collections::BTreeSet;

pub type Nodes = BTreeSet<usize>;

/// A definition, record, data type or law; or a type that the code declares.
#[derive(Debug)]
pub struct Node {
    /// The place of its file among the sources.
    pub source: usize,
    pub name: String,
    pub lines: usize,
    /// What its type mentions, without its clauses.
    pub stated: Nodes,
    /// All that it mentions.
    pub uses: Nodes,
}

#[derive(Debug)]
pub struct Contract {
    pub krate: String,
    pub name: String,
    pub public: bool,
    pub uses: Nodes,
}

#[derive(Debug)]
pub struct Graph {
    pub sources: Vec<Source>,
    pub nodes: Vec<Node>,
    pub contracts: Vec<Contract>,
}

impl Graph {
    pub fn new(sources: Vec<Source>) -> Result<Graph, Faults> {
        let linker = Linker::new(&sources)?;
        let mut nodes = Vec::new();
        let mut contracts = Vec::new();
        for file in 0..sources.len() {
            nodes.extend(linker.nodes(file)?);
            contracts.extend(linker.contracts(file)?);
        }
        Ok(Graph { sources, nodes, contracts })
    }

    pub fn source(&self, node: usize) -> &Source {
        &self.sources[self.nodes[node].source]
    }

    /// The nodes of a name in a part of the crates.
    pub fn named(&self, part: Part, name: &str) -> Nodes {
        (0..self.nodes.len()).filter(|&n| self.source(n).part == part && self.nodes[n].name == name).collect()
    }

    /// The contracts of `crate::function`.
    pub fn contracts_of(&self, path: &str) -> Vec<&Contract> {
        let Some((krate, name)) = path.split_once("::") else { return Vec::new() };
        self.contracts.iter().filter(|c| c.krate == krate && c.name == name).collect()
    }

    /// The nodes given, what they use, and so on.
    pub fn reach(&self, from: &Nodes) -> Nodes {
        let mut reached = from.clone();
        let mut open: Vec<usize> = from.iter().copied().collect();
        while let Some(node) = open.pop() {
            open.extend(self.nodes[node].uses.iter().filter(|&&next| reached.insert(next)));
        }
        reached
    }
}

#[cfg(test)]
mod tests {
    use super::*;
    use crate::sample;

    fn reached(graph: &Graph, from: &Nodes) -> Vec<String> {
        graph.reach(from).into_iter().map(|node| graph.nodes[node].name.clone()).collect()
    }

    #[test]
    fn a_contract_reaches_through_definitions_and_types() {
        let graph = sample::crates();
        let count = graph.contracts_of("high::count")[0];
        assert!(count.public);
        assert_eq!(reached(&graph, &count.uses), ["Number", "Kind", "one", "two", "both"]);
    }

    #[test]
    fn a_variable_in_a_pattern_is_no_mention() {
        let graph = sample::crates();
        let first = graph.contracts_of("high::first")[0];
        assert_eq!(reached(&graph, &first.uses), ["one", "only"]);
    }

    #[test]
    fn a_law_states_its_type() {
        let graph = sample::crates();
        let law = graph.named(Part::Proofs, "claim").pop_first().unwrap();
        assert_eq!(reached(&graph, &graph.nodes[law].stated), ["one", "only", "Claim"]);
    }

    #[test]
    fn an_import_of_nothing_is_a_fault() {
        let faults = sample::graph(&[
            ("a", Part::Specs, "A", ""),
            ("b", Part::Specs, "B", "use Rattle.a.specs.A.{x}"),
        ]);
        assert_eq!(faults.unwrap_err(), ["crates/b/specs/B.antt: no `x` where it is imported from"]);
    }

    #[test]
    fn what_a_file_passes_on_can_be_imported_from_it() {
        let graph = |passed: &str| {
            sample::graph(&[
                ("a", Part::Proofs, "A", passed),
                ("b", Part::Proofs, "B", "use Rattle.a.proofs.A.{x}"),
            ])
        };
        assert!(graph("pub use lib.Seq.{w, x}").is_ok());
        assert!(graph("use lib.Seq.{x}").is_err());
        assert!(graph("pub use Rattle.c.specs.C.{x}").is_err());
    }
}
