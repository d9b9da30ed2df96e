//! What nobody has to believe: the definitions of a file Internal.antt are for contracts inside of a crate. No
//! statement of README.md's reading lists and no contract of an entry of the product reaches one.

use crate::graph::{Contract, Graph};
use crate::reads;
use crate::{unless, Faults};

/// The entries: all public functions of a crate, or one.
pub const ENTRIES: [&str; 6] = [
    "station",
    "request_writer::write_request",
    "requests::read_request",
    "report_reader",
    "firmware",
    "firmware_explain",
];

fn contracts<'g>(graph: &'g Graph, entry: &str) -> Vec<&'g Contract> {
    let (krate, function) = entry.split_once("::").unwrap_or((entry, ""));
    let is = |c: &&Contract| c.public && c.krate == krate && (function.is_empty() || c.name == function);
    graph.contracts.iter().filter(is).collect()
}

fn is_internal(graph: &Graph, node: usize) -> bool {
    graph.source(node).module == "Internal"
}

pub fn check(graph: &Graph, statements: &[&str], entries: &[&str]) -> Result<String, Faults> {
    let mut faults = Faults::new();
    let mut roots = Vec::new();
    for name in statements {
        roots.push((name.to_string(), reads::statement(graph, name)?));
    }
    for entry in entries {
        let contracts = contracts(graph, entry);
        if contracts.is_empty() {
            faults.push(format!("no public function of the entry {entry}"));
        }
        roots.extend(contracts.iter().map(|c| (format!("{}::{}", c.krate, c.name), c.uses.clone())));
    }
    for (name, from) in &roots {
        for node in graph.reach(from).into_iter().filter(|&node| is_internal(graph, node)) {
            let path = graph.source(node).path();
            faults.push(format!("{name} reaches `{}` of {path}", graph.nodes[node].name));
        }
    }
    let count = (0..graph.nodes.len()).filter(|&node| is_internal(graph, node)).count();
    unless(
        faults,
        format!("Internal.antt: {} statements and contracts reach none of {count} definitions", roots.len()),
    )
}

#[cfg(test)]
mod tests {
    use super::*;
    use crate::sample;
    use crate::sources::Part;

    /// A crate whose file Internal.antt defines `inner`, whose other definition uses it as given, with a
    /// function of that other one and a private one of `inner`.
    fn crate_with(other: &str) -> Graph {
        let open = format!("use Rattle.a.specs.Internal.{{inner}}\n\nabbrev pub open : ℕ\nopen = {other}\n");
        let code = "ghost use Rattle.a.specs.Internal.{inner};
ghost use Rattle.a.specs.Open.{open};

pub fn entry() -> u8 ensures { result ≡ open } { 0 }

fn helper() -> u8 ensures value { result ≡ inner } { 0 }
";
        sample::graph(&[
            ("a", Part::Code, "lib", code),
            ("a", Part::Specs, "Internal", "abbrev pub inner : ℕ\ninner = 0\n"),
            ("a", Part::Specs, "Open", &open),
        ])
        .unwrap()
    }

    #[test]
    fn a_private_contract_may_reach_it() {
        assert!(check(&crate_with("0"), &["open"], &["a", "a::entry"]).is_ok());
    }

    #[test]
    fn a_public_contract_may_not() {
        let fault = "a::entry reaches `inner` of crates/a/specs/Internal.antt";
        assert_eq!(check(&crate_with("inner"), &[], &["a"]).unwrap_err(), [fault]);
    }

    #[test]
    fn a_statement_may_not() {
        let fault = "open reaches `inner` of crates/a/specs/Internal.antt";
        assert_eq!(check(&crate_with("inner"), &["open"], &[]).unwrap_err(), [fault]);
    }

    #[test]
    fn an_entry_that_is_none() {
        assert!(check(&crate_with("0"), &[], &["b"]).is_err());
        assert!(check(&crate_with("0"), &[], &["a::helper"]).is_err());
    }
}
