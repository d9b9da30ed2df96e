//! The definitions and laws of a file of specs/ or proofs/, by its layout: what is indented further than an
//! item's first line belongs to the item.

use crate::lexer::{outer, words};

/// A definition, record, data type or law.
#[derive(Debug, Default)]
pub struct Definition<'a> {
    pub name: &'a str,
    /// Its type, behind the parameters of the modules around it.
    pub ty: Vec<&'a str>,
    /// The fields of a record, the constructors of a data type.
    pub members: Vec<Member<'a>>,
    pub is_data: bool,
    /// The left and the right side of each.
    pub clauses: Vec<(Vec<&'a str>, Vec<&'a str>)>,
    /// How many lines it has with the comment directly above it, without the empty ones.
    pub lines: usize,
}

#[derive(Debug)]
pub struct Member<'a> {
    pub name: &'a str,
    pub ty: Vec<&'a str>,
}

pub fn parse(text: &str) -> Vec<Definition<'_>> {
    let lines: Vec<&str> = text.lines().collect();
    let mut definitions = Vec::new();
    parse_block(&lines, &[], &mut definitions);
    definitions
}

fn indent(line: &str) -> usize {
    line.len() - line.trim_start().len()
}

/// Stands it above an item, as a part of it?
fn is_lead(line: &str) -> bool {
    line.trim_start().starts_with("--") || line.trim_start().starts_with("infix")
}

/// Does a line belong to an item that is indented so far?
fn continues(line: &str, item: usize) -> bool {
    let closes = indent(line) == item && line.trim_start().starts_with(['}', ')', ']']);
    line.trim().is_empty() || indent(line) > item || closes
}

/// The items of a block, in modules with these parameters.
fn parse_block<'a>(lines: &[&'a str], parameters: &[&'a str], definitions: &mut Vec<Definition<'a>>) {
    let mut lead = 0;
    let mut at = 0;
    while at < lines.len() {
        let line = lines[at];
        if line.trim().is_empty() {
            lead = 0;
            at += 1;
            continue;
        }
        if is_lead(line) {
            lead += 1;
            at += 1;
            continue;
        }
        let item = indent(line);
        let end = at + 1 + lines[at + 1..].iter().take_while(|line| continues(line, item)).count();
        parse_item(&lines[at..end], lead, parameters, definitions);
        lead = 0;
        at = end;
    }
}

fn parse_item<'a>(
    lines: &[&'a str],
    lead: usize,
    parameters: &[&'a str],
    definitions: &mut Vec<Definition<'a>>,
) {
    let text: Vec<&str> = lines.iter().flat_map(|line| words(line, "--")).collect();
    let start = text.iter().take_while(|word| ["unfoldable", "abbrev", "pub"].contains(word)).count();
    let count = lead + lines.iter().filter(|line| !line.trim().is_empty()).count();
    match &text[start..] {
        ["use" | "mod", ..] => {}
        ["module", _, rest @ ..] => {
            let (header, _) = split_where(rest);
            let inner = lines.iter().position(|line| words(line, "--").contains(&"where")).unwrap_or(0) + 1;
            parse_block(&lines[inner..], &[parameters, header].concat(), definitions);
        }
        ["record" | "data", name, rest @ ..] => {
            let (header, body) = split_where(rest);
            definitions.push(Definition {
                name,
                ty: [parameters, header].concat(),
                members: members(body),
                is_data: text[start] == "data",
                lines: count,
                ..Definition::default()
            });
        }
        [name, ty @ ..] if is_signature(ty) => {
            let ty = [parameters, ty].concat();
            definitions.push(Definition { name, ty, lines: count, ..Definition::default() });
        }
        clause => {
            if let Some(definition) = definitions.last_mut() {
                definition.lines += count;
                definition.clauses.extend(sides(clause));
            }
        }
    }
}

/// Does a colon come before any `=`? What is between it and the name are parameters.
fn is_signature(behind_name: &[&str]) -> bool {
    let decides = outer(behind_name).find(|(_, word)| [":", "="].contains(word));
    decides.is_some_and(|(_, word)| word == ":")
}

fn split_where<'t, 'a>(text: &'t [&'a str]) -> (&'t [&'a str], &'t [&'a str]) {
    text.split_at(text.iter().position(|word| *word == "where").unwrap_or(text.len()))
}

/// A member starts with `name :` outside of brackets.
fn members<'a>(text: &[&'a str]) -> Vec<Member<'a>> {
    let is_start = |at: &usize| text.get(at + 1) == Some(&":");
    let starts: Vec<usize> = outer(text).map(|(at, _)| at).filter(is_start).collect();
    let ends = starts.iter().skip(1).copied().chain([text.len()]);
    starts
        .iter()
        .zip(ends)
        .map(|(&at, end)| Member { name: text[at], ty: text[at + 1..end].to_vec() })
        .collect()
}

/// A clause's sides; none of `unfolding ..`, which says what a proof may open.
fn sides<'a>(clause: &[&'a str]) -> Option<(Vec<&'a str>, Vec<&'a str>)> {
    if clause.first() == Some(&"unfolding") {
        return None;
    }
    let equals = outer(clause).find(|(_, word)| *word == "=").map_or(clause.len(), |(at, _)| at);
    Some((clause[..equals].to_vec(), clause[equals..].to_vec()))
}

#[cfg(test)]
mod tests {
    use super::*;

    const SAMPLE: &str = "-- A file.
use Rattle.a.specs.A.{x}

-- ---- a part

-- two lines
-- of comment
unfoldable pub f : ℕ → ℕ
f zero = x
-- one between
f (suc n) =
    let m = n in

    g m

pub record R (P : ℕ) : Type 0 where
  pub one : List P
  pub two : (one : ℕ)
      → P

pub data D : Type 0 where
  -- its comment
  left : ℕ → D
  right : D

r : R 0
r = record {
  one = [];
}
";

    #[test]
    fn lines_with_comments() {
        let lines: Vec<(&str, usize)> = parse(SAMPLE).iter().map(|d| (d.name, d.lines)).collect();
        assert_eq!(lines, [("f", 8), ("R", 4), ("D", 4), ("r", 4)]);
    }

    #[test]
    fn clauses_and_members() {
        let definitions = parse(SAMPLE);
        assert_eq!(definitions[0].clauses.len(), 2);
        assert_eq!(definitions[0].clauses[1].1.join(" "), "= let m = n in g m");
        let names = |d: &Definition| d.members.iter().map(|m| m.name.to_string()).collect::<Vec<_>>();
        assert_eq!(names(&definitions[1]), ["one", "two"]);
        assert_eq!(names(&definitions[2]), ["left", "right"]);
        assert!(definitions[2].is_data);
    }

    const LAW: &str = "module _ (a : A)
    {b : B} where
  module _ (c : C) where
    law {l} : D a b
    unfolding f
    law = refl
";

    #[test]
    fn laws_in_modules() {
        let laws = parse(LAW);
        let [law] = &laws[..] else { panic!("one law") };
        assert_eq!((law.name, law.lines), ("law", 3));
        assert_eq!(law.ty.join(" "), "( a : A ) { b : B } ( c : C ) { l } : D a b");
    }
}
