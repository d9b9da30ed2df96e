//! The names that a text mentions, less those that it binds itself: parameters `(x : A)`, `λ x.`,
//! `let x = .. in`, and the variables in a clause's patterns. A binder reaches to the end of the brackets
//! around it.
//!
//! Taken for names, though they are bound: the variables in the patterns of `elim x [ pattern ↦ .. ]`; and in
//! the proof of a law the parameters of the modules around it, and what stands behind `where`.

use crate::lexer::is_mark;
use std::collections::{BTreeSet, HashMap};

/// Where an operator's name has an argument.
const PLACE: char = '◌';

/// What a name stands for: a node of the graph.
#[derive(Clone, Copy, Debug, PartialEq)]
pub struct Target {
    pub node: usize,
    /// A constructor is no variable in a pattern.
    pub constructor: bool,
}

/// The names of a file. An operator (`when◌then◌else◌`) is known by its first word too.
#[derive(Debug, Default)]
pub struct Scope<'a>(HashMap<&'a str, Target>);

impl<'a> Scope<'a> {
    pub fn insert(&mut self, name: &'a str, target: Target) {
        self.0.insert(name, target);
        if name.contains(PLACE) {
            let word = name.split(PLACE).find(|word| !word.is_empty());
            self.0.extend(word.map(|word| (word, target)));
        }
    }
}

/// What a bracket around a place binds.
#[derive(Default)]
struct Frame<'a> {
    bound: Vec<&'a str>,
    /// To be bound behind the bracket: `(x : A)`.
    behind: Vec<&'a str>,
    /// To be bound behind `in`.
    lets: Vec<&'a str>,
    in_lambda: bool,
}

pub struct Mentions<'a, 's> {
    scope: &'s Scope<'a>,
    frames: Vec<Frame<'a>>,
    pub found: BTreeSet<usize>,
}

impl<'a, 's> Mentions<'a, 's> {
    pub fn new(scope: &'s Scope<'a>) -> Mentions<'a, 's> {
        Mentions { scope, frames: vec![Frame::default()], found: BTreeSet::new() }
    }

    fn top(&mut self) -> &mut Frame<'a> {
        self.frames.last_mut().expect("brackets are balanced")
    }

    pub fn bind(&mut self, name: &'a str) {
        self.top().bound.push(name);
    }

    fn mention(&mut self, name: &str) {
        let is_bound = self.frames.iter().any(|frame| frame.bound.contains(&name));
        if let (false, Some(target)) = (is_bound, self.scope.0.get(name)) {
            self.found.insert(target.node);
        }
    }

    /// A type or a term.
    pub fn term(&mut self, text: &[&'a str]) {
        let mut at = 0;
        while at < text.len() {
            match text[at] {
                "(" | "{" | "[" => {
                    let behind = parameters(&text[at + 1..]);
                    at += behind.len();
                    self.frames.push(Frame { behind, ..Frame::default() });
                }
                ")" | "}" | "]" => {
                    let closed = self.frames.pop().expect("brackets are balanced");
                    self.top().bound.extend(closed.behind);
                }
                "λ" => self.top().in_lambda = true,
                "." => self.top().in_lambda = false,
                "let" => {
                    at += 1;
                    self.top().lets.extend(text.get(at));
                }
                "in" => {
                    let name = self.top().lets.pop();
                    self.top().bound.extend(name);
                }
                name if self.top().in_lambda => self.bind(name),
                _ if is_label(text, at) => {}
                name => self.mention(name),
            }
            at += 1;
        }
    }

    /// The left side of a clause: constructors, and the variables that it binds.
    pub fn pattern(&mut self, text: &[&'a str]) {
        for word in text.iter().filter(|word| !is_mark(word)) {
            match self.scope.0.get(word) {
                Some(target) if target.constructor => _ = self.found.insert(target.node),
                _ => self.bind(word),
            }
        }
    }
}

/// The names before a colon, at the start of a bracket.
fn parameters<'a>(text: &[&'a str]) -> Vec<&'a str> {
    let names = text.iter().take_while(|word| !is_mark(word)).count();
    if text.get(names) == Some(&":") {
        text[..names].to_vec()
    } else {
        Vec::new()
    }
}

/// A field's name in `record { field = ..; field = .. }`.
fn is_label(text: &[&str], at: usize) -> bool {
    text.get(at + 1) == Some(&"=") && at > 0 && ["{", ";"].contains(&text[at - 1])
}

#[cfg(test)]
mod tests {
    use super::*;
    use crate::lexer::words;

    fn scope() -> Scope<'static> {
        let mut scope = Scope::default();
        for (node, name) in ["f", "g", "con", "when◌then◌else◌", "f_g"].into_iter().enumerate() {
            scope.insert(name, Target { node, constructor: name == "con" });
        }
        scope
    }

    fn mentioned(term: &str) -> Vec<usize> {
        let scope = scope();
        let mut mentions = Mentions::new(&scope);
        mentions.term(&words(term, "--"));
        mentions.found.into_iter().collect()
    }

    #[test]
    fn names() {
        assert_eq!(mentioned("f x.g -- con"), [0]);
        assert_eq!(mentioned("f x g.now"), [0, 1]);
        assert_eq!(mentioned("f_g (g-f f')"), [4]);
        assert_eq!(mentioned("when b then con else x"), [2, 3]);
        assert_eq!(mentioned("h when◌then◌else◌"), [3]);
        assert_eq!(mentioned("record { f = con; g = 0 }"), [2]);
    }

    #[test]
    fn bound_names() {
        assert_eq!(mentioned("(λ f x. f g) x"), [1]);
        assert_eq!(mentioned("(λ f. f) f"), [0]);
        assert_eq!(mentioned("(f : g) → f"), [1]);
        assert_eq!(mentioned("let f = g in f"), [1]);
        assert_eq!(mentioned("let f = f in g"), [0, 1]);
    }

    #[test]
    fn patterns() {
        let scope = scope();
        let mut mentions = Mentions::new(&scope);
        mentions.pattern(&["h", "(", "con", "f", ")"]);
        mentions.term(&["f", "g"]);
        assert_eq!(mentions.found.into_iter().collect::<Vec<_>>(), [1, 2]);
    }
}
