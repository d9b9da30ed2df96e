//! The test of the source: from one function on, every call is followed, and no body has a comparison, a
//! branch or a loop.
//!
//! A call is followed by its name: of several functions of one name in a crate, and of several methods of one
//! name in all crates, each must be straight.

use crate::code::{parse, Code, Function};
use crate::lexer::Token;
use std::fmt::{self, Display, Formatter};

/// A source file of a crate.
pub struct Source {
    pub krate: String,
    pub path: String,
    pub text: String,
}

/// What no body may have. `else` is also that of `let .. else`.
const FORBIDDEN: [&str; 15] =
    ["if", "else", "match", "while", "loop", "for", "?", "&&", "||", "==", "!=", "<", "<=", ">", ">="];

/// Words that a bracket may follow without a call.
const NO_CALLS: [&str; 5] = ["return", "let", "mut", "in", "break"];

/// What a call names.
enum Callee<'a> {
    /// A path, as `TimeUnits::from_milliseconds`, or one name.
    Path(Vec<&'a str>),
    Method(&'a str),
    /// A macro, or what an expression gives.
    Other(&'a str),
}

impl Display for Callee<'_> {
    fn fmt(&self, f: &mut Formatter) -> fmt::Result {
        match self {
            Callee::Path(path) => write!(f, "`{}`", path.join("::")),
            Callee::Method(name) => write!(f, "`.{name}`"),
            Callee::Other(text) => write!(f, "what stands at `{text}`"),
        }
    }
}

/// The call whose opening bracket is at a place, if it is one.
fn call<'a>(body: &[Token<'a>], open: usize) -> Option<Callee<'a>> {
    let text = |back: usize| open.checked_sub(back).map_or("", |at| body[at].text);
    let is_callable =
        |back: usize| back <= open && body[open - back].is_name() && !NO_CALLS.contains(&text(back));
    match (body[open].text, text(1)) {
        ("(" | "[" | "{", "!") if is_callable(2) => Some(Callee::Other(text(2))),
        ("(", ")" | "]") => Some(Callee::Other(text(1))),
        ("(", name) if is_callable(1) && text(2) == "." => Some(Callee::Method(name)),
        ("(", name) if is_callable(1) => {
            let mut path = vec![name];
            while text(2 * path.len()) == "::" {
                path.push(text(2 * path.len() + 1));
            }
            path.reverse();
            Some(Callee::Path(path))
        }
        _ => None,
    }
}

struct File<'a> {
    source: &'a Source,
    code: Code<'a>,
}

/// A function by the places of its file and in it.
type Id = (usize, usize);

struct Crates<'a>(Vec<File<'a>>);

impl<'a> Crates<'a> {
    fn new(sources: &'a [Source]) -> Result<Crates<'a>, String> {
        let file = |source: &'a Source| {
            let code = parse(&source.text).map_err(|fault| format!("{}: {fault}", source.path))?;
            Ok(File { source, code })
        };
        Ok(Crates(sources.iter().map(file).collect::<Result<_, String>>()?))
    }

    fn functions(&self, is: impl Fn(&File<'a>, &Function<'a>) -> bool) -> Vec<Id> {
        let places = |(at, file): (usize, &File<'a>)| -> Vec<Id> {
            let functions = file.code.functions.iter().enumerate();
            functions.filter(|(_, function)| is(file, function)).map(|(place, _)| (at, place)).collect()
        };
        self.0.iter().enumerate().flat_map(places).collect()
    }

    /// The functions of a path that starts with its crate; none where it makes a struct or a case of an enum;
    /// None where the crates do not have it.
    fn named(&self, path: &[&str]) -> Option<Vec<Id>> {
        let [krate, middle @ .., name] = path else { return None };
        let owner = middle.last().copied().filter(|owner| owner.starts_with(char::is_uppercase));
        let found =
            self.functions(|file, f| file.source.krate == *krate && f.owner == owner && f.name == *name);
        let makes = |code: &Code| match owner {
            Some(owner) => code.enums.contains(&owner),
            None => code.structs.contains(name),
        };
        let made = self.0.iter().any(|file| file.source.krate == *krate && makes(&file.code));
        (!found.is_empty() || made).then_some(found)
    }

    /// The path of a call, from its crate on.
    fn whole(&self, file: &File<'a>, owner: Option<&'a str>, path: &[&'a str]) -> Vec<&'a str> {
        let krate: &'a str = &file.source.krate;
        let is_module = |name: &str| {
            let end = format!("/{name}.rt");
            self.0.iter().any(|f| f.source.krate == krate && f.source.path.ends_with(&end))
        };
        let import = file.code.imports.iter().find(|import| import.last() == path.first());
        let mut whole = match (import, path) {
            (Some(import), [_, rest @ ..]) => [import, rest].concat(),
            (None, ["Self", rest @ ..]) => [&["crate"], owner.as_slice(), rest].concat(),
            (None, [first, _, ..]) if first.starts_with(char::is_lowercase) && !is_module(first) => {
                path.to_vec()
            }
            _ => [&["crate"], path].concat(),
        };
        if whole[0] == "crate" {
            whole[0] = krate;
        }
        whole
    }

    fn targets(&self, file: &File<'a>, owner: Option<&'a str>, callee: &Callee<'a>) -> Option<Vec<Id>> {
        match callee {
            Callee::Path(path) => self.named(&self.whole(file, owner, path)),
            Callee::Method(name) => {
                let found = self.functions(|_, f| f.owner.is_some() && f.name == *name);
                (!found.is_empty()).then_some(found)
            }
            Callee::Other(_) => None,
        }
    }
}

/// The functions that are being looked at, those that have been, and the faults found.
struct Walk<'f, 'a> {
    crates: &'f Crates<'a>,
    open: Vec<Id>,
    done: Vec<Id>,
    faults: Vec<String>,
}

impl Walk<'_, '_> {
    fn visit(&mut self, id: Id) {
        let file = &self.crates.0[id.0];
        let function = &file.code.functions[id.1];
        let here = |line: usize| format!("{}:{line}: `{}`", file.source.path, function.name);
        self.open.push(id);
        for (at, token) in function.body.iter().enumerate() {
            if FORBIDDEN.contains(&token.text) {
                self.faults.push(format!("{} has `{}`", here(token.line), token.text));
            }
            let Some(callee) = call(&function.body, at) else { continue };
            match self.crates.targets(file, function.owner, &callee) {
                Some(targets) => targets.into_iter().for_each(|target| self.enter(target, &here(token.line))),
                None => self.faults.push(format!("{} calls {callee}: cannot be followed", here(token.line))),
            }
        }
        self.open.pop();
        self.done.push(id);
    }

    fn enter(&mut self, target: Id, from: &str) {
        if self.open.contains(&target) {
            self.faults.push(format!("{from} calls itself, or what it is called by"));
        } else if !self.done.contains(&target) {
            self.visit(target);
        }
    }
}

/// Follows a function, named by its whole path: how many functions were looked at, or each fault.
pub fn follow(sources: &[Source], path: &str) -> Result<usize, Vec<String>> {
    let crates = Crates::new(sources).map_err(|fault| vec![fault])?;
    let start = crates.named(&path.split("::").collect::<Vec<_>>()).unwrap_or_default();
    if start.is_empty() {
        return Err(vec![format!("no function `{path}`")]);
    }
    let mut walk = Walk { crates: &crates, open: Vec::new(), done: Vec::new(), faults: Vec::new() };
    start.into_iter().for_each(|id| walk.visit(id));
    if walk.faults.is_empty() {
        Ok(walk.done.len())
    } else {
        Err(walk.faults)
    }
}

#[cfg(test)]
mod tests {
    use super::*;

    /// A library beside a crate whose `low::T::start` has a body.
    fn faults(body: &str) -> Vec<String> {
        let low = format!(
            "#![tactic(auto)]
ghost use Rattle.std.specs.Prelude.{{◌≡◌, ◌<◌}};
use high::{{Answer, double}};
use std::num::min;
#[derive(Clone, Copy)]
pub struct T(pub u64);
impl T {{
    const TWO: u64 = 2;

    // if a < b
    pub fn start(x: u64) -> T
        requires {{ x < 5 }}
        ensures small {{ result.0 < 5 ≡ if x == 1 }}
    {{
        {body}
    }}

    fn again(x: u64) -> T {{
        T::start(x)
    }}

    fn compares(self) -> bool {{
        self.0 >= 2
    }}

    fn triple(self) -> u64 {{
        self.0 * 3
    }}
}}
"
        );
        let high = "pub enum Answer { Length(u64) }
pub fn double(x: u64) -> u64 { x * 2 }
pub fn branches(x: u64) -> u64 { match x { 0 => 1, _ => 2 } }
";
        let source = |krate: &str, text: &str| Source {
            krate: krate.to_string(),
            path: format!("crates/{krate}/src/lib.rt"),
            text: text.to_string(),
        };
        let sources = [source("low", &low), source("high", high)];
        follow(&sources, "low::T::start").err().unwrap_or_default()
    }

    fn assert_straight(body: &str) {
        assert_eq!(faults(body), Vec::<String>::new(), "{body}");
    }

    /// One fault, which ends so.
    fn assert_fault(body: &str, end: &str) {
        let faults = faults(body);
        assert!(faults.len() == 1 && faults[0].ends_with(end), "{body}: {faults:?}");
    }

    #[test]
    fn arithmetic_is_straight() {
        assert_straight("T((x as u64) * T::TWO / 3 % 5 + (1 - x))");
        assert_straight("let y: u64 = x << 3 >> 2 & 7 | 1; return T(!(y ^ 1)); // if a < b");
    }

    #[test]
    fn calls_are_followed() {
        assert_straight("T(double(x) + T(x).triple() + high::double(Self::TWO))");
        assert_straight("let a = Answer::Length(x); T(x)");
    }

    #[test]
    fn branches_and_loops_are_found() {
        assert_eq!(faults("if x { T(1) } else { T(2) }").len(), 2);
        assert_fault("let T(y) = z else { return z };", "has `else`");
        assert_fault("match x { 0 => T(1), _ => T(2) }", "has `match`");
        assert_fault("while x { y = 1; }", "has `while`");
        assert_fault("loop { y = 1; }", "has `loop`");
        assert_fault("for i in 0..3 { y = 1; }", "has `for`");
        assert_fault("let y = z?;", "has `?`");
    }

    #[test]
    fn comparisons_are_found() {
        for comparison in ["&&", "||", "==", "!=", "<", "<=", ">", ">="] {
            assert_fault(&format!("T((x {comparison} 2) as u64)"), &format!("has `{comparison}`"));
            assert_fault(&format!("T((x{comparison}2) as u64)"), &format!("has `{comparison}`"));
        }
    }

    #[test]
    fn what_is_called_is_looked_at() {
        assert_fault("T(high::branches(x))", "`branches` has `match`");
        assert_fault("T(T(x).compares() as u64)", "`compares` has `>=`");
    }

    #[test]
    fn a_call_that_cannot_be_followed_is_found() {
        assert_fault("T(min(x, 2))", "calls `min`: cannot be followed");
        assert_fault("T(std::num::min(x, 2))", "calls `std::num::min`: cannot be followed");
        assert_fault("T(other::double(x))", "calls `other::double`: cannot be followed");
        assert_fault("T(x.min(2))", "calls `.min`: cannot be followed");
        assert_fault("T(T(x).0.wrapping_sub(2))", "calls `.wrapping_sub`: cannot be followed");
        assert_fault("T(u64::double(x))", "calls `u64::double`: cannot be followed");
        assert_fault("T(choose!(x, 2))", "calls what stands at `choose`: cannot be followed");
        assert_fault("T((f)(x))", "calls what stands at `)`: cannot be followed");
    }

    #[test]
    fn a_function_that_calls_itself_loops() {
        assert_fault("T::start(x)", "calls itself, or what it is called by");
        assert_fault("Self::again(x)", "calls itself, or what it is called by");
    }

    #[test]
    fn a_function_that_is_not_there_is_a_fault() {
        assert_eq!(follow(&[], "low::T::start"), Err(vec!["no function `low::T::start`".to_string()]));
    }
}
