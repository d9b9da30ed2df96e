//! The types and the functions' contracts of a file of src/.

use crate::definitions::Definition;
use crate::lexer::{closing, words};

/// A function. Public is `pub` alone, also in a module that is not.
#[derive(Debug)]
pub struct Function<'a> {
    pub name: &'a str,
    pub public: bool,
    pub parameters: Vec<&'a str>,
    /// Each `requires` and `ensures`.
    pub contract: Vec<Vec<&'a str>>,
}

/// The structs and enums, each with the names in it, and the functions.
#[derive(Debug, Default)]
pub struct Code<'a> {
    pub types: Vec<Definition<'a>>,
    pub functions: Vec<Function<'a>>,
}

/// The words of a file, and the line of each.
struct Text<'a> {
    lines: Vec<&'a str>,
    words: Vec<&'a str>,
    line_of: Vec<usize>,
}

impl<'a> Text<'a> {
    fn new(text: &'a str) -> Text<'a> {
        let lines: Vec<&str> = text.lines().collect();
        let mut all = Vec::new();
        let mut line_of = Vec::new();
        for (number, line) in lines.iter().enumerate() {
            let words = words(line, "//");
            line_of.extend(words.iter().map(|_| number));
            all.extend(words);
        }
        Text { lines, words: all, line_of }
    }

    fn word(&self, at: usize) -> &'a str {
        self.words.get(at).copied().unwrap_or_default()
    }

    fn closing(&self, open: usize) -> Result<usize, String> {
        closing(&self.words, open).ok_or_else(|| format!("line {}: not closed", self.line_of[open] + 1))
    }

    /// The lines from one word to another that are not empty, and those directly above them.
    fn count(&self, from: usize, to: usize) -> usize {
        let (first, last) = (self.line_of[from], self.line_of[to]);
        let is_lead =
            |line: &&&str| line.trim_start().starts_with("//") || line.trim_start().starts_with("#[");
        let lead = self.lines[..first].iter().rev().take_while(is_lead).count();
        lead + self.lines[first..=last].iter().filter(|line| !line.trim().is_empty()).count()
    }

    /// The type whose name is at a place, and the place of its end.
    fn parse_type(&self, at: usize) -> Result<(Definition<'a>, usize), String> {
        let end = self.closing(at + 1)?;
        let splits = |c: char| !c.is_alphanumeric() && c != '_';
        let names = self.words[at + 1..end].iter().flat_map(|word| word.split(splits));
        let ty = names.filter(|name| !name.is_empty()).collect();
        let lines = self.count(at, end);
        let name = self.word(at).split('<').next().unwrap_or_default();
        Ok((Definition { name, ty, lines, ..Definition::default() }, end))
    }

    /// Is the `fn` at a place `pub`, and not `pub(crate)`?
    fn is_public(&self, at: usize) -> bool {
        let before = self.words[..at].iter().rposition(|word| [";", "{", "}", "]"].contains(word));
        let start = before.map_or(0, |end| end + 1);
        self.word(start) == "pub" && self.word(start + 1) != "("
    }

    /// The function whose `fn` is at a place, and the place of its end. Type parameters, `<R: Read>`, stand
    /// between its name and its brackets.
    fn parse_function(&self, at: usize) -> Result<(Function<'a>, usize), String> {
        let name = self.word(at + 1).split('<').next().unwrap_or_default();
        let open = (at + 2..self.words.len()).find(|&i| self.word(i) == "(").unwrap_or(at);
        let mut end = self.closing(open)?;
        let is_parameter = |i: &usize| {
            let is_path = self.word(*i) == ":" || self.word(i + 2) == ":";
            self.word(*i) == "self" || self.word(i + 1) == ":" && !is_path
        };
        let parameters = (open..end).filter(is_parameter).map(|i| self.word(i)).collect();
        let mut contract = Vec::new();
        loop {
            end += 1;
            match self.word(end) {
                "requires" | "ensures" | "requires*" | "ensures*" => {
                    let open = if self.word(end + 1) == "{" { end + 1 } else { end + 2 };
                    end = self.closing(open)?;
                    contract.push(self.words[open + 1..end].to_vec());
                }
                "[" | "(" => end = self.closing(end)?,
                "{" => break end = self.closing(end)?,
                ";" | "" => break,
                _ => {}
            }
        }
        Ok((Function { name, public: self.is_public(at), parameters, contract }, end))
    }
}

pub fn parse(text: &str) -> Result<Code<'_>, String> {
    let text = Text::new(text);
    let mut code = Code::default();
    let mut at = 0;
    while at < text.words.len() {
        match text.words[at] {
            "struct" | "enum" => {
                let (ty, end) = text.parse_type(at + 1)?;
                code.types.push(ty);
                at = end;
            }
            "fn" => {
                let (function, end) = text.parse_function(at)?;
                code.functions.push(function);
                at = end;
            }
            _ => {}
        }
        at += 1;
    }
    Ok(code)
}

#[cfg(test)]
mod tests {
    use super::*;

    const SAMPLE: &str = "#![tactic(auto)]

use a::{B, C};

// Its comment.
#[repr(C)]
#[derive(Clone, Copy)]
pub struct S {
    pub one: [B; 4],

    pub two: u8,
}

pub struct T(pub u32);

enum E {
    Left,
    Right(S),
}

impl S {
    #[unsafe(no_mangle)]
    pub extern \"C\" fn f(self, log: &[u8; 4], r: other::R) -> [S; 2]
        requires { log.now ≡ log.now }
        ensures named { g result.one ≡ (record { one = self }) }
    {
        if x { y } // }
    }

    pub(crate) fn g() -> u8 {
        0
    }

    pub fn h<'a, R: Read>(rt: &'a R, buf: &mut [u8]) -> usize
        ensures* { ⌜ p rt ⌝ }
        ensures within { result ≤ length buf.new }
    {
        0
    }
}
";

    #[test]
    fn types() {
        let code = parse(SAMPLE).unwrap();
        let types: Vec<(&str, usize)> = code.types.iter().map(|t| (t.name, t.lines)).collect();
        assert_eq!(types, [("S", 7), ("T", 1), ("E", 4)]);
        assert!(code.types[0].ty.contains(&"B"));
        assert!(code.types[2].ty.contains(&"Right"));
    }

    #[test]
    fn functions() {
        let code = parse(SAMPLE).unwrap();
        let [f, g, h] = &code.functions[..] else { panic!("three functions") };
        assert_eq!((f.name, f.public, &f.parameters[..]), ("f", true, &["self", "log", "r"][..]));
        assert_eq!(f.contract[0], ["log", ".now", "≡", "log", ".now"]);
        assert_eq!(f.contract.len(), 2);
        assert_eq!((g.name, g.public, g.contract.len()), ("g", false, 0));
        assert_eq!((h.name, h.public, &h.parameters[..]), ("h", true, &["rt", "buf"][..]));
        assert_eq!(h.contract[1], ["result", "≤", "length", "buf", ".new"]);
        assert_eq!(h.contract.len(), 2);
    }

    #[test]
    fn not_closed() {
        assert!(parse("fn f(a: u8").is_err());
    }
}
