//! What a Rattle source declares: functions with their bodies, types, and what it imports.

use crate::lexer::{closing, tokens, Token};

pub struct Function<'a> {
    /// The type whose `impl` it stands in.
    pub owner: Option<&'a str>,
    pub name: &'a str,
    /// What stands between its braces; its contract is not in it.
    pub body: Vec<Token<'a>>,
}

#[derive(Default)]
pub struct Code<'a> {
    pub functions: Vec<Function<'a>>,
    pub structs: Vec<&'a str>,
    pub enums: Vec<&'a str>,
    /// The paths of the names that its `use` items bring; of a group one for each.
    pub imports: Vec<Vec<&'a str>>,
}

struct Text<'a>(Vec<Token<'a>>);

impl<'a> Text<'a> {
    fn word(&self, at: usize) -> &'a str {
        self.0.get(at).map_or("", |token| token.text)
    }

    fn closing(&self, open: usize) -> Result<usize, String> {
        closing(&self.0, open).ok_or_else(|| format!("not closed: `{}`", self.word(open)))
    }

    /// The place of a text from another place on.
    fn find(&self, from: usize, text: &str) -> Result<usize, String> {
        let found = (from..self.0.len()).find(|&at| self.word(at) == text);
        found.ok_or_else(|| format!("no `{text}` behind `{}`", self.word(from)))
    }

    /// The braces of the body of the function whose `fn` is at a place: behind its parameters, its result's
    /// type and each clause of its contract.
    fn body(&self, at: usize) -> Result<(usize, usize), String> {
        let mut at = self.closing(self.find(at, "(")?)? + 1;
        loop {
            match self.word(at) {
                "requires" | "ensures" | "ghost" => at = self.closing(self.find(at, "{")?)?,
                "[" | "(" => at = self.closing(at)?,
                "{" => return Ok((at, self.closing(at)?)),
                "" => return Err("a function without a body".to_string()),
                _ => {}
            }
            at += 1;
        }
    }

    /// The paths of the `use` at a place, none if it is of the logic: `a::b`, or `a::{b, c::d}`. A name that
    /// it brings under another, by `as`, is left out.
    fn imports(&self, at: usize) -> Result<Vec<Vec<&'a str>>, String> {
        let end = self.find(at, ";")?;
        let is_logic = at > 0 && self.word(at - 1) == "ghost";
        let mut found = Vec::new();
        if !is_logic {
            paths(&[], &self.0[at + 1..end], &mut found);
        }
        Ok(found)
    }
}

/// The paths of what stands behind a path's beginning, `::` and groups in it.
fn paths<'a>(start: &[&'a str], behind: &[Token<'a>], found: &mut Vec<Vec<&'a str>>) {
    let names = behind.iter().take_while(|token| token.text == "::" || token.is_name());
    let (names, rest) = behind.split_at(names.count());
    let path = || start.iter().copied().chain(names.iter().filter(|t| t.is_name()).map(|t| t.text)).collect();
    let path: Vec<&str> = path();
    match rest {
        [open, inner @ .., close] if open.text == "{" && close.text == "}" => {
            members(inner).into_iter().for_each(|member| paths(&path, member, found));
        }
        [] if !names.is_empty() && !path.contains(&"as") => found.push(path),
        _ => {}
    }
}

/// What stands between a group's own commas.
fn members<'t, 'a>(group: &'t [Token<'a>]) -> Vec<&'t [Token<'a>]> {
    let mut depth = 0;
    let is_own = |token: &Token| {
        depth += i32::from(token.text == "{") - i32::from(token.text == "}");
        token.text == "," && depth == 0
    };
    group.split(is_own).collect()
}

pub fn parse(text: &str) -> Result<Code<'_>, String> {
    let text = Text(tokens(text));
    let mut code = Code::default();
    let mut owner = ("", 0);
    let mut at = 0;
    while at < text.0.len() {
        let name = text.word(at + 1);
        match text.word(at) {
            "impl" => owner = (name, text.closing(text.find(at, "{")?)?),
            "struct" => code.structs.push(name),
            "enum" => code.enums.push(name),
            "use" => code.imports.extend(text.imports(at)?),
            "fn" => {
                let (open, close) = text.body(at)?;
                let owner = (at < owner.1).then_some(owner.0);
                code.functions.push(Function { owner, name, body: text.0[open + 1..close].to_vec() });
                at = close;
            }
            _ => {}
        }
        at += 1;
    }
    Ok(code)
}

#[cfg(test)]
mod tests {
    use super::*;

    const SAMPLE: &str = "#![tactic(auto)]
use units::Milliseconds;
ghost use Rattle.std.specs.Prelude.{ltb, ◌≡◌};
ghost use Rattle.units.specs.Time.{age as time_age};
use a::{b, c::{d, e}, f as g};
use a::h as i;
#[derive(Clone, Copy)]
struct S(pub u32);
enum E { One(u8) }
impl S {
    pub fn first<'a>(self, s: &'a [u8; 4]) -> [u8; 2]
        requires { a < b }
        ensures { result.0 ≡ f s.now }
        ensures named { result ≡ (record { x = 1 }) }
        ensures* { ⌜ a ⌝ }
    {
        one
    }
}
#[unsafe(no_mangle)]
pub extern \"C\" fn second() { two }
";

    #[test]
    fn functions_without_their_contracts() {
        let code = parse(SAMPLE).unwrap();
        let of = |f: &Function| (f.owner.map(String::from), f.name.to_string(), f.body[0].text.to_string());
        let functions: Vec<_> = code.functions.iter().map(of).collect();
        let first = (Some("S".to_string()), "first".to_string(), "one".to_string());
        assert_eq!(functions, [first, (None, "second".to_string(), "two".to_string())]);
        assert!(code.functions.iter().all(|f| f.body.len() == 1));
    }

    #[test]
    fn types_and_imports() {
        let code = parse(SAMPLE).unwrap();
        assert_eq!((code.structs, code.enums), (vec!["S"], vec!["E"]));
        assert_eq!(
            code.imports,
            [vec!["units", "Milliseconds"], vec!["a", "b"], vec!["a", "c", "d"], vec!["a", "c", "e"]]
        );
    }

    #[test]
    fn not_closed() {
        assert!(parse("fn f(a: u8").is_err());
        assert!(parse("fn f() -> u8").is_err());
    }
}
