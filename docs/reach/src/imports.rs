//! The lines that bring names into a file.

use crate::sources::Part;

/// Where a name of the logic comes from.
#[derive(Debug, PartialEq)]
pub enum Origin<'a> {
    /// A file of definitions or laws.
    File { krate: &'a str, part: Part, module: String },
    /// A type that the code declares, or (constructor) the cases of one.
    Declared { krate: &'a str, module: String, ty: &'a str, constructor: bool },
}

impl Origin<'_> {
    pub fn krate(&self) -> &str {
        match self {
            Origin::File { krate, .. } | Origin::Declared { krate, .. } => krate,
        }
    }
}

/// A name of the logic, and what it is called here.
#[derive(Debug, PartialEq)]
pub struct Import<'a> {
    pub name: &'a str,
    pub alias: &'a str,
}

/// Rattle's own library.
const LIBRARY: &str = "Rattle.std.";

/// The imports of a text, `use Rattle.CRATE.specs.FILE.{name, name as other}` each; in code behind `ghost`. Those
/// of other libraries are left out, and so are whole modules of proofs under a name of their own.
pub fn logic(text: &str) -> Result<Vec<(Origin<'_>, Vec<Import<'_>>)>, String> {
    let before = |at: usize| text[..at].rsplit('\n').next().unwrap_or_default().trim_start();
    let starts = |at: &usize| ["", "ghost ", "pub ", "pub ghost "].contains(&before(*at));
    let places = text.match_indices("use Rattle.").map(|(at, _)| at).filter(starts);
    let statements = places.map(|at| &text[at + "use ".len()..]);
    let statements = statements.filter(|text| !text.starts_with(LIBRARY));
    statements.filter(|text| !is_proof_module(text)).map(statement).collect()
}

/// Does a text pass on a name of another library, `pub use LIBRARY.MODULE.{name}`?
pub fn passes_on(text: &str, name: &str) -> bool {
    let paths = text.lines().filter_map(|line| line.strip_prefix("pub use "));
    let others = paths.filter(|path| !path.starts_with("Rattle.") || path.starts_with(LIBRARY));
    let names = others.filter_map(|path| path.split_once(".{"));
    names.flat_map(|(_, names)| names.split(['}', ','])).any(|passed| passed.trim() == name)
}

/// `Rattle.CRATE.proofs.MODULE as NAME`, which brings no definition along: for instance what the prover knows of a
/// struct.
fn is_proof_module(text: &str) -> bool {
    let line = text.lines().next().unwrap_or_default();
    line.split_once(" as ")
        .is_some_and(|(path, _)| !path.contains('{') && path.split('.').nth(2) == Some("proofs"))
}

fn statement(text: &str) -> Result<(Origin<'_>, Vec<Import<'_>>), String> {
    let line = text.lines().next().unwrap_or_default();
    let (path, names) = if let Some((path, _)) = line.split_once(".TheVariants as ") {
        (&line[..path.len() + ".TheVariants".len()], "")
    } else {
        text.split_once(".{").unwrap_or((text, ""))
    };
    let origin = origin(path).ok_or_else(|| format!("an import that is not understood: {line}"))?;
    let names = names.split('}').next().unwrap_or_default();
    Ok((origin, names.split(',').map(str::trim).filter(|name| !name.is_empty()).map(import).collect()))
}

fn import(name: &str) -> Import<'_> {
    let (name, alias) = name.split_once(" as ").unwrap_or((name, name));
    Import { name, alias }
}

/// Of `Rattle.CRATE.specs.FILE`.
fn origin(path: &str) -> Option<Origin<'_>> {
    if path.contains(char::is_whitespace) {
        return None;
    }
    let mut steps: Vec<&str> = path.split('.').collect();
    let krate = *steps.get(1)?;
    let part = match *steps.get(2)? {
        "specs" => Part::Specs,
        "proofs" => Part::Proofs,
        _ => return None,
    };
    if steps.get(3) != Some(&"declared") {
        return Some(Origin::File { krate, part, module: steps[3..].join("/") });
    }
    let constructor = steps.last() == Some(&"TheVariants");
    if constructor {
        steps.pop();
    }
    let ty = steps.pop()?;
    let module = if steps.len() == 4 { "lib".to_string() } else { steps[4..].join("/") };
    Some(Origin::Declared { krate, module, ty, constructor })
}

/// The imports of the code, `use CRATE::MODULE::Name as Other;` or `use CRATE::{MODULE::Name, Other};` each: the
/// crate (`crate`: this one) and the names.
pub fn code(text: &str) -> Vec<(&str, Vec<Import<'_>>)> {
    let lines = text.match_indices("use ").map(|(at, _)| at);
    let before = |at: usize| text[..at].rsplit('\n').next().unwrap_or_default();
    let starts = lines.filter(|at| ["", "pub ", "pub(crate) "].contains(&before(*at)));
    let paths = starts.filter_map(|at| text[at + "use ".len()..].split(';').next());
    paths.filter_map(|path| Some((path.split_once("::")?.0, leaves(path)))).collect()
}

/// The names that a path ends in; several where it ends in a group.
fn leaves(path: &str) -> Vec<Import<'_>> {
    let Some((_, group)) = path.split_once('{') else {
        return vec![import(path.trim().rsplit("::").next().unwrap_or_default())];
    };
    let inner = group.rsplit_once('}').map_or(group, |(inner, _)| inner);
    members(inner).into_iter().filter(|path| !path.trim().is_empty()).flat_map(leaves).collect()
}

/// What stands between a group's own commas.
fn members(group: &str) -> Vec<&str> {
    let mut depth = 0;
    let is_own = |c: char| {
        depth += i32::from(c == '{') - i32::from(c == '}');
        c == ',' && depth == 0
    };
    group.split(is_own).collect()
}

#[cfg(test)]
mod tests {
    use super::*;

    #[test]
    fn a_file_of_the_logic() {
        let text = "use mathlib.Core.List.{List}
use Rattle.std.proofs.Math.Option
use Rattle.std.proofs.Math.Option.{some}
use Rattle.model.specs.Model.{Call,
    clock as tick}
";
        let imports = logic(text).unwrap();
        let [(origin, names)] = &imports[..] else { panic!("one import") };
        assert_eq!(origin, &Origin::File { krate: "model", part: Part::Specs, module: "Model".to_string() });
        assert_eq!(names[0], Import { name: "Call", alias: "Call" });
        assert_eq!(names[1], Import { name: "clock", alias: "tick" });
    }

    #[test]
    fn a_type_of_the_code_and_its_cases() {
        let text = "ghost use Rattle.octets.specs.declared.numbers.Kind.{Kind};
ghost use Rattle.octets.specs.declared.numbers.Kind.TheVariants.{Event};
";
        let kind = |constructor| {
            let module = "numbers".to_string();
            Origin::Declared { krate: "octets", module, ty: "Kind", constructor }
        };
        let origins: Vec<Origin> = logic(text).unwrap().into_iter().map(|(origin, _)| origin).collect();
        assert_eq!(origins, [kind(false), kind(true)]);
    }

    #[test]
    fn an_import_without_names() {
        assert!(logic("use Rattle.a.specs.A\nuse Rattle.a.specs.B.{b}\n").is_err());
    }

    #[test]
    fn a_module_under_a_name() {
        assert_eq!(logic("use Rattle.a.proofs.Thing as T\n").unwrap(), []);
        assert!(logic("use Rattle.a.specs.A as T\n").is_err());
    }

    #[test]
    fn a_name_of_the_code() {
        let imports = code("pub use requests::Element as Asked;\nghost use Rattle.a.specs.A.{b};\n");
        let [(krate, names)] = &imports[..] else { panic!("one import") };
        let [import] = &names[..] else { panic!("one name") };
        assert_eq!((*krate, import.name, import.alias), ("requests", "Element", "Asked"));
    }

    #[test]
    fn a_group_of_the_code() {
        let text = "use crate::{Outcome, Station as S};
use events::{
    kinds::{Entry, Log},
    LOG_CAPACITY,
};
";
        let imports = code(text);
        let named: Vec<(&str, &str, &str)> = imports
            .iter()
            .flat_map(|(krate, names)| names.iter().map(move |import| (*krate, import.name, import.alias)))
            .collect();
        assert_eq!(
            named,
            [
                ("crate", "Outcome", "Outcome"),
                ("crate", "Station", "S"),
                ("events", "Entry", "Entry"),
                ("events", "Log", "Log"),
                ("events", "LOG_CAPACITY", "LOG_CAPACITY")
            ]
        );
    }
}
