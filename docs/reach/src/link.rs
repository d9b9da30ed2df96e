//! From the parsed files to the graph: what each name in a definition, type or contract stands for.

use crate::code::{self, Function};
use crate::definitions::{self, Definition};
use crate::graph::{Contract, Node, Nodes};
use crate::imports::{self, Origin};
use crate::mentions::{Mentions, Scope, Target};
use crate::sources::{Part, Source};
use crate::{unless, Faults};

/// What a clause calls the function's value, whatever of the logic has that name too.
const RESULT: &str = "result";

/// A parsed file; its nodes are those from first on.
struct File<'a> {
    source: &'a Source,
    definitions: Vec<Definition<'a>>,
    functions: Vec<Function<'a>>,
    first: usize,
}

impl<'a> File<'a> {
    /// Its definitions and their constructors.
    fn own_names(&self) -> impl Iterator<Item = (&'a str, Target)> + '_ {
        self.definitions.iter().zip(self.first..).flat_map(|(definition, node)| {
            let constructors = definition.members.iter().filter(|_| definition.is_data);
            let constructors =
                constructors.map(move |member| (member.name, Target { node, constructor: true }));
            constructors.chain([(definition.name, Target { node, constructor: false })])
        })
    }

    fn target(&self, name: &str) -> Option<Target> {
        self.own_names().find(|(own, _)| *own == name).map(|(_, target)| target)
    }
}

/// All files; it finds what their names stand for.
pub struct Linker<'a> {
    files: Vec<File<'a>>,
}

impl<'a> Linker<'a> {
    pub fn new(sources: &'a [Source]) -> Result<Linker<'a>, Faults> {
        let mut files = Vec::new();
        let mut first = 0;
        for source in sources {
            let (definitions, functions) = match source.part {
                Part::Code => {
                    let code =
                        code::parse(&source.text).map_err(|e| vec![format!("{}: {e}", source.path())])?;
                    (code.types, code.functions)
                }
                Part::Specs | Part::Proofs => (definitions::parse(&source.text), Vec::new()),
            };
            let count = definitions.len();
            files.push(File { source, definitions, functions, first });
            first += count;
        }
        Ok(Linker { files })
    }

    fn file(&self, krate: &str, part: Part, module: &str) -> Option<&File<'a>> {
        let is = |s: &Source| s.krate == krate && s.part == part && s.module == module;
        self.files.iter().find(|file| is(file.source))
    }

    /// What an imported name stands for.
    fn imported(&self, origin: &Origin, name: &str) -> Option<Target> {
        match origin {
            Origin::File { krate, part, module } => self.file(krate, *part, module)?.target(name),
            Origin::Declared { krate, module, ty, constructor } => {
                let target = self.file(krate, Part::Code, module)?.target(ty)?;
                Some(Target { constructor: *constructor, ..target })
            }
        }
    }

    /// Does the file of an origin pass on a name of another library?
    fn passes_on(&self, origin: &Origin, name: &str) -> bool {
        let Origin::File { krate, part, module } = origin else { return false };
        self.file(krate, *part, module).is_some_and(|file| imports::passes_on(&file.source.text, name))
    }

    /// Is it a crate of the toolchain, or a module that the toolchain makes: of proofs, or
    /// `specs.contracts.TYPE`?
    fn is_outside(&self, origin: &Origin) -> bool {
        match origin {
            Origin::File { krate, part, module }
                if *part == Part::Proofs || module.starts_with("contracts/") =>
            {
                self.file(krate, *part, module).is_none()
            }
            _ => !self.files.iter().any(|file| file.source.krate == origin.krate()),
        }
    }

    /// The names that a file of the logic, or the contracts of a file of code, can mention.
    fn logic_scope(&self, file: &File<'a>) -> Result<Scope<'a>, Faults> {
        let in_file = |fault: String| format!("{}: {fault}", file.source.path());
        let imports = imports::logic(&file.source.text).map_err(|fault| vec![in_file(fault)])?;
        let mut scope = Scope::default();
        let mut faults = Faults::new();
        for (origin, names) in imports.iter().filter(|(origin, _)| !self.is_outside(origin)) {
            for import in names {
                match self.imported(origin, import.name) {
                    Some(target) => scope.insert(import.alias, target),
                    None if self.passes_on(origin, import.name) => {}
                    None => faults.push(in_file(format!("no `{}` where it is imported from", import.name))),
                }
            }
        }
        if file.source.part != Part::Code {
            file.own_names().for_each(|(name, target)| scope.insert(name, target));
        }
        unless(faults, scope)
    }

    /// The types that a type of the code can mention. The module of an import is not looked at: of two
    /// types of one name in a crate the first is taken.
    fn code_scope(&self, file: &File<'a>) -> Scope<'a> {
        let mut scope = Scope::default();
        for (krate, names) in imports::code(&file.source.text) {
            let krate = if krate == "crate" { &file.source.krate } else { krate };
            let of_crate = |f: &&File| f.source.krate == krate && f.source.part == Part::Code;
            for import in names {
                let mut files = self.files.iter().filter(of_crate);
                if let Some(target) = files.find_map(|f| f.target(import.name)) {
                    scope.insert(import.alias, target);
                }
            }
        }
        file.own_names().for_each(|(name, target)| scope.insert(name, target));
        scope
    }

    /// The nodes of the file at a place.
    pub fn nodes(&self, at: usize) -> Result<Vec<Node>, Faults> {
        let file = &self.files[at];
        let scope =
            if file.source.part == Part::Code { self.code_scope(file) } else { self.logic_scope(file)? };
        Ok(file.definitions.iter().map(|definition| node(at, definition, &scope)).collect())
    }

    /// The contracts of the file at a place.
    pub fn contracts(&self, at: usize) -> Result<Vec<Contract>, Faults> {
        let file = &self.files[at];
        let scope = self.logic_scope(file)?;
        let contract = |function: &Function<'a>| Contract {
            krate: file.source.krate.clone(),
            name: function.name.to_string(),
            public: function.public,
            uses: contract_uses(function, &scope),
        };
        Ok(file.functions.iter().map(contract).collect())
    }
}

fn node<'a>(source: usize, definition: &Definition<'a>, scope: &Scope<'a>) -> Node {
    let mut mentions = Mentions::new(scope);
    mentions.term(&definition.ty);
    for member in &definition.members {
        mentions.term(&member.ty);
        mentions.bind(member.name);
    }
    let stated = mentions.found;
    let mut uses = stated.clone();
    for (left, right) in &definition.clauses {
        let mut mentions = Mentions::new(scope);
        mentions.pattern(left);
        mentions.term(right);
        uses.extend(mentions.found);
    }
    Node { source, name: definition.name.to_string(), lines: definition.lines, stated, uses }
}

fn contract_uses<'a>(function: &Function<'a>, scope: &Scope<'a>) -> Nodes {
    let mut uses = Nodes::new();
    for promise in &function.contract {
        let mut mentions = Mentions::new(scope);
        mentions.bind(RESULT);
        for parameter in &function.parameters {
            mentions.bind(parameter);
        }
        mentions.term(promise);
        uses.extend(mentions.found);
    }
    uses
}
