//! Small crates for the tests.

use crate::graph::Graph;
use crate::sources::{Part, Source};
use crate::Faults;

const TYPES: &str = "// A number.
pub struct Number(pub u8);

pub enum Kind {
    Odd(Number),
}
";

const LOW: &str = "-- The lowest.

-- one
abbrev pub one : ℕ
one = 1

abbrev pub two : ℕ
two = 2
";

const HIGH: &str = "use Rattle.low.specs.Low.{one, two as pair}
use Rattle.low.specs.declared.Kind.{Kind}
use Rattle.low.specs.declared.Kind.TheVariants.{Odd}

-- both
unfoldable pub both : Kind → ℕ
both (Odd n) = one + pair

unfoldable pub only : ℕ → ℕ
only pair = one

abbrev pub Claim : Type 0
Claim = only 0 ≡ 1
";

const LAWS: &str = "use Rattle.high.specs.High.{Claim}

pub claim : Claim
claim = refl
";

const CODE: &str = "ghost use Rattle.high.specs.High.{both, only};

pub fn count(kind: Kind) -> u8
    ensures { result ≡ both kind }
{
    2
}

fn first(n: u8) -> u8
    ensures value { result ≡ only n }
{
    1
}
";

/// The graph of some files: crate, part, module and text.
pub fn graph(files: &[(&str, Part, &str, &str)]) -> Result<Graph, Faults> {
    let source = |&(krate, part, module, text): &(&str, Part, &str, &str)| Source {
        krate: krate.to_string(),
        part,
        module: module.to_string(),
        text: text.to_string(),
    };
    Graph::new(files.iter().map(source).collect())
}

/// Two crates, of which `high` uses `low`.
pub fn crates() -> Graph {
    graph(&[
        ("low", Part::Code, "lib", TYPES),
        ("low", Part::Specs, "Low", LOW),
        ("high", Part::Code, "lib", CODE),
        ("high", Part::Specs, "High", HIGH),
        ("high", Part::Proofs, "Laws", LAWS),
    ])
    .unwrap()
}
