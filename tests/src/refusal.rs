//! "Why a call is turned away": a number and a place.

use std::fmt;

/// One line of the table: "Number" and "Returned".
#[derive(Clone, Copy, Debug, PartialEq, Eq)]
pub struct Refusal {
    pub number: u8,
    pub place: usize,
}

/// A refusal by `number` at `place`.
pub fn refusal(number: u8, place: usize) -> Refusal {
    Refusal { number, place }
}

/// "A refusal prints one line, `refused 7 at 8`: number and place."
impl fmt::Display for Refusal {
    fn fmt(&self, out: &mut fmt::Formatter) -> fmt::Result {
        writeln!(out, "refused {} at {}", self.number, self.place)
    }
}
