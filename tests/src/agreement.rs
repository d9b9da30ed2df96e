//! "there old and new answers agree as long as no age taken has reached a turn": the program beside the second
//! gate with document 01's clock.

use crate::answers::answers;
use crate::clock::{Rule, TURN};
use crate::compare::{records_text, Difference};
use crate::octets::Kind;
use crate::program::Programs;
use crate::shrink::shrink_trace;
use crate::tally::Tally;
use crate::trace::{run_trace, Record};

/// Compares each answer that was given before any age taken since setup has reached a turn; counts these, and
/// the reports that differ behind them.
pub fn check_agreement(
    programs: &Programs,
    tally: &Tally,
    records: &[Vec<u8>],
    printed: &[u8],
) -> Result<(), Difference> {
    let beside = Beside::of(records, printed);
    if beside.first_difference.is_none() {
        tally.count_agreement(beside.agreed, beside.event_reports, beside.diagnostic_reports);
        return Ok(());
    }
    let run = |records: &[Vec<u8>]| Beside::of(records, &programs.run("replay", &records.concat()));
    let shortest = shrink_trace(records, &mut |fewer| run(fewer).first_difference.is_some());
    let (old, new) = run(&shortest).first_difference.unwrap_or_default();
    Err(Difference {
        title: format!(
            "document 01's clock: expected is its answer, no age having reached a turn; the records:\n{}",
            records_text(&shortest)
        ),
        input: shortest.concat(),
        expected: old.into_bytes(),
        printed: new.into_bytes(),
    })
}

/// A run beside one with document 01's clock.
#[derive(Default)]
pub struct Beside {
    /// Answers that are the same, before an age of a turn.
    pub agreed: usize,
    /// Reports that differ, an age having reached a turn.
    pub event_reports: usize,
    pub diagnostic_reports: usize,
    /// Document 01's answer and the other one, no age having reached a turn.
    pub first_difference: Option<(String, String)>,
}

impl Beside {
    /// What these records printed, beside what they would print.
    pub fn of(records: &[Vec<u8>], printed: &[u8]) -> Beside {
        let input = records.concat();
        let old = run_trace(Rule::Counter, &input).printed;
        let ages = run_trace(Rule::Elapsed, &input).ages;
        let printed = String::from_utf8_lossy(printed);
        let mut beside = Beside::default();
        let both = answers(records, &old).into_iter().zip(answers(records, &printed));
        for (((record, old), (_, new)), age) in both.zip(ages) {
            match record {
                // No call: the ages that it takes are not counted.
                Record::Explain(_) => {}
                _ if age < TURN && old == new => beside.agreed += 1,
                _ if age < TURN => {
                    beside.first_difference.get_or_insert((old.to_string(), new.to_string()));
                }
                Record::Report { kind: Kind::Event, .. } if old != new => beside.event_reports += 1,
                Record::Report { .. } if old != new => beside.diagnostic_reports += 1,
                _ => {}
            }
        }
        beside
    }
}
