//! The programs' output against the separately written reader and gate.

use crate::clock::Rule;
use crate::listing::{list_report_input, list_request};
use crate::program::Programs;
use crate::shrink::{shrink_list, shrink_trace};
use crate::tally::Tally;
use crate::trace::{explain_input, hexadecimal, replay, run_trace};
use std::fmt;

/// Two outputs that ought to be one, and the input that they came from.
pub struct Difference {
    pub title: String,
    pub input: Vec<u8>,
    pub expected: Vec<u8>,
    pub printed: Vec<u8>,
}

impl fmt::Display for Difference {
    /// The input in hexadecimal and both outputs.
    fn fmt(&self, out: &mut fmt::Formatter) -> fmt::Result {
        writeln!(out, "DIFFERENCE: {}", self.title)?;
        writeln!(out, "input ({} octets): {}", self.input.len(), hexadecimal(&self.input))?;
        writeln!(out, "expected:\n{}", String::from_utf8_lossy(&self.expected))?;
        writeln!(out, "printed:\n{}", String::from_utf8_lossy(&self.printed))
    }
}

/// Runs the program on the input and compares; on a difference the input is shortened octet by octet.
fn compare_octets(
    programs: &Programs,
    tally: &Tally,
    name: &str,
    input: &[u8],
    expect: fn(&[u8]) -> String,
) -> Result<(), Difference> {
    let printed = programs.run(name, input);
    tally.count_printed(&printed);
    if printed == expect(input).into_bytes() {
        return Ok(());
    }
    let shortest = shrink_list(input, &mut |fewer| programs.run(name, fewer) != expect(fewer).into_bytes());
    Err(Difference {
        title: format!("program {name}"),
        expected: expect(&shortest).into_bytes(),
        printed: programs.run(name, &shortest),
        input: shortest,
    })
}

/// The program `frame` on one request frame.
pub fn compare_frame(programs: &Programs, tally: &Tally, input: &[u8]) -> Result<(), Difference> {
    compare_octets(programs, tally, "frame", input, list_request)
}

/// The program `report` on a form, a destination and one report frame.
pub fn compare_report(programs: &Programs, tally: &Tally, input: &[u8]) -> Result<(), Difference> {
    compare_octets(programs, tally, "report", input, list_report_input)
}

/// The program `explain` on a question's fields and a trace; on a difference the trace is shortened
/// record by record.
pub fn compare_explain(
    programs: &Programs,
    tally: &Tally,
    fields: &[u8],
    records: &[Vec<u8>],
) -> Result<(), Difference> {
    let input = |records: &[Vec<u8>]| [fields, &records.concat()].concat();
    let run = |records: &[Vec<u8>]| programs.run("explain", &input(records));
    let expected = |records: &[Vec<u8>]| explain_input(&input(records)).into_bytes();
    let printed = run(records);
    tally.count_explain(&printed);
    if printed == expected(records) {
        return Ok(());
    }
    let shortest = shrink_trace(records, &mut |fewer| run(fewer) != expected(fewer));
    Err(Difference {
        title: format!(
            "program explain; its own fields and the records:\n{}\n{}",
            hexadecimal(fields),
            records_text(&shortest)
        ),
        expected: expected(&shortest),
        printed: run(&shortest),
        input: input(&shortest),
    })
}

/// A trace's records, a line each.
pub fn records_text(records: &[Vec<u8>]) -> String {
    records.iter().map(|record| hexadecimal(record)).collect::<Vec<_>>().join("\n")
}

/// The program `replay` on a trace; on a difference the trace is shortened record by record. The answer
/// is what the program printed.
pub fn compare_trace(programs: &Programs, tally: &Tally, records: &[Vec<u8>]) -> Result<Vec<u8>, Difference> {
    let input = records.concat();
    let printed = programs.run("replay", &input);
    tally.count_printed(&printed);
    let expected = run_trace(Rule::Elapsed, &input);
    if printed == expected.printed.into_bytes() {
        tally.count_covered(&expected.covered);
        return Ok(printed);
    }
    let shortest = shrink_trace(records, &mut |fewer| {
        let input = fewer.concat();
        programs.run("replay", &input) != replay(&input).into_bytes()
    });
    let input = shortest.concat();
    Err(Difference {
        title: format!("program replay; the records:\n{}", records_text(&shortest)),
        expected: replay(&input).into_bytes(),
        printed: programs.run("replay", &input),
        input,
    })
}
