//! What `replay` printed, taken apart.

use crate::trace::{read_record, Record};

/// Each record with the lines that were printed for it: two after a report call and a request writer, a
/// line an element after a report listing, otherwise one.
pub fn answers<'a>(records: &[Vec<u8>], printed: &'a str) -> Vec<(Record, &'a str)> {
    let mut rest = printed;
    let mut answers = Vec::new();
    for octets in records {
        let Some((record, _)) = read_record(octets) else { break };
        let first = rest.lines().next().unwrap_or("");
        let lines = match record {
            Record::Report { .. } | Record::Write { .. } => 2,
            Record::Read { .. } if first.starts_with("report ") => 1 + last_number(first),
            _ => 1,
        };
        let length = rest.split_inclusive('\n').take(lines).map(str::len).sum();
        let (answer, after) = rest.split_at(length);
        answers.push((record, answer));
        rest = after;
    }
    answers
}

/// The number at the end of a line.
fn last_number(line: &str) -> usize {
    line.rsplit(' ').next().and_then(|word| word.parse().ok()).unwrap_or(0)
}
