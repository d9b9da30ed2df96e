//! Every frame that the gate gave, read back by the report reader, told its console's form and the other one: what it
//! lists and refuses against what the second gate logged and chose. No octet of a frame has a part in what is expected.

use crate::answers::answers;
use crate::clock::Rule;
use crate::compare::{records_text, Difference};
use crate::form::Form;
use crate::listing::report_text;
use crate::octets::{Address, HEADER};
use crate::program::Programs;
use crate::refusal::refusal;
use crate::report::ReportFrame;
use crate::shrink::shrink_trace;
use crate::tally::Tally;
use crate::trace::{run_trace, write_record, Record, LONGEST_TRACE};

/// The frames of a run, what the second gate chose for them, and what the reader says they hold.
pub struct ReadBack {
    frames: Vec<Vec<u8>>,
    pub chosen: Vec<ReportFrame>,
    read: Vec<u8>,
}

impl ReadBack {
    /// Reads back what a run of these records printed; `run` is what `replay` prints.
    pub fn of(run: &dyn Fn(&[u8]) -> Vec<u8>, records: &[Vec<u8>], printed: &[u8]) -> ReadBack {
        let frames = given_frames(records, &String::from_utf8_lossy(printed));
        let chosen = run_trace(Rule::Elapsed, &records.concat()).chosen;
        let form = |index: usize| chosen.get(index).map_or(Form::Draft, |frame| frame.form);
        let forms: Vec<Form> = (0..frames.len()).map(form).collect();
        let read = read(run, &frames, &forms);
        ReadBack { frames, chosen, read }
    }

    /// What the choice asks for: the listing in the console's own form, then what is said in the other one.
    fn expected(&self) -> Vec<u8> {
        let both = |frame| report_text(frame) + &told_the_other_form(frame);
        self.chosen.iter().map(both).collect::<String>().into_bytes()
    }

    /// Whether the reader says it too.
    pub fn is_as_chosen(&self) -> bool {
        self.read == self.expected()
    }
}

/// "A reader told one form and given the other must never show a wrong time": 17 at the first element with an event;
/// without one the listing is the same.
fn told_the_other_form(frame: &ReportFrame) -> String {
    match frame.first_event() {
        // Before it stand reports of length 3: ID, length, token, type and status.
        Some((index, _)) => refusal(17, HEADER + 5 * index).to_string(),
        None => report_text(frame),
    }
}

/// Reads back every frame that the records gave; on a difference the trace is shortened.
pub fn check_read_back(
    programs: &Programs,
    tally: &Tally,
    records: &[Vec<u8>],
    printed: &[u8],
) -> Result<(), Difference> {
    let replay = |input: &[u8]| programs.run("replay", input);
    let back = ReadBack::of(&replay, records, printed);
    if back.is_as_chosen() {
        tally.count_read_back(&back.chosen);
        return Ok(());
    }
    let run = |records: &[Vec<u8>]| ReadBack::of(&replay, records, &replay(&records.concat()));
    let shortest = shrink_trace(records, &mut |fewer| !run(fewer).is_as_chosen());
    let back = run(&shortest);
    Err(Difference {
        title: format!(
            "read back: expected is what was chosen, in the console's form and in the other one, printed what the \
             report reader says; the records:\n{}\nthe frames that they gave:\n{}",
            records_text(&shortest),
            records_text(&back.frames)
        ),
        input: shortest.concat(),
        expected: back.expected(),
        printed: back.read,
    })
}

/// The frames that report calls gave.
fn given_frames(records: &[Vec<u8>], printed: &str) -> Vec<Vec<u8>> {
    let reports =
        answers(records, printed).into_iter().filter(|(record, _)| matches!(record, Record::Report { .. }));
    reports.filter_map(|(_, answer)| given_frame(answer)).collect()
}

/// Behind `length N`, the first N octets of the buffer; none behind another answer.
pub fn given_frame(answer: &str) -> Option<Vec<u8>> {
    let mut lines = answer.lines();
    let length: usize = lines.next()?.strip_prefix("length ")?.parse().ok()?;
    let buffer = lines.next()?.strip_prefix("buffer ")?;
    (0..length).map(|at| u8::from_str_radix(buffer.get(2 * at..2 * at + 2)?, 16).ok()).collect()
}

/// What the report reader prints for these frames, each told its form and then the other one, in as many traces as
/// they need.
fn read(run: &dyn Fn(&[u8]) -> Vec<u8>, frames: &[Vec<u8>], forms: &[Form]) -> Vec<u8> {
    let mut printed = Vec::new();
    let mut waiting = Vec::new();
    for (index, (octets, form)) in frames.iter().zip(forms).enumerate() {
        for told in [*form, form.other()] {
            let (form, destination, octets) = (told.number(), destination(index), octets.clone());
            let record = write_record(&Record::Read { form, destination, octets });
            if waiting.len() + record.len() > LONGEST_TRACE {
                printed.extend(run(&waiting));
                waiting.clear();
            }
            waiting.extend(record);
        }
    }
    printed.extend(run(&waiting));
    printed
}

/// An individual address; every octet that may be odd is.
fn destination(index: usize) -> Address {
    let octet = (index % 128) as u8;
    [2 * octet, 2 * octet + 1, 1, 255, 3, 5]
}
