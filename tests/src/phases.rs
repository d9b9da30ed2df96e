//! The phases of a run: fixed cases, request frames, report frames, traces.

use crate::absent::check_absent;
use crate::agreement::check_agreement;
use crate::cases::{cases, limits, Input};
use crate::clock_cases::clock_cases;
use crate::compare::{compare_explain, compare_frame, compare_report, compare_trace, Difference};
use crate::exchange::check_exchange;
use crate::explain::Question;
use crate::explain_cases::explain_cases;
use crate::form::Console;
use crate::forms_cases::{forms_cases, forms_limits};
use crate::independence::check_independence;
use crate::kind_cases::{kind_cases, kind_limits};
use crate::make_events::log_record;
use crate::make_identity::{identity, STATION};
use crate::make_questions::question;
use crate::make_reports::{report_frame, MadeReport};
use crate::make_requests::{request_frame, Taste};
use crate::make_traces::trace;
use crate::octets::{part_at, Kind, HEADER};
use crate::order_cases::order_cases;
use crate::program::Programs;
use crate::random::Random;
use crate::read_back::check_read_back;
use crate::tally::Tally;
use crate::trace::{read_record, write_record, Record};
use crate::waiting::{check_waiting, Waiting};
use crate::waiting_cases::waiting_cases;
use std::sync::atomic::{AtomicBool, AtomicUsize, Ordering};
use std::sync::Mutex;
use std::thread;

/// Frames that go into one trace.
const FRAMES_IN_TRACE: usize = 400;
/// Report frames that go into one trace.
const REPORTS_IN_TRACE: usize = 900;
/// One frame in so many is also given to `frame` or `report` itself, the questions of one trace in so many to
/// `explain`.
const BY_ITSELF: usize = 10;

/// What a run works with.
pub struct Run {
    pub programs: Programs,
    pub tally: Tally,
    pub seed: u64,
}

/// Does the items 0 to `number` on two threads; the first difference ends it.
fn each(number: usize, item: impl Fn(usize) -> Result<(), Difference> + Sync) -> Result<(), Difference> {
    let next = AtomicUsize::new(0);
    let failed = AtomicBool::new(false);
    let found = Mutex::new(None);
    thread::scope(|scope| {
        for _ in 0..2 {
            scope.spawn(|| loop {
                let index = next.fetch_add(1, Ordering::Relaxed);
                if index >= number || failed.load(Ordering::Relaxed) {
                    return;
                }
                if let Err(mut difference) = item(index) {
                    if !failed.swap(true, Ordering::Relaxed) {
                        difference.title = format!("item {index}, {}", difference.title);
                        *found.lock().expect("no thread panicked") = Some(difference);
                    }
                    return;
                }
            });
        }
    });
    found.into_inner().expect("no thread panicked").map_or(Ok(()), Err)
}

impl Run {
    /// A trace: every answer, and every frame that it gave read back. The answer is what was printed.
    fn calls(&self, records: &[Vec<u8>]) -> Result<Vec<u8>, Difference> {
        let printed = compare_trace(&self.programs, &self.tally, records)?;
        check_read_back(&self.programs, &self.tally, records, &printed)?;
        Ok(printed)
    }

    /// The same, demand 3, the answers beside those of document 01's clock, questions beside what report calls give,
    /// how long requests took, and frames of one reading exchanged.
    fn calls_and_independence(&self, records: &[Vec<u8>], waits: &Mutex<Waiting>) -> Result<(), Difference> {
        let printed = self.calls(records)?;
        self.tally.count_answers(check_independence(&self.programs, records, &printed)?);
        check_agreement(&self.programs, &self.tally, records, &printed)?;
        check_absent(&self.programs, &self.tally, records, &printed)?;
        check_waiting(&self.programs, waits, records, &printed)?;
        check_exchange(&self.programs, &self.tally, records)
    }

    /// The fixed cases.
    pub fn fixed(&self) -> Result<(), Difference> {
        let inputs = fixed_inputs();
        each(inputs.len(), |index| match &inputs[index] {
            Input::Frame(octets) => compare_frame(&self.programs, &self.tally, octets),
            Input::Report(octets) => compare_report(&self.programs, &self.tally, octets),
            Input::Trace(records) => self.calls_and_independence(records, &self.tally.fixed_waits),
            Input::Explain(fields, records) => compare_explain(&self.programs, &self.tally, fields, records),
        })
    }

    /// Request frames, each to a fresh station, followed by report calls that show what was taken.
    pub fn frames(&self, number: usize) -> Result<(), Difference> {
        each(number.div_ceil(FRAMES_IN_TRACE), |index| {
            let in_this_trace = FRAMES_IN_TRACE.min(number - index * FRAMES_IN_TRACE);
            let made = request_frames(&mut Random::new(self.seed, 1, index as u64), in_this_trace);
            for octets in made.alone.iter().step_by(BY_ITSELF) {
                compare_frame(&self.programs, &self.tally, octets)?;
            }
            self.calls(&made.records).map(|_| ())
        })
    }

    /// Report frames, many to a trace.
    pub fn reports(&self, number: usize) -> Result<(), Difference> {
        each(number.div_ceil(REPORTS_IN_TRACE), |index| {
            let in_this_trace = REPORTS_IN_TRACE.min(number - index * REPORTS_IN_TRACE);
            let made = report_frames(&mut Random::new(self.seed, 2, index as u64), in_this_trace);
            for input in made.alone.iter().step_by(BY_ITSELF) {
                compare_report(&self.programs, &self.tally, input)?;
            }
            compare_trace(&self.programs, &self.tally, &made.records).map(|_| ())
        })
    }

    /// Traces of calls of every kind.
    pub fn traces(&self, number: usize) -> Result<(), Difference> {
        each(number, |index| {
            let records = trace(&mut Random::new(self.seed, 3, index as u64));
            self.calls_and_independence(&records, &self.tally.made_up_waits)?;
            let by_itself = if index % BY_ITSELF == 0 { explain_inputs(&records) } else { Vec::new() };
            let run = |input: &(Vec<u8>, Vec<Vec<u8>>)| {
                compare_explain(&self.programs, &self.tally, &input.0, &input.1)
            };
            by_itself.iter().try_for_each(run)
        })
    }
}

/// Input for `explain`: every question of a trace, with the records before it and with all records, each question at
/// times cut.
pub fn explain_inputs(records: &[Vec<u8>]) -> Vec<(Vec<u8>, Vec<Vec<u8>>)> {
    let is_question = |record: &[u8]| matches!(read_record(record), Some((Record::Explain(_), _)));
    let asked = records.iter().enumerate().filter(|(_, record)| is_question(record));
    asked
        .flat_map(|(index, record)| {
            let (fields, before) = (&record[1..], &records[..index]);
            let all = index % 3 == 0;
            let whole = (fields.to_vec(), if all { records } else { before }.to_vec());
            let cut = (fields[..index % fields.len()].to_vec(), Vec::new());
            [Some(whole), (index % 5 == 0).then_some(cut)].into_iter().flatten()
        })
        .collect()
}

/// The papers' cases and the limits of traces and frames.
pub fn fixed_inputs() -> Vec<Input> {
    let cases = cases()
        .into_iter()
        .chain(kind_cases())
        .chain(clock_cases())
        .chain(order_cases())
        .chain(explain_cases())
        .chain(forms_cases());
    let waiting = waiting_cases().into_iter().map(|(case, _)| case);
    let limits = limits().into_iter().chain(kind_limits()).chain(forms_limits());
    cases.chain(waiting).map(|case| case.input).chain(limits).collect()
}

/// Made-up frames: each as the input of `frame` or `report` alone, and all in the records of one trace.
#[derive(Default)]
pub struct Made {
    pub alone: Vec<Vec<u8>>,
    pub records: Vec<Vec<u8>>,
}

/// So many request frames, each to a fresh station.
pub fn request_frames(random: &mut Random, number: usize) -> Made {
    let mut made = Made::default();
    for _ in 0..number {
        let kind = random.pick(&[Kind::Event, Kind::Event, Kind::Diagnostic]);
        let taste = Taste { faulty: 50, cancels: 5 };
        let dialog = random.pick(&[1, 7, 255]);
        let octets = request_frame(random, kind, dialog, taste);
        made.alone.push(octets.clone());
        made.records.extend(fresh_station(random, octets, kind).iter().map(write_record));
    }
    made
}

/// So many report frames, at times cut before their destination's end where they stand alone, and questions to a gate
/// that logged nothing.
pub fn report_frames(random: &mut Random, number: usize) -> Made {
    let mut made = Made::default();
    for _ in 0..number {
        let MadeReport { told: form, destination, octets } = report_frame(random);
        let mut alone = [&[form], &destination[..], &octets].concat();
        if random.percent(4) {
            alone.truncate(random.between(0, 7));
        }
        made.alone.push(alone);
        made.records.push(write_record(&Record::Read { form, destination, octets }));
        if random.percent(5) {
            made.records.push(write_record(&Record::Explain(question(random, &[], 50))));
        }
    }
    made
}

/// A newly set up station with one event of each kind, a frame from its requester, a question about the frame's
/// first element, or what is there of it, and one report call.
fn fresh_station(random: &mut Random, octets: Vec<u8>, kind: Kind) -> [Record; 7] {
    let (console, form) = ([2, 0, 0, 0, 0, 1], random.pick(&[0, 1]));
    let buffer = random.pick(&[260, 300, 330]);
    let taken = random.pick(&[1, 2, 16, 17]);
    let element = first_element(&octets);
    let (count, position) = (random.pick(&[0, 1, 2, 3, 3, 3, 4]), random.pick(&[0, 0, 1, 1, 2, 2, 3]));
    [
        Record::Setup { identity: identity(random, 0), list: vec![Console { address: console, form }] },
        log_record(random, 0, taken, taken, 0),
        log_record(random, 1, 18, 0, 0),
        log_record(random, 2, 19, 0, 0),
        Record::Frame { reading: 20, destination: STATION, source: console, octets },
        Record::Explain(Question { element, count, position }),
        Record::Report { reading: 20, console, kind, buffer, fill: 0xEE },
    ]
}

/// What stands behind a frame's header, up to the end of the first element if it has one.
fn first_element(frame: &[u8]) -> Vec<u8> {
    let behind = frame.get(HEADER..).unwrap_or(&[]);
    let end = part_at(behind, 0).map_or(behind.len(), |element| element.next);
    behind[..end].to_vec()
}
