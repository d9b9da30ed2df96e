//! What a run has seen: a check that saw nothing could not have failed.

use crate::absent::Explained;
use crate::covered::{Covered, FORMS, KINDS};
use crate::independence::Compared;
use crate::octets::Kind;
use crate::report::{ReportFrame, Rest};
use crate::waiting::{most_allowed, Waiting};
use std::sync::atomic::{AtomicUsize, Ordering};
use std::sync::Mutex;

/// A count that several threads add to.
#[derive(Default)]
struct Count(AtomicUsize);

impl Count {
    /// So many more.
    fn add(&self, number: usize) {
        self.0.fetch_add(number, Ordering::Relaxed);
    }

    /// So many now.
    fn number(&self) -> usize {
        self.0.load(Ordering::Relaxed)
    }
}

/// Lines that programs printed, and how often each refusal number was among them; answers compared for
/// demand 3, and beside document 01's clock; frames exchanged; frames read back, what was in them, and what the reader
/// said of them told the other form; places explained beside what report calls give; the cases of document 02.
#[derive(Default)]
pub struct Tally {
    lines: Count,
    refusals: [Count; 19],
    answers: Count,
    after_change: Count,
    agreed: Count,
    event_reports: Count,
    diagnostic_reports: Count,
    exchanged: Count,
    frames: Count,
    elements: Count,
    /// By event type and form.
    events: [[Count; 2]; 3],
    identities: Count,
    /// By the type of the first event and the form.
    refused_in_the_other: [[Count; 2]; 3],
    /// By form.
    same_in_the_other: [Count; 2],
    explained: Count,
    reported: Count,
    elements_refused: Count,
    explain_runs: Count,
    covered: Mutex<Covered>,
    /// How long the requests of fixed traces took, and those of made-up ones.
    pub fixed_waits: Mutex<Waiting>,
    pub made_up_waits: Mutex<Waiting>,
}

impl Tally {
    /// Counts the printed lines, and the refusals among them.
    pub fn count_printed(&self, printed: &[u8]) {
        for line in printed.split(|octet| *octet == b'\n').filter(|line| !line.is_empty()) {
            self.lines.add(1);
            let Some(rest) = line.strip_prefix(b"refused ") else { continue };
            let digits: String = rest.iter().take_while(|o| **o != b' ').map(|o| char::from(*o)).collect();
            if let Some(count) = digits.parse().ok().and_then(|number: usize| self.refusals.get(number)) {
                count.add(1);
            }
        }
    }

    /// Counts answers compared with a newly set up gate's.
    pub fn count_answers(&self, compared: Compared) {
        self.answers.add(compared.answers);
        self.after_change.add(compared.after_change);
    }

    /// Counts answers that are those of document 01's clock, and reports that differ from its.
    pub fn count_agreement(&self, agreed: usize, event_reports: usize, diagnostic_reports: usize) {
        self.agreed.add(agreed);
        self.event_reports.add(event_reports);
        self.diagnostic_reports.add(diagnostic_reports);
    }

    /// Counts pairs of frames that were exchanged.
    pub fn count_exchanged(&self, pairs: usize) {
        self.exchanged.add(pairs);
    }

    /// Counts frames that were read back as they were chosen.
    pub fn count_read_back(&self, chosen: &[ReportFrame]) {
        self.frames.add(chosen.len());
        for frame in chosen {
            let form = usize::from(frame.form.number());
            match frame.first_event() {
                Some((_, ty)) => self.refused_in_the_other[usize::from(ty)][form].add(1),
                None => self.same_in_the_other[form].add(1),
            }
            self.elements.add(frame.elements.len());
            for element in &frame.elements {
                match &element.rest {
                    Rest::Event(_, body) => self.events[usize::from(body.ty())][form].add(1),
                    Rest::Subelements(1..) => self.identities.add(1),
                    _ => {}
                }
            }
        }
    }

    /// Counts a run of the program `explain`, and what it printed.
    pub fn count_explain(&self, printed: &[u8]) {
        self.explain_runs.add(1);
        self.count_printed(printed);
    }

    /// Counts places explained as report calls have it.
    pub fn count_explained(&self, explained: Explained) {
        self.explained.add(explained.places);
        self.reported.add(explained.reported);
        self.elements_refused.add(explained.refused);
    }

    /// Counts the cases that a trace had, once its answers were as expected.
    pub fn count_covered(&self, covered: &Covered) {
        self.covered.lock().expect("no thread panicked").add(covered);
    }

    /// Prints the counts; false where one of them is 0.
    pub fn print(&self) -> bool {
        let mut named: Vec<(String, &Count)> = [
            ("lines compared", &self.lines),
            ("answers compared with a newly set up gate", &self.answers),
            ("of these after a network change", &self.after_change),
            ("answers of document 01's clock, no age of a turn taken", &self.agreed),
            ("event reports that differ from its, an age of a turn taken", &self.event_reports),
            ("diagnostic reports that differ from its, an age of a turn taken", &self.diagnostic_reports),
            ("pairs of frames of one reading exchanged", &self.exchanged),
            ("frames read back", &self.frames),
            ("elements in them", &self.elements),
            ("identities among these", &self.identities),
            ("places explained beside what report calls give", &self.explained),
            ("reported among these", &self.reported),
            ("elements that a gate and explain refuse alike", &self.elements_refused),
            ("runs of the program explain", &self.explain_runs),
        ]
        .map(|(name, count)| (name.to_string(), count))
        .into();
        for (form, form_name) in FORMS.iter().enumerate() {
            for (ty, kind) in KINDS.iter().enumerate() {
                named.push((format!("{kind}s of the {form_name} form read back"), &self.events[ty][form]));
                let refused =
                    format!("frames of the {form_name} form refused in the other, first event: {kind}");
                named.push((refused, &self.refused_in_the_other[ty][form]));
            }
            let same = format!("frames of the {form_name} form without event, the same in the other");
            named.push((same, &self.same_in_the_other[form]));
        }
        for (name, count) in &named {
            println!("{name}: {}", count.number());
        }
        for (number, count) in self.refusals.iter().enumerate().skip(1) {
            println!("refusal {number:2}: {}", count.number());
        }
        let cases = self.covered.lock().expect("no thread panicked").counts();
        for ((name, what), number) in &cases {
            println!("{name}, {what}: {number}");
        }
        let waits = [("fixed cases", &self.fixed_waits), ("traces", &self.made_up_waits)];
        let waited = waits.map(|(title, waits)| print_waits(title, waits));
        waited == [true, true]
            && named.iter().all(|(_, count)| count.number() > 0)
            && self.refusals[1..].iter().all(|count| count.number() > 0)
            && cases.iter().all(|(_, number)| *number > 0)
    }
}

/// Prints how many frames requests were given until they were over; false where none was.
fn print_waits(title: &str, waits: &Mutex<Waiting>) -> bool {
    let waits = waits.lock().expect("no thread panicked");
    let kinds = [("event", Kind::Event, waits.events), ("diagnostic", Kind::Diagnostic, waits.diagnostics)];
    for (name, kind, waited) in kinds {
        let (requests, most, allowed) = (waited.requests, waited.most, most_allowed(kind));
        println!("{title}: {requests} {name} requests over, the longest after {most} frames of {allowed}");
    }
    kinds.iter().all(|(_, _, waited)| waited.most > 0)
}
