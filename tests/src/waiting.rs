//! Document 02's request (e), "How long a console can wait": the frames that each request is given until it is
//! over.

use crate::answers::answers;
use crate::clock::Rule;
use crate::compare::{records_text, Difference};
use crate::octets::Kind;
use crate::program::Programs;
use crate::request::read_request;
use crate::shrink::shrink_trace;
use crate::station::Outstanding;
use crate::trace::{run_trace, Record};
use std::sync::Mutex;

/// "at most 512 report calls by its own console for that kind that give a frame (eight elements of up to 64
/// events)"; "Diagnostics: at most eight."
pub fn most_allowed(kind: Kind) -> usize {
    match kind {
        Kind::Event => 512,
        Kind::Diagnostic => 8,
    }
}

/// Counts the frames of every request; a request that is given too many is a difference.
pub fn check_waiting(
    programs: &Programs,
    all: &Mutex<Waiting>,
    records: &[Vec<u8>],
    printed: &[u8],
) -> Result<(), Difference> {
    let waiting = Waiting::of(records, printed);
    if waiting.too_long.is_none() {
        all.lock().expect("no thread panicked").add(&waiting);
        return Ok(());
    }
    let run = |records: &[Vec<u8>]| Waiting::of(records, &programs.run("replay", &records.concat()));
    let shortest = shrink_trace(records, &mut |fewer| run(fewer).too_long.is_some());
    let (kind, frames) = run(&shortest).too_long.expect("the shortened trace fails like the whole one");
    Err(Difference {
        title: format!(
            "request (e): a request must be over after so many report calls; the records:\n{}",
            records_text(&shortest)
        ),
        input: shortest.concat(),
        expected: format!("{}", most_allowed(kind)).into_bytes(),
        printed: format!("{frames} and more").into_bytes(),
    })
}

/// The requests of a kind that were over, neither replaced nor ended by a Cancel, a move or a network change, and
/// the most frames that one of them was given.
#[derive(Clone, Copy, Debug, Default)]
pub struct Waited {
    pub requests: usize,
    pub most: usize,
}

impl Waited {
    /// Those of another trace too.
    fn add(&mut self, other: Waited) {
        self.requests += other.requests;
        self.most = self.most.max(other.most);
    }
}

/// What the requests of a trace were given.
#[derive(Clone, Debug, Default)]
pub struct Waiting {
    pub events: Waited,
    pub diagnostics: Waited,
    /// A request that is given more than it may, or is not over where it must be.
    pub too_long: Option<(Kind, usize)>,
    open: Vec<(Outstanding, usize)>,
}

impl Waiting {
    /// The answers are the program's. Which requests are outstanding behind each call, the second gate tells.
    pub fn of(records: &[Vec<u8>], printed: &[u8]) -> Waiting {
        let printed = String::from_utf8_lossy(printed);
        let outstanding = run_trace(Rule::Elapsed, &records.concat()).outstanding;
        let mut waiting = Waiting::default();
        for ((record, answer), now) in answers(records, &printed).into_iter().zip(outstanding) {
            waiting.call(&record, answer, now);
        }
        waiting
    }

    /// Those of another trace too.
    fn add(&mut self, other: &Waiting) {
        self.events.add(other.events);
        self.diagnostics.add(other.diagnostics);
    }

    /// One call, and the requests outstanding behind it. "A report call that gives a frame is one answered with a
    /// length".
    fn call(&mut self, record: &Record, answer: &str, now: Vec<Outstanding>) {
        let gives = |one: &Outstanding| {
            matches!(record, Record::Report { console, kind, .. } if (*console, *kind) == (one.console, one.kind))
                && answer.starts_with("length ")
        };
        for (one, mut frames) in std::mem::take(&mut self.open) {
            frames += usize::from(gives(&one));
            let is_over = !now.contains(&one);
            if frames > most_allowed(one.kind) - usize::from(!is_over) {
                self.too_long = Some((one.kind, frames));
            }
            if !is_over {
                self.open.push((one, frames));
            } else if !ends(record, &one) {
                self.waited(one.kind).add(Waited { requests: 1, most: frames });
            }
        }
        for one in now {
            if self.open.iter().all(|(open, _)| *open != one) {
                self.open.push((one, 0));
            }
        }
    }

    fn waited(&mut self, kind: Kind) -> &mut Waited {
        match kind {
            Kind::Event => &mut self.events,
            Kind::Diagnostic => &mut self.diagnostics,
        }
    }
}

/// Whether this call, behind which a request is no longer outstanding, replaced or cancelled it, or ended every
/// request. Otherwise it was over: with the call's own frame, or because it was late.
fn ends(record: &Record, request: &Outstanding) -> bool {
    match record {
        Record::Setup { .. } | Record::Roam { .. } | Record::Change { .. } => true,
        Record::Frame { source, octets, .. } => {
            let own_kind = read_request(octets).is_ok_and(|frame| frame.kind == request.kind);
            *source == request.console && own_kind
        }
        _ => false,
    }
}

#[cfg(test)]
mod tests {
    use super::*;
    use crate::cases::{frame, report, CONSOLE, IDENTITY};
    use crate::form::draft;
    use crate::station::Station;

    /// Report calls of a request that is never over, until it took too long.
    fn calls_until_too_long(kind: Kind, ask: &[u8]) -> usize {
        let mut station = Station::setup(Rule::Elapsed, &IDENTITY, &[draft(CONSOLE)]).1;
        let destination = [2, 0, 0, 0, 0, 9];
        station.frame(0, &destination, &CONSOLE, ask).expect("the request is accepted");
        let mut waiting = Waiting::default();
        waiting.call(&frame(0, ask), "accepted\n", station.outstanding());
        (1..)
            .find(|_| {
                waiting.call(&report(0, kind), "length 3\n", station.outstanding());
                waiting.too_long.is_some()
            })
            .expect("it takes too long at last")
    }

    #[test]
    fn a_request_that_is_never_over_takes_too_long_at_the_last_call_that_it_may_have() {
        assert_eq!(calls_until_too_long(Kind::Event, &[10, 0, 7]), 512);
        assert_eq!(calls_until_too_long(Kind::Diagnostic, &[10, 2, 7, 80, 4, 5, 2, 9, 0]), 8);
    }
}
