//! How document 02's request (e) is read: how many frames a request is given until it is over.

use differential::cases::{frame, report, setup, Input, CONSOLE};
use differential::form::draft;
use differential::make_traces::trace;
use differential::octets::Kind;
use differential::random::Random;
use differential::trace::{replay, write_record, Record};
use differential::waiting::Waiting;
use differential::waiting_cases::waiting_cases;

/// What these calls' requests were given.
fn waiting(calls: &[Record]) -> Waiting {
    let records: Vec<Vec<u8>> = [setup()].iter().chain(calls).map(write_record).collect();
    Waiting::of(&records, replay(&records.concat()).as_bytes())
}

/// How many event requests were over, and diagnostic requests, each with the most frames.
fn over(calls: &[Record]) -> [(usize, usize); 2] {
    let Waiting { events, diagnostics, .. } = waiting(calls);
    [(events.requests, events.most), (diagnostics.requests, diagnostics.most)]
}

/// A diagnostic request with one element, Incapable, of timeout 1 s.
fn diagnostic(reading: u32, dialog: u8, ty: u8) -> Record {
    frame(reading, &[10, 2, dialog, 80, 4, 5, ty, 1, 0])
}

#[test]
fn the_cases_take_as_many_frames_as_were_counted_by_hand() {
    for (case, frames) in waiting_cases() {
        let Input::Trace(records) = case.input else { panic!("{} is no trace", case.title) };
        let waiting = Waiting::of(&records, replay(&records.concat()).as_bytes());
        assert!(waiting.too_long.is_none());
        assert_eq!(waiting.events.most.max(waiting.diagnostics.most), frames, "{}", case.title);
    }
}

#[test]
fn a_header_only_frame_counts_and_refused_calls_and_nothing_do_not() {
    let short = Record::Report { reading: 0, console: CONSOLE, kind: Kind::Event, buffer: 259, fill: 0 };
    let other_kind = report(0, Kind::Diagnostic);
    let asked = frame(0, &[10, 0, 7]);
    assert_eq!(over(&[asked.clone(), short, other_kind, report(0, Kind::Event)]), [(1, 1), (0, 0)]);
    assert_eq!(over(&[asked, report(0, Kind::Event), report(0, Kind::Event)]), [(1, 1), (0, 0)]);
}

#[test]
fn an_equal_token_neither_replaces_nor_starts_anew() {
    let ask = frame(0, &[10, 0, 7, 78, 3, 5, 0, 1]);
    assert_eq!(over(&[ask.clone(), ask.clone(), report(0, Kind::Event)]), [(1, 1), (0, 0)]);
    // Behind its end it opens a request of its own.
    let twice = [ask.clone(), report(0, Kind::Event), ask, report(0, Kind::Event)];
    assert_eq!(over(&twice), [(2, 1), (0, 0)]);
}

#[test]
fn what_was_replaced_cancelled_or_ended_by_a_move_is_not_over() {
    let replaced = [frame(0, &[10, 0, 7]), frame(0, &[10, 0, 8]), report(0, Kind::Event)];
    assert_eq!(over(&replaced), [(1, 1), (0, 0)]);
    assert_eq!(over(&[diagnostic(0, 7, 2), diagnostic(0, 7, 0)]), [(0, 0), (0, 0)]);
    for end in [
        Record::Roam { reading: 0, list: vec![draft(CONSOLE)] },
        Record::Change { reading: 0, list: vec![draft(CONSOLE)] },
        setup(),
    ] {
        assert_eq!(over(&[frame(0, &[10, 0, 7]), diagnostic(0, 7, 2), end]), [(0, 0), (0, 0)]);
    }
}

#[test]
fn a_late_diagnostic_is_over_without_a_frame() {
    assert_eq!(over(&[diagnostic(0, 7, 2), Record::Clock { reading: 1001 }]), [(0, 0), (1, 0)]);
    // A refused frame of its own console, and one of the other kind, find it late like any other call.
    assert_eq!(over(&[diagnostic(0, 7, 2), frame(1001, &[10])]), [(0, 0), (1, 0)]);
    assert_eq!(over(&[diagnostic(0, 7, 2), frame(1001, &[10, 0, 7])]), [(0, 0), (1, 0)]);
}

#[test]
fn made_up_requests_are_over_in_time() {
    let (mut events, mut diagnostics) = (0, 0);
    for index in 0..400 {
        let records = trace(&mut Random::new(1, 3, index));
        let waiting = Waiting::of(&records, replay(&records.concat()).as_bytes());
        assert!(waiting.too_long.is_none(), "trace {index}");
        events = events.max(waiting.events.most);
        diagnostics = diagnostics.max(waiting.diagnostics.most);
    }
    assert!(events >= 32 && diagnostics == 8, "{events} and {diagnostics} frames");
}
