//! How document 02's request (f) is read: explain an absent event. More by hand in `explain_cases`.

use differential::absent::{questions, Explained, BUFFERS};
use differential::cases::Input;
use differential::make_traces::trace;
use differential::phases::{explain_inputs, fixed_inputs, request_frames};
use differential::random::Random;
use differential::trace::{explain_input, replay};
use std::collections::BTreeSet;

/// Every question of these records, beside what the second gate's own report calls give with each buffer.
fn compare(records: &[Vec<u8>], all: &mut Explained) {
    let run = |input: &[u8]| replay(input).into_bytes();
    let printed = run(&records.concat());
    let abouts = questions(records, &printed);
    for (about, buffer) in abouts.iter().flat_map(|about| BUFFERS.map(|buffer| (about, buffer))) {
        match about.compare(&run, buffer) {
            Ok(one) => {
                all.places += one.places;
                all.reported += one.reported;
                all.refused += one.refused;
            }
            Err((expected, explained)) => panic!("{:?}: {expected}{explained}", about.question),
        }
    }
}

#[test]
fn reported_is_what_report_calls_give_in_made_up_traces() {
    let mut all = Explained::default();
    for index in 0..120 {
        compare(&trace(&mut Random::new(1, 3, index)), &mut all);
    }
    assert!(all.places > 60_000 && all.reported > 6000 && all.refused > 600, "{all:?}");
}

#[test]
fn reported_is_what_report_calls_give_in_fixed_cases_and_behind_request_frames() {
    let mut all = Explained::default();
    for input in fixed_inputs() {
        if let Input::Trace(records) = input {
            compare(&records, &mut all);
        }
    }
    compare(&request_frames(&mut Random::new(1, 1, 0), 400).records, &mut all);
    assert!(all.places > 1000 && all.reported > 100 && all.refused > 100, "{all:?}");
}

#[test]
fn made_up_input_of_the_program_has_each_line_and_each_refusal() {
    let mut lines = BTreeSet::new();
    for index in 0..200 {
        for (fields, records) in explain_inputs(&trace(&mut Random::new(1, 3, index))) {
            let line = explain_input(&[&fields[..], &records.concat()].concat());
            assert_eq!(line.matches('\n').count(), 1, "one line: {line}");
            let words = line.trim_end().split(" at ").next().expect("there is a first part");
            lines.insert(words.to_string());
        }
    }
    let conditions = (0..5).map(|id| format!("condition {id}"));
    let refusals = [4, 5, 6, 7, 8, 18].map(|number| format!("refused {number}"));
    let others = ["limit reached", "logged after acceptance", "reported", "trace refused", "wrong type"];
    let all: BTreeSet<String> =
        conditions.chain(refusals).chain(others.map(|line| line.to_string())).collect();
    assert_eq!(lines, all);
}
