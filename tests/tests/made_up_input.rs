//! Fixed cases and made-up input have every case that a run must have had, so that no run depends on luck; and
//! on made-up traces the gate answers as with document 01's clock, as long as no age has reached a turn.

use differential::agreement::Beside;
use differential::cases::Input;
use differential::clock::Rule;
use differential::covered::Covered;
use differential::make_traces::trace;
use differential::phases::{fixed_inputs, report_frames, request_frames};
use differential::random::Random;
use differential::trace::{replay, run_trace};

/// The cases of the fixed traces and of so many of each phase.
fn covered(seed: u64) -> Covered {
    let mut covered = Covered::default();
    let mut run = |records: &[Vec<u8>]| covered.add(&run_trace(Rule::Elapsed, &records.concat()).covered);
    for input in fixed_inputs() {
        if let Input::Trace(records) = input {
            run(&records);
        }
    }
    for index in 0..40 {
        run(&request_frames(&mut Random::new(seed, 1, index), 400).records);
    }
    for index in 0..10 {
        run(&report_frames(&mut Random::new(seed, 2, index), 900).records);
    }
    for index in 0..400 {
        run(&trace(&mut Random::new(seed, 3, index)));
    }
    covered
}

#[test]
fn a_quarter_of_a_run_has_every_case() {
    for seed in [1, 2, 3] {
        for ((name, what), number) in covered(seed).counts() {
            assert!(number > 0, "seed {seed}: {name}, {what}");
        }
    }
}

#[test]
fn old_and_new_answers_agree_until_an_age_is_a_turn() {
    let (mut agreed, mut event_reports, mut diagnostic_reports) = (0, 0, 0);
    for index in 0..400 {
        let records = trace(&mut Random::new(1, 3, index));
        let beside = Beside::of(&records, replay(&records.concat()).as_bytes());
        assert_eq!(beside.first_difference, None, "trace {index}");
        agreed += beside.agreed;
        event_reports += beside.event_reports;
        diagnostic_reports += beside.diagnostic_reports;
    }
    assert!(agreed > 0 && event_reports > 0 && diagnostic_reports > 0);
}
