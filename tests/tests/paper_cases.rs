//! Document 01's "Rollover and edge cases", the program's example and the cases of document 02, against values
//! worked out by hand.

use differential::cases::{cases, Input};
use differential::clock::{age, is_late, time_units, Moment};
use differential::clock_cases::clock_cases;
use differential::explain_cases::explain_cases;
use differential::forms_cases::forms_cases;
use differential::kind_cases::kind_cases;
use differential::listing::{list_report_input, list_request};
use differential::order_cases::order_cases;
use differential::trace::{explain_input, replay};
use differential::waiting_cases::waiting_cases;

#[test]
fn every_case_prints_what_the_papers_say() {
    let waiting = waiting_cases().into_iter().map(|(case, _)| case);
    let cases = cases()
        .into_iter()
        .chain(kind_cases())
        .chain(clock_cases())
        .chain(order_cases())
        .chain(explain_cases())
        .chain(forms_cases());
    for case in cases.chain(waiting) {
        let printed = match &case.input {
            Input::Frame(octets) => list_request(octets),
            Input::Report(octets) => list_report_input(octets),
            Input::Trace(records) => replay(&records.concat()),
            Input::Explain(fields, records) => explain_input(&[&fields[..], &records.concat()].concat()),
        };
        assert_eq!(printed, case.printed, "{}", case.title);
    }
}

#[test]
fn ages_cross_the_rollover() {
    assert_eq!(age(10, 4_294_967_290), 16);
    assert_eq!(age(9, 10), 4_294_967_295);
    assert_eq!(age(10, 10), 0);
}

#[test]
fn milliseconds_become_time_units() {
    let expected = [(0, 0), (1, 0), (2, 1), (16, 15), (67_107, 65_534), (67_108, 65_535), (67_109, 65_535)];
    for (milliseconds, units) in expected {
        assert_eq!(time_units(milliseconds), units);
    }
    assert_eq!(time_units(4_294_967_295), 65_535);
}

#[test]
fn a_diagnostic_is_late_after_its_timeout_and_not_at_it() {
    let by_counter =
        |now, accepted, timeout| is_late(Moment::Reading(now), Moment::Reading(accepted), timeout);
    assert!(!by_counter(704, 4_294_966_000, 2));
    assert!(by_counter(705, 4_294_966_000, 2));
    assert!(!by_counter(5, 5, 0));
    assert!(by_counter(6, 5, 0));
    assert!(by_counter(4, 5, 65_535));
    let elapsed = |now, accepted, timeout| is_late(Moment::Elapsed(now), Moment::Elapsed(accepted), timeout);
    assert!(!elapsed(4_294_969_296, 4_294_967_296, 2));
    assert!(elapsed(4_294_969_297, 4_294_967_296, 2));
    assert!(elapsed(4_294_967_296, 0, 2));
}
