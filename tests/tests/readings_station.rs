//! How document 01 is read: the gate. A test for each agreed line. Where several events are given, they stand
//! newest first, as document 02's request (d) has it.

use differential::clock::Rule;
use differential::event_body::EventBody;
use differential::form::{draft, Console, EventTime, Form, PublishedTime};
use differential::octets::{Address, Kind};
use differential::refusal::{refusal, Refusal};
use differential::report::{ReportElement, ReportFrame, Rest};
use differential::station::{Answer, Logging, Station};
use differential::transition::Transition;

const A: Address = [2, 0, 0, 0, 0, 1];
const B: Address = [2, 0, 0, 0, 0, 2];
const TO: Address = [2, 0, 0, 0, 0, 9];
const IDENTITY: [u8; 17] = [13, 3, 0xA, 0xB, 0xC, 11, 1, 65, 12, 1, 66, 14, 1, 67, 9, 1, 68];

/// A station with the requesters A and B, of form 0.
fn station() -> Station {
    let (answer, station) = Station::setup(Rule::Elapsed, &IDENTITY, &[draft(A), draft(B)]);
    assert_eq!(answer, Ok(Answer::Accepted));
    station
}

/// Logs an event that is told apart by its reason.
fn log(station: &mut Station, reading: u32, reason: u8) {
    log_with(station, reading, reason, 0);
}

/// The same with a result.
fn log_with(station: &mut Station, reading: u32, reason: u8, result: u16) {
    let transition = Transition { source: A, target: B, time: 0, reason, result, signal: [0; 4] };
    let logging =
        Logging { time: [255; 9], published: PublishedTime::default(), transition, departure: reading };
    assert_eq!(station.log_transition(reading, &logging), Ok(Answer::Accepted));
}

/// A frame from A that must be accepted.
fn ask(station: &mut Station, reading: u32, frame: &[u8]) {
    assert_eq!(station.frame(reading, &TO, &A, frame), Ok(Answer::Accepted));
}

/// A report call of A, with a buffer of this length: the answer and the frame.
fn give(
    station: &mut Station,
    reading: u32,
    kind: Kind,
    length: usize,
) -> (Result<Answer, Refusal>, Vec<u8>) {
    give_to(station, &A, reading, kind, length)
}

/// The same of any requester.
fn give_to(
    station: &mut Station,
    console: &Address,
    reading: u32,
    kind: Kind,
    length: usize,
) -> (Result<Answer, Refusal>, Vec<u8>) {
    let mut buffer = vec![0xEE; length];
    let answer = station.report(reading, console, kind, &mut buffer).map(|(answer, _)| answer);
    let written = if let Ok(Answer::Length(written)) = answer { written } else { 0 };
    assert!(buffer[written..].iter().all(|octet| *octet == 0xEE));
    buffer.truncate(written);
    (answer, buffer)
}

/// The reasons of the events in a report frame; an element of length 3 is given by its status plus 1000.
fn reasons(frame: &[u8]) -> Vec<u16> {
    let mut found = Vec::new();
    let mut at = 3;
    while at < frame.len() {
        let length = usize::from(frame[at + 1]);
        found.push(if length == 33 { u16::from(frame[at + 28]) } else { 1000 + u16::from(frame[at + 4]) });
        at += 2 + length;
    }
    found
}

/// The reasons in the event report that A gets with a long buffer.
fn events(station: &mut Station, reading: u32) -> Vec<u16> {
    reasons(&give(station, reading, Kind::Event, 4096).1)
}

/// An event request with one element of type 0, limit 255, and these subelements.
fn asking(dialog: u8, subelements: &[u8]) -> Vec<u8> {
    let length = 3 + subelements.len() as u8;
    [&[10, 0, dialog, 78, length, 5, 0, 255][..], subelements].concat()
}

/// A diagnostic request with one element.
fn diagnostic(dialog: u8, token: u8, ty: u8, timeout: u8) -> Vec<u8> {
    vec![10, 2, dialog, 80, 4, token, ty, timeout, 0]
}

#[test]
fn only_the_destinations_group_bit_matters() {
    let mut station = station();
    assert_eq!(station.frame(0, &[1, 0, 0, 0, 0, 0], &A, &[]), Err(refusal(11, 0)));
    assert_eq!(station.frame(0, &TO, &[3, 0, 0, 0, 0, 1], &[]), Err(refusal(12, 0)));
    assert_eq!(station.frame(0, &TO, &A, &[]), Err(refusal(1, 0)));
    assert_eq!(station.frame(0, &[254; 6], &A, &[10, 0, 7]), Ok(Answer::Accepted));
}

#[test]
fn an_equal_token_changes_nothing_while_outstanding() {
    let mut station = station();
    log(&mut station, 1, 1);
    ask(&mut station, 2, &asking(7, &[]));
    log(&mut station, 3, 2);
    // Other contents and a later event: the old element and the old mark stand.
    ask(&mut station, 4, &[10, 0, 7, 78, 3, 9, 4, 1]);
    assert_eq!(give(&mut station, 5, Kind::Event, 260).1[5], 5);
    // After the request is over the same token opens a new one.
    assert_eq!(give(&mut station, 5, Kind::Event, 260).0, Ok(Answer::Nothing));
    ask(&mut station, 6, &asking(7, &[]));
    assert_eq!(events(&mut station, 7), [2, 1]);
}

#[test]
fn an_equal_token_keeps_the_acceptance_reading() {
    let mut station = station();
    ask(&mut station, 0, &diagnostic(7, 1, 1, 1));
    ask(&mut station, 900, &diagnostic(7, 1, 1, 1));
    assert_eq!(give(&mut station, 1001, Kind::Diagnostic, 260).0, Ok(Answer::Nothing));
    // The late drop comes before the equal-token rule: at 3001 the one of 2000 is late, so a new one opens.
    ask(&mut station, 2000, &diagnostic(7, 1, 1, 1));
    ask(&mut station, 3001, &diagnostic(7, 2, 1, 1));
    assert_eq!(give(&mut station, 4001, Kind::Diagnostic, 260).1[5], 2);
}

#[test]
fn another_token_replaces_only_the_same_console_and_kind() {
    let mut station = station();
    ask(&mut station, 0, &asking(7, &[]));
    assert_eq!(station.frame(0, &TO, &B, &asking(8, &[])), Ok(Answer::Accepted));
    ask(&mut station, 0, &diagnostic(7, 1, 2, 9));
    ask(&mut station, 0, &asking(9, &[]));
    assert_eq!(give(&mut station, 0, Kind::Event, 260).1, [10, 1, 9, 79, 3, 5, 0, 0]);
    assert_eq!(give(&mut station, 0, Kind::Diagnostic, 260).1, [10, 3, 7, 81, 3, 1, 2, 3]);
    assert_eq!(give_to(&mut station, &B, 0, Kind::Event, 260).1, [10, 1, 8, 79, 3, 5, 0, 0]);
}

#[test]
fn a_refused_frame_changes_nothing_but_the_late_drop() {
    let mut station = station();
    ask(&mut station, 0, &diagnostic(7, 1, 2, 1));
    let cancel_with_fault = [diagnostic(8, 1, 0, 9), vec![80]].concat();
    assert_eq!(station.frame(1000, &TO, &A, &cancel_with_fault), Err(refusal(4, 9)));
    assert_eq!(give(&mut station, 1000, Kind::Diagnostic, 259).0, Err(refusal(13, 0)));
    assert_eq!(station.frame(1001, &[1; 6], &A, &[]), Err(refusal(11, 0)));
    // Back inside the timeout it does not live again.
    assert_eq!(give(&mut station, 1000, Kind::Diagnostic, 260).0, Ok(Answer::Nothing));
}

#[test]
fn cancel_ends_the_senders_own_diagnostic_request() {
    let mut station = station();
    assert_eq!(station.frame(0, &TO, &B, &diagnostic(7, 1, 2, 9)), Ok(Answer::Accepted));
    ask(&mut station, 0, &diagnostic(7, 1, 2, 9));
    ask(&mut station, 0, &asking(7, &[]));
    // In second place, with an equal token: the first element opens nothing.
    ask(&mut station, 0, &[diagnostic(7, 3, 1, 9), vec![80, 4, 4, 0, 0, 0]].concat());
    assert_eq!(give(&mut station, 0, Kind::Diagnostic, 260).0, Ok(Answer::Nothing));
    assert_eq!(give(&mut station, 0, Kind::Event, 260).0, Ok(Answer::Length(8)));
    assert_eq!(give_to(&mut station, &B, 0, Kind::Diagnostic, 260).0, Ok(Answer::Length(8)));
    // With no request outstanding.
    ask(&mut station, 0, &diagnostic(9, 1, 0, 9));
    assert_eq!(give(&mut station, 0, Kind::Diagnostic, 260).0, Ok(Answer::Nothing));
}

#[test]
fn an_event_request_without_elements_gets_a_bare_header() {
    let mut station = station();
    ask(&mut station, 0, &[10, 0, 7]);
    assert_eq!(give(&mut station, 0, Kind::Event, 260), (Ok(Answer::Length(3)), vec![10, 1, 7]));
    assert_eq!(give(&mut station, 0, Kind::Event, 260).0, Ok(Answer::Nothing));
}

#[test]
fn a_rest_that_was_dropped_from_the_log_leaves_a_bare_header() {
    let mut station = station();
    for reason in 1..=8 {
        log(&mut station, 0, reason);
    }
    ask(&mut station, 0, &asking(7, &[]));
    // 3 + 7 * 35 = 248: the eighth, which is the oldest, does not fit 260.
    assert_eq!(reasons(&give(&mut station, 0, Kind::Event, 260).1), [8, 7, 6, 5, 4, 3, 2]);
    // The 65th drops it.
    for reason in 9..=65 {
        log(&mut station, 0, reason);
    }
    // Still outstanding: an equal token changes nothing.
    ask(&mut station, 0, &asking(7, &[]));
    assert_eq!(give(&mut station, 0, Kind::Event, 260), (Ok(Answer::Length(3)), vec![10, 1, 7]));
    assert_eq!(give(&mut station, 0, Kind::Event, 260).0, Ok(Answer::Nothing));
}

#[test]
fn before_and_older_go_by_the_order_of_calls() {
    let mut station = station();
    log(&mut station, 500, 1);
    log(&mut station, 400, 2);
    ask(&mut station, 300, &asking(7, &[]));
    log(&mut station, 300, 3);
    log(&mut station, 200, 4);
    assert_eq!(events(&mut station, 100), [2, 1]);
}

#[test]
fn given_and_limit_are_counted_over_the_elements_life() {
    let mut station = station();
    for reason in 1..=20 {
        log(&mut station, 0, reason);
    }
    ask(&mut station, 0, &[10, 0, 7, 78, 3, 5, 0, 9, 78, 3, 6, 0, 2]);
    // Nine of twenty, seven to a frame; then the next element's two, from the newest on.
    assert_eq!(reasons(&give(&mut station, 0, Kind::Event, 260).1), [20, 19, 18, 17, 16, 15, 14]);
    assert_eq!(reasons(&give(&mut station, 0, Kind::Event, 260).1), [13, 12, 20, 19]);
    assert_eq!(give(&mut station, 0, Kind::Event, 260).0, Ok(Answer::Nothing));
}

#[test]
fn a_reading_that_goes_back_makes_every_diagnostic_late() {
    let mut station = station();
    ask(&mut station, 100, &[10, 2, 7, 80, 4, 1, 2, 255, 255]);
    station.clock(99).expect("a clock reading is accepted");
    assert_eq!(give(&mut station, 100, Kind::Diagnostic, 260).0, Ok(Answer::Nothing));
}

#[test]
fn timeout_0_is_alive_at_the_same_reading_only() {
    let mut station = station();
    ask(&mut station, 100, &diagnostic(7, 1, 2, 0));
    assert_eq!(give(&mut station, 100, Kind::Diagnostic, 260).0, Ok(Answer::Length(8)));
    ask(&mut station, 100, &diagnostic(7, 1, 2, 0));
    assert_eq!(give(&mut station, 101, Kind::Diagnostic, 260).0, Ok(Answer::Nothing));
}

#[test]
fn late_elements_go_one_by_one() {
    let mut station = station();
    let two = [diagnostic(7, 1, 2, 1), vec![80, 4, 2, 2, 2, 0]].concat();
    ask(&mut station, 0, &two);
    assert_eq!(give(&mut station, 1001, Kind::Diagnostic, 260).1, [10, 3, 7, 81, 3, 2, 2, 3]);
}

#[test]
fn match_value_looks_at_two_bits_and_both_octets_of_the_result() {
    let expected: [(u8, &[u16]); 6] =
        [(0, &[1000]), (1, &[1]), (2, &[3, 2]), (3, &[3, 2, 1]), (0xFC, &[1000]), (0xFE, &[3, 2])];
    for (value, given) in expected {
        let mut station = station();
        log_with(&mut station, 0, 1, 0);
        log_with(&mut station, 0, 2, 1);
        log_with(&mut station, 0, 3, 256);
        ask(&mut station, 0, &asking(7, &[3, 1, value]));
        assert_eq!(events(&mut station, 0), given, "match value {value}");
    }
}

#[test]
fn bssids_are_compared_each_with_its_own() {
    let mut station = station();
    log(&mut station, 0, 1);
    let target = |address: Address| [&[0, 6][..], &address].concat();
    let source = |address: Address| [&[1, 6][..], &address].concat();
    for (subelements, given) in [
        (target(B), 1),
        (target(A), 1000),
        (source(A), 1),
        (source(B), 1000),
        ([source(A), target(B)].concat(), 1),
        ([source(A), target(A)].concat(), 1000),
    ] {
        ask(&mut station, 0, &asking(7, &subelements));
        assert_eq!(events(&mut station, 0), [given]);
    }
}

#[test]
fn frequent_counts_events_that_fail_the_other_conditions() {
    let mut station = station();
    log_with(&mut station, 0, 1, 1);
    log_with(&mut station, 0, 2, 0);
    log_with(&mut station, 1, 3, 0);
    // Interval 0 counts equal stamps; more than 1 are needed; match value 1 admits result 0.
    ask(&mut station, 1, &asking(7, &[3, 1, 1, 4, 3, 1, 0, 0]));
    assert_eq!(events(&mut station, 1), [2]);
}

#[test]
fn frequent_counts_what_is_in_the_log_at_the_report_call() {
    let mut station = station();
    log(&mut station, 0, 1);
    log(&mut station, 0, 2);
    ask(&mut station, 0, &asking(7, &[4, 3, 1, 0, 0]));
    for reason in 3..=65 {
        log(&mut station, 5, reason);
    }
    // The first event was dropped: the second is alone, and what came later is not given.
    assert_eq!(events(&mut station, 5), [1000]);
}

#[test]
fn limit_0_and_other_types_give_one_report() {
    let mut station = station();
    log(&mut station, 0, 1);
    ask(&mut station, 0, &[10, 0, 7, 78, 3, 5, 0, 0, 78, 3, 6, 9, 0, 78, 3, 7, 255, 9]);
    let expected = [10, 1, 7, 79, 3, 5, 0, 0, 79, 3, 6, 9, 3, 79, 3, 7, 255, 3];
    assert_eq!(give(&mut station, 0, Kind::Event, 260).1, expected);
    assert_eq!(give(&mut station, 0, Kind::Event, 260).0, Ok(Answer::Nothing));
}

#[test]
fn a_report_call_is_refused_by_12_then_13_then_finds_nothing() {
    let mut station = station();
    assert_eq!(station.report(0, &TO, Kind::Event, &mut []), Err(refusal(12, 0)));
    assert_eq!(give(&mut station, 0, Kind::Event, 259).0, Err(refusal(13, 0)));
    assert_eq!(give(&mut station, 0, Kind::Event, 260).0, Ok(Answer::Nothing));
}

#[test]
fn a_report_call_tells_what_it_chose() {
    let mut station = station();
    let transition =
        Transition { source: A, target: B, time: 0, reason: 6, result: 258, signal: [1, 2, 3, 4] };
    let time = [231, 3, 59, 59, 23, 31, 12, 234, 7];
    let (published, departure) = (PublishedTime::default(), 4_294_967_290);
    let logging = Logging { time, published, transition: transition.clone(), departure };
    assert_eq!(station.log_transition(10, &logging), Ok(Answer::Accepted));
    ask(&mut station, 10, &[10, 0, 7, 78, 3, 5, 0, 4, 78, 3, 6, 9, 0, 78, 3, 8, 0, 0]);
    ask(&mut station, 10, &[10, 2, 8, 80, 4, 0, 1, 9, 0, 80, 4, 1, 2, 9, 0]);
    let mut chosen = |kind| station.report(10, &A, kind, &mut [0; 260]).expect("A is listed").1;
    let element = |token, ty, status, rest| ReportElement { token, ty, status, rest };
    // Departure 4,294,967,290, arrival 10: 15 TU. The limit of token 8 is 0.
    let body = EventBody::Transition(Transition { time: 15, ..transition });
    let event = Rest::Event(EventTime::Draft(time), body);
    let elements =
        vec![element(5, 0, 0, event), element(6, 9, 3, Rest::Nothing), element(8, 0, 0, Rest::Nothing)];
    let frame = |kind, dialog, elements| ReportFrame { form: Form::Draft, kind, dialog, elements };
    assert_eq!(chosen(Kind::Event), Some(frame(Kind::Event, 7, elements)));
    // The identity has five subelements.
    let elements = vec![element(0, 1, 0, Rest::Subelements(5)), element(1, 2, 3, Rest::Subelements(0))];
    assert_eq!(chosen(Kind::Diagnostic), Some(frame(Kind::Diagnostic, 8, elements)));
    assert_eq!(chosen(Kind::Event), None);
}

#[test]
fn an_element_that_does_not_fit_is_not_skipped() {
    let mut station = station();
    for reason in 1..=8 {
        log(&mut station, 0, reason);
    }
    // Seven events make 248; the eighth, the oldest, does not fit 260, the Incapable behind it would.
    ask(&mut station, 0, &[10, 0, 7, 78, 3, 5, 0, 8, 78, 3, 6, 9, 0]);
    assert_eq!(give(&mut station, 0, Kind::Event, 260).0, Ok(Answer::Length(248)));
    assert_eq!(reasons(&give(&mut station, 0, Kind::Event, 260).1), [1, 1003]);
}

#[test]
fn an_exact_fit_with_nothing_further_ends_the_request() {
    let mut station = station();
    for reason in 1..=8 {
        log(&mut station, 0, reason);
    }
    // 3 + 8 * 35 = 283.
    ask(&mut station, 0, &asking(7, &[]));
    assert_eq!(give(&mut station, 0, Kind::Event, 283).0, Ok(Answer::Length(283)));
    assert_eq!(give(&mut station, 0, Kind::Event, 283).0, Ok(Answer::Nothing));
    ask(&mut station, 0, &asking(7, &[]));
    assert_eq!(give(&mut station, 0, Kind::Event, 282).0, Ok(Answer::Length(248)));
    assert_eq!(give(&mut station, 0, Kind::Event, 282).0, Ok(Answer::Length(38)));
}

#[test]
fn the_longest_identity_fits_the_shortest_buffer() {
    let mut identity = vec![13, 3, 1, 2, 3, 11, 236];
    identity.extend([9; 236]);
    identity.extend([12, 1, 1, 14, 1, 1, 9, 1, 1]);
    assert_eq!(identity.len(), 252);
    let (answer, mut station) = Station::setup(Rule::Elapsed, &identity, &[draft(A)]);
    assert_eq!(answer, Ok(Answer::Accepted));
    ask(&mut station, 0, &diagnostic(7, 5, 1, 9));
    let (answer, frame) = give(&mut station, 0, Kind::Diagnostic, 260);
    assert_eq!(answer, Ok(Answer::Length(260)));
    assert_eq!(frame, [&[10, 3, 7, 81, 255, 5, 1, 0][..], &identity].concat());
}

#[test]
fn no_frame_passes_2304_octets() {
    let mut station = station();
    for reason in 1..=64 {
        log(&mut station, 0, reason);
    }
    ask(&mut station, 0, &[10, 0, 7, 78, 3, 5, 0, 255, 78, 3, 6, 0, 255]);
    // 3 + 65 * 35 = 2278; one more would make 2313.
    assert_eq!(give(&mut station, 0, Kind::Event, 4096).0, Ok(Answer::Length(2278)));
    assert_eq!(give(&mut station, 0, Kind::Event, 4096).0, Ok(Answer::Length(3 + 63 * 35)));
}

#[test]
fn the_65th_event_drops_the_oldest() {
    let mut station = station();
    for reason in 1..=65 {
        log(&mut station, 0, reason);
    }
    ask(&mut station, 0, &asking(7, &[]));
    assert_eq!(events(&mut station, 0), (2..=65).rev().collect::<Vec<u16>>());
}

#[test]
fn console_lists_that_are_refused() {
    let group = [3, 0, 0, 0, 0, 1];
    let five: Vec<Console> = (1..=5).map(|last| draft([2, 0, 0, 0, 0, last])).collect();
    let repeated = vec![draft(A), draft(B), draft(A)];
    for list in [vec![], five.clone(), repeated, vec![draft(A), draft(group)]] {
        assert_eq!(Station::setup(Rule::Elapsed, &[], &list).0, Err(refusal(15, 0)));
        assert_eq!(station().roam(0, &list), Err(refusal(15, 0)));
        assert_eq!(station().change_network(0, &list), Err(refusal(15, 0)));
    }
    assert_eq!(Station::setup(Rule::Elapsed, &IDENTITY, &five[..4]).0, Ok(Answer::Accepted));
}

#[test]
fn identities_that_are_refused() {
    let refused =
        |identity: &[u8]| Station::setup(Rule::Elapsed, identity, &[draft(A)]).0 == Err(refusal(16, 0));
    assert!(refused(&[]));
    assert!(refused(&IDENTITY[..16]));
    assert!(refused(&IDENTITY[..14]));
    assert!(refused(&IDENTITY[5..]));
    assert!(refused(&[&IDENTITY[..], &[9, 1, 1]].concat()));
    assert!(refused(&[&IDENTITY[..], &[5, 1, 1]].concat()));
    assert!(refused(&[&IDENTITY[..], &[3, 1, 1, 4, 1, 1]].concat()));
    assert!(refused(&[&IDENTITY[..], &[3, 2, 1, 1]].concat()));
    assert!(refused(&[&IDENTITY[..], &[21, 0]].concat()));
    assert!(refused(&[&IDENTITY[..], &[7, 1, 1, 7, 1, 1]].concat()));
    assert!(refused(&[&[13, 2, 1, 1][..], &IDENTITY[5..]].concat()));
    // 17 + 2 + 233 = 252, and one more.
    assert!(!refused(&[&IDENTITY[..], &[21, 233], &[1; 233]].concat()));
    assert!(refused(&[&IDENTITY[..], &[21, 234], &[1; 234]].concat()));
    let every = [4, 1, 1, 3, 1, 1, 6, 1, 1, 7, 1, 1, 21, 1, 1];
    assert!(!refused(&[&IDENTITY[..], &every].concat()));
}

#[test]
fn the_consoleless_gate() {
    for (identity, list) in [(&IDENTITY[..], &[][..]), (&[][..], &[draft(A)][..])] {
        let mut station = Station::setup(Rule::Elapsed, identity, list).1;
        assert_eq!(station.clock(0), Ok(Answer::Accepted));
        log(&mut station, 0, 1);
        let transition = Transition { source: A, target: B, time: 0, reason: 0, result: 0, signal: [0; 4] };
        let wrong_time =
            Logging { time: [0; 9], published: PublishedTime::default(), transition, departure: 0 };
        assert_eq!(station.log_transition(0, &wrong_time), Err(refusal(14, 0)));
        assert_eq!(station.frame(0, &TO, &A, &[10, 0, 7]), Err(refusal(12, 0)));
        assert_eq!(station.report(0, &A, Kind::Event, &mut []), Err(refusal(12, 0)));
        assert_eq!(station.roam(0, &[draft(A), draft(A)]), Err(refusal(15, 0)));
        assert_eq!(station.roam(0, &[draft(A)]), Err(refusal(16, 0)));
        assert_eq!(station.change_network(0, &[draft(A)]), Err(refusal(16, 0)));
        assert_eq!(station.frame(0, &TO, &A, &[10, 0, 7]), Err(refusal(12, 0)));
    }
}

#[test]
fn a_move_keeps_the_log_and_drops_every_request() {
    let mut station = station();
    log(&mut station, 0, 1);
    ask(&mut station, 0, &asking(7, &[]));
    ask(&mut station, 0, &diagnostic(7, 1, 2, 9));
    // A refused move drops nothing.
    assert_eq!(station.roam(0, &[draft(A), draft(A)]), Err(refusal(15, 0)));
    assert_eq!(give(&mut station, 0, Kind::Diagnostic, 260).0, Ok(Answer::Length(8)));
    ask(&mut station, 0, &diagnostic(7, 1, 2, 9));
    assert_eq!(station.roam(0, &[draft(A), draft(B)]), Ok(Answer::Accepted));
    assert_eq!(give(&mut station, 0, Kind::Event, 260).0, Ok(Answer::Nothing));
    assert_eq!(give(&mut station, 0, Kind::Diagnostic, 260).0, Ok(Answer::Nothing));
    ask(&mut station, 0, &asking(7, &[]));
    assert_eq!(events(&mut station, 0), [1]);
    assert_eq!(station.roam(0, &[draft(B)]), Ok(Answer::Accepted));
    assert_eq!(give(&mut station, 0, Kind::Event, 260).0, Err(refusal(12, 0)));
}

#[test]
fn a_network_change_empties_the_log() {
    let mut station = station();
    log(&mut station, 0, 1);
    assert_eq!(station.change_network(0, &[]), Err(refusal(15, 0)));
    ask(&mut station, 0, &asking(7, &[]));
    assert_eq!(events(&mut station, 0), [1]);
    assert_eq!(station.change_network(0, &[draft(A)]), Ok(Answer::Accepted));
    ask(&mut station, 0, &asking(7, &[]));
    assert_eq!(events(&mut station, 0), [1000]);
    log(&mut station, 0, 2);
    ask(&mut station, 0, &asking(7, &[]));
    assert_eq!(events(&mut station, 0), [2]);
}
