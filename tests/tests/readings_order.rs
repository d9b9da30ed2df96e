//! How document 02's request (d) is read: newest first. A test for each agreed line; more by hand in `order_cases`.

use differential::clock::Rule;
use differential::event_request::Event;
use differential::form::{draft, Console, EventTime, Form, PublishedTime};
use differential::make_events::log_record;
use differential::make_requests::{request_frame, Taste};
use differential::octets::{Address, Kind};
use differential::random::Random;
use differential::report::{ReportElement, Rest};
use differential::request::{read_request, RequestElement};
use differential::station::{Answer, Logging, Station};
use differential::trace::Record;
use differential::transition::Transition;

const A: Address = [2, 0, 0, 0, 0, 1];
const TO: Address = [2, 0, 0, 0, 0, 9];
const IDENTITY: [u8; 17] = [13, 3, 0xA, 0xB, 0xC, 11, 1, 65, 12, 1, 66, 14, 1, 67, 9, 1, 68];

/// A station with the requester A, of form 0.
fn station() -> Station {
    Station::setup(Rule::Elapsed, &IDENTITY, &[draft(A)]).1
}

/// Logs a transition that is told apart by its reason.
fn log(station: &mut Station, reading: u32, reason: u8) {
    let transition = Transition { source: A, target: A, time: 0, reason, result: 0, signal: [0; 4] };
    let logging =
        Logging { time: [255; 9], published: PublishedTime::default(), transition, departure: reading };
    assert_eq!(station.log_transition(reading, &logging), Ok(Answer::Accepted));
}

/// The reasons in the event report that A gets in a buffer of 260 octets: 28 octets into each of 35.
fn give(station: &mut Station, reading: u32) -> Vec<u8> {
    let mut buffer = [0xEE; 260];
    match station.report(reading, &A, Kind::Event, &mut buffer) {
        Ok((Answer::Length(length), _)) => buffer[3..length].chunks(35).map(|event| event[28]).collect(),
        other => panic!("{other:?}"),
    }
}

#[test]
fn order_is_the_order_of_logging_never_stamps() {
    let mut station = station();
    // Each reading but the second is below the one before it, a turn less a little later; two stamps are equal.
    for (reading, reason) in [(500, 1), (500, 2), (400, 3), (300, 4), (2, 5)] {
        log(&mut station, reading, reason);
    }
    assert_eq!(station.frame(1, &TO, &A, &[10, 0, 7, 78, 3, 5, 0, 255]), Ok(Answer::Accepted));
    assert_eq!(give(&mut station, 1), [5, 4, 3, 2, 1]);
}

#[test]
fn what_did_not_match_does_not_match_later() {
    let mut station = station();
    for reason in 1..=64 {
        log(&mut station, 0, reason);
    }
    // More than three with one stamp: all but 1, 2 and 3.
    assert_eq!(station.frame(0, &TO, &A, &[10, 0, 7, 78, 8, 5, 0, 255, 4, 3, 3, 0, 0]), Ok(Answer::Accepted));
    assert_eq!(give(&mut station, 0), [64, 63, 62, 61, 60, 59, 58]);
    // 1 to 10 are dropped: 11, 12 and 13 no longer match.
    for reason in 65..=74 {
        log(&mut station, 0, reason);
    }
    for newest in [57, 50, 43, 36, 29, 22] {
        assert_eq!(give(&mut station, 0), [0, 1, 2, 3, 4, 5, 6].map(|less| newest - less));
    }
    assert_eq!(give(&mut station, 0), [15, 14]);
    assert_eq!(station.report(0, &A, Kind::Event, &mut [0; 260]), Ok((Answer::Nothing, None)));
}

/// What an element is to give of a log to which nothing is added: "the latest .. that match, or all if fewer", as
/// many as its limit; one report of length 3 where there is none, or where its type is not reported.
fn newest(element: &RequestElement, log: &[Event], form: Form) -> Vec<ReportElement> {
    let RequestElement { token, ty, bound, conditions, .. } = element;
    let report = |status, rest| ReportElement { token: *token, ty: *ty, status, rest };
    if *ty > 2 {
        return vec![report(3, Rest::Nothing)];
    }
    let mut events = Vec::new();
    for place in (0..log.len()).rev() {
        let event = &log[place];
        let meets = event.body.ty() == *ty && conditions.iter().all(|one| one.admits(event, &log[..=place]));
        if meets && events.len() < usize::from(*bound) {
            events.push(report(0, Rest::Event(EventTime::of(event, form), event.body.clone())));
        }
    }
    if events.is_empty() {
        events.push(report(0, Rest::Nothing));
    }
    events
}

#[test]
fn with_nothing_logged_after_acceptance_each_element_gives_the_newest_that_match() {
    let mut several_calls = 0;
    for index in 0..3000 {
        let random = &mut Random::new(1, 4, index);
        let form = random.pick(&[Form::Draft, Form::Published]);
        let console = Console { address: A, form: form.number() };
        let mut station = Station::setup(Rule::Elapsed, &IDENTITY, &[console]).1;
        for _ in 0..random.pick(&[0, 1, 5, 20, 64, 70, 100]) {
            let ty = random.pick(&[0, 0, 1, 2]);
            match log_record(random, ty, 60_000, 16, 0) {
                Record::Log { logging, .. } => station.log_transition(60_000, &logging),
                Record::LogRsna { logging, .. } => station.log_rsna(60_000, &logging),
                Record::LogPeerLink { logging, .. } => station.log_peer_link(60_000, &logging),
                _ => unreachable!("a logging"),
            }
            .expect("its time is good");
        }
        let octets = request_frame(random, Kind::Event, 7, Taste { faulty: 0, cancels: 0 });
        let Ok(request) = read_request(&octets) else { continue };
        let expected: Vec<_> =
            request.elements.iter().flat_map(|one| newest(one, station.log(), form)).collect();
        station.frame(60_000, &TO, &A, &octets).expect("the frame can be read");
        let (mut given, mut calls) = (Vec::new(), 0);
        loop {
            let mut buffer = vec![0; random.pick(&[260, 261, 300, 600, 2304, 4096])];
            match station.report(60_000, &A, Kind::Event, &mut buffer) {
                Ok((_, Some(frame))) => given.extend(frame.elements),
                _ => break,
            }
            calls += 1;
        }
        assert_eq!(given, expected, "log and request {index}");
        several_calls += usize::from(calls > 1);
    }
    assert!(several_calls > 100);
}
