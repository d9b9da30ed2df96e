//! How document 02's request (c) is read: elapsed time. A test for each agreed line.

use differential::clock::{Clock, Moment, Rule, TURN};
use differential::form::{draft, PublishedTime};
use differential::octets::{Address, Kind};
use differential::refusal::refusal;
use differential::station::{Answer, Logging, Station};
use differential::transition::Transition;

const A: Address = [2, 0, 0, 0, 0, 1];
const TO: Address = [2, 0, 0, 0, 0, 9];
const IDENTITY: [u8; 17] = [13, 3, 0xA, 0xB, 0xC, 11, 1, 65, 12, 1, 66, 14, 1, 67, 9, 1, 68];
const HALF: u32 = 2_147_483_648;

/// A station with the requester A.
fn station(rule: Rule) -> Station {
    Station::setup(rule, &IDENTITY, &[draft(A)]).1
}

/// Logs a transition.
fn log(station: &mut Station, reading: u32) {
    let transition = Transition { source: A, target: A, time: 0, reason: 1, result: 0, signal: [0; 4] };
    let logging =
        Logging { time: [255; 9], published: PublishedTime::default(), transition, departure: reading };
    assert_eq!(station.log_transition(reading, &logging), Ok(Answer::Accepted));
}

/// How many transitions come second, or later, within so many minutes, as a report of A has it.
fn frequent(station: &mut Station, reading: u32, minutes: u16) -> usize {
    let [low, high] = minutes.to_le_bytes();
    let ask = [10, 0, 7, 78, 8, 5, 0, 255, 4, 3, 1, low, high];
    assert_eq!(station.frame(reading, &TO, &A, &ask), Ok(Answer::Accepted));
    let mut buffer = [0; 2304];
    match station.report(reading, &A, Kind::Event, &mut buffer) {
        // The header, and elements of 35 octets; one of 5 where there is none.
        Ok((Answer::Length(length), _)) => length / 35,
        other => panic!("{other:?}"),
    }
}

/// A diagnostic request of A with this timeout.
fn ask(station: &mut Station, reading: u32, timeout: u16) {
    let [low, high] = timeout.to_le_bytes();
    let frame = [10, 2, 7, 80, 4, 5, 1, low, high];
    assert_eq!(station.frame(reading, &TO, &A, &frame), Ok(Answer::Accepted));
}

/// Whether a diagnostic of A waits to be reported.
fn waits(station: &mut Station, reading: u32) -> bool {
    let answer = station.report(reading, &A, Kind::Diagnostic, &mut [0; 260]);
    answer.expect("A is listed").0 != Answer::Nothing
}

/// The times of calls at these readings.
fn times(readings: &[u32]) -> Vec<Moment> {
    let mut clock = Clock::new(Rule::Elapsed);
    readings.iter().map(|reading| clock.call(*reading)).collect()
}

#[test]
fn the_first_call_is_at_zero_whatever_its_reading() {
    for reading in [0, 1, HALF, u32::MAX] {
        assert_eq!(times(&[reading]), [Moment::Elapsed(0)]);
        assert_eq!(times(&[reading, reading.wrapping_add(5)])[1], Moment::Elapsed(5));
    }
}

#[test]
fn time_advances_by_the_difference_from_the_call_before() {
    let elapsed = [0, 0, 16, TURN - 1 + 16, 2 * (TURN - 1) + 16, 2 * TURN + 15];
    let readings = [4_294_967_290, 4_294_967_290, 10, 9, 8, 9];
    assert_eq!(times(&readings), elapsed.map(Moment::Elapsed));
}

#[test]
fn true_times_less_than_a_turn_apart_are_elapsed_times() {
    let true_times: [u128; 6] =
        [5_000_000_000, 9_294_967_295, 9_294_967_295, 13_589_934_590, 13_589_934_591, 17_000_000_000];
    let readings = true_times.map(|time| (time % TURN) as u32);
    assert_eq!(times(&readings), true_times.map(|time| Moment::Elapsed(time - 5_000_000_000)));
}

#[test]
fn frequent_was_by_the_counter_and_is_by_elapsed_time() {
    for (rule, number) in [(Rule::Counter, 1), (Rule::Elapsed, 0)] {
        let mut station = station(rule);
        log(&mut station, 0);
        station.clock(HALF).expect("a clock reading is accepted");
        log(&mut station, 60_000);
        assert_eq!(frequent(&mut station, 60_000, 1), number);
    }
}

#[test]
fn lateness_was_by_the_counter_and_is_by_elapsed_time() {
    for (rule, alive) in [(Rule::Counter, true), (Rule::Elapsed, false)] {
        let mut station = station(rule);
        ask(&mut station, 0, 65_535);
        station.clock(65_535_000).expect("a clock reading is accepted");
        assert_eq!(waits(&mut station, 1000), alive);
    }
}

#[test]
fn refused_calls_advance_the_time() {
    let mut station = station(Rule::Elapsed);
    log(&mut station, 0);
    assert_eq!(station.change_network(HALF, &[]), Err(refusal(15, 0)));
    log(&mut station, 60_000);
    assert_eq!(frequent(&mut station, 60_000, 1), 0);
    assert_eq!(station.elapsed(), TURN + 60_000);
}

#[test]
fn moves_and_network_changes_keep_the_time() {
    let mut station = station(Rule::Elapsed);
    log(&mut station, 0);
    assert_eq!(station.roam(HALF, &[draft(A)]), Ok(Answer::Accepted));
    log(&mut station, 60_000);
    assert_eq!(frequent(&mut station, 60_000, 1), 0);
    assert_eq!(station.change_network(60_000, &[draft(A)]), Ok(Answer::Accepted));
    assert_eq!(station.elapsed(), TURN + 60_000);
    log(&mut station, 60_001);
    log(&mut station, 120_001);
    assert_eq!(frequent(&mut station, 120_001, 1), 1);
    assert_eq!(station.elapsed(), TURN + 120_001);
}

#[test]
fn the_consoleless_gate_keeps_time() {
    let mut station = Station::setup(Rule::Elapsed, &[], &[]).1;
    for reading in [7, HALF, 6] {
        assert_eq!(station.clock(reading), Ok(Answer::Accepted));
    }
    assert_eq!(station.change_network(8, &[draft(A)]), Err(refusal(16, 0)));
    assert_eq!(station.elapsed(), TURN + 1);
}

#[test]
fn the_longest_age_taken_is_what_was_asked_for() {
    let mut station = station(Rule::Elapsed);
    log(&mut station, 0);
    station.clock(HALF).expect("a clock reading is accepted");
    log(&mut station, 0);
    // No diagnostic waits and no frequent condition is asked: no age is taken.
    assert_eq!(station.longest_age(), 0);
    ask(&mut station, 1, 2);
    station.clock(2001).expect("a clock reading is accepted");
    assert_eq!(station.longest_age(), 2000);
    frequent(&mut station, 2001, 1);
    assert_eq!(station.longest_age(), TURN);
    assert_eq!(station.elapsed(), TURN + 2001);
}
