//! Cases of document 02's request (c), with what is printed worked out by hand from the papers.

use crate::cases::{event_element, frame, logging, nothing, report, reported, setup, trace, Case, CONSOLE};
use crate::form::draft;
use crate::make_identity::STATION;
use crate::octets::Kind;
use crate::station::Logging;
use crate::trace::Record;

/// Half a turn of the counter.
const HALF: u32 = 2_147_483_648;
/// A minute, the interval of the cases.
const MINUTE: u32 = 60_000;
/// 65,535 minutes, the longest interval: 45.5 days, and less than a turn.
const LONGEST: u32 = 3_932_100_000;
/// What a request is answered where no event meets its conditions.
const NONE: &str = "0a01074f03050000";

/// A request for transitions that come second, or later, within so many minutes.
fn ask_frequent(minutes: u16) -> [u8; 13] {
    let [low, high] = minutes.to_le_bytes();
    [0x0A, 0, 7, 0x4E, 8, 5, 0, 9, 4, 3, 1, low, high]
}

/// A diagnostic request for type 2, which is Incapable, with this timeout in seconds.
fn ask_diagnostic(reading: u32, timeout: u16) -> Record {
    let [low, high] = timeout.to_le_bytes();
    frame(reading, &[0x0A, 2, 7, 0x50, 4, 5, 2, low, high])
}

/// A bare clock reading.
fn clock(reading: u32) -> Record {
    Record::Clock { reading }
}

/// A station, these calls, each accepted, and a report call with this answer.
fn case(title: &'static str, calls: &[Record], last: Record, answer: String) -> Case {
    let records = [&[setup()], calls, &[last]].concat();
    Case { title, input: trace(&records), printed: "accepted\n".repeat(1 + calls.len()) + &answer }
}

/// Two transitions of 0 and of 1 TU with these calls between them, then a request for frequent ones.
fn pair(title: &'static str, first: u32, between: &[Record], second: u32, minutes: u16, given: &str) -> Case {
    let calls = [
        &[logging(first, first)],
        between,
        &[logging(second, second.wrapping_sub(2)), frame(second, &ask_frequent(minutes))],
    ]
    .concat();
    case(title, &calls, report(second, Kind::Event), reported(given))
}

/// A diagnostic with timeout 2 s, accepted at 1,000, still waiting at the call 2 s later, which is `between`;
/// then the reading of a report call.
fn waiting(title: &'static str, between: Record, later: u32, answer: String) -> Case {
    case(title, &[ask_diagnostic(1000, 2), between], report(later, Kind::Diagnostic), answer)
}

/// The request's own case, its counterpart for a timeout, and what is near them.
fn stored_gate() -> Vec<Case> {
    let second = format!("0a0107{}", event_element(1));
    let half_a_turn = [clock(HALF)];
    vec![
        pair("stored: a turn and a minute apart, a minute", 0, &half_a_turn, MINUTE, 1, NONE),
        pair("stored: a turn apart, a minute", 0, &half_a_turn, 0, 1, NONE),
        pair("stored: a turn and a minute apart, 65,535", 0, &half_a_turn, MINUTE, 65_535, NONE),
        pair("a turn less a minute apart, a minute", MINUTE, &half_a_turn, 0, 1, NONE),
        pair("stored: four turns apart", 9, &[clock(8), clock(7), clock(6), clock(5)], 9, 1, NONE),
        pair("a minute apart", 0, &[clock(MINUTE / 2)], MINUTE, 1, &second),
        pair("a minute apart across the rollover", 4_294_967_290, &[clock(3)], 59_994, 1, &second),
        pair("a minute and 1 ms apart", 4_294_967_290, &[clock(3)], 59_995, 1, NONE),
        pair("65,535 minutes apart, 65,535", 0, &half_a_turn, LONGEST, 65_535, &second),
        pair("65,535 minutes and 1 ms apart, 65,535", 0, &half_a_turn, LONGEST + 1, 65_535, NONE),
        pair("back by one is a turn less one", 10, &[], 9, 65_535, NONE),
        pair("the same reading", 10, &[clock(10)], 10, 0, &second),
        waiting("stored: timeout 2 s, a turn later", clock(3000), 1000, nothing()),
        waiting("stored: timeout 2 s, a turn and 2 s less 1 ms later", clock(3000), 2999, nothing()),
        waiting("timeout 2 s, alive", clock(2999), 3000, reported("0a03075103050203")),
        waiting("timeout 2 s, back by one", clock(3000), 2999, nothing()),
        case(
            "stored: timeout 65,535 s, a turn and a second later",
            &[ask_diagnostic(0, 65_535), clock(65_535_000)],
            report(1000, Kind::Diagnostic),
            nothing(),
        ),
        case(
            "timeout 65,535 s, alive",
            &[ask_diagnostic(4_294_967_295, 65_535), clock(65_534_998)],
            report(65_534_999, Kind::Diagnostic),
            reported("0a03075103050203"),
        ),
    ]
}

/// Calls that are refused, each with its answer.
fn refused(reading: u32) -> Vec<(Record, &'static str)> {
    let unlisted = [2, 0, 0, 0, 0, 6];
    let Record::Log { logging, .. } = logging(reading, reading) else { unreachable!("a logging") };
    let wrong_time = Logging { time: [0; 9], ..logging };
    let to = |destination, source| Record::Frame { reading, destination, source, octets: vec![0x0A, 0, 0] };
    let lent = |console| Record::Report { reading, console, kind: Kind::Event, buffer: 0, fill: 0 };
    vec![
        (Record::Log { reading, logging: wrong_time }, "refused 14 at 0\n"),
        (to([255; 6], CONSOLE), "refused 11 at 0\n"),
        (to(STATION, unlisted), "refused 12 at 0\n"),
        (to(STATION, CONSOLE), "refused 3 at 0\n"),
        (lent(unlisted), "refused 12 at 0\nbuffer \n"),
        (lent(CONSOLE), "refused 13 at 0\nbuffer \n"),
        (Record::Roam { reading, list: Vec::new() }, "refused 15 at 0\n"),
        (Record::Change { reading, list: Vec::new() }, "refused 15 at 0\n"),
    ]
}

/// A refused call in the place of the bare clock reading: the time goes on all the same.
fn refused_calls() -> Vec<Case> {
    let stored = refused(HALF).into_iter().map(|(call, answer)| {
        let records = [
            setup(),
            logging(0, 0),
            call,
            logging(MINUTE, MINUTE - 2),
            frame(MINUTE, &ask_frequent(1)),
            report(MINUTE, Kind::Event),
        ];
        let printed = format!("accepted\naccepted\n{answer}accepted\naccepted\n{}", reported(NONE));
        Case { title: "stored: a refused call between them", input: trace(&records), printed }
    });
    let late = refused(2500).into_iter().map(|(call, answer)| {
        let records = [setup(), ask_diagnostic(1000, 2), call, report(3001, Kind::Diagnostic)];
        let printed = format!("accepted\naccepted\n{answer}{}", nothing());
        Case { title: "timeout 2 s, a refused call before it is over", input: trace(&records), printed }
    });
    stored.chain(late).collect()
}

/// Moves, network changes, setups and transition times.
fn time_that_is_kept() -> Vec<Case> {
    let list = || vec![draft(CONSOLE)];
    let roam = |reading| Record::Roam { reading, list: list() };
    let change = |reading| Record::Change { reading, list: list() };
    let second = format!("0a0107{}", event_element(1));
    vec![
        pair("stored: a move between them", 0, &[roam(HALF)], MINUTE, 1, NONE),
        pair("a move between them, a minute apart", 0, &[roam(MINUTE / 2)], MINUTE, 1, &second),
        case(
            "a network change, then a minute apart",
            &[
                logging(0, 0),
                clock(HALF),
                change(7),
                logging(8, 8),
                logging(8 + MINUTE, 6 + MINUTE),
                frame(8 + MINUTE, &ask_frequent(1)),
            ],
            report(8 + MINUTE, Kind::Event),
            reported(&second),
        ),
        case(
            "a setup, then a minute apart",
            &[
                logging(0, 0),
                clock(HALF),
                setup(),
                logging(MINUTE, MINUTE),
                logging(2 * MINUTE, 2 * MINUTE - 2),
                frame(2 * MINUTE, &ask_frequent(1)),
            ],
            report(2 * MINUTE, Kind::Event),
            reported(&second),
        ),
        case(
            "the first call is a diagnostic's, at any reading",
            &[ask_diagnostic(4_294_967_295, 2)],
            report(1999, Kind::Diagnostic),
            reported("0a03075103050203"),
        ),
        case(
            "a transition's time is that between its two readings, after turns",
            &[
                clock(4_000_000_000),
                clock(3_999_999_999),
                clock(3_999_999_998),
                logging(10, 4_294_967_290),
                frame(10, &[0x0A, 0, 7, 0x4E, 3, 5, 0, 4]),
            ],
            report(10, Kind::Event),
            reported(&format!("0a0107{}", event_element(15))),
        ),
        case(
            "a departure after its arrival is a turn less one before it",
            &[logging(10, 11), frame(10, &[0x0A, 0, 7, 0x4E, 3, 5, 0, 4])],
            report(10, Kind::Event),
            reported(&format!("0a0107{}", event_element(65_535))),
        ),
    ]
}

/// All of them.
pub fn clock_cases() -> Vec<Case> {
    [stored_gate(), refused_calls(), time_that_is_kept()].concat()
}
