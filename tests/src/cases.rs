//! Document 01's own cases, with what is printed worked out by hand from the paper; and traces at the
//! limits of what `replay` reads.

use crate::form::{draft, Console, PublishedTime};
use crate::make_events::BSSIDS;
use crate::make_identity::STATION;
use crate::octets::{Address, Kind};
use crate::station::Logging;
use crate::trace::{write_record, Record, LONGEST_TRACE};
use crate::transition::Transition;

/// Input to one of the programs.
#[derive(Clone)]
pub enum Input {
    Frame(Vec<u8>),
    Report(Vec<u8>),
    Trace(Vec<Vec<u8>>),
    /// A question's fields and a trace's records, for `explain`.
    Explain(Vec<u8>, Vec<Vec<u8>>),
}

/// A case of the paper.
#[derive(Clone)]
pub struct Case {
    pub title: &'static str,
    pub input: Input,
    pub printed: String,
}

/// The only requester of the cases.
pub const CONSOLE: Address = [2, 0, 0, 0, 0, 1];
/// 13 with 3 octets, then 11, 12, 14 and 9 with one each.
pub const IDENTITY: [u8; 17] = [13, 3, 0xA, 0xB, 0xC, 11, 1, 65, 12, 1, 66, 14, 1, 67, 9, 1, 68];
/// The program's example.
pub const EXAMPLE: [u8; 11] = [0x0A, 0, 7, 0x4E, 6, 5, 0, 4, 3, 1, 1];

/// A station with one requester, of form 0.
pub fn setup() -> Record {
    setup_of(&[draft(CONSOLE)])
}

/// A station with these requesters.
pub fn setup_of(list: &[Console]) -> Record {
    Record::Setup { identity: IDENTITY.to_vec(), list: list.to_vec() }
}

/// A logging with result 0 and every other field given a value of its own.
pub fn logging(reading: u32, departure: u32) -> Record {
    let transition = Transition {
        source: BSSIDS[0],
        target: BSSIDS[1],
        time: 0,
        reason: 0x21,
        result: 0,
        signal: [0x31, 0x32, 0x33, 0x34],
    };
    Record::Log { reading, logging: Logging { time: TIME, published: PUBLISHED, transition, departure } }
}

/// 2026-12-31 23:59:58.999.
pub const TIME: [u8; 9] = [0xE7, 3, 58, 59, 23, 31, 12, 0xEA, 7];
/// The published time fields, every octet with a value of its own.
pub const PUBLISHED: PublishedTime = PublishedTime {
    tsf: [0xA1, 0xA2, 0xA3, 0xA4, 0xA5, 0xA6, 0xA7, 0xA8],
    offset: [0xB1, 0xB2, 0xB3, 0xB4, 0xB5, 0xB6, 0xB7, 0xB8, 0xB9, 0xBA],
    error: [0xC1, 0xC2, 0xC3, 0xC4, 0xC5],
};

/// A frame from the requester.
pub fn frame(reading: u32, octets: &[u8]) -> Record {
    Record::Frame { reading, destination: STATION, source: CONSOLE, octets: octets.to_vec() }
}

/// A report call with a buffer of 2,304 octets of EE.
pub fn report(reading: u32, kind: Kind) -> Record {
    Record::Report { reading, console: CONSOLE, kind, buffer: 2304, fill: 0xEE }
}

/// The two lines of a report call, for a frame given in hexadecimal.
pub fn reported(frame: &str) -> String {
    let octets = frame.len() / 2;
    format!("length {octets}\nbuffer {frame}{}\n", "ee".repeat(2304 - octets))
}

/// The two lines of a report call that finds nothing outstanding.
pub fn nothing() -> String {
    format!("nothing\nbuffer {}\n", "ee".repeat(2304))
}

/// An event's 35 octets for event token 5, in hexadecimal, with this transition time.
pub fn event_element(transition_time: u16) -> String {
    let [low, high] = transition_time.to_le_bytes();
    format!("4f21050000e7033a3b171f0cea07020101010101020101010102{low:02x}{high:02x}21000031323334")
}

/// The records' octets.
pub fn trace(records: &[Record]) -> Input {
    Input::Trace(records.iter().map(write_record).collect())
}

/// A frame for the program `frame`.
pub fn frame_case(title: &'static str, octets: &[u8], printed: &str) -> Case {
    Case { title, input: Input::Frame(octets.to_vec()), printed: printed.to_string() }
}

/// One event, one request for all events with up to four given, one report.
fn age_case(title: &'static str, departure: u32, arrival: u32, time_units: u16) -> Case {
    let ask = [0x0A, 0, 7, 0x4E, 3, 5, 0, 4];
    let records = [setup(), logging(arrival, departure), frame(arrival, &ask), report(arrival, Kind::Event)];
    let given = reported(&format!("0a0107{}", event_element(time_units)));
    Case { title, input: trace(&records), printed: format!("accepted\naccepted\naccepted\n{given}") }
}

/// The same with a threshold of this many TUs.
fn threshold_case(title: &'static str, threshold: u8, answer: &str) -> Case {
    let ask = [0x0A, 0, 7, 0x4E, 7, 5, 0, 4, 2, 2, threshold, 0];
    let records = [setup(), logging(10, 4_294_967_290), frame(10, &ask), report(10, Kind::Event)];
    Case {
        title,
        input: trace(&records),
        printed: format!("accepted\naccepted\naccepted\n{}", reported(answer)),
    }
}

/// A diagnostic accepted at 4,294,966,000 with timeout 2 s, and a report call later.
fn timeout_case(title: &'static str, later: u32, answer: String) -> Case {
    let ask = [0x0A, 2, 7, 0x50, 4, 5, 2, 2, 0];
    let records = [setup(), frame(4_294_966_000, &ask), report(later, Kind::Diagnostic)];
    Case { title, input: trace(&records), printed: format!("accepted\naccepted\n{answer}") }
}

/// "Rollover and edge cases", and the program's example.
pub fn cases() -> Vec<Case> {
    let example = "frame 0 dialog 7 elements 1\nelement 78 token 5 type 0 limit 4 subs 1\n";
    let token_0 = [0x0A, 0, 7, 0x4E, 6, 0, 0, 4, 3, 1, 1];
    let wrong_length = [0x0A, 0, 7, 0x4E, 6, 5, 0, 4, 3, 2, 1];
    let fifteen = format!("0a0107{}", event_element(15));
    let on_empty_log = [setup(), frame(0, &EXAMPLE), report(0, Kind::Event)];
    let frequent = [
        setup(),
        logging(0, 0),
        logging(60_000, 60_000 - 2),
        logging(120_001, 120_001 - 16),
        frame(120_001, &[0x0A, 0, 7, 0x4E, 8, 5, 0, 9, 4, 3, 1, 1, 0]),
        report(120_001, Kind::Event),
    ];
    let second_only = reported(&format!("0a0107{}", event_element(1)));
    vec![
        frame_case("the program's example", &EXAMPLE, example),
        age_case("departure 4,294,967,290, arrival 10: 15 TU", 4_294_967_290, 10, 15),
        age_case("age 1 ms: 0 TU", 100, 101, 0),
        age_case("age 2 ms: 1 TU", 4_294_967_295, 1, 1),
        age_case("67,107 ms: 65,534", 0, 67_107, 65_534),
        age_case("67,108 ms: 65,535", 0, 67_108, 65_535),
        age_case("67,109 ms: 65,535", 4_294_967_295, 67_108, 65_535),
        frame_case("event token 0: 6 at 3", &token_0, "refused 6 at 3\n"),
        frame_case("body of 2: 5 at 3", &[0x0A, 0, 7, 0x4E, 2, 5, 0], "refused 5 at 3\n"),
        frame_case("wrong length: 7 at 8", &wrong_length, "refused 7 at 8\n"),
        frame_case("no diagnostic: 10 at 0", &[0x0A, 2, 7], "refused 10 at 0\n"),
        frame_case("dialog token 0: 3 at 0", &[0x0A, 0, 0], "refused 3 at 0\n"),
        timeout_case("timeout 2 s: alive at 704", 704, reported("0a03075103050203")),
        timeout_case("timeout 2 s: dropped at 705", 705, nothing()),
        threshold_case("15 TU meets threshold 15", 15, &fifteen),
        threshold_case("15 TU fails threshold 16", 16, "0a01074f03050000"),
        Case {
            title: "the example on an empty log",
            input: trace(&on_empty_log),
            printed: format!("accepted\naccepted\n{}", reported("0a01074f03050000")),
        },
        Case {
            title: "only the second is frequent",
            input: trace(&frequent),
            printed: format!("{}{second_only}", "accepted\n".repeat(5)),
        },
        Case {
            title: "the frequent one, read by the console's side",
            input: Input::Report([&[0], &STATION[..], &event_report()].concat()),
            printed: format!(
                "report 1 dialog 7 elements 1\nelement 79 token 5 type 0 status 0 time 2026-12-31 \
                 23:59:58.999 source 02:01:01:01:01:01 target 02:01:01:01:01:02 transition 1 reason 33 \
                 result 0 source-rcpi {} source-rsni {} target-rcpi {} target-rsni {}\n",
                0x31, 0x32, 0x33, 0x34
            ),
        },
    ]
}

/// The frame that the last two cases share: one event of 1 TU.
fn event_report() -> Vec<u8> {
    let mut octets = vec![0x0A, 1, 7, 0x4F, 33, 5, 0, 0];
    octets.extend(TIME);
    octets.extend(BSSIDS[0]);
    octets.extend(BSSIDS[1]);
    octets.extend([1, 0, 0x21, 0, 0, 0x31, 0x32, 0x33, 0x34]);
    octets
}

/// Empty and over-long input, each call before any setup, and traces as long as a trace may be.
pub fn limits() -> Vec<Input> {
    let clock = write_record(&Record::Clock { reading: 0 });
    let read = |octets: usize| {
        write_record(&Record::Read { form: 0, destination: STATION, octets: vec![0; octets] })
    };
    // Records of 10 octets and their frames, 262,144 octets in all.
    let mut longest: Vec<Vec<u8>> = (0..63).map(|_| read(4096)).collect();
    let left = LONGEST_TRACE - longest.concat().len();
    longest.push(read(left - 10));
    let mut one_more = longest.clone();
    one_more.push(vec![1]);
    let mut cut_by_the_limit = longest.clone();
    cut_by_the_limit.insert(0, clock.clone());
    let mut whole_record_more = longest.clone();
    whole_record_more.push(clock);
    let before_setup = [
        report(0, Kind::Event),
        logging(5, 5),
        frame(6, &EXAMPLE),
        Record::Roam { reading: 7, list: Vec::new() },
        Record::Roam { reading: 7, list: vec![draft(CONSOLE)] },
        Record::Change { reading: 8, list: vec![draft(STATION)] },
        frame(9, &EXAMPLE),
    ];
    let at_most = |length: usize| [vec![10, 0, 7, 0xDD, 255], vec![0; length - 5]].concat();
    vec![
        Input::Frame(Vec::new()),
        Input::Frame(at_most(2304)),
        Input::Frame(at_most(2305)),
        Input::Frame(vec![10; 70_000]),
        Input::Report([&[0], &STATION[..], &[10, 3, 0]].concat()),
        Input::Report([&[1], &STATION[..], &vec![10; 2305]].concat()),
        Input::Report([&[1; 7][..], &vec![10; 70_000]].concat()),
        Input::Trace(Vec::new()),
        trace(&before_setup),
        Input::Trace(longest),
        Input::Trace(one_more),
        Input::Trace(cut_by_the_limit),
        Input::Trace(whole_record_more),
    ]
}
