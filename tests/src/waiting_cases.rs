//! Cases of document 02's request (e): requests that take as many report calls as can be, with what is printed
//! worked out by hand.
//!
//! A report call is lent 260 octets or more. The longest report of an event is that of an RSNA event with an EAP
//! method of 8 octets and an RSN element: 55 octets in form 0, 69 in form 1. So in form 0 any four reports fit behind
//! the header, 3 + 4 * 55 = 223, and a fifth of these does not, 278: a frame that leaves something has four reports or
//! more. Eight elements of 64 events are 512 reports, so the most frames are 512 / 4 = 128. In form 1 it is three, 3 +
//! 3 * 69 = 210, and a fourth does not fit, 279; 512 reports are 170 frames of three and one of two. Shorter events
//! need fewer: of transitions seven fit in form 0, of peer links nine. Loggings make it fewer too: they add nothing,
//! and each drops an event that an element may not have given yet; if it was the last one, a bare header takes its
//! frame's place. Of diagnostics, the longest report is an identity of 252 octets: 257 octets, of which one fits, 3 +
//! 257 = 260.

use crate::cases::{frame, setup_of, Case, CONSOLE};
use crate::form::{draft, published};
use crate::kind_cases::{octets_of, rsna, EXPANDED, RSN};
use crate::make_identity::STATION;
use crate::octets::{Address, Kind};
use crate::rsna::RsnaLogging;
use crate::script::{request, Script, LEAST};
use crate::trace::{hexadecimal, Record};

/// More report calls than a request may take: a request that is never over would show.
const EVENT_CALLS: usize = 520;
const DIAGNOSTIC_CALLS: usize = 20;
/// A second requester.
const OTHER: Address = [2, 0, 0, 0, 0, 2];

/// Logs long RSNA events with these numbers as their results.
fn log_long(script: Script, numbers: impl IntoIterator<Item = u8>) -> Script {
    let logging = |number: u8| RsnaLogging { result: number, ..rsna(EXPANDED, &RSN) };
    let record = |number: u8| Record::LogRsna { reading: 10, logging: logging(number) };
    numbers.into_iter().fold(script, |script, number| script.accepted(record(number)))
}

/// The report elements of such events, in hexadecimal, each given by its element's token and its number.
fn long_elements(events: &[(u8, u8)]) -> Vec<String> {
    let element = |(token, number): &(u8, u8)| {
        format!(
            "4f35{token:02x}0100e7033a3b171f0cea07020101010102000fac01fe0050c201020304{number:02x}\
             30140100000fac040100000fac040100000fac010000"
        )
    };
    events.iter().map(element).collect()
}

/// The frame of eight elements for all RSNA events.
fn eight_elements() -> Vec<u8> {
    request(7, &[1, 2, 3, 4, 5, 6, 7, 8].map(|token| [token, 1, 255]))
}

/// A full log of long events, and the request.
fn asked(script: Script) -> Script {
    log_long(script, 1..=64).take(&eight_elements())
}

/// What the eight elements give in all, the first down to the first of these numbers, and so on.
fn down_to(oldest: [u8; 8]) -> Vec<(u8, u8)> {
    (1..=8)
        .zip(oldest)
        .flat_map(|(token, last)| (last..=64).rev().map(move |number| (token, number)))
        .collect()
}

/// The report calls that are left find nothing.
fn over(script: Script, calls: usize) -> Script {
    (0..calls).fold(script, |script, _| script.over())
}

/// 128 frames of four events each, sixteen to an element.
fn longest_wait() -> Case {
    let events = down_to([1; 8]);
    let frames = events.chunks(4).map(long_elements);
    let script = frames.fold(asked(Script::start()), |script, four| script.gives(LEAST, &[four]));
    over(script, EVENT_CALLS - 128).case("an event request of 128 frames")
}

/// The same of a console of form 1: 170 frames of three events each, and one of two.
fn longest_published_wait() -> Case {
    let in_published = |element: String| {
        let time = "a1a2a3a4a5a6a7a8b1b2b3b4b5b6b7b8b9bac1c2c3c4c5";
        element.replace("4f35", "4f43").replace("e7033a3b171f0cea07", time)
    };
    let events = down_to([1; 8]);
    let frames = events.chunks(3).map(|three| long_elements(three).into_iter().map(in_published).collect());
    let start = Script::set_up(setup_of(&[published(CONSOLE)]));
    let script = frames.fold(asked(start), |script, three: Vec<String>| script.gives(LEAST, &[three]));
    over(script, EVENT_CALLS - 171).case("an event request of 171 frames")
}

/// In form 0 with the last four events dropped before the last call, which gives a bare header: 128 as well.
fn bare_header_last() -> Case {
    let events = down_to([1, 1, 1, 1, 1, 1, 1, 5]);
    let frames = events.chunks(4).map(long_elements);
    let script = frames.fold(asked(Script::start()), |script, four| script.gives(LEAST, &[four]));
    let script = log_long(script, 65..=68).gives(LEAST, &[]);
    over(script, EVENT_CALLS - 128).case("an event request of 127 frames and a bare header")
}

/// One event logged behind each call. The i-th report is in frame i / 4, rounded up, and before a frame as many
/// events are dropped as there were frames before it: so the first element ends with 13, its 52nd, in frame 13,
/// behind 12 drops; the second with 24, its 41st and the 93rd of all, in frame 24, behind 23; and so on. In all 52 +
/// 41 + 33 + 26 + 21 + 17 + 14 + 11 = 215 reports, 54 frames.
fn logged_meanwhile() -> Case {
    let events = down_to([13, 24, 32, 39, 44, 48, 51, 54]);
    let mut script = asked(Script::start());
    for (number, four) in (65..).zip(events.chunks(4)) {
        script = log_long(script.gives(LEAST, &[long_elements(four)]), [number]);
    }
    over(script, EVENT_CALLS - 54).case("an event request of 54 frames, one logged behind each")
}

/// The longest wait, with other calls behind each frame, none of which counts: a report call that is refused, a
/// frame with an equal token, a diagnostic of the same console and its report, a request of another console and its
/// bare header.
fn undisturbed() -> Case {
    let two = setup_of(&[draft(CONSOLE), draft(OTHER)]);
    let empty = request(9, &[]);
    let from_other = Record::Frame { reading: 10, destination: STATION, source: OTHER, octets: empty };
    // Type 2 is Incapable.
    let diagnostic = frame(10, &[0x0A, 2, 8, 0x50, 4, 5, 2, 9, 0]);
    let mut script = asked(Script::set_up(two));
    for four in down_to([1; 8]).chunks(4) {
        script = script
            .gives(LEAST, &[long_elements(four)])
            .report(CONSOLE, Kind::Event, LEAST - 1, "refused 13 at 0", "")
            .accepted(frame(10, &eight_elements()))
            .accepted(diagnostic.clone())
            .report(CONSOLE, Kind::Diagnostic, LEAST, "length 8", "0a03085103050203")
            .accepted(from_other.clone())
            .gives_to(OTHER, 9, LEAST, &[]);
    }
    // The frame with an equal token behind the last one opened a request anew.
    script
        .gives(LEAST, &[long_elements(&[(1, 64), (1, 63), (1, 62), (1, 61)])])
        .case("128 frames, other calls between them")
}

/// Eight elements that have no event to give: one frame of eight reports of length 3.
fn shortest_wait() -> Case {
    let none = (1..=8).map(|token| format!("4f03{token:02x}0100")).collect();
    let script = Script::start().take(&eight_elements()).gives(LEAST, &[none]);
    over(script, EVENT_CALLS - 1).case("an event request of one frame")
}

/// Eight diagnostics with an identity of 252 octets: subelement 11 has 236.
fn longest_diagnostic_wait() -> Case {
    let identity = octets_of(&format!("0d030102030bec{}0c01010e0101090101", "07".repeat(236)));
    let elements = (1..=8).flat_map(|token| [0x50, 4, token, 1, 9, 0]);
    let ask: Vec<u8> = [0x0A, 2, 7].into_iter().chain(elements).collect();
    let octets = hexadecimal(&identity);
    let mut script = Script::set_up(Record::Setup { identity, list: vec![draft(CONSOLE)] }).take(&ask);
    for token in 1..=8 {
        let frame = format!("0a030751ff{token:02x}0100{octets}");
        script = script.report(CONSOLE, Kind::Diagnostic, LEAST, "length 260", &frame);
    }
    let nothing = |script: Script, _| script.report(CONSOLE, Kind::Diagnostic, LEAST, "nothing", "");
    (8..DIAGNOSTIC_CALLS).fold(script, nothing).case("a diagnostic request of 8 frames")
}

/// Every case, and the frames of its first request.
pub fn waiting_cases() -> Vec<(Case, usize)> {
    vec![
        (longest_wait(), 128),
        (longest_published_wait(), 171),
        (bare_header_last(), 128),
        (logged_meanwhile(), 54),
        (undisturbed(), 128),
        (shortest_wait(), 1),
        (longest_diagnostic_wait(), 8),
    ]
}
