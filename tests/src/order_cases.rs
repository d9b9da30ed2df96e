//! Cases of document 02's request (d), newest first, with what is printed worked out by hand from the papers.

use crate::cases::{setup_of, Case, CONSOLE};
use crate::form::draft;
use crate::make_identity::STATION;
use crate::octets::Address;
use crate::script::{elements, numbered, request, transition, Script, LEAST};
use crate::trace::Record;
use std::ops::RangeInclusive;

/// The longest frame: 64 transitions have 3 + 64 * 35 = 2,243.
const LONGEST: usize = 2304;
/// A second requester.
const OTHER: Address = [2, 0, 0, 0, 0, 2];

/// The same with some octets replaced by others.
fn replaced(elements: Vec<String>, old: &str, new: &str) -> Vec<String> {
    elements.iter().map(|element| element.replace(old, new)).collect()
}

/// "a limit of 3 now gives the latest three that match, or all if fewer", and what was logged after acceptance is
/// not among them.
fn limits_of_a_kind(ty: u8) -> Vec<Case> {
    let given = |numbers: &[u8]| [elements(5, ty, numbers.to_vec())];
    let three = [[5, ty, 3]];
    let no_event = [vec![format!("4f0305{ty:02x}00")]];
    vec![
        Script::start().log(ty, 1..=5).ask(&three).gives(LEAST, &given(&[5, 4, 3])).over().case("3 of five"),
        Script::start().log(ty, 1..=3).ask(&three).gives(LEAST, &given(&[3, 2, 1])).over().case("3 of three"),
        Script::start().log(ty, 1..=2).ask(&three).gives(LEAST, &given(&[2, 1])).over().case("3 of two"),
        Script::start().log(ty, 1..=1).ask(&three).gives(LEAST, &given(&[1])).over().case("3 of one"),
        Script::start().ask(&three).gives(LEAST, &no_event).over().case("3 of none"),
        Script::start().log(ty, 1..=5).ask(&[[5, ty, 1]]).gives(LEAST, &given(&[5])).over().case("1 of five"),
        Script::start().log(ty, 1..=5).ask(&[[5, ty, 0]]).gives(LEAST, &no_event).over().case("0 of five"),
        Script::start()
            .log(ty, 1..=2)
            .ask(&three)
            .log(ty, 3..=9)
            .gives(LEAST, &given(&[2, 1]))
            .over()
            .case("3 of two, seven logged after acceptance"),
        Script::start()
            .ask(&three)
            .log(ty, 1..=1)
            .gives(LEAST, &no_event)
            .over()
            .case("3 of none, one logged after acceptance"),
    ]
}

/// "The search goes down": one element over as many calls as it takes, so many to a frame.
fn resumed(ty: u8, frames: [&[u8]; 3]) -> Case {
    let script = Script::start().log(ty, 1..=20).ask(&[[5, ty, 255]]);
    let given = |script: Script, numbers: &[u8]| script.gives(LEAST, &[elements(5, ty, numbers.to_vec())]);
    frames.into_iter().fold(script, given).over().case("twenty over three calls")
}

/// The same of a full log, with two logged, so the two oldest dropped, behind each call: each call goes on below
/// what was given, and the end comes where the log begins.
fn resumed_with_drops(ty: u8, frames: &[RangeInclusive<u8>]) -> Case {
    let mut script = Script::start().log(ty, 1..=64).ask(&[[5, ty, 255]]);
    for (index, numbers) in frames.iter().enumerate() {
        let later = 65 + 2 * index as u8;
        let given = elements(5, ty, numbers.clone().rev());
        script = script.gives(LEAST, &[given]).log(ty, later..=later + 1);
    }
    script.over().case("sixty-four, two dropped behind each call")
}

/// One element behind the other: each starts at the newest logged before acceptance.
fn elements_of_a_kind(ty: u8) -> Vec<Case> {
    let given = |token: u8, numbers: &[u8]| elements(token, ty, numbers.to_vec());
    vec![
        Script::start()
            .log(ty, 1..=3)
            .ask(&[[5, ty, 2], [6, ty, 255], [7, ty, 1]])
            .gives(LONGEST, &[given(5, &[3, 2]), given(6, &[3, 2, 1]), given(7, &[3])])
            .over()
            .case("elements of one type"),
        // Another type between them, and one logged after acceptance.
        Script::start()
            .log(ty, 1..=3)
            .ask(&[[5, ty, 255], [6, 9, 1], [7, ty, 2]])
            .log(ty, 4..=4)
            .gives(LONGEST, &[given(5, &[3, 2, 1]), vec!["4f03060903".to_string()], given(7, &[3, 2])])
            .over()
            .case("elements of one type around an Incapable"),
    ]
}

/// A full log of transitions and two elements: the first fills a frame, then one event is logged, so the oldest is
/// dropped. The second starts at what was the newest at acceptance.
fn next_element_after_a_drop() -> Case {
    Script::start()
        .log(0, 1..=64)
        .ask(&[[5, 0, 7], [6, 0, 2]])
        .gives(LEAST, &[elements(5, 0, (58..=64).rev())])
        .log(0, 65..=65)
        .gives(LEAST, &[elements(6, 0, [64, 63])])
        .over()
        .case("the next element after a drop")
}

/// 64 to 58 are given. With 56 dropped, 57 is left; with 57, none, and the last frame is a bare header.
fn rest_dropped() -> Vec<Case> {
    let first = || {
        let script = Script::start().log(0, 1..=64).ask(&[[5, 0, 255]]);
        script.gives(LEAST, &[elements(5, 0, (58..=64).rev())])
    };
    vec![
        first().log(0, 65..=120).gives(LEAST, &[elements(5, 0, [57])]).over().case("all but one dropped"),
        first().log(0, 65..=121).gives(LEAST, &[]).over().case("the rest dropped"),
        // The same, and another element: it starts at the newest that is left of those before acceptance.
        Script::start()
            .log(0, 1..=64)
            .ask(&[[5, 0, 255], [6, 0, 3]])
            .gives(LEAST, &[elements(5, 0, (58..=64).rev())])
            .log(0, 65..=126)
            .gives(LEAST, &[elements(6, 0, [64, 63])])
            .over()
            .case("the rest dropped, another element"),
        // All of those before acceptance are dropped: an element that gave none gives one of length 3.
        Script::start()
            .log(0, 1..=64)
            .ask(&[[5, 0, 7], [6, 0, 3]])
            .gives(LEAST, &[elements(5, 0, (58..=64).rev())])
            .log(0, 65..=128)
            .gives(LEAST, &[vec!["4f03060000".to_string()]])
            .over()
            .case("all dropped, another element"),
    ]
}

/// "Order is the order of logging": not of stamps, which are equal in the other cases and lie a turn less one apart
/// here, nor of the times that events carry.
fn order_of_logging() -> Vec<Case> {
    let year = |number: u8, low: u8, high: u8| {
        let Record::Log { reading, mut logging } = numbered(10, 0, number) else { unreachable!("a logging") };
        (logging.time[7], logging.time[8]) = (low, high);
        Record::Log { reading, logging }
    };
    let with_year = |number: u8, year: &str| replaced(elements(5, 0, [number]), "ea07", year);
    vec![
        Script::start()
            .log(0, [1])
            .at(9)
            .log(0, [2])
            .at(8)
            .log(0, [3])
            .ask(&[[5, 0, 2]])
            .gives(LEAST, &[elements(5, 0, [3, 2])])
            .over()
            .case("readings that go back"),
        // The years 2026 and 2025, then an unknown one.
        Script::start()
            .accepted(year(1, 0xEA, 7))
            .accepted(year(2, 0xE9, 7))
            .accepted(year(3, 0xFF, 0xFF))
            .ask(&[[5, 0, 255]])
            .gives(LEAST, &[with_year(3, "ffff"), with_year(2, "e907"), with_year(1, "ea07")])
            .over()
            .case("times that go back"),
        // Three kinds by turns: each element is given its own, newest first.
        Script::start()
            .log(0, [1])
            .log(1, [2])
            .log(2, [3, 4])
            .log(1, [5])
            .log(0, [6])
            .ask(&[[5, 2, 255], [6, 0, 255], [7, 1, 255]])
            .gives(LEAST, &[elements(5, 2, [4, 3]), elements(6, 0, [6, 1]), elements(7, 1, [5, 2])])
            .over()
            .case("three kinds by turns"),
    ]
}

/// "The conditions stand": the limit is spent on the newest that match.
fn with_conditions() -> Vec<Case> {
    // Result 1 for odd numbers, 0 for even ones.
    let results = (1..=6).map(|number| transition(10, number, u16::from(number % 2)));
    let with_results = results.fold(Script::start(), Script::accepted);
    // In the minute up to the second, the third and the fourth there is another; the fifth comes 60,001 ms after
    // the fourth.
    let stamps = [(0, 1), (30_000, 2), (60_000, 3), (90_000, 4), (150_001, 5)];
    let with_stamps = |limit: u8, numbers: &[u8]| {
        let logged = |script: Script, (reading, number)| script.at(reading).log(0, [number]);
        // Subelement 4: more than 1 within 1 minute.
        let ask = [0x0A, 0, 7, 0x4E, 8, 5, 0, limit, 4, 3, 1, 1, 0];
        let script = stamps.into_iter().fold(Script::start(), logged).take(&ask);
        script.gives(LEAST, &[elements(5, 0, numbers.to_vec())]).over()
    };
    // Number 1, result 1, first signal 31.
    let first = replaced(elements(5, 0, [1]), "01000031", "01010031");
    vec![
        // Match value 1 admits result 0.
        with_results
            .take(&[0x0A, 0, 7, 0x4E, 6, 5, 0, 2, 3, 1, 1])
            .gives(LEAST, &[elements(5, 0, [6, 4])])
            .over()
            .case("the latest two of three that match"),
        // Match value 2 admits result 1, which the oldest alone has; then an element without conditions.
        Script::start()
            .accepted(transition(10, 1, 1))
            .log(0, 2..=3)
            .take(&[0x0A, 0, 7, 0x4E, 6, 5, 0, 9, 3, 1, 2, 0x4E, 3, 6, 0, 2])
            .gives(LEAST, &[first, elements(6, 0, [3, 2])])
            .over()
            .case("the oldest alone matches, then every event"),
        with_stamps(255, &[4, 3, 2]).case("three of five are frequent"),
        with_stamps(2, &[4, 3]).case("the latest two that are frequent"),
    ]
}

/// A request that replaces another starts at the newest; one with an equal token goes on; each console has a
/// search of its own.
fn requests_side_by_side() -> Vec<Case> {
    let first = || {
        let script = Script::start().log(0, 1..=10).ask(&[[5, 0, 255]]);
        script.gives(LEAST, &[elements(5, 0, (4..=10).rev())])
    };
    let two = setup_of(&[draft(CONSOLE), draft(OTHER)]);
    let from_other = Record::Frame {
        reading: 10,
        destination: STATION,
        source: OTHER,
        octets: request(8, &[[6, 0, 255]]),
    };
    vec![
        first()
            .take(&request(8, &[[6, 0, 255]]))
            .gives_to(CONSOLE, 8, LEAST, &[elements(6, 0, (4..=10).rev())])
            .gives_to(CONSOLE, 8, LEAST, &[elements(6, 0, [3, 2, 1])])
            .over()
            .case("replaced: from the newest on"),
        first()
            .log(0, 11..=12)
            .take(&request(7, &[[6, 0, 1]]))
            .gives(LEAST, &[elements(5, 0, [3, 2, 1])])
            .over()
            .case("an equal token: goes on"),
        Script::start()
            .accepted(two)
            .log(0, 1..=9)
            .ask(&[[5, 0, 255]])
            .log(0, 10..=10)
            .accepted(from_other)
            .gives(LEAST, &[elements(5, 0, (3..=9).rev())])
            .gives_to(OTHER, 8, LEAST, &[elements(6, 0, (4..=10).rev())])
            .gives(LEAST, &[elements(5, 0, [2, 1])])
            .over()
            .gives_to(OTHER, 8, LEAST, &[elements(6, 0, [3, 2, 1])])
            .case("two consoles"),
    ]
}

/// Every case.
pub fn order_cases() -> Vec<Case> {
    let mut cases: Vec<Case> =
        (0..3).flat_map(|ty| [limits_of_a_kind(ty), elements_of_a_kind(ty)].concat()).collect();
    cases.extend([
        resumed(0, [&[20, 19, 18, 17, 16, 15, 14], &[13, 12, 11, 10, 9, 8, 7], &[6, 5, 4, 3, 2, 1]]),
        resumed(1, [&[20, 19, 18, 17, 16, 15, 14, 13, 12], &[11, 10, 9, 8, 7, 6, 5, 4, 3], &[2, 1]]),
        resumed(2, [&[20, 19, 18, 17, 16, 15, 14, 13, 12], &[11, 10, 9, 8, 7, 6, 5, 4, 3], &[2, 1]]),
        // Behind seven calls fourteen are dropped: of 15 to 9, which would be next, 15 is left.
        resumed_with_drops(0, &[58..=64, 51..=57, 44..=50, 37..=43, 30..=36, 23..=29, 16..=22, 15..=15]),
        // Behind five calls ten are dropped: 19 to 11 are the last nine.
        resumed_with_drops(1, &[56..=64, 47..=55, 38..=46, 29..=37, 20..=28, 11..=19]),
        resumed_with_drops(2, &[56..=64, 47..=55, 38..=46, 29..=37, 20..=28, 11..=19]),
        next_element_after_a_drop(),
        Script::start()
            .log(0, 1..=70)
            .ask(&[[5, 0, 255]])
            .gives(LONGEST, &[elements(5, 0, (7..=70).rev())])
            .over()
            .case("a full log, newest first"),
    ]);
    cases.extend([rest_dropped(), order_of_logging(), with_conditions(), requests_side_by_side()].concat());
    cases
}
