//! Cases of document 02's request (f), "Explain an absent event", with what is printed worked out by hand from the
//! papers. Elements are given from their token on: `element` puts ID 78 and the length before it.

use crate::cases::{setup, trace, Case, Input, CONSOLE};
use crate::damage::part;
use crate::explain::Question;
use crate::form::draft;
use crate::kind_cases::{octets_of, EXPANDED};
use crate::octets::Kind;
use crate::script::{elements, numbered, transition, Script, LEAST};
use crate::trace::{question_octets, read_record, write_record, Record};

const AFTER: &str = "logged after acceptance";
const WRONG_TYPE: &str = "wrong type";
const LIMIT: &str = "limit reached";
const REPORTED: &str = "reported";
/// A count over every log's length: all.
const ALL: u16 = 65_535;

/// An Event Request element: ID 78, length, and this body.
fn element(body: &[u8]) -> Vec<u8> {
    part(0x4E, body)
}

/// The same with token 5, so that subelements start at place 5.
fn asked(ty: u8, limit: u8, subelements: &[&[u8]]) -> Vec<u8> {
    element(&[&[5, ty, limit][..], &subelements.concat()].concat())
}

/// Five events of a kind, of which the first four were logged before acceptance, or another number of them.
fn reasons_of_a_kind(ty: u8) -> Vec<Case> {
    let other = (ty + 1) % 3;
    let (two, every, none) = (asked(ty, 2, &[]), asked(ty, 255, &[]), asked(ty, 0, &[]));
    let five = || Script::start().log(ty, 1..=5);
    let no_event = "refused 18 at 0";
    vec![
        // The limit's two are places 3 and 2. Older ones do not count: there are three below place 3.
        five()
            .explains(&two, 4, 4, AFTER)
            .explains(&two, 4, 3, REPORTED)
            .explains(&two, 4, 2, REPORTED)
            .explains(&two, 4, 1, LIMIT)
            .explains(&two, 4, 0, LIMIT)
            .explains(&two, 4, 5, no_event)
            .explains(&two, 4, 65_535, no_event)
            .case("explain: a limit of 2, four before acceptance"),
        // All, by their number and over it: places 4 and 3.
        [5, 6, 64, ALL]
            .into_iter()
            .fold(five(), |script, count| {
                script
                    .explains(&two, count, 4, REPORTED)
                    .explains(&two, count, 3, REPORTED)
                    .explains(&two, count, 2, LIMIT)
                    .explains(&two, count, 0, LIMIT)
                    .explains(&two, count, 5, no_event)
            })
            .case("explain: counts of the log's length and over it"),
        five()
            .explains(&two, 0, 0, AFTER)
            .explains(&two, 0, 4, AFTER)
            .explains(&two, 1, 0, REPORTED)
            .explains(&two, 1, 1, AFTER)
            .case("explain: none and one before acceptance"),
        five()
            .explains(&none, 4, 3, LIMIT)
            .explains(&none, 4, 4, AFTER)
            .explains(&every, 4, 0, REPORTED)
            .explains(&asked(ty, 3, &[]), 4, 1, REPORTED)
            .explains(&asked(ty, 3, &[]), 4, 0, LIMIT)
            .case("explain: limits of 0, 3 and 255"),
        // Of another type: "logged after acceptance" comes first. A limit of 0 comes later.
        five()
            .explains(&asked(other, 2, &[]), 4, 3, WRONG_TYPE)
            .explains(&asked(other, 0, &[]), 4, 0, WRONG_TYPE)
            .explains(&asked(other, 2, &[]), 4, 4, AFTER)
            .explains(&asked(3, 2, &[]), 4, 3, WRONG_TYPE)
            .explains(&asked(255, 0, &[]), ALL, 4, WRONG_TYPE)
            .explains(&asked(3, 2, &[]), 4, 4, AFTER)
            .explains(&asked(3, 2, &[]), 4, 5, no_event)
            .case("explain: wrong types"),
        // Another kind between: it takes no part in the limit. Places 0, 2 and 4 are of the kind.
        Script::start()
            .log(ty, [1])
            .log(other, [2])
            .log(ty, [3])
            .log(other, [4])
            .log(ty, [5])
            .explains(&two, 5, 4, REPORTED)
            .explains(&two, 5, 3, WRONG_TYPE)
            .explains(&two, 5, 2, REPORTED)
            .explains(&two, 5, 1, WRONG_TYPE)
            .explains(&two, 5, 0, LIMIT)
            .explains(&two, 4, 0, REPORTED)
            .explains(&two, 4, 4, AFTER)
            .case("explain: another kind between"),
        Script::start().explains(&two, 0, 0, no_event).explains(&two, 9, 0, no_event).case("explain: no log"),
        // Of 66 the first two are dropped. Of 64, a limit of 63 leaves out the oldest, which is place 0.
        Script::start()
            .log(ty, 1..=66)
            .explains(&asked(ty, 63, &[]), ALL, 0, LIMIT)
            .explains(&asked(ty, 63, &[]), 64, 1, REPORTED)
            .explains(&asked(ty, 63, &[]), 63, 0, REPORTED)
            .explains(&asked(ty, 64, &[]), 64, 0, REPORTED)
            .explains(&two, 63, 63, AFTER)
            .explains(&two, 64, 63, REPORTED)
            .explains(&two, 64, 64, no_event)
            .case("explain: a full log"),
    ]
}

/// The conditions of a kind, by ID: a subelement that the events of `numbered` meet, and one that they fail.
fn conditions(ty: u8) -> Vec<[Vec<u8>; 2]> {
    let pair = |id: u8, met: &[u8], failed: &[u8]| [part(id, met), part(id, failed)];
    let (one, two) = ([2, 1, 1, 1, 1, 1], [2, 1, 1, 1, 1, 2]);
    match ty {
        // From one to two, 0 TU, result 0, all at one reading.
        0 => vec![
            pair(0, &two, &one),
            pair(1, &one, &two),
            pair(2, &[0, 0], &[1, 0]),
            pair(3, &[1], &[2]),
            pair(4, &[0, 0, 0], &[255, 0, 0]),
        ],
        // To two, 00-0F-AC:1, EAP 13, results that are not 0.
        1 => vec![
            pair(0, &two, &one),
            pair(1, &[0, 0x0F, 0xAC, 1], &[0, 0x0F, 0xAC, 2]),
            pair(2, &[13], &EXPANDED),
            pair(3, &[2], &[1]),
        ],
        // Peer one, class 81, channel 6.
        _ => vec![pair(0, &one, &two), pair(1, &[81, 0], &[81, 11])],
    }
}

/// Each condition alone, behind those that are met, and before one of a lower ID that fails too.
fn conditions_of_a_kind(ty: u8) -> Case {
    let all = conditions(ty);
    let met: Vec<&[u8]> = all.iter().map(|[met, _]| &met[..]).collect();
    let mut failed: Vec<&[u8]> = all.iter().map(|[_, failed]| &failed[..]).collect();
    let mut script = Script::start().log(ty, 1..=3).explains(&asked(ty, 9, &met), 2, 1, REPORTED);
    for (id, [_, fails]) in all.iter().enumerate() {
        let line = format!("condition {id}");
        let others: Vec<&[u8]> = met.iter().copied().filter(|other| usize::from(other[0]) != id).collect();
        let last = [&others[..], &[fails]].concat();
        // ID 9 is passed over, also twice, before the condition and behind it.
        let passed_over = [&[9, 1, 7][..], fails, &[9, 0]];
        script = script
            .explains(&asked(ty, 9, &[fails]), 2, 0, &line)
            .explains(&asked(ty, 0, &[fails]), 2, 1, &line)
            .explains(&asked(ty, 9, &last), ALL, 1, &line)
            .explains(&asked(ty, 9, &passed_over), 2, 1, &line)
            .explains(&asked(ty, 9, &[fails]), 2, 2, AFTER);
    }
    // All fail: the first that stands is named. From the lowest ID on, then from the highest.
    script = script.explains(&asked(ty, 9, &failed), 3, 1, "condition 0");
    failed.reverse();
    let highest = failed.len() - 1;
    script = script.explains(&asked(ty, 9, &failed), 3, 1, &format!("condition {highest}"));
    // Two that fail, 1 before 0; then the highest is met and stands first, and the others fail in falling order.
    script = script.explains(&asked(ty, 9, &[failed[highest - 1], failed[highest]]), 3, 1, "condition 1");
    failed[0] = met[highest];
    script
        .explains(&asked(ty, 9, &failed), 3, 1, &format!("condition {}", highest - 1))
        .case("explain: conditions")
}

/// Every refusal of an element with this type, on a log of two events, for a position with an event and for one
/// without: the element's own come first.
fn refusals_of_a_kind(ty: u8) -> Case {
    let good: &[u8] = &[0, 6, 2, 1, 1, 1, 1, 1];
    let refused = |script: Script, octets: &[u8], line: &str| {
        script
            .explains(octets, 2, 0, line)
            .explains(octets, 1, 1, line)
            .explains(octets, 2, 2, line)
            .explains(octets, 0, 65_535, line)
    };
    let four: [&[u8]; 9] = [
        &[],
        &[0x4E],
        // Cut; cut and too short; cut, with token 0.
        &[0x4E, 3, 5, ty],
        &[0x4E, 2, 5],
        &[0x4E, 3, 0],
        // IDs 79 and 0; too short; with token 0.
        &[0x4F, 3, 5, ty, 2],
        &[0, 0],
        &[0x50, 3, 0, ty, 2],
        // Octets behind one that is too short, and has token 0.
        &[0x4E, 2, 0, ty, 9],
    ];
    let mut script = Script::start().log(ty, 1..=2);
    for octets in four {
        script = refused(script, octets, "refused 4 at 0");
    }
    let behind = [asked(ty, 2, &[]), asked(ty, 2, &[])].concat();
    script = refused(script, &behind, "refused 4 at 0");
    script = refused(script, &[&asked(ty, 2, &[&[0, 1, 0]])[..], &[7]].concat(), "refused 4 at 0");
    for short in [&[][..], &[5], &[5, ty], &[0, ty]] {
        script = refused(script, &element(short), "refused 5 at 0");
    }
    script = refused(script, &element(&[0, ty, 2]), "refused 6 at 0");
    script = refused(script, &element(&[0, ty, 2, 0, 1, 0]), "refused 6 at 0");
    let seven_at_5: [&[&[u8]]; 6] = [
        &[&[0]],
        &[&[0, 6]],
        &[&[9, 1]],
        // Condition 0 has 6 octets in every kind.
        &[&[0, 5, 2, 1, 1, 1, 1]],
        &[&[0, 7, 2, 1, 1, 1, 1, 1, 1]],
        &[&[0, 0], good],
    ];
    for subelements in seven_at_5 {
        script = refused(script, &asked(ty, 2, subelements), "refused 7 at 5");
    }
    // Condition 1 has 6, 4 or 2 octets, never 3; ID 9 is passed over and held to its edges; condition 0 again, of
    // a wrong length.
    for second in [&[1, 3, 0, 0, 0][..], &[9, 2, 0], &[1], &[0, 1, 0]] {
        script = refused(script, &asked(ty, 2, &[good, second]), "refused 7 at 13");
    }
    script = refused(script, &asked(ty, 2, &[good, good]), "refused 8 at 13");
    script = refused(script, &asked(ty, 2, &[good, &[9, 0], &[9, 0], good]), "refused 8 at 17");
    script.case("explain: refusals")
}

/// Bodies of types 3 and up are not read past the limit; an EAP method is as long as its first octet says.
fn other_elements() -> Case {
    Script::start()
        .log(1, 1..=2)
        .explains(&asked(3, 2, &[&[0]]), 1, 0, WRONG_TYPE)
        .explains(&asked(3, 2, &[&[0, 1, 0], &[0, 1, 0]]), 1, 1, AFTER)
        .explains(&asked(3, 2, &[&[0, 9]]), 1, 2, "refused 18 at 0")
        .explains(&element(&[0, 3, 2]), 1, 2, "refused 6 at 0")
        .explains(&asked(1, 2, &[&[2, 1, 254]]), 1, 0, "refused 7 at 5")
        .explains(&asked(1, 2, &[&[2, 8], &[13; 8]]), 1, 0, "refused 7 at 5")
        .explains(&asked(1, 2, &[&[2, 1, 13], &[2, 1, 14]]), 1, 0, "refused 8 at 8")
        .explains(&asked(1, 2, &[&[2, 1, 14]]), 1, 0, "condition 2")
        // Type 2 passes over subelement 2, type 1 does not.
        .explains(&asked(2, 2, &[&[2, 1, 254], &[2, 0]]), 1, 0, WRONG_TYPE)
        .case("explain: types 3 and up, EAP methods")
}

/// The limit is spent on newer ones that match, logged before acceptance: results 0, 1, 0, 1, 0 and match value 1.
fn limits_and_conditions() -> Case {
    let log = (1..=5).map(|number| transition(10, number, u16::from((number + 1) % 2)));
    let ask = |limit: u8| asked(0, limit, &[&[3, 1, 1]]);
    log.fold(Script::start(), Script::accepted)
        .explains(&ask(2), 5, 4, REPORTED)
        .explains(&ask(2), 5, 3, "condition 3")
        .explains(&ask(2), 5, 2, REPORTED)
        .explains(&ask(2), 5, 1, "condition 3")
        .explains(&ask(2), 5, 0, LIMIT)
        .explains(&ask(3), 5, 0, REPORTED)
        .explains(&ask(2), 4, 0, REPORTED)
        .explains(&ask(1), 4, 2, REPORTED)
        .explains(&ask(1), 4, 0, LIMIT)
        .explains(&ask(1), 2, 0, REPORTED)
        .explains(&ask(0), 2, 0, LIMIT)
        .case("explain: the limit is spent on newer ones that match")
}

/// Document 01's frequent case: stamps 0, 60,000, 120,001, more than 1 within 1 minute. A peer link between does not
/// count. Then two with one stamp, a turn of the counter and one minute after the first.
fn frequent() -> Case {
    let ask = asked(0, 9, &[&[4, 3, 1, 1, 0]]);
    Script::start()
        .at(0)
        .log(0, [1])
        .at(60_000)
        .log(2, [2])
        .log(0, [3])
        .at(120_001)
        .log(0, [4])
        .explains(&ask, ALL, 0, "condition 4")
        .explains(&ask, ALL, 1, WRONG_TYPE)
        .explains(&ask, ALL, 2, REPORTED)
        .explains(&ask, ALL, 3, "condition 4")
        // Up to this one, whatever was logged before acceptance: place 3 is after it.
        .explains(&ask, 3, 2, REPORTED)
        .explains(&ask, 3, 3, AFTER)
        .at(4_294_967_295)
        .accepted(Record::Clock { reading: 4_294_967_295 })
        .at(60_000)
        .log(0, 5..=6)
        .explains(&ask, ALL, 4, "condition 4")
        .explains(&ask, ALL, 5, REPORTED)
        .case("explain: frequent transitions")
}

/// "they carry no reading": a question leaves the gate, its requests and its time as they are. A move keeps the log;
/// network change and setup empty it.
fn no_call() -> Vec<Case> {
    let every = asked(0, 255, &[]);
    let wrong = element(&[0, 0, 1]);
    let list = vec![draft(CONSOLE)];
    let given = |numbers: &[u8]| [elements(5, 0, numbers.to_vec())];
    vec![
        Script::start()
            .explains(&every, 1, 0, "refused 18 at 0")
            .log(0, 1..=9)
            .ask(&[[5, 0, 255]])
            .explains(&every, 9, 8, REPORTED)
            .gives(LEAST, &given(&[9, 8, 7, 6, 5, 4, 3]))
            .explains(&every, 9, 8, REPORTED)
            .explains(&wrong, 9, 8, "refused 6 at 0")
            .log(0, [10])
            .explains(&every, 9, 9, AFTER)
            .gives(LEAST, &given(&[2, 1]))
            .explains(&every, 9, 1, REPORTED)
            .over()
            .case("explain: between report calls"),
        // A diagnostic of 1 s is in time at 1,010 whatever was asked before.
        Script::start()
            .take(&[0x0A, 2, 7, 0x50, 4, 5, 2, 1, 0])
            .explains(&every, 1, 0, "refused 18 at 0")
            .at(1010)
            .report(CONSOLE, Kind::Diagnostic, LEAST, "length 8", "0a03075103050203")
            .case("explain: no time passes"),
        Script::start()
            .log(0, 1..=2)
            .accepted(Record::Roam { reading: 10, list: list.clone() })
            .explains(&every, 2, 1, REPORTED)
            .accepted(Record::Change { reading: 10, list })
            .explains(&every, 2, 1, "refused 18 at 0")
            .log(0, [3])
            .explains(&every, 2, 0, REPORTED)
            .accepted(setup())
            .explains(&every, 2, 0, "refused 18 at 0")
            .case("explain: moves, network changes and setups"),
        // Before any setup there is a gate with a log as well.
        Case {
            title: "explain: before any setup",
            input: trace(&[
                explain(&every, 0, 0),
                numbered(10, 0, 1),
                explain(&every, 0, 0),
                explain(&every, 1, 0),
            ]),
            printed: format!("refused 18 at 0\naccepted\n{AFTER}\n{REPORTED}\n"),
        },
        // The longest element, of 257 octets: nothing but subelements that are passed over; and one of 4,096.
        Script::start()
            .log(0, [1])
            .explains(&asked(0, 1, &[&part(9, &[7; 250])]), 1, 0, REPORTED)
            .explains(&[78; 4096], 1, 0, "refused 4 at 0")
            .case("explain: long elements"),
    ]
}

/// The record of a question.
fn explain(element: &[u8], count: u16, position: u16) -> Record {
    Record::Explain(Question { element: element.to_vec(), count, position })
}

/// Records that are cut or whose element is too long: nothing behind them is read.
fn bad_records() -> Vec<Case> {
    let refused = |title: &'static str, record: Vec<u8>| {
        let clock = vec![1, 0, 0, 0, 0];
        let printed = "accepted\ntrace refused at 5\n".to_string();
        Case { title, input: Input::Trace(vec![clock, record]), printed }
    };
    vec![
        refused("explain: no length", vec![0x12]),
        refused("explain: length cut", vec![0x12, 3]),
        refused("explain: element cut", octets_of("1205004e030500")),
        refused("explain: no count", octets_of("1205004e03050001")),
        refused("explain: no position", octets_of("1205004e030500010100")),
        refused("explain: position cut", octets_of("1205004e03050001010000")),
        refused("explain: 4,097 octets", [vec![0x12, 1, 0x10], vec![0; 4101]].concat()),
    ]
}

/// Every case.
pub fn explain_cases() -> Vec<Case> {
    let mut cases: Vec<Case> = (0..3).flat_map(reasons_of_a_kind).collect();
    cases.extend((0..3).map(conditions_of_a_kind));
    cases.extend((0..3).map(refusals_of_a_kind));
    cases.extend([other_elements(), limits_and_conditions(), frequent()]);
    cases.extend([no_call(), bad_records(), program_cases(), technicians_story()].concat());
    cases
}

/// The example of docs/REPORTS.md, with the octets that stand there: the line that it prints, those of the other
/// places, and the report.
fn technicians_story() -> Vec<Case> {
    let page = include_str!("../../docs/REPORTS.md");
    let from = page.find("## Why an event").expect("the page has that part");
    let blocks: Vec<&str> = page[from..].split("```").skip(1).step_by(2).collect();
    let [report, gate, question, _, line] = blocks[..] else { panic!("the page has five blocks there") };
    let fields = hex_block(question);
    let at = |place: u8| [&fields[..fields.len() - 2], &[place, 0]].concat();
    let case = |fields: Vec<u8>, line: &str| {
        let input = Input::Explain(fields, vec![hex_block(gate)]);
        Case { title: "explain: the technician's page", input, printed: format!("{line}\n") }
    };
    let lines = [LIMIT, "condition 2", REPORTED, REPORTED, AFTER, "refused 18 at 0"];
    let mut cases: Vec<Case> = (0..).zip(lines).map(|(place, line)| case(at(place), line)).collect();
    cases.push(case(fields.clone(), line.trim()));
    // The transition times 125 and 244 are 7d 00 and f4 00; times and fields as they were logged.
    let event = |time: &str, taken: &str| {
        format!("4f21050000{time}0e0e0bea07020101010101020101010102{taken}000600006e28963c")
    };
    let given = format!("0a0107{}{}", event("fa002d04", "7d"), event("00000003", "f4"));
    let printed =
        format!("{}length 73\nbuffer {given}{}\naccepted\n", "accepted\n".repeat(6), "ee".repeat(187));
    cases.push(Case {
        title: "the gate of the technician's page",
        input: Input::Trace(records_of(&hex_block(gate))),
        printed,
    });
    cases.push(Case {
        title: "the report on the technician's page",
        input: Input::Report([&[0], &CONSOLE_OF_THE_PAGE[..], &octets_of(&given)].concat()),
        printed: report.trim_start().to_string(),
    });
    cases
}

/// The console of that example.
const CONSOLE_OF_THE_PAGE: [u8; 6] = [2, 0, 0, 0, 0, 0x10];

/// Octets as pages have them: hexadecimal, with spaces, and comments behind `#`.
fn hex_block(block: &str) -> Vec<u8> {
    let code = block.lines().map(|line| line.split('#').next().unwrap_or(""));
    octets_of(&code.flat_map(str::split_whitespace).collect::<String>())
}

/// A trace, record by record.
fn records_of(mut octets: &[u8]) -> Vec<Vec<u8>> {
    let mut records = Vec::new();
    while let Some((_, length)) = read_record(octets) {
        records.push(octets[..length].to_vec());
        octets = &octets[length..];
    }
    assert!(octets.is_empty(), "every record is whole");
    records
}

/// The program `explain`: a question's fields, and then a trace.
fn program_cases() -> Vec<Case> {
    let log = |numbers: &[u8]| -> Vec<Vec<u8>> {
        numbers.iter().map(|number| write_record(&numbered(10, 0, *number))).collect()
    };
    let set_up = |numbers: &[u8]| [vec![write_record(&setup())], log(numbers)].concat();
    let fields = |element: &[u8], count, position| {
        question_octets(&Question { element: element.to_vec(), count, position })
    };
    let case = |title: &'static str, fields: Vec<u8>, records: Vec<Vec<u8>>, line: &str| Case {
        title,
        input: Input::Explain(fields, records),
        printed: format!("{line}\n"),
    };
    let (one, wrong) = (asked(0, 1, &[]), asked(0, 1, &[&[0, 1, 0]]));
    let clock = write_record(&Record::Clock { reading: 0 });
    // 52,428 records of 5 octets are 262,140 octets.
    let longest: Vec<Vec<u8>> = (0..52_428).map(|_| clock.clone()).collect();
    let with = |last: &[u8]| [&longest[..], &[last.to_vec()]].concat();
    let one_less: Vec<Vec<u8>> = longest[1..].to_vec();
    vec![
        case("explain, program: limit reached", fields(&one, 2, 0), set_up(&[1, 2, 3]), LIMIT),
        case("explain, program: reported", fields(&one, 2, 1), set_up(&[1, 2, 3]), REPORTED),
        case("explain, program: after", fields(&one, 2, 2), set_up(&[1, 2, 3]), AFTER),
        case("explain, program: 18", fields(&one, 2, 3), set_up(&[1, 2, 3]), "refused 18 at 0"),
        case("explain, program: 7", fields(&wrong, 2, 3), set_up(&[1, 2, 3]), "refused 7 at 5"),
        case("explain, program: 4", fields(&[], 2, 0), set_up(&[1]), "refused 4 at 0"),
        case("explain, program: wrong type", fields(&asked(2, 1, &[]), 2, 0), set_up(&[1]), WRONG_TYPE),
        case(
            "explain, program: condition",
            fields(&asked(0, 1, &[&[3, 1, 2]]), 2, 0),
            set_up(&[1]),
            "condition 3",
        ),
        case("explain, program: no setup", fields(&one, 1, 0), log(&[1]), REPORTED),
        case("explain, program: an empty trace", fields(&one, 1, 0), Vec::new(), "refused 18 at 0"),
        case("explain, program: an empty trace, 4", fields(&[], 1, 0), Vec::new(), "refused 4 at 0"),
        // A question in the trace prints nothing and changes nothing.
        case(
            "explain, program: a question in the trace",
            fields(&one, 2, 0),
            [set_up(&[1, 2]), vec![write_record(&explain(&wrong, 0, 0))]].concat(),
            LIMIT,
        ),
        // A setup has 1 + 2 + 17 + 1 + 7 = 28 octets, a logging 1 + 4 + 9 + 23 + 12 + 1 + 2 + 4 + 4 = 60.
        case(
            "explain, program: an unknown record",
            fields(&one, 2, 0),
            [set_up(&[1]), vec![vec![0xFF]]].concat(),
            "trace refused at 88",
        ),
        case(
            "explain, program: a refused trace comes before the element",
            fields(&[], 2, 9),
            [set_up(&[1]), vec![vec![1, 0, 0]]].concat(),
            "trace refused at 88",
        ),
        case("explain, program: refused at once", fields(&one, 2, 0), vec![vec![9]], "trace refused at 0"),
        case("explain, program: no input", Vec::new(), Vec::new(), "trace refused at 0"),
        case("explain, program: length cut", vec![5], Vec::new(), "trace refused at 0"),
        case("explain, program: element cut", octets_of("05004e030500"), Vec::new(), "trace refused at 0"),
        case(
            "explain, program: no position",
            octets_of("05004e030500010200"),
            Vec::new(),
            "trace refused at 0",
        ),
        case(
            "explain, program: position cut",
            octets_of("05004e03050001020000"),
            Vec::new(),
            "trace refused at 0",
        ),
        // An element of 4,096 octets is read, and is no element; one of 4,097 is not read.
        case("explain, program: 4,096", fields(&[78; 4096], 2, 0), set_up(&[1]), "refused 4 at 0"),
        case("explain, program: 4,097", fields(&[78; 4097], 2, 0), set_up(&[1]), "trace refused at 0"),
        // The trace's own limit: 262,140 octets and 262,145, whose last record is cut by it.
        case("explain, program: 262,140", fields(&one, 2, 0), longest.clone(), "refused 18 at 0"),
        case("explain, program: 262,144", fields(&one, 2, 0), with(&[1, 0, 0, 0]), "trace refused at 262140"),
        case("explain, program: 262,145", fields(&one, 2, 0), with(&clock), "trace refused at 262140"),
        // 52,427 clocks are 262,135 octets; a question with an element of 2 octets has 9.
        case(
            "explain, program: 262,144 in whole records",
            fields(&one, 2, 0),
            [one_less, vec![write_record(&explain(&[78, 0], 0, 0))]].concat(),
            "refused 18 at 0",
        ),
    ]
}
