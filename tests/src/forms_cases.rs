//! Cases of document 02's request (g), the published time fields, with what is printed worked out by hand from the
//! papers.

use crate::cases::{logging, setup_of, trace, Case, Input, CONSOLE};
use crate::form::{draft, published, Console, PublishedTime};
use crate::kind_cases::{
    octets_of, peer_link, rsna, EXPANDED, LEGACY, LONG_RSNA, PEER_LINK, RSN, SHORT_RSNA,
};
use crate::make_identity::STATION;
use crate::octets::{Address, Kind};
use crate::script::{elements, numbered, request, Script, LEAST};
use crate::trace::{write_record, Record};

/// A second requester, of form 1 where both are listed; the first is of form 0.
const OTHER: Address = [2, 0, 0, 0, 0, 2];
const BOTH: [Console; 2] = [draft(CONSOLE), published(OTHER)];
/// A requester with a number that is no form.
const NO_FORM: Console = Console { address: CONSOLE, form: 2 };

/// The report of a transition of 0 TU in form 0, body of 33 octets.
const DRAFT_TRANSITION: &str = "4f21050000e7033a3b171f0cea07020101010101020101010102000021000031323334";
/// RSNA events with an EAP method of 1 octet and an RSN element (46), and of 8 octets without one (31).
const DRAFT_RSNA_46: &str = "4f2e050100e7033a3b171f0cea07020101010102000fac010d11\
                             30140100000fac040100000fac040100000fac010000";
const DRAFT_RSNA_31: &str = "4f1f050100e7033a3b171f0cea07020101010102000fac01fe0050c20102030411";

/// The same six events in form 1: in place of the time TSF a1.., UTC offset b1.., event time error c1... Bodies of 47;
/// 38, 60, 45, 67; 39 octets.
const TRANSITION: &str = "4f2f050000a1a2a3a4a5a6a7a8b1b2b3b4b5b6b7b8b9bac1c2c3c4c5\
                          020101010101020101010102000021000031323334";
const RSNA_38: &str = "4f26050100a1a2a3a4a5a6a7a8b1b2b3b4b5b6b7b8b9bac1c2c3c4c5020101010102000fac010d11";
const RSNA_60: &str = "4f3c050100a1a2a3a4a5a6a7a8b1b2b3b4b5b6b7b8b9bac1c2c3c4c5020101010102000fac010d11\
                       30140100000fac040100000fac040100000fac010000";
const RSNA_45: &str = "4f2d050100a1a2a3a4a5a6a7a8b1b2b3b4b5b6b7b8b9bac1c2c3c4c5020101010102000fac01\
                       fe0050c20102030411";
const RSNA_67: &str = "4f43050100a1a2a3a4a5a6a7a8b1b2b3b4b5b6b7b8b9bac1c2c3c4c5020101010102000fac01\
                       fe0050c2010203041130140100000fac040100000fac040100000fac010000";
const LINK: &str = "4f27050200a1a2a3a4a5a6a7a8b1b2b3b4b5b6b7b8b9bac1c2c3c4c502010101010151061401020303";

/// How each of the six is listed behind its time.
const MOVED: &str = "source 02:01:01:01:01:01 target 02:01:01:01:01:02 transition 0 reason 33 result 0 \
                     source-rcpi 49 source-rsni 50 target-rcpi 51 target-rsni 52";
const SECURED: &str = "target 02:01:01:01:01:02 authentication 00:0f:ac:01";
const RSN_TEXT: &str = "rsn 30140100000fac040100000fac040100000fac010000";
const VENDOR: &str = "eap 254 vendor 00:50:c2 vendor-type 01:02:03:04";
const LINKED: &str = "peer 02:01:01:01:01:01 class 81 channel 6 power 20 connection 197121 peer-status 3";

/// An event: the record that logs it, its type, its report in form 0 and in form 1, and its fields as they are listed.
struct Example {
    log: Record,
    ty: u8,
    reports: [&'static str; 2],
    listed: String,
}

/// One of each kind and length.
fn examples() -> Vec<Example> {
    let secured = |eap, rsn: &[u8]| Record::LogRsna { reading: 10, logging: rsna(eap, rsn) };
    let example = |log, ty, reports, listed| Example { log, ty, reports, listed };
    let link = Record::LogPeerLink { reading: 10, logging: peer_link() };
    vec![
        example(logging(10, 10), 0, [DRAFT_TRANSITION, TRANSITION], MOVED.to_string()),
        example(secured(LEGACY, &[]), 1, [SHORT_RSNA, RSNA_38], format!("{SECURED} eap 13 result 17")),
        example(
            secured(LEGACY, &RSN),
            1,
            [DRAFT_RSNA_46, RSNA_60],
            format!("{SECURED} eap 13 result 17 {RSN_TEXT}"),
        ),
        example(secured(EXPANDED, &[]), 1, [DRAFT_RSNA_31, RSNA_45], format!("{SECURED} {VENDOR} result 17")),
        example(
            secured(EXPANDED, &RSN),
            1,
            [LONG_RSNA, RSNA_67],
            format!("{SECURED} {VENDOR} result 17 {RSN_TEXT}"),
        ),
        example(link, 2, [PEER_LINK, LINK], LINKED.to_string()),
    ]
}

/// A request for all events of a type, from any requester, under dialog token 7.
fn asked_by(script: Script, source: Address, ty: u8) -> Script {
    let octets = request(7, &[[5, ty, 255]]);
    script.accepted(Record::Frame { reading: 10, destination: STATION, source, octets })
}

/// A request of this requester and a report call with these elements.
fn told(script: Script, console: Address, ty: u8, elements: &[&str]) -> Script {
    let given = elements.iter().map(|element| element.to_string()).collect();
    asked_by(script, console, ty).gives_to(console, 7, LEAST, &[given])
}

/// One gate, one event, two consoles: each gets its own form. The reports of length 3 have none.
fn one_gate_two_forms() -> Vec<Case> {
    let case = |example: &Example| {
        let [in_draft, in_published] = example.reports;
        let script = Script::set_up(setup_of(&BOTH)).accepted(example.log.clone());
        let script = told(script, CONSOLE, example.ty, &[in_draft]);
        let script = told(script, OTHER, example.ty, &[in_published]);
        // Type 3 is Incapable; of the next type there is none.
        let next = (example.ty + 1) % 3;
        let none = format!("4f0305{next:02x}00");
        let script = told(script, OTHER, 3, &["4f03050303"]);
        told(told(script, CONSOLE, next, &[&none]), OTHER, next, &[&none]).case("one event in two forms")
    };
    examples().iter().map(case).collect()
}

/// Bare headers and diagnostics are the same in both forms.
fn without_events() -> Case {
    let ask = |octets: &[u8], source| {
        let octets = octets.to_vec();
        Record::Frame { reading: 10, destination: STATION, source, octets }
    };
    let identity = "0a030751140501000d030a0b0c0b01410c01420e0143090144";
    let mut script = Script::set_up(setup_of(&BOTH));
    for console in [CONSOLE, OTHER] {
        script = script
            .accepted(ask(&[0x0A, 0, 9], console))
            .gives_to(console, 9, LEAST, &[])
            .accepted(ask(&[0x0A, 2, 7, 0x50, 4, 5, 1, 9, 0], console))
            .report(console, Kind::Diagnostic, LEAST, "length 25", identity);
    }
    script.case("a bare header and an identity in two forms")
}

/// With the least buffer seven transitions of 35 octets fit, and five of 49: 3 + 5 * 49 = 248, and 297 with a sixth.
fn room() -> Case {
    let in_draft = |numbers: &[u8]| elements(5, 0, numbers.to_vec());
    let in_published = |numbers: &[u8]| -> Vec<String> {
        let time = "a1a2a3a4a5a6a7a8b1b2b3b4b5b6b7b8b9bac1c2c3c4c5";
        let element =
            |number: &u8| format!("4f2f050000{time}0201010101010201010101020000{number:02x}000031323334");
        numbers.iter().map(element).collect()
    };
    let script = Script::set_up(setup_of(&BOTH)).log(0, 1..=12);
    asked_by(asked_by(script, CONSOLE, 0), OTHER, 0)
        .gives_to(OTHER, 7, LEAST, &[in_published(&[12, 11, 10, 9, 8])])
        .gives_to(CONSOLE, 7, LEAST, &[in_draft(&[12, 11, 10, 9, 8, 7, 6])])
        .gives_to(OTHER, 7, LEAST, &[in_published(&[7, 6, 5, 4, 3])])
        .gives_to(CONSOLE, 7, LEAST, &[in_draft(&[5, 4, 3, 2, 1])])
        .gives_to(OTHER, 7, 296, &[in_published(&[2, 1])])
        .report(OTHER, Kind::Event, LEAST, "nothing", "")
        .over()
        .case("so many to a frame in each form")
}

/// Logging checks the nine octets, whatever the forms are, and none of the others.
fn carried_unread() -> Case {
    let Record::Log { logging, .. } = logging(10, 10) else { unreachable!("a logging") };
    let with = |time: [u8; 9], octet: u8| {
        let fields = PublishedTime { tsf: [octet; 8], offset: [octet; 10], error: [octet; 5] };
        let mut logging = logging.clone();
        (logging.time, logging.published) = (time, fields);
        Record::Log { reading: 10, logging }
    };
    let element = |octet: &str| TRANSITION.replace(&TRANSITION[10..56], &octet.repeat(23));
    let (zeros, ones) = (element("00"), element("ff"));
    let script = Script::set_up(setup_of(&[published(OTHER)]))
        .answered(with([0; 9], 7), "refused 14 at 0")
        .accepted(with([255; 9], 0))
        .accepted(with([255; 9], 255));
    told(script, OTHER, 0, &[&ones, &zeros]).case("the nine octets are checked, the others carried")
}

/// Of 66 events of a kind, each with fields of its own, the log keeps the last 64, each with its own. In 2,304 octets
/// so many of the kind fit a frame: 46 transitions of 49, 57 RSNA events of 40, or 56 peer links of 41.
fn own_fields(ty: u8, fit: usize) -> Case {
    let logged = |script: Script, number: u8| {
        let fields = PublishedTime { tsf: [number; 8], offset: [number; 10], error: [number; 5] };
        let mut record = numbered(10, ty, number);
        match &mut record {
            Record::Log { logging, .. } => logging.published = fields,
            Record::LogRsna { logging, .. } => logging.published = fields,
            Record::LogPeerLink { logging, .. } => logging.published = fields,
            _ => unreachable!("a logging"),
        }
        script.accepted(record)
    };
    let element = |number: u8| {
        let time = format!("{number:02x}").repeat(23);
        match ty {
            0 => format!("4f2f050000{time}0201010101010201010101020000{number:02x}000031323334"),
            1 => format!("4f26050100{time}020101010102000fac010d{number:02x}"),
            _ => format!("4f27050200{time}020101010101510614010203{number:02x}"),
        }
    };
    let given: Vec<String> = (3..=66).rev().map(element).collect();
    let (first, second) = given.split_at(fit);
    let script = (1..=66).fold(Script::set_up(setup_of(&BOTH)), logged);
    asked_by(script, OTHER, ty)
        .gives_to(OTHER, 7, 2304, &[first.to_vec()])
        .gives_to(OTHER, 7, 2304, &[second.to_vec()])
        .report(OTHER, Kind::Event, LEAST, "nothing", "")
        .case("a full log, each event with fields of its own")
}

/// The three calls that carry a list.
fn calls(list: &[Console]) -> [Record; 3] {
    let (reading, list) = (10, list.to_vec());
    [setup_of(&list), Record::Roam { reading, list: list.clone() }, Record::Change { reading, list }]
}

/// Lists that are refused for a form; what was listed stays as it was, its form too, and so do the log and the
/// requests.
fn refused_lists() -> Vec<Case> {
    let bad = |form: u8| Console { address: CONSOLE, form };
    let with_group = Console { address: [3, 0, 0, 0, 0, 1], form: 1 };
    let five: Vec<Console> = (1..=5).map(|last| published([2, 0, 0, 0, 0, last])).collect();
    let lists = [
        vec![NO_FORM],
        vec![bad(255)],
        vec![bad(128), published(OTHER)],
        vec![published(OTHER), bad(3)],
        // The same address with two forms is repeated.
        vec![draft(CONSOLE), published(CONSOLE)],
        vec![published(CONSOLE), draft(OTHER), draft(CONSOLE)],
        vec![draft(CONSOLE), NO_FORM],
        vec![with_group],
        five,
        Vec::new(),
    ];
    let [_, roam, change] = calls(&[draft(CONSOLE)]);
    let mut cases = Vec::new();
    for list in lists {
        let [bad_setup, bad_roam, bad_change] = calls(&list);
        let script = Script::set_up(setup_of(&BOTH)).log(0, [0x21]);
        let script = asked_by(asked_by(script, CONSOLE, 0), OTHER, 0)
            .answered(bad_roam.clone(), "refused 15 at 0")
            .answered(bad_change.clone(), "refused 15 at 0")
            .gives_to(OTHER, 7, LEAST, &[vec![TRANSITION.to_string()]])
            .gives(LEAST, &[vec![DRAFT_TRANSITION.to_string()]]);
        cases.push(script.case("a move and a network change are refused for a form"));
        // A refused setup leaves a gate without consoles and without identity.
        let script = Script::set_up(setup_of(&BOTH))
            .answered(bad_setup, "refused 15 at 0")
            .report(CONSOLE, Kind::Event, LEAST, "refused 12 at 0", "")
            .report(OTHER, Kind::Event, LEAST, "refused 12 at 0", "")
            .answered(bad_roam, "refused 15 at 0")
            .answered(bad_change, "refused 15 at 0")
            .answered(roam.clone(), "refused 16 at 0")
            .answered(change.clone(), "refused 16 at 0");
        cases.push(script.case("a setup is refused for a form"));
    }
    // 15 comes before 16.
    let no_identity = |list: &[Console]| Record::Setup { identity: Vec::new(), list: list.to_vec() };
    let script = Script::set_up(setup_of(&BOTH))
        .answered(no_identity(&[NO_FORM]), "refused 15 at 0")
        .answered(no_identity(&[published(CONSOLE)]), "refused 16 at 0");
    cases.push(script.case("a form is refused before the identity"));
    cases
}

/// "Each accepted list names the forms anew."
fn renamed() -> Vec<Case> {
    let [setup_other, roam_other, change_other] = calls(&[published(CONSOLE), draft(OTHER)]);
    let start = || {
        let script = Script::set_up(setup_of(&BOTH)).log(0, [0x21]);
        told(script, CONSOLE, 0, &[DRAFT_TRANSITION])
    };
    let exchanged = |script: Script| {
        let script = told(script, CONSOLE, 0, &[TRANSITION]);
        told(script, OTHER, 0, &[DRAFT_TRANSITION])
    };
    let nothing = |script: Script| script.report(OTHER, Kind::Event, LEAST, "nothing", "");
    let back = |script: Script| told(script, OTHER, 0, &[TRANSITION]);
    let [_, roam_both, _] = calls(&BOTH);
    vec![
        // What was asked before is dropped.
        exchanged(nothing(asked_by(start(), OTHER, 0).accepted(roam_other.clone())))
            .case("forms changed by a move"),
        exchanged(nothing(asked_by(start(), OTHER, 0).accepted(change_other)).log(0, [0x21]))
            .case("forms changed by a network change"),
        exchanged(start().accepted(setup_other).log(0, [0x21])).case("forms changed by a setup"),
        back(exchanged(start().accepted(roam_other)).accepted(roam_both))
            .case("forms changed and changed back"),
    ]
}

/// Input of `report`: the form, the destination, and a frame from its first element on.
fn input(form: u8, elements: &str) -> Vec<u8> {
    [&[form], &STATION[..], &octets_of(&format!("0a0107{elements}"))].concat()
}

/// Input of `report`, and what it prints.
fn read_case(title: &'static str, input: Vec<u8>, printed: &str) -> Case {
    Case { title, input: Input::Report(input), printed: format!("{printed}\n") }
}

/// The reader told each form, and a number that is none.
fn reading_cases() -> Vec<Case> {
    let fields = "tsf a1a2a3a4a5a6a7a8 offset b1b2b3b4b5b6b7b8b9ba error c1c2c3c4c5";
    let listed = |ty: u8, rest: &str| {
        format!("report 1 dialog 7 elements 1\nelement 79 token 5 type {ty} status 0 {rest}")
    };
    let mut cases = Vec::new();
    for Example { ty, reports: [in_draft, in_published], listed: event, .. } in examples() {
        let (draft_line, line) = (
            listed(ty, &format!("time 2026-12-31 23:59:58.999 {event}")),
            listed(ty, &format!("{fields} {event}")),
        );
        cases.extend([
            read_case("draft, told draft", input(0, in_draft), &draft_line),
            read_case("draft, told published", input(1, in_draft), "refused 17 at 3"),
            read_case("draft, told no form", input(2, in_draft), "refused 15 at 0"),
            read_case("published, told published", input(1, in_published), &line),
            read_case("published, told draft", input(0, in_published), "refused 17 at 3"),
            read_case("published, told no form", input(255, in_published), "refused 15 at 0"),
            // Behind an element without event and one that is passed over, of 2 octets.
            read_case(
                "the first element with an event is at 10",
                input(0, &format!("4f03060303dd00{in_published}{in_draft}")),
                "refused 17 at 10",
            ),
            read_case(
                "the first of the other form is behind one of the own",
                input(0, &format!("{in_draft}{in_published}")),
                &format!("refused 17 at {}", 3 + in_draft.len() / 2),
            ),
        ]);
    }
    cases
}

/// The first octet of an EAP method of 8 in a body of 38, and one of 1 in a body of 45.
fn expanded_in_38() -> String {
    RSNA_38.replace("ac010d11", "ac01fe11")
}

fn legacy_in_45() -> String {
    RSNA_45.replace("ac01fe00", "ac010d00")
}

/// Frames that are the same in both forms, and faults of form 1.
fn other_readings() -> Vec<Case> {
    let mut cases = Vec::new();
    // Types 0 to 2 without event, statuses 1 to 4, type 3 with 30 octets.
    let none = "4f030500004f030501004f030502004f030500014f03050104";
    let none = format!("{none}4f21050300{}", "00".repeat(30));
    let lines = "element 79 token 5 type 0 status 0\nelement 79 token 5 type 1 status 0\n\
                 element 79 token 5 type 2 status 0\nelement 79 token 5 type 0 status 1\n\
                 element 79 token 5 type 1 status 4\nelement 79 token 5 type 3 status 0 rest 30";
    for form in [0, 1] {
        let whole = format!("report 1 dialog 7 elements 6\n{lines}");
        cases.push(read_case("no event, either form", input(form, &none), &whole));
        let diagnostic = [&[form], &STATION[..], &octets_of("0a03075106050102090101")].concat();
        let line = "report 3 dialog 7 elements 1\nelement 81 token 5 type 1 status 2 subs 1";
        cases.push(read_case("a diagnostic, either form", diagnostic, line));
    }
    // The EAP method stands at 36 of the body. At 22, where form 0 has it, is the error's second octet.
    let error_of_254 = RSNA_38.replace("c1c2c3", "c1fec3");
    let line = format!(
        "report 1 dialog 7 elements 1\nelement 79 token 5 type 1 status 0 tsf a1a2a3a4a5a6a7a8 offset \
         b1b2b3b4b5b6b7b8b9ba error c1fec3c4c5 {SECURED} eap 13 result 17"
    );
    let (one_more, one_less) =
        (TRANSITION.replace("4f2f", "4f30") + "00", TRANSITION.replace("4f2f", "4f2e"));
    // Status 1 has no event in either form.
    let failed = TRANSITION.replace("4f2f050000", "4f2f050001");
    cases.extend([
        read_case("EAP 254 in a body of 38: 17", input(1, &expanded_in_38()), "refused 17 at 3"),
        read_case("EAP 13 in a body of 45: 17", input(1, &legacy_in_45()), "refused 17 at 3"),
        read_case("254 where form 0 has the EAP method", input(1, &error_of_254), &line),
        read_case("a transition of 48: 17", input(1, &one_more), "refused 17 at 3"),
        read_case("a transition of 46: 17", input(1, &one_less[..one_less.len() - 2]), "refused 17 at 3"),
        read_case("status 1 with an event: 17", input(1, &failed), "refused 17 at 3"),
        read_case("a peer link of 38: 17", input(1, &RSNA_38.replace("0501", "0502")), "refused 17 at 3"),
    ]);
    cases
}

/// "Input of `report` under seven octets", and a form that is none before all else.
fn short_inputs() -> Vec<Case> {
    let (too_short, no_form) = ("refused 1 at 0", "refused 15 at 0");
    let mut cases = vec![read_case("no input", Vec::new(), too_short)];
    for length in 1..=6 {
        for (form, line) in [(0, too_short), (1, too_short), (2, no_form), (255, no_form)] {
            let mut octets = vec![2; length];
            octets[0] = form;
            cases.push(read_case("under seven octets", octets, line));
        }
    }
    let group = [1, 0, 0, 0, 0, 9];
    let with = |form: u8, destination: [u8; 6], frame: &[u8]| [&[form], &destination[..], frame].concat();
    let long = vec![10; 70_000];
    cases.extend([
        read_case("no frame", with(1, STATION, &[]), too_short),
        read_case("no form, no frame", with(2, STATION, &[]), no_form),
        read_case("a group", with(1, group, &[]), "refused 11 at 0"),
        read_case("no form, a group", with(3, group, &[]), no_form),
        read_case("a long frame", with(1, STATION, &long), too_short),
        read_case("no form, a long frame", with(3, STATION, &long), no_form),
        read_case("no form, no report", with(3, STATION, &[10, 0, 7]), no_form),
        read_case("no report", with(1, STATION, &[10, 0, 7]), "refused 2 at 0"),
    ]);
    cases
}

/// The reader's record: a bad form is its own 15, and the trace goes on.
fn reading_records() -> Case {
    let read = |form: u8, elements: &str| {
        let octets = octets_of(&format!("0a0107{elements}"));
        Record::Read { form, destination: STATION, octets }
    };
    Script::set_up(setup_of(&BOTH))
        .answered(read(2, TRANSITION), "refused 15 at 0")
        .answered(read(0, TRANSITION), "refused 17 at 3")
        .answered(read(1, DRAFT_TRANSITION), "refused 17 at 3")
        .answered(read(1, &expanded_in_38()), "refused 17 at 3")
        .answered(read(1, &legacy_in_45()), "refused 17 at 3")
        .answered(read(1, ""), "report 1 dialog 7 elements 0")
        .answered(Record::Read { form: 2, destination: [1; 6], octets: Vec::new() }, "refused 15 at 0")
        .answered(Record::Read { form: 1, destination: [1; 6], octets: Vec::new() }, "refused 11 at 0")
        .case("the reader's records")
}

/// Every case.
pub fn forms_cases() -> Vec<Case> {
    let mut cases = one_gate_two_forms();
    cases.extend([own_fields(0, 46), own_fields(1, 57), own_fields(2, 56)]);
    cases.extend([without_events(), room(), carried_unread(), reading_records()]);
    cases.extend([refused_lists(), renamed(), reading_cases(), other_readings(), short_inputs()].concat());
    cases
}

/// 46 transitions, one RSNA event of 47 octets and another transition, asked for in this order by a console of form
/// 1: with the header 3 + 46 * 49 + 47 = 2,304 octets, and a second frame.
pub fn full_published_frame() -> Vec<Record> {
    let mut records = vec![setup_of(&[published(CONSOLE)])];
    records.extend((1..=46).map(|number| numbered(10, 0, number)));
    records.push(Record::LogRsna { reading: 10, logging: rsna(EXPANDED, &[]) });
    let octets = request(7, &[[1, 0, 255], [2, 1, 255], [3, 0, 1]]);
    records.push(Record::Frame { reading: 10, destination: STATION, source: CONSOLE, octets });
    let call = Record::Report { reading: 10, console: CONSOLE, kind: Kind::Event, buffer: 4096, fill: 0xEE };
    records.extend([call.clone(), call]);
    records
}

/// A frame of form 1 at the limit of 2,304 octets, and records that are cut in a form or in the published time.
pub fn forms_limits() -> Vec<Input> {
    let cut = |record: &Record, octets: usize| Input::Trace(vec![write_record(record)[..octets].to_vec()]);
    let [setup, roam, change] = calls(&BOTH);
    vec![
        trace(&full_published_frame()),
        // Without the last form; in the middle of TSF, offset and error.
        cut(&setup, write_record(&setup).len() - 1),
        cut(&roam, write_record(&roam).len() - 1),
        cut(&change, write_record(&change).len() - 1),
        cut(&logging(10, 10), 5 + 9 + 4),
        cut(&Record::LogRsna { reading: 10, logging: rsna(LEGACY, &[]) }, 5 + 9 + 8 + 9),
        cut(&Record::LogPeerLink { reading: 10, logging: peer_link() }, 5 + 9 + 8 + 10 + 4),
    ]
}
