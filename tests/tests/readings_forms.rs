//! How document 02's request (g) is read: the published time fields. A test for each agreed line; more by hand in
//! `forms_cases`.

use differential::cases::{frame, setup_of, Input, CONSOLE, IDENTITY, PUBLISHED, TIME};
use differential::clock::Rule;
use differential::form::{draft, published, Console, Form, PublishedTime};
use differential::forms_cases::full_published_frame;
use differential::kind_cases::{octets_of, peer_link, rsna, LEGACY};
use differential::listing::{list_report, list_report_input};
use differential::make_traces::trace;
use differential::octets::{Address, Kind};
use differential::phases::{fixed_inputs, request_frames};
use differential::random::Random;
use differential::read_back::ReadBack;
use differential::refusal::{refusal, Refusal};
use differential::rsna::RsnaLogging;
use differential::script::transition;
use differential::station::{Answer, Logging, Station};
use differential::trace::{read_record, replay, write_record, Record};

const A: Address = [2, 0, 0, 0, 0, 1];
const B: Address = [2, 0, 0, 0, 0, 2];
const TO: Address = [2, 0, 0, 0, 0, 9];
const GROUP: Address = [3, 0, 0, 0, 0, 1];

/// A station with these requesters.
fn station(list: &[Console]) -> Station {
    let (answer, station) = Station::setup(Rule::Elapsed, &IDENTITY, list);
    assert_eq!(answer, Ok(Answer::Accepted));
    station
}

/// The logging of a transition.
fn logging() -> Logging {
    let Record::Log { logging, .. } = transition(0, 1, 0) else { unreachable!("a logging") };
    logging
}

/// A request of this requester for all transitions, and the frame that it is given.
fn given(station: &mut Station, console: &Address) -> Result<Vec<u8>, Refusal> {
    station.frame(0, &TO, console, &[10, 0, 7, 78, 3, 5, 0, 255])?;
    let mut buffer = vec![0xEE; 260];
    match station.report(0, console, Kind::Event, &mut buffer)? {
        (Answer::Length(length), _) => Ok(buffer[..length].to_vec()),
        other => panic!("{other:?}"),
    }
}

/// The form of the one transition that this requester is given: a body of 33 octets, or of 47.
fn form_given(station: &mut Station, console: &Address) -> u8 {
    match given(station, console).expect("it is listed")[4] {
        33 => 0,
        47 => 1,
        other => panic!("a body of {other} octets"),
    }
}

#[test]
fn on_the_air_the_published_fields_stand_where_the_time_stood() {
    let mut station = station(&[draft(A), published(B)]);
    assert_eq!(station.log_transition(0, &logging()), Ok(Answer::Accepted));
    let in_draft = given(&mut station, &A).expect("A is listed");
    let in_published = given(&mut station, &B).expect("B is listed");
    assert_eq!(in_draft[..8], [10, 1, 7, 79, 33, 5, 0, 0]);
    assert_eq!(in_published[..8], [10, 1, 7, 79, 47, 5, 0, 0]);
    assert_eq!(in_draft[8..17], TIME);
    assert_eq!(in_published[8..16], PUBLISHED.tsf);
    assert_eq!(in_published[16..26], PUBLISHED.offset);
    assert_eq!(in_published[26..31], PUBLISHED.error);
    assert_eq!(in_draft[17..], in_published[31..]);
}

#[test]
fn logging_checks_the_nine_octets_whatever_the_forms_and_carries_the_others_unread() {
    let fields = |octet: u8| PublishedTime { tsf: [octet; 8], offset: [octet; 10], error: [octet; 5] };
    for list in [[draft(A)], [published(A)]] {
        let mut station = station(&list);
        let wrong = Logging { time: [0; 9], ..logging() };
        assert_eq!(station.log_transition(0, &wrong), Err(refusal(14, 0)));
        assert_eq!(
            station.log_rsna(0, &RsnaLogging { time: [0; 9], ..rsna(LEGACY, &[]) }),
            Err(refusal(14, 0))
        );
        let mut link = peer_link();
        link.time = [0; 9];
        assert_eq!(station.log_peer_link(0, &link), Err(refusal(14, 0)));
        for octet in [0, 1, 254, 255] {
            let any = Logging { published: fields(octet), ..logging() };
            assert_eq!(station.log_transition(0, &any), Ok(Answer::Accepted));
        }
        let logged: Vec<PublishedTime> = station.log().iter().map(|event| event.published).collect();
        assert_eq!(logged, [0, 1, 254, 255].map(fields));
    }
}

/// What the reader says of one element, told this form.
fn listed(form: u8, ty: u8, status: u8, behind: &[u8]) -> String {
    let length = 3 + behind.len() as u8;
    list_report(form, &TO, &[&[10, 1, 7, 79, length, 5, ty, status][..], behind].concat())
}

/// Whether one element of this length is read, all its octets `255` but that of the EAP method.
fn is_read(form: Form, ty: u8, length: usize, eap: u8) -> bool {
    let mut behind = vec![255; length - 3];
    let time = if form == Form::Draft { 9 } else { 23 };
    if let Some(first) = behind.get_mut(time + 10) {
        *first = eap;
    }
    match listed(form.number(), ty, 0, &behind).as_str() {
        "refused 17 at 3\n" => false,
        text if text.starts_with("report 1 dialog 7 elements 1\n") => true,
        other => panic!("{other}"),
    }
}

#[test]
fn the_lengths_of_each_kind_in_each_form() {
    // Type, an EAP method's first octet, the lengths of form 0 and of form 1.
    let kinds: [(u8, u8, &[usize], &[usize]); 4] = [
        (0, 13, &[3, 33], &[3, 47]),
        (1, 13, &[3, 24, 46], &[3, 38, 60]),
        (1, 254, &[3, 31, 53], &[3, 45, 67]),
        (2, 13, &[3, 25], &[3, 39]),
    ];
    for (ty, eap, in_draft, in_published) in kinds {
        for (form, lengths) in [(Form::Draft, in_draft), (Form::Published, in_published)] {
            let read: Vec<usize> = (3..=255).filter(|length| is_read(form, ty, *length, eap)).collect();
            assert_eq!(read, lengths, "type {ty}, EAP {eap}, {form:?}");
        }
    }
}

#[test]
fn a_reader_told_form_1_gives_no_14() {
    // Zeros are no time: no month is 0.
    for (ty, own) in [(0, 21), (1, 12), (2, 13)] {
        assert_eq!(listed(0, ty, 0, &vec![0; 9 + own]), "refused 14 at 3\n");
        let text = listed(1, ty, 0, &vec![0; 23 + own]);
        let fields = "status 0 tsf 0000000000000000 offset 00000000000000000000 error 0000000000 ";
        assert!(text.contains(fields), "{text}");
    }
}

#[test]
fn without_an_event_both_forms_read_the_same() {
    for (ty, status) in (0..=3).flat_map(|ty| (0..=4).map(move |status| (ty, status))) {
        let text = listed(0, ty, status, &[]);
        assert!(text.starts_with("report 1 dialog 7 elements 1\n"), "{text}");
        assert_eq!(listed(1, ty, status, &[]), text);
    }
    // Statuses 1 to 4 have a body of 3; types 3 and up are kept unread.
    for form in [0, 1] {
        for behind in [9 + 21, 23 + 21] {
            assert_eq!(listed(form, 0, 1, &vec![255; behind]), "refused 17 at 3\n");
            let text = listed(form, 3, 0, &vec![255; behind]);
            assert!(text.ends_with(&format!("type 3 status 0 rest {behind}\n")), "{text}");
        }
    }
    let diagnostic = [10, 3, 7, 81, 6, 5, 1, 0, 13, 1, 9];
    assert_eq!(list_report(0, &TO, &diagnostic), list_report(1, &TO, &diagnostic));
    assert_eq!(list_report(0, &TO, &[10, 1, 7]), list_report(1, &TO, &[10, 1, 7]));
}

#[test]
fn a_readers_15_comes_before_all_else() {
    for form in 2..=255 {
        for (destination, frame) in [(TO, &[][..]), (GROUP, &[]), (TO, &[10, 1, 7]), (GROUP, &[10; 2305])] {
            assert_eq!(list_report(form, &destination, frame), "refused 15 at 0\n");
        }
    }
    for form in [0, 1] {
        assert_eq!(list_report(form, &GROUP, &[]), "refused 11 at 0\n");
        assert_eq!(list_report(form, &TO, &[]), "refused 1 at 0\n");
    }
}

#[test]
fn the_programs_input_begins_with_the_form() {
    for length in 0..=6 {
        for form in 0..=255 {
            let input: Vec<u8> = [form, 2, 0, 0, 0, 0].into_iter().take(length).collect();
            let number = if length > 0 && form > 1 { 15 } else { 1 };
            assert_eq!(list_report_input(&input), format!("refused {number} at 0\n"), "{input:?}");
        }
    }
    assert_eq!(list_report_input(&[1, 2, 0, 0, 0, 0, 9, 10, 1, 7]), "report 1 dialog 7 elements 0\n");
}

#[test]
fn a_list_with_another_number_than_0_or_1_is_refused_by_15() {
    for form in 2..=255 {
        let bad = Console { address: B, form };
        for list in [vec![bad], vec![draft(A), bad], vec![bad, published(A)]] {
            // Before 16.
            assert_eq!(Station::setup(Rule::Elapsed, &[], &list).0, Err(refusal(15, 0)));
            let mut gate = station(&[published(A)]);
            assert_eq!(gate.roam(0, &list), Err(refusal(15, 0)));
            assert_eq!(gate.change_network(0, &list), Err(refusal(15, 0)));
            assert_eq!(gate.listed(), [(A, Form::Published)]);
        }
    }
}

#[test]
fn repeated_goes_by_the_address_alone() {
    for list in [[draft(A), published(A)], [published(A), draft(A)], [published(A), published(A)]] {
        assert_eq!(Station::setup(Rule::Elapsed, &IDENTITY, &list).0, Err(refusal(15, 0)));
        assert_eq!(station(&[draft(A)]).roam(0, &list), Err(refusal(15, 0)));
        assert_eq!(station(&[draft(A)]).change_network(0, &list), Err(refusal(15, 0)));
    }
    // Other addresses may share a form.
    let four = [1, 2, 3, 4].map(|last| published([2, 0, 0, 0, 0, last]));
    assert_eq!(Station::setup(Rule::Elapsed, &IDENTITY, &four).0, Ok(Answer::Accepted));
}

#[test]
fn each_accepted_list_names_the_forms_anew() {
    let mut station = station(&[draft(A), published(B)]);
    assert_eq!(station.log_transition(0, &logging()), Ok(Answer::Accepted));
    assert_eq!([A, B].map(|console| form_given(&mut station, &console)), [0, 1]);
    assert_eq!(station.roam(0, &[published(A), draft(B)]), Ok(Answer::Accepted));
    assert_eq!([A, B].map(|console| form_given(&mut station, &console)), [1, 0]);
    // A refused one names none.
    assert_eq!(station.roam(0, &[draft(A), published(B), draft(A)]), Err(refusal(15, 0)));
    assert_eq!([A, B].map(|console| form_given(&mut station, &console)), [1, 0]);
    assert_eq!(station.change_network(0, &[published(B), published(A)]), Ok(Answer::Accepted));
    assert_eq!(station.log_transition(0, &logging()), Ok(Answer::Accepted));
    assert_eq!([A, B].map(|console| form_given(&mut station, &console)), [1, 1]);
    assert_eq!(station.roam(0, &[draft(B)]), Ok(Answer::Accepted));
    assert_eq!(form_given(&mut station, &B), 0);
    assert_eq!(given(&mut station, &A), Err(refusal(12, 0)));
}

#[test]
fn what_a_console_is_given_does_not_depend_on_the_others_forms() {
    for own in [0, 1] {
        let given_beside = |form: u8| {
            let list = [Console { address: A, form: own }, Console { address: B, form }];
            let mut station = station(&list);
            assert_eq!(station.log_transition(0, &logging()), Ok(Answer::Accepted));
            given(&mut station, &A)
        };
        assert_eq!(given_beside(0), given_beside(1));
    }
}

#[test]
fn a_frame_of_the_published_form_has_at_most_2304_octets() {
    let octets: Vec<u8> = full_published_frame().iter().flat_map(write_record).collect();
    let printed = replay(&octets);
    let answers: Vec<&str> =
        printed.lines().filter(|line| !line.starts_with("buffer ") && *line != "accepted").collect();
    assert_eq!(answers, ["length 2304", "length 52"]);
}

#[test]
fn the_records_with_forms_and_published_times_by_hand() {
    let list = vec![draft(A), Console { address: B, form: 255 }];
    let roam = octets_of("050a0000000202000000000100020000000002ff");
    assert_eq!(write_record(&Record::Roam { reading: 10, list: list.clone() }), roam);
    let change = [&[6], &roam[1..]].concat();
    assert_eq!(write_record(&Record::Change { reading: 10, list: list.clone() }), change);
    let setup = octets_of("0001000d0202000000000100020000000002ff");
    assert_eq!(write_record(&Record::Setup { identity: vec![13], list }), setup);
    let read = octets_of("1102020000000009010033");
    let record = Record::Read { form: 2, destination: TO, octets: vec![0x33] };
    assert_eq!(write_record(&record), read);
    let log = octets_of(
        "020a000000e7033a3b171f0cea07a1a2a3a4a5a6a7a8b1b2b3b4b5b6b7b8b9bac1c2c3c4c5\
         02010101010102010101010221000031323334f6ffffff",
    );
    let Record::Log { logging, .. } = transition(4_294_967_286, 0x21, 0) else { unreachable!("a logging") };
    assert_eq!(write_record(&Record::Log { reading: 10, logging }), log);
    for octets in [roam, change, setup, read, log] {
        let (record, length) = read_record(&octets).expect("the record is whole");
        assert_eq!((write_record(&record), length), (octets.clone(), octets.len()));
        // A bad form is the call's own 15; a record that is cut ends the trace.
        let answer = if octets[0] == 2 { "accepted\n" } else { "refused 15 at 0\n" };
        assert_eq!(replay(&octets), answer);
        for length in 1..octets.len() {
            assert_eq!(replay(&octets[..length]), "trace refused at 0\n");
        }
    }
}

#[test]
fn a_request_is_dropped_with_its_form() {
    let roam = Record::Roam { reading: 0, list: vec![published(CONSOLE)] };
    let report = Record::Report { reading: 0, console: CONSOLE, kind: Kind::Event, buffer: 260, fill: 0 };
    let ask = frame(0, &[10, 0, 7, 78, 3, 5, 0, 255]);
    let records = [setup_of(&[draft(CONSOLE)]), transition(0, 1, 0), ask, roam, report];
    let printed = replay(&records.iter().flat_map(write_record).collect::<Vec<u8>>());
    assert!(printed.contains("\nnothing\n"), "{printed}");
}

#[test]
fn every_frame_is_read_in_its_consoles_form_and_no_event_in_the_other() {
    let run = |input: &[u8]| replay(input).into_bytes();
    let mut events = [[0; 2]; 3];
    let mut without = [0; 2];
    let mut check = |records: &[Vec<u8>]| {
        let back = ReadBack::of(&run, records, &run(&records.concat()));
        assert!(back.is_as_chosen());
        for frame in &back.chosen {
            let form = usize::from(frame.form.number());
            match frame.first_event() {
                Some((_, ty)) => events[usize::from(ty)][form] += 1,
                None => without[form] += 1,
            }
        }
    };
    for input in fixed_inputs() {
        if let Input::Trace(records) = input {
            check(&records);
        }
    }
    for index in 0..10 {
        check(&request_frames(&mut Random::new(1, 1, index), 400).records);
    }
    for index in 0..100 {
        check(&trace(&mut Random::new(1, 3, index)));
    }
    assert!(events.iter().flatten().chain(&without).all(|number| *number > 100), "{events:?}, {without:?}");
}
