//! How document 02's request (a) is read: RSNA and peer link events. A test for each agreed line. Where several
//! events are given, they stand newest first, as request (d) has it.

use differential::clock::Rule;
use differential::form::{draft, PublishedTime};
use differential::kind_cases::{
    full_frame, octets_of, peer_link, rsna, EXPANDED, LEGACY, LONG_RSNA, PEER_LINK, RSN, SHORT_RSNA,
};
use differential::listing::{list_report, list_request};
use differential::octets::{Address, Kind};
use differential::peer_link::{PeerLink, PeerLogging};
use differential::refusal::{refusal, Refusal};
use differential::request::{read_request, write_request, Wanted};
use differential::rsna::RsnaLogging;
use differential::station::{Answer, Logging, Station};
use differential::trace::{read_record, replay, write_record, Record};
use differential::transition::Transition;

const A: Address = [2, 0, 0, 0, 0, 1];
const B: Address = [2, 0, 0, 0, 0, 2];
const TO: Address = [2, 0, 0, 0, 0, 9];
const IDENTITY: [u8; 17] = [13, 3, 0xA, 0xB, 0xC, 11, 1, 65, 12, 1, 66, 14, 1, 67, 9, 1, 68];

/// A station with the requester A.
fn station() -> Station {
    Station::setup(Rule::Elapsed, &IDENTITY, &[draft(A)]).1
}

/// Logs a transition, told apart by its reason.
fn log_transition(station: &mut Station, reading: u32, reason: u8) {
    let transition = Transition { source: A, target: B, time: 0, reason, result: 0, signal: [0; 4] };
    let logging =
        Logging { time: [255; 9], published: PublishedTime::default(), transition, departure: reading };
    assert_eq!(station.log_transition(reading, &logging), Ok(Answer::Accepted));
}

/// Logs an RSNA event.
fn log_rsna(station: &mut Station, logging: &RsnaLogging) {
    assert_eq!(station.log_rsna(0, logging), Ok(Answer::Accepted));
}

/// Logs a peer link event.
fn log_link(station: &mut Station, link: PeerLink) {
    let logging = PeerLogging { time: [255; 9], published: PublishedTime::default(), link };
    assert_eq!(station.log_peer_link(0, &logging), Ok(Answer::Accepted));
}

/// The peer link event of the cases, with a connection time that tells it apart.
fn link(connection: u32) -> PeerLink {
    PeerLink { connection, ..peer_link().link }
}

/// A request of A with one element of this type, limit 255.
fn ask(station: &mut Station, ty: u8, subelements: &[u8]) {
    let length = 3 + subelements.len() as u8;
    let frame = [&[10, 0, 7, 78, length, 5, ty, 255][..], subelements].concat();
    assert_eq!(station.frame(0, &TO, &A, &frame), Ok(Answer::Accepted));
}

/// The event report that A gets.
fn give(station: &mut Station) -> Vec<u8> {
    let mut buffer = [0xEE; 2304];
    match station.report(0, &A, Kind::Event, &mut buffer) {
        Ok((Answer::Length(length), _)) => buffer[..length].to_vec(),
        other => panic!("{other:?}"),
    }
}

/// How many events A is given for one element of this type.
fn number_given(station: &mut Station, ty: u8, subelements: &[u8]) -> usize {
    ask(station, ty, subelements);
    let (frame, mut at, mut events) = (give(station), 3, 0);
    while at < frame.len() {
        events += usize::from(frame[at + 1] > 3);
        at += 2 + usize::from(frame[at + 1]);
    }
    events
}

/// The refusal of a request frame with one element of this type.
fn refused(ty: u8, subelements: &[u8]) -> Option<Refusal> {
    let length = 3 + subelements.len() as u8;
    read_request(&[&[10, 0, 7, 78, length, 5, ty, 4][..], subelements].concat()).err()
}

#[test]
fn the_four_bodies_of_an_rsna_event_by_hand() {
    let lengths = [(LEGACY, &[][..], 24), (LEGACY, &RSN, 46), (EXPANDED, &[], 31), (EXPANDED, &RSN, 53)];
    for (eap, rsn, length) in lengths {
        let mut station = station();
        log_rsna(&mut station, &rsna(eap, rsn));
        ask(&mut station, 1, &[]);
        let frame = give(&mut station);
        assert_eq!((frame.len(), usize::from(frame[4])), (5 + length, length));
        // Header, element, token, type, status, time; target and authentication type; EAP; result; RSN.
        let own = if eap == LEGACY { &eap[..1] } else { &eap[..] };
        let time = [0xE7, 3, 58, 59, 23, 31, 12, 0xEA, 7];
        let head = [10, 1, 7, 79, length as u8, 5, 1, 0];
        let suite = [2, 1, 1, 1, 1, 2, 0, 0x0F, 0xAC, 1];
        assert_eq!(frame, [&head[..], &time, &suite, own, &[0x11], rsn].concat());
    }
}

#[test]
fn one_frame_of_each_kind_by_hand() {
    let mut station = station();
    log_rsna(&mut station, &rsna(LEGACY, &[]));
    log_rsna(&mut station, &rsna(EXPANDED, &RSN));
    assert_eq!(station.log_peer_link(0, &peer_link()), Ok(Answer::Accepted));
    ask(&mut station, 1, &[]);
    // The long one was logged after the short one.
    assert_eq!(give(&mut station), octets_of(&format!("0a0107{LONG_RSNA}{SHORT_RSNA}")));
    ask(&mut station, 2, &[]);
    assert_eq!(give(&mut station), octets_of(&format!("0a0107{PEER_LINK}")));
}

#[test]
fn connection_times_go_out_as_they_came_and_no_event_ends_another() {
    let mut station = station();
    log_link(&mut station, PeerLink { status: 1, ..link(16_777_215) });
    log_link(&mut station, PeerLink { status: 0, ..link(7) });
    station.clock(4_000_000).expect("a clock reading is accepted");
    ask(&mut station, 2, &[]);
    let frame = give(&mut station);
    // Two elements of 27 octets, the end of the link first; in each, connection time and peer status are the last
    // four.
    assert_eq!(frame[26..30], [7, 0, 0, 0]);
    assert_eq!(frame[53..], [255, 255, 255, 1]);
}

#[test]
fn an_eap_methods_length_is_tied_to_its_first_octet() {
    assert_eq!(refused(1, &[2, 1, 13]), None);
    assert_eq!(refused(1, &[2, 8, 254, 1, 2, 3, 4, 5, 6, 7]), None);
    let wrong = |body: &[u8]| {
        let subelement = [&[2, body.len() as u8][..], body].concat();
        assert_eq!(refused(1, &subelement), Some(refusal(7, 8)), "{body:?}");
    };
    for length in [0, 2, 3, 4, 5, 6, 7, 9] {
        wrong(&[13; 9][..length]);
        wrong(&[254; 9][..length]);
    }
    wrong(&[254]);
    wrong(&[13; 8]);
    wrong(&[253; 8]);
    wrong(&[255; 8]);
}

#[test]
fn subelement_lengths_of_each_type() {
    for (ty, id, length) in [(1, 0, 6), (1, 1, 4), (1, 3, 1), (2, 0, 6), (2, 1, 2)] {
        for given in 0..=9 {
            let subelement = [&[id, given][..], &[1; 9][..usize::from(given)]].concat();
            let expected = (given != length).then_some(refusal(7, 8));
            assert_eq!(refused(ty, &subelement), expected, "type {ty}, ID {id}, {given} octets");
        }
    }
    // Repeated: 8 at the second, whatever its values; 7 where its length is wrong too.
    assert_eq!(refused(1, &[3, 1, 1, 3, 1, 2]), Some(refusal(8, 11)));
    assert_eq!(refused(1, &[2, 1, 13, 2, 8, 254, 0, 0, 0, 0, 0, 0, 0]), Some(refusal(8, 11)));
    assert_eq!(refused(2, &[1, 2, 81, 6, 1, 2, 81, 0]), Some(refusal(8, 12)));
    assert_eq!(refused(2, &[1, 2, 81, 6, 1, 1, 81]), Some(refusal(7, 12)));
}

#[test]
fn higher_ids_are_passed_over_and_counted_and_types_3_and_up_are_not_read() {
    let listed = |ty: u8, subelements: &[u8]| {
        let length = 3 + subelements.len() as u8;
        list_request(&[&[10, 0, 7, 78, length, 5, ty, 4][..], subelements].concat())
    };
    let line = |ty: u8, subs: usize| {
        format!("frame 0 dialog 7 elements 1\nelement 78 token 5 type {ty} limit 4 subs {subs}\n")
    };
    assert_eq!(listed(1, &[4, 0, 4, 1, 9, 3, 1, 1, 255, 0]), line(1, 4));
    assert_eq!(listed(2, &[2, 1, 9, 3, 0, 3, 0, 1, 2, 81, 6]), line(2, 4));
    // Past the end of the element.
    assert_eq!(listed(1, &[4]), "refused 7 at 8\n");
    assert_eq!(listed(2, &[2, 1]), "refused 7 at 8\n");
    assert_eq!(listed(3, &[2, 1]), line(3, 0));
    assert_eq!(listed(255, &[0, 1, 1, 0, 1, 1]), line(255, 0));
}

#[test]
fn rsna_conditions() {
    let mut station = station();
    log_transition(&mut station, 0, 1);
    log_link(&mut station, link(1));
    log_rsna(&mut station, &rsna(LEGACY, &RSN));
    log_rsna(&mut station, &RsnaLogging { result: 0, ..rsna(EXPANDED, &[]) });
    let suite = [1, 4, 0, 0x0F, 0xAC, 1];
    let expanded = [&[2, 8][..], &EXPANDED].concat();
    let mut other_vendor_type = expanded.clone();
    other_vendor_type[9] ^= 1;
    for (subelements, given) in [
        (&[][..], 2),
        (&[0, 6, 2, 1, 1, 1, 1, 2], 2),
        (&[0, 6, 2, 1, 1, 1, 1, 1], 0),
        (&suite, 2),
        (&[1, 4, 0, 0x0F, 0xAC, 2], 0),
        (&[2, 1, 13], 1),
        (&[2, 1, 14], 0),
        (&expanded, 1),
        (&other_vendor_type, 0),
        (&[3, 1, 0], 0),
        (&[3, 1, 1], 1),
        (&[3, 1, 2], 1),
        (&[3, 1, 3], 2),
        (&[3, 1, 0xFC], 0),
        (&[2, 1, 13, 3, 1, 1], 0),
        (&[2, 1, 13, 3, 1, 2], 1),
        // Passed over: asks for nothing.
        (&[4, 1, 9], 2),
    ] {
        assert_eq!(number_given(&mut station, 1, subelements), given, "{subelements:?}");
    }
}

#[test]
fn peer_link_conditions() {
    let mut station = station();
    log_rsna(&mut station, &rsna(LEGACY, &[]));
    log_link(&mut station, link(1));
    log_link(&mut station, PeerLink { channel: 0, ..link(2) });
    log_link(&mut station, PeerLink { class: 115, peer: A, ..link(3) });
    for (subelements, given) in [
        (&[][..], 3),
        (&[0, 6, 2, 1, 1, 1, 1, 1], 2),
        (&[0, 6, 2, 1, 1, 1, 1, 2], 0),
        (&[1, 2, 81, 6], 1),
        (&[1, 2, 115, 6], 1),
        (&[1, 2, 81, 7], 0),
        // Channel 0 is every channel of the class, and not only channel 0.
        (&[1, 2, 81, 0], 2),
        (&[1, 2, 115, 0], 1),
        (&[1, 2, 0, 0], 0),
        (&[0, 6, 2, 0, 0, 0, 0, 1, 1, 2, 81, 0], 0),
        (&[2, 1, 9], 3),
    ] {
        assert_eq!(number_given(&mut station, 2, subelements), given, "{subelements:?}");
    }
}

#[test]
fn octets_past_an_eap_methods_length_leave_no_trace() {
    let mut answers = Vec::new();
    for garbage in [0, 0x99, 254] {
        let mut eap = [garbage; 8];
        eap[0] = 13;
        let mut station = station();
        log_rsna(&mut station, &rsna(eap, &RSN));
        let met = number_given(&mut station, 1, &[2, 1, 13]);
        ask(&mut station, 1, &[]);
        let mut buffer = [0; 267];
        let wanted = Wanted { token: 5, ty: 1, bound: 4, conditions: vec![(2, eap.to_vec())] };
        let written = write_request(&mut buffer, Kind::Event, 7, &[wanted]);
        answers.push((met, give(&mut station), written, buffer));
    }
    assert_eq!((answers[0].0, answers[0].2), (1, Ok(11)));
    assert!(answers.iter().all(|answer| *answer == answers[0]));
}

#[test]
fn an_rsn_element_is_absent_or_any_22_octets() {
    for length in [0, 22] {
        log_rsna(&mut station(), &rsna(LEGACY, &vec![0xFF; length]));
    }
    for length in [1, 2, 20, 21, 23, 24, 44, 255, 256, 278, 4096] {
        let mut station = station();
        let mut logging = rsna(LEGACY, &vec![0x30; length]);
        assert_eq!(station.log_rsna(0, &logging), Err(refusal(17, 0)), "{length}");
        logging.time = [0; 9];
        assert_eq!(station.log_rsna(0, &logging), Err(refusal(14, 0)), "{length}");
        assert_eq!(number_given(&mut station, 1, &[]), 0);
    }
    let mut station = station();
    let wrong_time = PeerLogging { time: [0; 9], ..peer_link() };
    assert_eq!(station.log_peer_link(0, &wrong_time), Err(refusal(14, 0)));
}

#[test]
fn a_refused_logging_drops_what_is_late() {
    let mut station = station();
    let diagnostic = [10, 2, 7, 80, 4, 1, 1, 1, 0];
    for refused in [rsna(LEGACY, &RSN[..1]), RsnaLogging { time: [0; 9], ..rsna(LEGACY, &[]) }] {
        assert_eq!(station.frame(0, &TO, &A, &diagnostic), Ok(Answer::Accepted));
        assert!(station.log_rsna(1001, &refused).is_err());
        let answer = station.report(1000, &A, Kind::Diagnostic, &mut [0; 260]);
        assert_eq!(answer, Ok((Answer::Nothing, None)));
    }
}

#[test]
fn frequent_counts_transitions_alone() {
    let mut station = station();
    log_transition(&mut station, 0, 1);
    log_link(&mut station, link(1));
    log_rsna(&mut station, &rsna(LEGACY, &[]));
    // More than one within a minute: the first transition stands alone, whatever is logged beside it.
    assert_eq!(number_given(&mut station, 0, &[4, 3, 1, 1, 0]), 0);
    log_transition(&mut station, 0, 2);
    assert_eq!(number_given(&mut station, 0, &[4, 3, 1, 1, 0]), 1);
    assert_eq!(number_given(&mut station, 0, &[4, 3, 2, 1, 0]), 0);
}

#[test]
fn the_65th_event_drops_the_oldest_whatever_the_kinds() {
    let mut station = station();
    log_rsna(&mut station, &rsna(LEGACY, &[]));
    log_link(&mut station, link(1));
    for reason in 0..62 {
        log_transition(&mut station, 0, reason);
    }
    let numbers = |station: &mut Station| [0, 1, 2].map(|ty| number_given(station, ty, &[]));
    assert_eq!(numbers(&mut station), [62, 1, 1]);
    log_link(&mut station, link(2));
    assert_eq!(numbers(&mut station), [62, 0, 2]);
    log_link(&mut station, link(3));
    assert_eq!(numbers(&mut station), [62, 0, 2]);
    log_rsna(&mut station, &rsna(EXPANDED, &RSN));
    assert_eq!(numbers(&mut station), [61, 1, 2]);
}

#[test]
fn an_element_is_given_its_own_kind_newest_first_up_to_its_limit() {
    let mut station = station();
    for number in 1..=3 {
        log_link(&mut station, link(number));
        log_transition(&mut station, 0, number as u8);
    }
    // Peer links up to two of three, an Incapable, no RSNA event.
    let frame = [10, 0, 7, 78, 3, 1, 2, 2, 78, 3, 2, 3, 9, 78, 3, 3, 1, 9];
    assert_eq!(station.frame(0, &TO, &A, &frame), Ok(Answer::Accepted));
    // Logged after acceptance.
    log_rsna(&mut station, &rsna(LEGACY, &[]));
    let given = give(&mut station);
    assert_eq!(given.len(), 3 + 27 + 27 + 5 + 5);
    // The third and the second, by the least octets of their connection times.
    assert_eq!((given[26], given[53]), (3, 2));
    assert_eq!(given[57..], [79, 3, 2, 3, 3, 79, 3, 3, 1, 0]);
}

#[test]
fn a_frame_of_2304_octets_and_no_longer_one() {
    let lengths = |one_more: Record, ty: u8| -> Vec<String> {
        let octets: Vec<u8> = full_frame(one_more, ty).iter().flat_map(write_record).collect();
        let printed = replay(&octets);
        let lines = printed.lines().filter(|line| line.starts_with("length") || *line == "nothing");
        lines.map(str::to_string).collect()
    };
    let rsna = Record::LogRsna { reading: 10, logging: rsna(LEGACY, &[]) };
    assert_eq!(lengths(rsna, 1), ["length 2304", "nothing"]);
    let link = Record::LogPeerLink { reading: 10, logging: peer_link() };
    assert_eq!(lengths(link, 2), ["length 2270", "length 38"]);
}

/// A report frame with one element of this type, status and octets behind it.
fn listed(ty: u8, status: u8, behind: &[u8]) -> String {
    let length = 3 + behind.len() as u8;
    list_report(0, &TO, &[&[10, 1, 7, 79, length, 5, ty, status][..], behind].concat())
}

#[test]
fn the_readers_bodies_of_types_1_and_2() {
    let good = |ty: u8, behind: &[u8]| {
        let text = listed(ty, 0, behind);
        assert!(text.starts_with("report 1 dialog 7 elements 1\nelement 79 token 5 type"), "{text}");
    };
    let wrong = |ty: u8, status: u8, behind: &[u8]| {
        assert_eq!(listed(ty, status, behind), "refused 17 at 3\n", "{behind:?}");
    };
    for ty in [1, 2] {
        assert_eq!(
            listed(ty, 0, &[]),
            format!("report 1 dialog 7 elements 1\nelement 79 token 5 type {ty} status 0\n")
        );
        for status in 1..=4 {
            wrong(ty, status, &[255; 21]);
        }
    }
    // Unknown time, then octets that make the EAP method one of 1 octet, or of 8.
    let body = |eap: u8, length: usize| {
        let mut octets = vec![255; length];
        octets[19.min(length - 1)] = eap;
        octets
    };
    for length in 1..=60 {
        let check = |ty: u8, eap: u8, is_good: bool| {
            let behind = body(eap, length);
            if is_good {
                good(ty, &behind);
            } else {
                wrong(ty, 0, &behind);
            }
        };
        check(1, 13, [24, 46].contains(&(3 + length)));
        check(1, 254, [31, 53].contains(&(3 + length)));
        check(2, 13, 3 + length == 25);
        check(2, 254, 3 + length == 25);
    }
    // All of 17 comes before 14, and 14 holds for all kinds.
    let with_wrong_time = |mut octets: Vec<u8>| {
        octets[6] = 13;
        octets
    };
    assert_eq!(listed(1, 0, &with_wrong_time(body(13, 21))), "refused 14 at 3\n");
    assert_eq!(listed(1, 0, &with_wrong_time(body(254, 21))), "refused 17 at 3\n");
    assert_eq!(listed(2, 0, &with_wrong_time(body(0, 22))), "refused 14 at 3\n");
    assert_eq!(listed(2, 0, &with_wrong_time(body(0, 23))), "refused 17 at 3\n");
    // Type 3: anything.
    assert_eq!(
        listed(3, 0, &[0; 22]),
        "report 1 dialog 7 elements 1\nelement 79 token 5 type 3 status 0 rest 22\n"
    );
}

#[test]
fn a_request_of_eight_elements_of_either_type_fits_267_octets() {
    let rsna: Vec<(u8, Vec<u8>)> = vec![(0, A.into()), (1, vec![1; 4]), (2, EXPANDED.into()), (3, vec![1])];
    let peer: Vec<(u8, Vec<u8>)> = vec![(0, A.into()), (1, vec![81, 6])];
    for (ty, conditions, length) in [(1, rsna, 32), (2, peer, 17)] {
        let wanted = |token| Wanted { token, ty, bound: 4, conditions: conditions.clone() };
        let eight: Vec<Wanted> = (1..=8).map(wanted).collect();
        let mut buffer = [0; 267];
        assert_eq!(write_request(&mut buffer, Kind::Event, 7, &eight), Ok(3 + 8 * length));
        let read = read_request(&buffer[..3 + 8 * length]).expect("what is written can be read");
        assert!(read.elements.iter().all(|element| element.conditions.len() == conditions.len()));
        // The ninth and a repeated token: the place the element would have had.
        let nine: Vec<Wanted> = (1..=9).map(wanted).collect();
        assert_eq!(write_request(&mut buffer, Kind::Event, 7, &nine), Err(refusal(9, 3 + 8 * length)));
        let repeated = [wanted(1), wanted(1)];
        assert_eq!(write_request(&mut buffer, Kind::Event, 7, &repeated), Err(refusal(6, 3 + length)));
        // As a diagnostic, and of type 3, it has none.
        let other = Wanted { ty: 3, ..wanted(1) };
        assert_eq!(write_request(&mut buffer, Kind::Event, 7, &[other]), Ok(8));
        assert_eq!(write_request(&mut buffer, Kind::Diagnostic, 7, &[wanted(1)]), Ok(9));
    }
}

#[test]
fn the_records_that_log_by_hand() {
    let rsna_octets = octets_of(
        "070a000000e7033a3b171f0cea07a1a2a3a4a5a6a7a8b1b2b3b4b5b6b7b8b9bac1c2c3c4c5020101010102000fac01\
         0d9192939495969711160030140100000fac040100000fac040100000fac010000",
    );
    let record = Record::LogRsna { reading: 10, logging: rsna(LEGACY, &RSN) };
    assert_eq!(write_record(&record), rsna_octets);
    assert_eq!(read_record(&rsna_octets), Some((record, rsna_octets.len())));
    let peer_octets = octets_of(
        "080a000000e7033a3b171f0cea07a1a2a3a4a5a6a7a8b1b2b3b4b5b6b7b8b9bac1c2c3c4c5\
         02010101010151061401020303",
    );
    let record = Record::LogPeerLink { reading: 10, logging: peer_link() };
    assert_eq!(write_record(&record), peer_octets);
    assert_eq!(read_record(&peer_octets), Some((record, peer_octets.len())));
    for octets in [rsna_octets, peer_octets] {
        for length in 1..octets.len() {
            assert_eq!(replay(&octets[..length]), "trace refused at 0\n");
        }
        assert_eq!(replay(&octets), "accepted\n");
    }
    // An RSN element of 4,096 octets is the call's own 17, one of 4,097 no record.
    let long = |length: usize| Record::LogRsna { reading: 10, logging: rsna(LEGACY, &vec![0; length]) };
    assert_eq!(replay(&write_record(&long(4096))), "refused 17 at 0\n");
    assert_eq!(replay(&write_record(&long(4097))), "trace refused at 0\n");
}

#[test]
fn the_writers_record_by_type() {
    let record = |action: u8, ty: u8, conditions: &[u8]| {
        replay(&[&[0x10, 0, 0, 0, action, 7, 1, 5, ty, 4, 0][..], conditions].concat())
    };
    // A buffer of 0 octets: 13 where the record is whole and in range.
    let taken = "refused 13 at 0\nbuffer \n";
    let refused = "trace refused at 0\n";
    let eap = [&[1, 2, 8][..], &LEGACY].concat();
    assert_eq!(record(0, 1, &eap), taken);
    assert_eq!(record(0, 1, &[1, 2, 1, 13]), refused);
    assert_eq!(record(0, 1, &[1, 1, 4, 0, 0, 0, 0]), taken);
    assert_eq!(record(0, 1, &[1, 1, 6, 0, 0, 0, 0, 0, 0]), refused);
    assert_eq!(record(0, 1, &[1, 4, 3, 0, 0, 0]), refused);
    assert_eq!(record(0, 1, &[2, 3, 1, 0, 3, 1, 0]), refused);
    assert_eq!(record(0, 2, &[1, 1, 2, 81, 6]), taken);
    assert_eq!(record(0, 2, &[1, 1, 6, 0, 0, 0, 0, 0, 0]), refused);
    assert_eq!(record(0, 2, &[1, 2, 2, 0, 0]), refused);
    // Every other element keeps document 01's, a diagnostic of type 1 or 2 too.
    for (action, ty) in [(0, 0), (0, 3), (0, 255), (2, 1), (2, 2)] {
        assert_eq!(record(action, ty, &[1, 1, 6, 0, 0, 0, 0, 0, 0]), taken);
        assert_eq!(record(action, ty, &[1, 4, 3, 0, 0, 0]), taken);
        assert_eq!(record(action, ty, &eap), refused);
        assert_eq!(record(action, ty, &[1, 1, 2, 81, 6]), refused);
    }
}

#[test]
fn a_move_keeps_events_of_every_kind_and_a_network_change_none() {
    let mut station = station();
    log_rsna(&mut station, &rsna(LEGACY, &[]));
    log_link(&mut station, link(1));
    assert_eq!(station.roam(0, &[draft(A)]), Ok(Answer::Accepted));
    assert_eq!([1, 2].map(|ty| number_given(&mut station, ty, &[])), [1, 1]);
    assert_eq!(station.change_network(0, &[draft(A)]), Ok(Answer::Accepted));
    assert_eq!([1, 2].map(|ty| number_given(&mut station, ty, &[])), [0, 0]);
}
