//! Cases of document 02's request (a), with what is printed worked out by hand from the papers.

use crate::cases::{
    frame, frame_case, logging, report, reported, setup, trace, Case, Input, CONSOLE, PUBLISHED, TIME,
};
use crate::make_events::BSSIDS;
use crate::make_identity::STATION;
use crate::octets::Kind;
use crate::peer_link::{PeerLink, PeerLogging};
use crate::request::Wanted;
use crate::rsna::RsnaLogging;
use crate::trace::{write_record, Record};

/// 00-0F-AC:1.
const SUITE: [u8; 4] = [0, 0x0F, 0xAC, 1];
/// EAP-TLS, with octets behind it that nobody reads.
pub const LEGACY: [u8; 8] = [13, 0x91, 0x92, 0x93, 0x94, 0x95, 0x96, 0x97];
/// An expanded EAP method: vendor 00:50:c2, vendor type 01:02:03:04.
pub const EXPANDED: [u8; 8] = [254, 0, 0x50, 0xC2, 1, 2, 3, 4];
/// An RSN element: ID 48, length 20, version 1, one cipher suite for groups and one for pairs, one
/// authentication suite, no capabilities.
pub const RSN: [u8; 22] =
    [0x30, 0x14, 1, 0, 0, 0x0F, 0xAC, 4, 1, 0, 0, 0x0F, 0xAC, 4, 1, 0, 0, 0x0F, 0xAC, 1, 0, 0];

/// The reports of an RSNA event with an EAP method of 1 octet and no RSN element (body of 24 octets), of one
/// with 8 and 22 (53), and of a peer link event (25), for event token 5, in hexadecimal.
pub const SHORT_RSNA: &str = "4f18050100e7033a3b171f0cea07020101010102000fac010d11";
pub const LONG_RSNA: &str = "4f35050100e7033a3b171f0cea07020101010102000fac01fe0050c20102030411\
                             30140100000fac040100000fac040100000fac010000";
pub const PEER_LINK: &str = "4f19050200e7033a3b171f0cea0702010101010151061401020303";

/// An RSNA event with this EAP method and RSN element, and result 17.
pub fn rsna(eap: [u8; 8], rsn: &[u8]) -> RsnaLogging {
    let (target, authentication) = (BSSIDS[1], SUITE);
    let (time, published, rsn) = (TIME, PUBLISHED, rsn.to_vec());
    RsnaLogging { time, published, target, authentication, eap, result: 0x11, rsn }
}

/// A peer link event, every field with a value of its own.
pub fn peer_link() -> PeerLogging {
    let (class, channel, power, connection, status) = (81, 6, 20, 0x03_02_01, 3);
    let link = PeerLink { peer: BSSIDS[0], class, channel, power, connection, status };
    PeerLogging { time: TIME, published: PUBLISHED, link }
}

/// Octets given in hexadecimal.
pub fn octets_of(text: &str) -> Vec<u8> {
    let octet = |pair: &[u8]| u8::from_str_radix(&String::from_utf8_lossy(pair), 16);
    text.as_bytes().chunks(2).map(|pair| octet(pair).expect("two hexadecimal digits")).collect()
}

/// One event, a request for all of this type, one report.
fn reported_case(title: &'static str, logging: Record, ty: u8, element: &str) -> Case {
    let ask = [0x0A, 0, 7, 0x4E, 3, 5, ty, 4];
    let records = [setup(), logging, frame(10, &ask), report(10, Kind::Event)];
    let given = reported(&format!("0a0107{element}"));
    Case { title, input: trace(&records), printed: format!("accepted\naccepted\naccepted\n{given}") }
}

/// One element that the request writer is asked for, and the frame that it writes.
fn written_case(title: &'static str, ty: u8, conditions: &[(u8, &[u8])], frame: &str) -> Case {
    let conditions = conditions.iter().map(|(id, octets)| (*id, octets.to_vec())).collect();
    let wanted = vec![Wanted { token: 5, ty, bound: 4, conditions }];
    let record = Record::Write { buffer: 267, fill: 0xEE, kind: Kind::Event, dialog: 7, wanted };
    let octets = frame.len() / 2;
    let printed = format!("length {octets}\nbuffer {frame}{}\n", "ee".repeat(267 - octets));
    Case { title, input: trace(&[record]), printed }
}

/// An event report frame for the program `report`, in hexadecimal from its first element on.
fn read_case(title: &'static str, elements: &str, printed: String) -> Case {
    let frame = octets_of(&format!("0a0107{elements}"));
    Case { title, input: Input::Report([&[0], &STATION[..], &frame].concat()), printed }
}

/// Loggings, and what is reported of them.
fn logging_cases() -> Vec<Case> {
    let at_10 = |logging| Record::LogRsna { reading: 10, logging };
    let one_short = rsna(LEGACY, &RSN[..21]);
    let wrong_time = RsnaLogging { time: [0; 9], ..one_short.clone() };
    let peer = || Record::LogPeerLink { reading: 10, logging: peer_link() };
    vec![
        reported_case("an RSNA event, EAP of 1 octet", at_10(rsna(LEGACY, &[])), 1, SHORT_RSNA),
        reported_case("an RSNA event, EAP of 8 octets and RSN", at_10(rsna(EXPANDED, &RSN)), 1, LONG_RSNA),
        reported_case("a peer link event", peer(), 2, PEER_LINK),
        reported_case("no RSNA event", peer(), 1, "4f03050100"),
        reported_case("no peer link event", at_10(rsna(LEGACY, &[])), 2, "4f03050200"),
        reported_case("no transition", peer(), 0, "4f03050000"),
        reported_case("type 3", peer(), 3, "4f03050303"),
        Case {
            title: "an RSN element of 21 octets: 17, after 14",
            input: trace(&[at_10(one_short), at_10(wrong_time)]),
            printed: "refused 17 at 0\nrefused 14 at 0\n".to_string(),
        },
    ]
}

/// Requests, listed and written.
fn request_cases() -> Vec<Case> {
    let case = |title, octets: &str, printed: &str| frame_case(title, &octets_of(octets), printed);
    let listed = |ty: u8, subs: usize| {
        format!("frame 0 dialog 7 elements 1\nelement 78 token 5 type {ty} limit 4 subs {subs}\n")
    };
    let target = "0006020101010102";
    let (suite, legacy, expanded) = ("0104000fac01", "02010d", "0208fe0050c201020304");
    // Body: token, type and limit 3, target 8, suite 6, EAP 3 or 10, result 3, passed over 2 and 2.
    let rsna = format!("0a00074e1b050104{target}{suite}{legacy}04000301010400");
    vec![
        case("all RSNA subelements, and 4 passed over twice", &rsna, &listed(1, 6)),
        case("EAP of 8 octets", &format!("0a00074e0d050104{expanded}"), &listed(1, 1)),
        case("EAP 254 with 1 octet: 7 at 8", "0a00074e060501040201fe", "refused 7 at 8\n"),
        case("EAP 13 with 8: 7 at 8", "0a00074e0d05010402080d00000000000000", "refused 7 at 8\n"),
        case("RSNA result repeated: 8 at 11", "0a00074e09050104030101030101", "refused 8 at 11\n"),
        case("peer, channel, 2 passed over", "0a00074e110502040006020101010101010251060200", &listed(2, 3)),
        case("channel of 1 octet: 7 at 8", "0a00074e06050204010151", "refused 7 at 8\n"),
        case("channel repeated: 8 at 12", "0a00074e0b0502040102510601025100", "refused 8 at 12\n"),
        case("type 3 is not read", "0a00074e060503040201fe", &listed(3, 0)),
        written_case(
            "RSNA conditions written, EAP of 1 octet",
            1,
            &[(0, &BSSIDS[1]), (1, &SUITE), (2, &LEGACY), (3, &[2])],
            &format!("0a00074e17050104{target}{suite}{legacy}030102"),
        ),
        written_case(
            "RSNA conditions written, EAP of 8 octets",
            1,
            &[(0, &BSSIDS[1]), (1, &SUITE), (2, &EXPANDED), (3, &[2])],
            &format!("0a00074e1e050104{target}{suite}{expanded}030102"),
        ),
        written_case(
            "peer link conditions written",
            2,
            &[(0, &BSSIDS[1]), (1, &[81, 0])],
            &format!("0a00074e0f050204{target}01025100"),
        ),
    ]
}

/// The short RSNA report with the first octet of an EAP method of 8, and the long one with one of 1.
fn expanded_in_24() -> String {
    SHORT_RSNA.replace("010d11", "01fe11")
}

fn legacy_in_53() -> String {
    LONG_RSNA.replace("01fe00", "010d00")
}

/// Report frames, listed.
fn reading_cases() -> Vec<Case> {
    let time = "time 2026-12-31 23:59:58.999";
    let rsna = "target 02:01:01:01:01:02 authentication 00:0f:ac:01";
    let listed = format!(
        "report 1 dialog 7 elements 4\n\
         element 79 token 5 type 1 status 0 {time} {rsna} eap 13 result 17\n\
         element 79 token 5 type 1 status 0 {time} {rsna} eap 254 vendor 00:50:c2 vendor-type 01:02:03:04 \
         result 17 rsn 30140100000fac040100000fac040100000fac010000\n\
         element 79 token 5 type 2 status 0 {time} peer 02:01:01:01:01:01 class 81 channel 6 power 20 \
         connection 197121 peer-status 3\n\
         element 79 token 5 type 1 status 0\n"
    );
    let refused = |number: u8| format!("refused {number} at 3\n");
    // Month 13.
    let wrong_month = PEER_LINK.replace("1f0cea", "1f0dea");
    let one_more = wrong_month.replace("4f19", "4f1a") + "00";
    let all = [SHORT_RSNA, LONG_RSNA, PEER_LINK, "4f03050100"].concat();
    vec![
        read_case("RSNA and peer link events, listed", &all, listed),
        read_case("EAP 254 in a body of 24: 17", &expanded_in_24(), refused(17)),
        read_case("EAP 13 in a body of 53: 17", &legacy_in_53(), refused(17)),
        read_case("a wrong time in a peer link event: 14", &wrong_month, refused(14)),
        read_case("a wrong time and a wrong length: 17", &one_more, refused(17)),
    ]
}

/// Every case.
pub fn kind_cases() -> Vec<Case> {
    [logging_cases(), request_cases(), reading_cases()].into_iter().flatten().collect()
}

/// 63 transitions and one event more; a request for the transitions, the one and two transitions again; two
/// report calls with a long buffer. With an RSNA event of 26 octets the frame has 3 + 63 * 35 + 26 + 70 =
/// 2,304, with a peer link event of 27 the last transition is one octet too long.
pub fn full_frame(one_more: Record, ty: u8) -> Vec<Record> {
    let mut records = vec![setup()];
    records.extend((0..63).map(|_| logging(10, 10)));
    records.push(one_more);
    records.push(frame(10, &[10, 0, 7, 78, 3, 1, 0, 255, 78, 3, 2, ty, 255, 78, 3, 3, 0, 2]));
    let call = Record::Report { reading: 10, console: CONSOLE, kind: Kind::Event, buffer: 4096, fill: 0xEE };
    records.extend([call.clone(), call]);
    records
}

/// Frames at the limit of 2,304 octets, records that are cut or have conditions that are not their type's, and
/// RSNA bodies that are not as long as their EAP method.
pub fn kind_limits() -> Vec<Input> {
    let rsna = Record::LogRsna { reading: 10, logging: rsna(LEGACY, &[]) };
    let peer = Record::LogPeerLink { reading: 10, logging: peer_link() };
    let cut = |record: &Record| {
        let octets = write_record(record);
        Input::Trace(vec![octets[..octets.len() - 1].to_vec()])
    };
    let write = |ty: u8, conditions: &[u8]| {
        Input::Trace(vec![[&[0x10, 11, 1, 0, 0, 7, 1, 5, ty, 4, 0][..], conditions].concat()])
    };
    let read = |elements: &str| {
        let octets = octets_of(&format!("0a0107{elements}"));
        Record::Read { form: 0, destination: STATION, octets }
    };
    vec![
        trace(&[read(&expanded_in_24()), read(&legacy_in_53())]),
        cut(&rsna),
        cut(&peer),
        write(1, &[1, 2, 1, 13]),
        write(1, &[1, 4, 3, 0, 0, 0]),
        write(2, &[1, 1, 6, 2, 1, 1, 1, 1, 1]),
        write(2, &[1, 2, 2, 0, 0]),
        trace(&full_frame(rsna, 1)),
        trace(&full_frame(peer, 2)),
    ]
}
