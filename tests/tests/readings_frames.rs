//! How document 01 is read: frames, the request writer and the report reader. A test for each agreed line.

use differential::condition::Condition;
use differential::listing::{list_report, list_request};
use differential::octets::Kind;
use differential::refusal::{refusal, Refusal};
use differential::request::{read_request, write_request, Wanted};

const TO: [u8; 6] = [2, 0, 0, 0, 0, 9];

/// The refusal of a request frame.
fn refused(frame: &[u8]) -> Option<Refusal> {
    read_request(frame).err()
}

#[test]
fn other_elements_are_held_to_their_edges_only() {
    // An element 80 of one octet and ten of ID 0 in an Event Request: neither 5 nor 9, and not counted.
    let mut frame = vec![10, 0, 7, 80, 1, 9];
    frame.extend([0u8, 0].repeat(10));
    assert_eq!(list_request(&frame), "frame 0 dialog 7 elements 0\n");
    // In a Diagnostic Request they do not stand for the one that 10 asks for.
    assert_eq!(refused(&[10, 2, 7, 78, 3, 1, 0, 0]), Some(refusal(10, 0)));
    // Past the end: body, then header.
    assert_eq!(refused(&[10, 0, 7, 0, 0, 221, 2, 1]), Some(refusal(4, 5)));
    assert_eq!(refused(&[10, 0, 7, 0, 0, 221]), Some(refusal(4, 5)));
    // A token that stands in another element is not repeated.
    assert_eq!(refused(&[10, 0, 7, 80, 4, 5, 0, 0, 0, 78, 3, 5, 0, 1]), None);
}

#[test]
fn the_order_is_one_pass_from_the_front() {
    // Element 1 has a subelement of wrong length at 8; element 2 passes the end.
    assert_eq!(refused(&[10, 0, 7, 78, 6, 5, 0, 4, 3, 2, 1, 78, 9]), Some(refusal(7, 8)));
    // A repeated token is refused at the later element.
    assert_eq!(refused(&[10, 0, 7, 78, 3, 5, 0, 4, 78, 3, 5, 0, 4]), Some(refusal(6, 8)));
    // Causes 1, 2, 3 in that order.
    assert_eq!(refused(&[9, 0]), Some(refusal(1, 0)));
    assert_eq!(refused(&[9, 0, 0]), Some(refusal(2, 0)));
    assert_eq!(refused(&[10, 1, 0]), Some(refusal(2, 0)));
    assert_eq!(refused(&[10, 0, 0, 78]), Some(refusal(3, 0)));
    // The ninth element: 9 before 5 and 6, but 4 before 9.
    let mut eight = vec![10, 0, 7];
    for token in 1..=8 {
        eight.extend([78, 3, token, 0, 1]);
    }
    assert_eq!(refused(&eight), None);
    assert_eq!(refused(&[&eight[..], &[78, 0]].concat()), Some(refusal(9, 43)));
    assert_eq!(refused(&[&eight[..], &[78, 1]].concat()), Some(refusal(4, 43)));
    // 5 before 6.
    assert_eq!(refused(&[10, 0, 7, 78, 2, 0, 0]), Some(refusal(5, 3)));
    // 10 comes at the end, after 4.
    assert_eq!(refused(&[10, 2, 7, 0]), Some(refusal(4, 3)));
}

#[test]
fn diagnostic_token_0_once_event_token_0_never() {
    assert_eq!(refused(&[10, 2, 7, 80, 4, 0, 1, 0, 0]), None);
    assert_eq!(refused(&[10, 2, 7, 80, 4, 0, 1, 0, 0, 80, 4, 0, 1, 0, 0]), Some(refusal(6, 9)));
    assert_eq!(refused(&[10, 0, 7, 78, 3, 0, 0, 1]), Some(refusal(6, 3)));
    assert_eq!(refused(&[10, 0, 7, 78, 3, 0, 9, 1]), Some(refusal(6, 3)));
}

#[test]
fn a_diagnostic_body_has_four_octets_at_least() {
    assert_eq!(refused(&[10, 2, 7, 80, 3, 1, 1, 0]), Some(refusal(5, 3)));
}

#[test]
fn subelements_5_to_255_may_repeat_and_are_counted() {
    let frame = [10, 0, 7, 78, 13, 5, 0, 4, 5, 0, 5, 1, 9, 3, 1, 1, 255, 0];
    assert_eq!(
        list_request(&frame),
        "frame 0 dialog 7 elements 1\nelement 78 token 5 type 0 limit 4 subs 4\n"
    );
    // Past the end of the element, also where octets of the frame follow: header, then body.
    assert_eq!(refused(&[10, 0, 7, 78, 4, 5, 0, 4, 5, 0, 0]), Some(refusal(7, 8)));
    assert_eq!(refused(&[10, 0, 7, 78, 5, 5, 0, 4, 5, 1, 0, 0]), Some(refusal(7, 8)));
    // Both past the end and of wrong length.
    assert_eq!(refused(&[10, 0, 7, 78, 6, 5, 0, 4, 3, 9, 1]), Some(refusal(7, 8)));
}

#[test]
fn a_repeated_condition_is_8_unless_its_length_is_wrong() {
    assert_eq!(refused(&[10, 0, 7, 78, 9, 5, 0, 4, 3, 1, 1, 3, 1, 2]), Some(refusal(8, 11)));
    assert_eq!(refused(&[10, 0, 7, 78, 8, 5, 0, 4, 3, 1, 1, 3, 0]), Some(refusal(7, 11)));
}

#[test]
fn diagnostics_are_walked_event_types_3_and_up_are_not() {
    // Three subelements 3 of length 0 in a diagnostic: neither a length nor a repetition counts.
    assert_eq!(
        list_request(&[10, 2, 7, 80, 10, 5, 1, 1, 2, 3, 0, 3, 0, 3, 0]),
        "frame 2 dialog 7 elements 1\nelement 80 token 5 type 1 timeout 513 subs 3\n"
    );
    assert_eq!(refused(&[10, 2, 7, 80, 5, 5, 1, 1, 2, 3]), Some(refusal(7, 9)));
    assert_eq!(
        list_request(&[10, 0, 7, 78, 5, 5, 3, 4, 3, 9]),
        "frame 0 dialog 7 elements 1\nelement 78 token 5 type 3 limit 4 subs 0\n"
    );
}

#[test]
fn frames_have_3_to_2304_octets() {
    assert_eq!(list_request(&[]), "refused 1 at 0\n");
    let mut frame = vec![10, 0, 7];
    frame.extend([[221, 255].as_slice(), &[0; 255]].concat().repeat(8));
    frame.extend([221, 243]);
    frame.extend([0; 243]);
    assert_eq!(frame.len(), 2304);
    assert_eq!(list_request(&frame), "frame 0 dialog 7 elements 0\n");
    frame.push(0);
    assert_eq!(list_request(&frame), "refused 1 at 0\n");
}

/// An element for the writer.
fn wanted(token: u8, ty: u8, conditions: &[(u8, &[u8])]) -> Wanted {
    let conditions = conditions.iter().map(|(id, body)| (*id, body.to_vec())).collect();
    Wanted { token, ty, bound: 4, conditions }
}

#[test]
fn the_writer_writes_the_example() {
    let mut buffer = [0xEE; 267];
    let written = write_request(&mut buffer, Kind::Event, 7, &[wanted(5, 0, &[(3, &[1])])]);
    assert_eq!(written, Ok(11));
    assert_eq!(buffer[..11], [0x0A, 0, 7, 0x4E, 6, 5, 0, 4, 3, 1, 1]);
    assert_eq!(buffer[11..], [0xEE; 256]);
}

#[test]
fn the_longest_request_has_267_octets() {
    let all: [(u8, &[u8]); 5] = [(0, &[1; 6]), (1, &[2; 6]), (2, &[3; 2]), (3, &[4]), (4, &[5; 3])];
    let eight: Vec<Wanted> = (1..=8).map(|token| wanted(token, 0, &all)).collect();
    let mut buffer = [0; 267];
    assert_eq!(write_request(&mut buffer, Kind::Event, 7, &eight), Ok(267));
    let read = read_request(&buffer).expect("what is written can be read");
    assert_eq!(read.elements.len(), 8);
    assert_eq!(read.elements[7].conditions[2], Condition::Threshold(0x0303));
    assert_eq!(write_request(&mut [0; 266], Kind::Event, 0, &eight), Err(refusal(13, 0)));
}

#[test]
fn the_writer_refuses_in_order_with_the_place_the_element_would_have_had() {
    let buffer = &mut [0xEE; 267];
    let nine: Vec<Wanted> = (1..=9).map(|token| wanted(token, 0, &[(3, &[1])])).collect();
    // Eight elements of 8 octets stand before the ninth.
    assert_eq!(write_request(buffer, Kind::Event, 7, &nine), Err(refusal(9, 67)));
    assert_eq!(write_request(buffer, Kind::Event, 0, &nine), Err(refusal(3, 0)));
    let mut repeated = nine.clone();
    repeated[2].token = 1;
    assert_eq!(write_request(buffer, Kind::Event, 7, &repeated), Err(refusal(6, 19)));
    repeated[2].token = 0;
    assert_eq!(write_request(buffer, Kind::Event, 7, &repeated), Err(refusal(6, 19)));
    // Conditions handed in with another type are not written and do not count in places.
    let other = [wanted(1, 9, &[(3, &[1])]), wanted(1, 0, &[])];
    assert_eq!(write_request(buffer, Kind::Event, 7, &other), Err(refusal(6, 8)));
    assert_eq!(write_request(buffer, Kind::Diagnostic, 7, &[]), Err(refusal(10, 0)));
    assert_eq!(*buffer, [0xEE; 267]);
    assert_eq!(write_request(buffer, Kind::Event, 7, &[]), Ok(3));
    assert_eq!(write_request(buffer, Kind::Diagnostic, 7, &[wanted(0, 1, &[(3, &[1])])]), Ok(9));
    assert_eq!(buffer[..10], [10, 2, 7, 80, 4, 0, 1, 4, 0, 0xEE]);
}

#[test]
fn the_report_reader_takes_any_tokens_and_any_number() {
    let mut frame = vec![10, 1, 0];
    frame.extend([79, 3, 0, 0, 4].repeat(10));
    let lines = "element 79 token 0 type 0 status 4\n".repeat(10);
    assert_eq!(list_report(0, &TO, &frame), format!("report 1 dialog 0 elements 10\n{lines}"));
}

#[test]
fn the_report_reader_refuses_in_order() {
    let refused = |frame: &[u8]| list_report(0, &TO, frame);
    assert_eq!(list_report(0, &[1, 0, 0, 0, 0, 9], &[]), "refused 11 at 0\n");
    assert_eq!(refused(&[10, 1]), "refused 1 at 0\n");
    assert_eq!(refused(&[10, 2, 7]), "refused 2 at 0\n");
    assert_eq!(refused(&[10, 1, 7, 79, 2, 5, 0]), "refused 5 at 3\n");
    assert_eq!(refused(&[10, 1, 7, 79, 4, 5, 0, 0]), "refused 4 at 3\n");
    // Status over 4, for both kinds, before the subelements.
    assert_eq!(refused(&[10, 1, 7, 79, 3, 5, 0, 5]), "refused 17 at 3\n");
    assert_eq!(refused(&[10, 3, 7, 81, 4, 5, 1, 5, 0]), "refused 17 at 3\n");
    // Event body not 3 with status 1 to 4, also of another type; type 0 Successful not 3 or 33.
    assert_eq!(refused(&[10, 1, 7, 79, 4, 5, 9, 4, 0]), "refused 17 at 3\n");
    assert_eq!(refused(&[10, 1, 7, 79, 4, 5, 0, 0, 0]), "refused 17 at 3\n");
    // Diagnostic subelements are held to their edges with any status.
    assert_eq!(refused(&[10, 3, 7, 81, 6, 5, 1, 4, 9, 0, 1]), "refused 7 at 10\n");
    assert_eq!(
        refused(&[10, 3, 7, 81, 5, 5, 1, 4, 9, 0]),
        "report 3 dialog 7 elements 1\nelement 81 token 5 type 1 status 4 subs 1\n"
    );
    assert_eq!(
        refused(&[10, 1, 7, 79, 4, 5, 9, 0, 0, 81, 0]),
        "report 1 dialog 7 elements 1\nelement 79 token 5 type 9 status 0 rest 1\n"
    );
}

/// A report frame with one event of this time.
fn event_with_time(time: [u8; 9]) -> Vec<u8> {
    [&[10, 1, 7, 79, 33, 5, 0, 0][..], &time, &[0; 21]].concat()
}

#[test]
fn time_fields_are_in_range_or_all_ones() {
    let good = [0xE7, 3, 59, 59, 23, 31, 12, 0xFE, 0xFF];
    let listed = list_report(0, &TO, &event_with_time(good));
    assert!(listed.contains(" time 65534-12-31 23:59:59.999 source 00:00"), "{listed}");
    let listed = list_report(0, &TO, &event_with_time([255; 9]));
    assert!(listed.contains(" time ?-?-? ?:?:?.? source"), "{listed}");
    let listed = list_report(0, &TO, &event_with_time([7, 0, 0, 0, 0, 1, 1, 7, 0]));
    assert!(listed.contains(" time 0007-01-01 00:00:00.007 source"), "{listed}");
    for (field, wrong) in [(2, 60), (3, 60), (4, 24), (5, 0), (5, 32), (6, 0), (6, 13), (0, 0xE8), (1, 255)] {
        let mut time = good;
        time[field] = wrong;
        assert_eq!(
            list_report(0, &TO, &event_with_time(time)),
            "refused 14 at 3\n",
            "field {field}: {wrong}"
        );
    }
}
