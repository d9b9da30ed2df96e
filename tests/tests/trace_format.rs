//! The format of `replay`: what is printed, and where a trace is refused.

use differential::cases::{limits, Input};
use differential::make_traces::trace;
use differential::random::Random;
use differential::trace::{read_record, replay, write_record, LONGEST_TRACE};

#[test]
fn an_empty_trace_prints_nothing() {
    assert_eq!(replay(&[]), "");
}

#[test]
fn made_up_records_are_read_back_as_they_were_written() {
    for index in 0..50 {
        let records = trace(&mut Random::new(1, 3, index));
        let whole = records.iter().filter_map(|octets| Some((octets, read_record(octets)?)));
        for (octets, (record, length)) in whole {
            assert_eq!(length, octets.len());
            assert_eq!(write_record(&record), *octets);
        }
    }
}

#[test]
fn each_call_before_any_setup_goes_to_the_consoleless_gate() {
    let clock = [1, 0, 0, 0, 0];
    let report = [4, 0, 0, 0, 0, 2, 0, 0, 0, 0, 1, 0, 2, 0, 0xAB];
    let roam = [5, 0, 0, 0, 0, 1, 2, 0, 0, 0, 0, 1, 1];
    let printed = replay(&[&clock[..], &report, &roam].concat());
    assert_eq!(printed, "accepted\nrefused 12 at 0\nbuffer abab\nrefused 16 at 0\n");
}

#[test]
fn the_writers_and_the_readers_records() {
    // A buffer of 2 octets, then one of 267 (0B 01) with the example's element.
    let short = [0x10, 2, 0, 0xAB, 0, 7, 0];
    let example = [0x10, 0x0B, 1, 0xEE, 0, 7, 1, 5, 0, 4, 0, 1, 3, 1, 1];
    let read = [0x11, 1, 2, 0, 0, 0, 0, 9, 8, 0, 10, 1, 7, 79, 3, 5, 0, 0];
    let printed = replay(&[&short[..], &example, &read].concat());
    let frame = format!("0a00074e06050004030101{}", "ee".repeat(256));
    let expected = format!(
        "refused 13 at 0\nbuffer abab\nlength 11\nbuffer {frame}\nreport 1 dialog 7 elements 1\n\
         element 79 token 5 type 0 status 0\n"
    );
    assert_eq!(printed, expected);
}

#[test]
fn the_record_of_a_question() {
    // No element; one of 5 octets, with count 0 and position 0, then 256 and 1; the longest field.
    let none = [0x12, 0, 0, 0, 0, 0, 0];
    let after = [0x12, 5, 0, 78, 3, 5, 0, 1, 0, 0, 0, 0];
    let second = [0x12, 5, 0, 78, 3, 5, 0, 1, 0, 1, 1, 0];
    let longest = [vec![0x12, 0, 0x10], vec![78; 4096], vec![1, 0, 0, 0]].concat();
    let log = [&[2, 9, 0, 0, 0][..], &[255; 9], &[7; 23], &[2; 19], &[9, 0, 0, 0]].concat();
    let printed = replay(&[&none[..], &after, &log, &after, &second, &log, &second, &longest].concat());
    let expected = "refused 4 at 0\nrefused 18 at 0\naccepted\nlogged after acceptance\nrefused 18 at 0\n\
                    accepted\nreported\nrefused 4 at 0\n";
    assert_eq!(printed, expected);
}

#[test]
fn records_that_are_refused() {
    let clock = [1, 0, 0, 0, 0];
    let writer = |after: &[u8]| [&[0x10, 0, 0, 0][..], after].concat();
    let refused: [Vec<u8>; 21] = [
        vec![7],
        vec![0x12],
        vec![0x13],
        vec![0x12, 2, 0, 78, 0, 0, 0, 0],
        [vec![0x12, 1, 0x10], vec![0; 5000]].concat(),
        vec![1, 0, 0, 0],
        vec![0, 1, 0],
        vec![0, 0, 0, 1, 2, 0, 0, 0, 0],
        vec![0, 0, 0, 1, 2, 0, 0, 0, 0, 1],
        vec![5, 0, 0, 0, 0, 1, 2, 0, 0, 0, 0, 1],
        [vec![0, 1, 0x10], vec![0; 5000]].concat(),
        vec![4, 0, 0, 0, 0, 2, 0, 0, 0, 0, 1, 2, 0, 0, 0],
        vec![4, 0, 0, 0, 0, 2, 0, 0, 0, 0, 1, 0, 1, 0x10, 0],
        writer(&[1, 7, 0]),
        writer(&[0, 7, 1, 5, 0, 0, 1, 0]),
        writer(&[0, 7, 1, 5, 0, 0, 0, 1, 5, 0]),
        writer(&[0, 7, 1, 5, 0, 0, 0, 1, 3, 2, 0, 0]),
        writer(&[0, 7, 1, 5, 0, 0, 0, 2, 3, 1, 0, 2, 2, 0, 0]),
        writer(&[2, 7, 1, 5, 0, 0, 1, 2, 3, 1, 0, 3, 1, 0]),
        writer(&[0, 7, 2, 5, 0, 0, 0, 0]),
        vec![0x11, 0, 2, 0, 0, 0, 0, 9, 1, 0],
    ];
    for record in refused {
        let printed = replay(&[&clock[..], &record].concat());
        assert_eq!(printed, "accepted\ntrace refused at 5\n", "{record:?}");
    }
    // A timeout may be 256 and more.
    assert_eq!(replay(&writer(&[2, 7, 1, 5, 0, 0, 1, 0])), "refused 13 at 0\nbuffer \n");
}

#[test]
fn a_trace_has_at_most_262144_octets() {
    let traces: Vec<Vec<u8>> = limits()
        .into_iter()
        .filter_map(|input| if let Input::Trace(records) = input { Some(records.concat()) } else { None })
        .filter(|octets| octets.len() >= LONGEST_TRACE)
        .collect();
    let endings: Vec<(usize, String)> = traces
        .iter()
        .map(|octets| (octets.len(), replay(octets).lines().last().unwrap_or("").to_string()))
        .collect();
    let last = LONGEST_TRACE - 63 * 4106;
    let expected = [
        (LONGEST_TRACE, "refused 1 at 0".to_string()),
        (LONGEST_TRACE + 1, format!("trace refused at {LONGEST_TRACE}")),
        (LONGEST_TRACE + 5, format!("trace refused at {}", LONGEST_TRACE + 5 - last)),
        (LONGEST_TRACE + 5, format!("trace refused at {LONGEST_TRACE}")),
    ];
    assert_eq!(endings, expected);
}
