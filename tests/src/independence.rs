//! "Console independence", seen from outside: the program compared with itself.
//!
//! Each answer to a sender in the whole run is the answer of a newly set up gate: the identity given to
//! setup, the list of the last accepted network change or setup ("same list, same forms"), the later calls
//! only, and a clock record at the same reading in place of each frame or report call of another sender. The new gate has no reading,
//! and its first later call is at zero; "A network change keeps the time running", so the times of the two
//! differ, and the answers may not.

use crate::answers::answers;
use crate::compare::{records_text, Difference};
use crate::form::Console;
use crate::octets::Address;
use crate::program::Programs;
use crate::shrink::shrink_trace;
use crate::trace::{write_record, Record, LONGEST_TRACE};
use std::collections::BTreeSet;

/// The calls between one setup or accepted network change and the next, and the whole run's answers.
struct Stretch<'a> {
    identity: Vec<u8>,
    list: Vec<Console>,
    calls: Vec<(Record, &'a str)>,
    after_change: bool,
}

/// A call in the run of a newly set up gate, and the answer it had in the whole run where it is compared.
struct Alone<'a> {
    record: Record,
    in_whole_run: Option<&'a str>,
    after_change: bool,
}

/// Answers compared, and those among them behind an accepted network change.
#[derive(Clone, Copy, Default)]
pub struct Compared {
    pub answers: usize,
    pub after_change: usize,
}

/// Compares every answer to every sender; gives the number of answers compared.
pub fn check_independence(
    programs: &Programs,
    records: &[Vec<u8>],
    printed: &[u8],
) -> Result<Compared, Difference> {
    let compared = compare_alone(programs, records, printed);
    if let Ok(number) = compared {
        return Ok(number);
    }
    let run = |records: &[Vec<u8>]| programs.run("replay", &records.concat());
    let shortest = shrink_trace(records, &mut |fewer| compare_alone(programs, fewer, &run(fewer)).is_err());
    let printed = run(&shortest);
    let Err((expected, alone)) = compare_alone(programs, &shortest, &printed) else {
        unreachable!("the shortened trace fails like the whole one");
    };
    Err(Difference {
        title: format!(
            "demand 3: expected is the answer in the whole run, printed that of a new gate; the records:\n{}",
            records_text(&shortest)
        ),
        input: shortest.concat(),
        expected: expected.into_bytes(),
        printed: alone.into_bytes(),
    })
}

/// The comparison itself; an error has the whole run's answer and the new gate's.
fn compare_alone(
    programs: &Programs,
    records: &[Vec<u8>],
    printed: &[u8],
) -> Result<Compared, (String, String)> {
    let printed = String::from_utf8_lossy(printed);
    let mut compared = Compared::default();
    let mut waiting: Vec<Alone> = Vec::new();
    let mut size = 0;
    for stretch in stretches(records, &printed) {
        for sender in senders(&stretch) {
            let run = alone(&stretch, &sender);
            let octets: usize = run.iter().map(|call| write_record(&call.record).len()).sum();
            if size + octets > LONGEST_TRACE {
                run_alone(programs, &waiting, &mut compared)?;
                waiting.clear();
                size = 0;
            }
            size += octets;
            waiting.extend(run);
        }
    }
    run_alone(programs, &waiting, &mut compared)?;
    Ok(compared)
}

/// Runs the new gates, one behind the other: each starts with its own setup.
fn run_alone(programs: &Programs, calls: &[Alone], compared: &mut Compared) -> Result<(), (String, String)> {
    let records: Vec<Vec<u8>> = calls.iter().map(|call| write_record(&call.record)).collect();
    let printed = programs.run("replay", &records.concat());
    let printed = String::from_utf8_lossy(&printed);
    let answers = answers(&records, &printed);
    for (index, call) in calls.iter().enumerate() {
        let Some(in_whole_run) = call.in_whole_run else { continue };
        let new_gate = answers.get(index).map_or("", |(_, answer)| answer);
        if in_whole_run != new_gate {
            return Err((in_whole_run.to_string(), new_gate.to_string()));
        }
        compared.answers += 1;
        compared.after_change += usize::from(call.after_change);
    }
    Ok(())
}

/// "The list starts from what setup returned, accepted or refused." An accepted network change starts a
/// stretch of its own; before any setup the gate is that of an empty identity and an empty list.
fn stretches<'a>(records: &[Vec<u8>], printed: &'a str) -> Vec<Stretch<'a>> {
    let stretch = |identity, list, after_change| Stretch { identity, list, calls: Vec::new(), after_change };
    let mut stretches = vec![stretch(Vec::new(), Vec::new(), false)];
    for (record, answer) in answers(records, printed) {
        let current = stretches.last_mut().expect("there is a first stretch");
        match record {
            Record::Setup { identity, list } => stretches.push(stretch(identity, list, false)),
            Record::Change { list, .. } if answer == "accepted\n" => {
                let identity = current.identity.clone();
                stretches.push(stretch(identity, list, true));
            }
            Record::Write { .. } | Record::Read { .. } | Record::Explain(_) => {}
            call => current.calls.push((call, answer)),
        }
    }
    stretches
}

/// "Sender: the source a frame call carries or the console a report call names".
fn sender_of(record: &Record) -> Option<(Address, u32)> {
    match record {
        Record::Frame { source, reading, .. } => Some((*source, *reading)),
        Record::Report { console, reading, .. } => Some((*console, *reading)),
        _ => None,
    }
}

/// "an answer is to its sender, listed or not".
fn senders(stretch: &Stretch) -> BTreeSet<Address> {
    stretch.calls.iter().filter_map(|(record, _)| sender_of(record)).map(|(sender, _)| sender).collect()
}

/// "The newly set up gate gets the identity given to setup; calls not replaced keep their arguments,
/// refused ones too."
fn alone<'a>(stretch: &Stretch<'a>, sender: &Address) -> Vec<Alone<'a>> {
    let setup = Record::Setup { identity: stretch.identity.clone(), list: stretch.list.clone() };
    let call = |record, in_whole_run| Alone { record, in_whole_run, after_change: stretch.after_change };
    let mut calls = vec![call(setup, None)];
    for (record, answer) in &stretch.calls {
        calls.push(match sender_of(record) {
            Some((own, _)) if own == *sender => call(record.clone(), Some(*answer)),
            Some((_, reading)) => call(Record::Clock { reading }, None),
            None => call(record.clone(), None),
        });
    }
    calls
}
