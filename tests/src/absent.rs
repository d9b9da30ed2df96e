//! ""it is reported" appears precisely for events the report calls would give that element, from its first on, if
//! nothing were logged and the request stayed", seen from outside: a program compared with itself.
//!
//! For a question of a trace, a newly set up gate logs the same events at the same readings. In between, when just as
//! many of those that will be in the log have come as the question counts, it takes a request of that one element from
//! each of two consoles, one of either form. Then the question is asked of every place, and report calls are made
//! until there is nothing. The events tell their numbers by their years and by their TSF, which no condition looks at.

use crate::answers::answers;
use crate::cases::{setup_of, CONSOLE};
use crate::compare::{records_text, Difference};
use crate::explain::Question;
use crate::form::{draft, published, Console, EventTime, PublishedTime};
use crate::make_identity::STATION;
use crate::octets::{u16_of, Address, Kind};
use crate::program::Programs;
use crate::read_back::given_frame;
use crate::report::{read_report, Rest};
use crate::shrink::shrink_trace;
use crate::tally::Tally;
use crate::trace::{write_record, Record};
use crate::transition::Time;

/// The least buffer, one that ends within an event, one for every event of 35 octets.
pub const BUFFERS: [usize; 3] = [260, 333, 2304];
/// The consoles that ask: a request of one does not change what the other is given.
const CONSOLES: [Console; 2] = [draft(CONSOLE), published([2, 0, 0, 0, 0, 2])];
/// Questions of one trace that are asked so.
const QUESTIONS: usize = 3;

/// Places that were asked of, those reported, and elements that a gate and `explain` refused alike.
#[derive(Clone, Copy, Debug, Default)]
pub struct Explained {
    pub places: usize,
    pub reported: usize,
    pub refused: usize,
}

/// Some questions of a trace, each with the buffers by turns; on a difference the trace is shortened.
pub fn check_absent(
    programs: &Programs,
    tally: &Tally,
    records: &[Vec<u8>],
    printed: &[u8],
) -> Result<(), Difference> {
    let run = |input: &[u8]| programs.run("replay", input);
    let some = |records: &[Vec<u8>], printed: &[u8]| {
        let questions = questions(records, printed);
        let step = questions.len().div_ceil(QUESTIONS).max(1);
        let asked = questions.iter().step_by(step).zip(BUFFERS);
        asked.map(|(question, buffer)| question.compare(&run, buffer)).collect::<Result<Vec<_>, _>>()
    };
    if let Ok(explained) = some(records, printed) {
        explained.into_iter().for_each(|one| tally.count_explained(one));
        return Ok(());
    }
    let again = |records: &[Vec<u8>]| some(records, &run(&records.concat()));
    let shortest = shrink_trace(records, &mut |fewer| again(fewer).is_err());
    let Err((expected, explained)) = again(&shortest) else {
        unreachable!("the shortened trace fails like the whole one");
    };
    Err(Difference {
        title: format!(
            "request (f): expected is what report calls give, printed what is explained; the records:\n{}",
            records_text(&shortest)
        ),
        input: shortest.concat(),
        expected: expected.into_bytes(),
        printed: explained.into_bytes(),
    })
}

/// A question, and what made up the log that it is about: loggings, by their numbers in this list's own order, and
/// clock readings in place of the other calls.
pub struct About {
    pub question: Question,
    calls: Vec<Record>,
    loggings: usize,
}

/// Every question of a trace. Which loggings were accepted, the answers tell.
pub fn questions(records: &[Vec<u8>], printed: &[u8]) -> Vec<About> {
    let printed = String::from_utf8_lossy(printed);
    let (mut calls, mut loggings, mut questions) = (Vec::new(), 0, Vec::new());
    for (record, answer) in answers(records, &printed) {
        let accepted = answer == "accepted\n";
        match record {
            Record::Explain(question) => {
                questions.push(About { question, calls: calls.clone(), loggings });
            }
            Record::Setup { .. } => (calls, loggings) = (Vec::new(), 0),
            Record::Change { .. } if accepted => (calls, loggings) = (Vec::new(), 0),
            Record::Log { .. } | Record::LogRsna { .. } | Record::LogPeerLink { .. } if accepted => {
                calls.push(with_number(record, loggings as u16));
                loggings += 1;
            }
            other => calls.extend(other.reading().map(|reading| Record::Clock { reading })),
        }
    }
    questions
}

/// The logging with this number as its year, and at the front of its TSF.
fn with_number(mut record: Record, number: u16) -> Record {
    let write = |time: &mut Time, published: &mut PublishedTime| {
        time[7..].copy_from_slice(&number.to_le_bytes());
        published.tsf[..2].copy_from_slice(&number.to_le_bytes());
    };
    match &mut record {
        Record::Log { logging, .. } => write(&mut logging.time, &mut logging.published),
        Record::LogRsna { logging, .. } => write(&mut logging.time, &mut logging.published),
        Record::LogPeerLink { logging, .. } => write(&mut logging.time, &mut logging.published),
        _ => {}
    }
    record
}

/// The number that an event's time tells.
fn number_of(time: &EventTime) -> usize {
    usize::from(match time {
        EventTime::Draft(time) => u16_of(&time[7..]),
        EventTime::Published(published) => u16_of(&published.tsf),
    })
}

/// More report calls than it takes: behind the header a frame has room for so many events of the longest kind, 69
/// octets in form 1, that 64 are given in this many calls, and then comes nothing.
fn calls(buffer: usize) -> usize {
    64usize.div_ceil((buffer - 3) / 69) + 2
}

impl About {
    /// Places in the log.
    fn length(&self) -> usize {
        self.loggings.min(64)
    }

    /// The calls, with the requests where their place is.
    fn with_request(&self) -> Vec<Record> {
        let before = self.length().min(usize::from(self.question.count));
        let mut left = self.loggings - self.length() + before;
        let mut at = 0;
        while left > 0 {
            left -= usize::from(!matches!(self.calls[at], Record::Clock { .. }));
            at += 1;
        }
        let beside = self.calls[..at].last().or(self.calls.first());
        let reading = beside.and_then(Record::reading).unwrap_or(0);
        let octets = [&[10, 0, 7][..], &self.question.element].concat();
        let request = |console: Console| {
            let (source, octets) = (console.address, octets.clone());
            Record::Frame { reading, destination: STATION, source, octets }
        };
        [&self.calls[..at], &CONSOLES.map(request), &self.calls[at..]].concat()
    }

    /// The places that are asked of: all, and the one behind them; of a long element, which is always refused, one.
    fn places(&self) -> Vec<usize> {
        if self.question.element.len() > 257 {
            return vec![0];
        }
        (0..=self.length()).collect()
    }

    /// What report calls give and what is explained; an error has both as text.
    pub fn compare(
        &self,
        run: &dyn Fn(&[u8]) -> Vec<u8>,
        buffer: usize,
    ) -> Result<Explained, (String, String)> {
        let mut records = vec![setup_of(&CONSOLES)];
        records.extend(self.with_request());
        let reading = records.last().and_then(Record::reading).unwrap_or(0);
        let ask = |place: usize| Question { position: place as u16, ..self.question.clone() };
        records.extend(self.places().into_iter().map(|place| Record::Explain(ask(place))));
        let report = |console: Console| {
            let (console, kind) = (console.address, Kind::Event);
            Record::Report { reading, console, kind, buffer, fill: 0 }
        };
        records.extend((0..calls(buffer)).flat_map(|_| CONSOLES.map(report)));
        let octets: Vec<Vec<u8>> = records.iter().map(write_record).collect();
        let printed = run(&octets.concat());
        let printed = String::from_utf8_lossy(&printed);
        let answers = answers(&octets, &printed);
        let of = |wanted: &dyn Fn(&Record) -> bool| -> Vec<&str> {
            answers.iter().filter(|(record, _)| wanted(record)).map(|(_, answer)| *answer).collect()
        };
        let lines = of(&|record| matches!(record, Record::Explain(_)));
        let by = |own: Address| {
            let frame =
                of(&|record| matches!(record, Record::Frame { source, .. } if *source == own)).concat();
            let reports = of(&|record| matches!(record, Record::Report { console, .. } if *console == own));
            (frame, reports)
        };
        let mut refused = 0;
        for console in CONSOLES {
            let (frame, reports) = by(console.address);
            let expected = self.expected(console.form, &frame, &reports);
            if !same(&expected, &lines) {
                return Err((format!("form {}: {expected:?}\n", console.form), lines.concat()));
            }
            refused = usize::from(matches!(expected, Expected::Refused(_)));
        }
        let reported = lines.iter().filter(|line| **line == "reported\n").count();
        Ok(Explained { places: lines.len() * (1 - refused), reported, refused })
    }

    /// What is to be explained, by the answers to the request and to the report calls: the places that were given; or
    /// the refusal, in the element and not in the frame.
    fn expected(&self, form: u8, frame: &str, reports: &[&str]) -> Expected {
        let element = &self.question.element;
        let whole = matches!(element[..], [78, length, ..] if element.len() == 2 + usize::from(length));
        if !whole {
            return Expected::Refused("refused 4 at 0\n".to_string());
        }
        if let Some((number, place)) = frame.strip_prefix("refused ").and_then(|rest| rest.split_once(" at "))
        {
            let place: usize = place.trim_end().parse().unwrap_or(0);
            return Expected::Refused(format!("refused {number} at {}\n", place.saturating_sub(3)));
        }
        if !reports.last().is_some_and(|answer| answer.starts_with("nothing\n")) {
            return Expected::NeverOver;
        }
        let mut places = Vec::new();
        for octets in reports.iter().filter_map(|answer| given_frame(answer)) {
            let elements = read_report(form, &STATION, &octets).map_or(Vec::new(), |frame| frame.elements);
            for element in elements {
                if let Rest::Event(time, _) = element.rest {
                    let dropped = self.loggings - self.length();
                    places.push(number_of(&time).checked_sub(dropped).unwrap_or(usize::MAX));
                }
            }
        }
        places.reverse();
        Expected::Given { places, length: self.length() }
    }
}

/// What report calls say of a question: the places that they gave, oldest first, of so many.
#[derive(Debug)]
enum Expected {
    Given { places: Vec<usize>, length: usize },
    Refused(String),
    NeverOver,
}

/// Whether the lines say it too: "reported" for the places given and for no other, 18 behind the last.
fn same(expected: &Expected, lines: &[&str]) -> bool {
    let reported = |(place, line): (usize, &&str)| (*line == "reported\n").then_some(place);
    match expected {
        Expected::Refused(line) => lines.iter().all(|one| one == line),
        Expected::Given { places, length } => {
            let none_refused = lines.iter().take(*length).all(|line| !line.starts_with("refused "));
            let said: Vec<usize> = lines.iter().enumerate().filter_map(reported).collect();
            none_refused && said == *places && lines.last() == Some(&"refused 18 at 0\n")
        }
        Expected::NeverOver => false,
    }
}
