//! Traces in the making, each with what is printed for it: for cases that are worked out by hand.

use crate::cases::{frame, logging, setup, trace, Case, CONSOLE};
use crate::explain::Question;
use crate::kind_cases::{peer_link, rsna, LEGACY};
use crate::octets::{Address, Kind};
use crate::rsna::RsnaLogging;
use crate::trace::Record;

/// The least buffer. Behind the header of 3 octets it takes seven transitions of 35 (248), nine RSNA events of 26
/// (237) or nine peer links of 27 (246).
pub const LEAST: usize = 260;

/// A trace in the making, what is printed for it, and the reading of its next calls.
pub struct Script {
    records: Vec<Record>,
    printed: String,
    reading: u32,
}

impl Script {
    /// A station with one requester.
    pub fn start() -> Script {
        Script::set_up(setup())
    }

    /// A station of this setup.
    pub fn set_up(setup: Record) -> Script {
        Script { records: Vec::new(), printed: String::new(), reading: 10 }.accepted(setup)
    }

    /// The next calls are at this reading.
    pub fn at(self, reading: u32) -> Script {
        Script { reading, ..self }
    }

    /// A call that is accepted.
    pub fn accepted(self, record: Record) -> Script {
        self.answered(record, "accepted")
    }

    /// A record and its line.
    pub fn answered(mut self, record: Record, line: &str) -> Script {
        self.records.push(record);
        self.printed += &format!("{line}\n");
        self
    }

    /// Logs the events with these numbers.
    pub fn log(self, ty: u8, numbers: impl IntoIterator<Item = u8>) -> Script {
        let reading = self.reading;
        numbers.into_iter().fold(self, |script, number| script.accepted(numbered(reading, ty, number)))
    }

    /// A request of elements with token, type and limit, under dialog token 7.
    pub fn ask(self, elements: &[[u8; 3]]) -> Script {
        self.take(&request(7, elements))
    }

    /// A request frame.
    pub fn take(self, octets: &[u8]) -> Script {
        let reading = self.reading;
        self.accepted(frame(reading, octets))
    }

    /// An event report with this buffer: the header and these elements.
    pub fn gives(self, buffer: usize, elements: &[Vec<String>]) -> Script {
        self.gives_to(CONSOLE, 7, buffer, elements)
    }

    /// The same to any requester, under any dialog token.
    pub fn gives_to(self, console: Address, dialog: u8, buffer: usize, elements: &[Vec<String>]) -> Script {
        let frame = format!("0a01{dialog:02x}{}", elements.concat().concat());
        self.report(console, Kind::Event, buffer, &format!("length {}", frame.len() / 2), &frame)
    }

    /// An event report that finds nothing outstanding.
    pub fn over(self) -> Script {
        self.report(CONSOLE, Kind::Event, LEAST, "nothing", "")
    }

    /// A report call with a buffer of EE, its answer, and the frame in hexadecimal.
    pub fn report(
        mut self,
        console: Address,
        kind: Kind,
        buffer: usize,
        answer: &str,
        frame: &str,
    ) -> Script {
        let reading = self.reading;
        self.records.push(Record::Report { reading, console, kind, buffer, fill: 0xEE });
        self.printed += &format!("{answer}\nbuffer {frame}{}\n", "ee".repeat(buffer - frame.len() / 2));
        self
    }

    /// A question to `explain`, and its line.
    pub fn explains(self, element: &[u8], count: u16, position: u16, line: &str) -> Script {
        self.answered(Record::Explain(Question { element: element.to_vec(), count, position }), line)
    }

    pub fn case(self, title: &'static str) -> Case {
        Case { title, input: trace(&self.records), printed: self.printed }
    }
}

/// The record that logs an event with a number: a transition's reason, an RSNA event's result, a peer link's
/// status.
pub fn numbered(reading: u32, ty: u8, number: u8) -> Record {
    match ty {
        0 => transition(reading, number, 0),
        1 => Record::LogRsna { reading, logging: RsnaLogging { result: number, ..rsna(LEGACY, &[]) } },
        _ => {
            let mut logging = peer_link();
            logging.link.status = number;
            Record::LogPeerLink { reading, logging }
        }
    }
}

/// The report elements of events with these numbers, in hexadecimal: ID 79, length, token, type and status 0, the
/// time, and the event as `numbered` logged it.
pub fn elements(token: u8, ty: u8, numbers: impl IntoIterator<Item = u8>) -> Vec<String> {
    let time = "e7033a3b171f0cea07";
    let element = |number: u8| match ty {
        0 => format!("4f21{token:02x}0000{time}0201010101010201010101020000{number:02x}000031323334"),
        1 => format!("4f18{token:02x}0100{time}020101010102000fac010d{number:02x}"),
        _ => format!("4f19{token:02x}0200{time}020101010101510614010203{number:02x}"),
    };
    numbers.into_iter().map(element).collect()
}

/// A request frame of elements with token, type and limit.
pub fn request(dialog: u8, elements: &[[u8; 3]]) -> Vec<u8> {
    let bodies = elements.iter().flat_map(|[token, ty, limit]| [0x4E, 3, *token, *ty, *limit]);
    [0x0A, 0, dialog].into_iter().chain(bodies).collect()
}

/// A transition of 0 TU with a number and a result.
pub fn transition(reading: u32, number: u8, result: u16) -> Record {
    let Record::Log { reading, mut logging } = logging(reading, reading) else { unreachable!("a logging") };
    logging.transition.reason = number;
    logging.transition.result = result;
    Record::Log { reading, logging }
}
