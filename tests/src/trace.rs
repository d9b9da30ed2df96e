//! The program `replay`: its records, read and written, and what it prints.

use crate::clock::Rule;
use crate::covered::Covered;
use crate::event_request::Event;
use crate::explain::Question;
use crate::form::{Console, PublishedTime};
use crate::listing::list_report;
use crate::octets::{address_of, u16_of, Address, Kind};
use crate::order::Order;
use crate::peer_link::{PeerLink, PeerLogging};
use crate::refusal::Refusal;
use crate::report::ReportFrame;
use crate::request::{write_request, Wanted};
use crate::rsna::RsnaLogging;
use crate::station::{Answer, Logging, Outstanding, Station};
use crate::transition::{Time, Transition};

/// "at most 262,144 octets in all".
pub const LONGEST_TRACE: usize = 262_144;
/// "no length in them over 4,096".
pub const LONGEST_FIELD: usize = 4096;

/// One record.
#[derive(Clone, Debug, PartialEq, Eq)]
pub enum Record {
    Setup { identity: Vec<u8>, list: Vec<Console> },
    Clock { reading: u32 },
    Log { reading: u32, logging: Logging },
    LogRsna { reading: u32, logging: RsnaLogging },
    LogPeerLink { reading: u32, logging: PeerLogging },
    Frame { reading: u32, destination: Address, source: Address, octets: Vec<u8> },
    Report { reading: u32, console: Address, kind: Kind, buffer: usize, fill: u8 },
    Roam { reading: u32, list: Vec<Console> },
    Change { reading: u32, list: Vec<Console> },
    Write { buffer: usize, fill: u8, kind: Kind, dialog: u8, wanted: Vec<Wanted> },
    Read { form: u8, destination: Address, octets: Vec<u8> },
    Explain(Question),
}

impl Record {
    /// The reading that a call carries; setup, the console's records and a question to `explain` have none.
    pub fn reading(&self) -> Option<u32> {
        match self {
            Record::Setup { .. } | Record::Write { .. } | Record::Read { .. } | Record::Explain(_) => None,
            Record::Clock { reading }
            | Record::Log { reading, .. }
            | Record::LogRsna { reading, .. }
            | Record::LogPeerLink { reading, .. }
            | Record::Frame { reading, .. }
            | Record::Report { reading, .. }
            | Record::Roam { reading, .. }
            | Record::Change { reading, .. } => Some(*reading),
        }
    }
}

/// Takes fields from the front of the input.
struct Fields<'a> {
    input: &'a [u8],
    at: usize,
}

impl<'a> Fields<'a> {
    /// The next `number` octets, or nothing where the record is cut.
    fn octets(&mut self, number: usize) -> Option<&'a [u8]> {
        let taken = self.input.get(self.at..self.at + number)?;
        self.at += number;
        Some(taken)
    }

    /// A field of one octet.
    fn octet(&mut self) -> Option<u8> {
        Some(self.octets(1)?[0])
    }

    /// A field of two octets.
    fn two(&mut self) -> Option<u16> {
        Some(u16_of(self.octets(2)?))
    }

    /// A reading, four octets.
    fn reading(&mut self) -> Option<u32> {
        let low = u32::from(self.two()?);
        let high = u32::from(self.two()?);
        Some(low + 65_536 * high)
    }

    /// An address, six octets.
    fn address(&mut self) -> Option<Address> {
        Some(address_of(self.octets(6)?))
    }

    /// "number of addresses (1), addresses (6 each)", "each address is followed by its form (1)". "A bad form in a
    /// record is the call's own 15, never a refused trace."
    fn consoles(&mut self) -> Option<Vec<Console>> {
        let number = self.octet()?;
        (0..number).map(|_| Some(Console { address: self.address()?, form: self.octet()? })).collect()
    }

    /// A length: "no length in them over 4,096".
    fn length(&mut self) -> Option<usize> {
        let length = usize::from(self.two()?);
        (length <= LONGEST_FIELD).then_some(length)
    }

    /// "length (2), octets".
    fn counted(&mut self) -> Option<Vec<u8>> {
        let length = self.length()?;
        Some(self.octets(length)?.to_vec())
    }

    /// A choice of kind: `first` stands for event, `second` for diagnostic.
    fn kind(&mut self, first: u8, second: u8) -> Option<Kind> {
        match self.octet()? {
            octet if octet == first => Some(Kind::Event),
            octet if octet == second => Some(Kind::Diagnostic),
            _ => None,
        }
    }

    /// A time, nine octets.
    fn time(&mut self) -> Option<Time> {
        self.octets(9)?.try_into().ok()
    }

    /// "the time is followed by TSF (8), UTC offset (10) and event time error (5)".
    fn published(&mut self) -> Option<PublishedTime> {
        let (published, _) = PublishedTime::at_front(self.octets(23)?)?;
        Some(published)
    }

    /// "time (9), source (6), target (6), reason (1), result (2), source RCPI, source RSNI, target RCPI,
    /// target RSNI (1 each), departure (4)".
    fn logging(&mut self) -> Option<Logging> {
        let (time, published) = (self.time()?, self.published()?);
        let transition = Transition {
            source: self.address()?,
            target: self.address()?,
            time: 0,
            reason: self.octet()?,
            result: self.two()?,
            signal: [self.octet()?, self.octet()?, self.octet()?, self.octet()?],
        };
        Some(Logging { time, published, transition, departure: self.reading()? })
    }

    /// "time (9), target (6), authentication type (4), EAP method (8), result (1), RSN element's length (2),
    /// RSN element".
    fn rsna_logging(&mut self) -> Option<RsnaLogging> {
        Some(RsnaLogging {
            time: self.time()?,
            published: self.published()?,
            target: self.address()?,
            authentication: self.octets(4)?.try_into().ok()?,
            eap: self.octets(8)?.try_into().ok()?,
            result: self.octet()?,
            rsn: self.counted()?,
        })
    }

    /// "time (9), peer address (6), regulatory class (1), channel (1), transmit power (1), connection time (3),
    /// peer status (1)".
    fn peer_logging(&mut self) -> Option<PeerLogging> {
        let (time, published) = (self.time()?, self.published()?);
        let link = PeerLink {
            peer: self.address()?,
            class: self.octet()?,
            channel: self.octet()?,
            power: self.octet()?,
            connection: u32::from(self.two()?) + 65_536 * u32::from(self.octet()?),
            status: self.octet()?,
        };
        Some(PeerLogging { time, published, link })
    }

    /// "token (1), type (1), limit or timeout (2; a limit is below 256), number of conditions (1)".
    fn wanted(&mut self, kind: Kind) -> Option<Wanted> {
        let (token, ty, bound) = (self.octet()?, self.octet()?, self.two()?);
        if kind == Kind::Event && bound > 255 {
            return None;
        }
        let number = self.octet()?;
        let mut conditions: Vec<(u8, Vec<u8>)> = Vec::new();
        for _ in 0..number {
            let condition = self.condition(kind, ty)?;
            if conditions.last().is_some_and(|before| before.0 >= condition.0) {
                return None;
            }
            conditions.push(condition);
        }
        Some(Wanted { token, ty, bound, conditions })
    }

    /// "each with ID (1, 0 to 4, rising), length (1, as document 01 has it), octets", or as the element's type
    /// has it.
    fn condition(&mut self, kind: Kind, ty: u8) -> Option<(u8, Vec<u8>)> {
        let id = self.octet()?;
        let length = usize::from(self.octet()?);
        if handed_lengths(kind, ty).get(usize::from(id)) != Some(&length) {
            return None;
        }
        Some((id, self.octets(length)?.to_vec()))
    }

    /// "element's length (2), element, count (2), position (2)".
    fn question(&mut self) -> Option<Question> {
        Some(Question { element: self.counted()?, count: self.two()?, position: self.two()? })
    }

    /// One record; nothing where it "is cut, unknown, or has a field out of the range given".
    fn record(&mut self) -> Option<Record> {
        Some(match self.octet()? {
            0x00 => Record::Setup { identity: self.counted()?, list: self.consoles()? },
            0x01 => Record::Clock { reading: self.reading()? },
            0x02 => Record::Log { reading: self.reading()?, logging: self.logging()? },
            0x03 => Record::Frame {
                reading: self.reading()?,
                destination: self.address()?,
                source: self.address()?,
                octets: self.counted()?,
            },
            0x04 => Record::Report {
                reading: self.reading()?,
                console: self.address()?,
                kind: self.kind(0, 1)?,
                buffer: self.length()?,
                fill: self.octet()?,
            },
            0x05 => Record::Roam { reading: self.reading()?, list: self.consoles()? },
            0x06 => Record::Change { reading: self.reading()?, list: self.consoles()? },
            0x07 => Record::LogRsna { reading: self.reading()?, logging: self.rsna_logging()? },
            0x08 => Record::LogPeerLink { reading: self.reading()?, logging: self.peer_logging()? },
            0x10 => {
                let (buffer, fill) = (self.length()?, self.octet()?);
                let (kind, dialog, number) = (self.kind(0, 2)?, self.octet()?, self.octet()?);
                let wanted = (0..number).map(|_| self.wanted(kind)).collect::<Option<_>>()?;
                Record::Write { buffer, fill, kind, dialog, wanted }
            }
            0x11 => {
                Record::Read { form: self.octet()?, destination: self.address()?, octets: self.counted()? }
            }
            0x12 => Record::Explain(self.question()?),
            _ => return None,
        })
    }
}

/// How long the conditions 0, 1, .. of a request writer's element are: "an event element of type 1 has
/// conditions 0 to 3 of lengths 6, 4, 8, 1 ..., one of type 2 conditions 0 and 1 of lengths 6 and 2; every
/// other element keeps document 01's."
pub fn handed_lengths(kind: Kind, ty: u8) -> &'static [usize] {
    match (kind, ty) {
        (Kind::Event, 1) => &[6, 4, 8, 1],
        (Kind::Event, 2) => &[6, 2],
        _ => &[6, 6, 2, 1, 3],
    }
}

/// The record at the front of the input and its length.
pub fn read_record(input: &[u8]) -> Option<(Record, usize)> {
    let mut fields = Fields { input, at: 0 };
    let record = fields.record()?;
    Some((record, fields.at))
}

/// "number of addresses (1), addresses (6 each)", each followed by its form, written.
fn consoles_octets(list: &[Console]) -> Vec<u8> {
    let mut octets = vec![list.len() as u8];
    for console in list {
        octets.extend(console.address);
        octets.push(console.form);
    }
    octets
}

/// "length (2), octets", written.
fn counted_octets(counted: &[u8]) -> Vec<u8> {
    let mut octets = (counted.len() as u16).to_le_bytes().to_vec();
    octets.extend(counted);
    octets
}

/// A record's octets.
pub fn write_record(record: &Record) -> Vec<u8> {
    match record {
        Record::Setup { identity, list } => {
            [vec![0x00], counted_octets(identity), consoles_octets(list)].concat()
        }
        Record::Clock { reading } => [vec![0x01], reading.to_le_bytes().to_vec()].concat(),
        Record::Log { reading, logging } => {
            let mut octets = vec![0x02];
            octets.extend(reading.to_le_bytes());
            octets.extend(logging.time);
            octets.extend(logging.published.octets());
            octets.extend(logging.transition.source);
            octets.extend(logging.transition.target);
            octets.push(logging.transition.reason);
            octets.extend(logging.transition.result.to_le_bytes());
            octets.extend(logging.transition.signal);
            octets.extend(logging.departure.to_le_bytes());
            octets
        }
        Record::LogRsna { reading, logging } => {
            let mut octets = vec![0x07];
            octets.extend(reading.to_le_bytes());
            octets.extend(logging.time);
            octets.extend(logging.published.octets());
            octets.extend(logging.target);
            octets.extend(logging.authentication);
            octets.extend(logging.eap);
            octets.push(logging.result);
            octets.extend(counted_octets(&logging.rsn));
            octets
        }
        Record::LogPeerLink { reading, logging } => {
            let link = &logging.link;
            let mut octets = vec![0x08];
            octets.extend(reading.to_le_bytes());
            octets.extend(logging.time);
            octets.extend(logging.published.octets());
            octets.extend(link.peer);
            octets.extend([link.class, link.channel, link.power]);
            octets.extend(&link.connection.to_le_bytes()[..3]);
            octets.push(link.status);
            octets
        }
        Record::Frame { reading, destination, source, octets } => {
            let calls = [vec![0x03], reading.to_le_bytes().to_vec()].concat();
            [calls, destination.to_vec(), source.to_vec(), counted_octets(octets)].concat()
        }
        Record::Report { reading, console, kind, buffer, fill } => {
            let mut octets = vec![0x04];
            octets.extend(reading.to_le_bytes());
            octets.extend(console);
            octets.push(kind.request_action() / 2);
            octets.extend((*buffer as u16).to_le_bytes());
            octets.push(*fill);
            octets
        }
        Record::Roam { reading, list } => {
            [vec![0x05], reading.to_le_bytes().to_vec(), consoles_octets(list)].concat()
        }
        Record::Change { reading, list } => {
            [vec![0x06], reading.to_le_bytes().to_vec(), consoles_octets(list)].concat()
        }
        Record::Write { buffer, fill, kind, dialog, wanted } => {
            let mut octets = vec![0x10];
            octets.extend((*buffer as u16).to_le_bytes());
            octets.extend([*fill, kind.request_action(), *dialog, wanted.len() as u8]);
            octets.extend(wanted.iter().flat_map(wanted_octets));
            octets
        }
        Record::Read { form, destination, octets } => {
            [vec![0x11, *form], destination.to_vec(), counted_octets(octets)].concat()
        }
        Record::Explain(question) => [vec![0x12], question_octets(question)].concat(),
    }
}

/// A question's fields, written: those of its record, and the front of what the program `explain` reads.
pub fn question_octets(question: &Question) -> Vec<u8> {
    let mut octets = counted_octets(&question.element);
    octets.extend(question.count.to_le_bytes());
    octets.extend(question.position.to_le_bytes());
    octets
}

/// One element of a request writer's record, written.
fn wanted_octets(wanted: &Wanted) -> Vec<u8> {
    let mut octets = vec![wanted.token, wanted.ty];
    octets.extend(wanted.bound.to_le_bytes());
    octets.push(wanted.conditions.len() as u8);
    for (id, value) in &wanted.conditions {
        octets.extend([*id, value.len() as u8]);
        octets.extend(value);
    }
    octets
}

/// The line of an answer or a refusal.
fn line(result: Result<Answer, Refusal>) -> String {
    match result {
        Ok(answer) => answer.to_string(),
        Err(refusal) => refusal.to_string(),
    }
}

/// "`buffer ` and the whole lent buffer in lowercase hexadecimal".
fn buffer_line(buffer: &[u8]) -> String {
    format!("buffer {}\n", hexadecimal(buffer))
}

/// Octets in lowercase hexadecimal.
pub fn hexadecimal(octets: &[u8]) -> String {
    const DIGITS: [char; 16] =
        ['0', '1', '2', '3', '4', '5', '6', '7', '8', '9', 'a', 'b', 'c', 'd', 'e', 'f'];
    let digit = |four_bits: u8| DIGITS[usize::from(four_bits)];
    octets.iter().flat_map(|octet| [digit(octet / 16), digit(octet % 16)]).collect()
}

/// What a trace gives: the text that `replay` prints, what the gate chose for each frame that it gave, behind
/// each record the longest age taken since setup and the requests outstanding, the log at the end, where the trace
/// was refused, and the cases that it had.
#[derive(Default)]
pub struct Replayed {
    pub printed: String,
    pub chosen: Vec<ReportFrame>,
    pub ages: Vec<u128>,
    pub outstanding: Vec<Vec<Outstanding>>,
    pub log: Vec<Event>,
    pub refused: Option<usize>,
    pub covered: Covered,
}

/// Runs one record; gives what is printed for it, and what was chosen for a frame.
fn run_record(
    rule: Rule,
    station: &mut Station,
    record: &Record,
    chosen: &mut Option<ReportFrame>,
) -> String {
    match record {
        Record::Setup { identity, list } => {
            let (answer, fresh) = Station::setup(rule, identity, list);
            *station = fresh;
            line(answer)
        }
        Record::Clock { reading } => line(station.clock(*reading)),
        Record::Log { reading, logging } => line(station.log_transition(*reading, logging)),
        Record::LogRsna { reading, logging } => line(station.log_rsna(*reading, logging)),
        Record::LogPeerLink { reading, logging } => line(station.log_peer_link(*reading, logging)),
        Record::Frame { reading, destination, source, octets } => {
            line(station.frame(*reading, destination, source, octets))
        }
        Record::Report { reading, console, kind, buffer, fill } => {
            let mut lent = vec![*fill; *buffer];
            let answer = station.report(*reading, console, *kind, &mut lent).map(|(answer, frame)| {
                *chosen = frame;
                answer
            });
            line(answer) + &buffer_line(&lent)
        }
        Record::Roam { reading, list } => line(station.roam(*reading, list)),
        Record::Change { reading, list } => line(station.change_network(*reading, list)),
        Record::Write { buffer, fill, kind, dialog, wanted } => {
            let mut lent = vec![*fill; *buffer];
            let written = write_request(&mut lent, *kind, *dialog, wanted);
            line(written.map(Answer::Length)) + &buffer_line(&lent)
        }
        Record::Read { form, destination, octets } => list_report(*form, destination, octets),
        Record::Explain(question) => question.line(station.log()),
    }
}

/// Runs a trace. "A record that is cut, unknown, or has a field out of the range given here prints `trace
/// refused at P`, P the record's first octet, and ends the run; so does input past 262,144 octets, after the
/// records that are whole. Calls before any setup go to the gate that a setup with an empty identity and no
/// console yields."
pub fn run_trace(rule: Rule, input: &[u8]) -> Replayed {
    let within = &input[..input.len().min(LONGEST_TRACE)];
    let mut station = Station::without_requesters(rule);
    let mut replayed = Replayed::default();
    let mut order = Order::default();
    let mut at = 0;
    while at < within.len() {
        let Some((record, length)) = read_record(&within[at..]) else {
            replayed.covered.refused_record(&within[at..]);
            replayed.refused = Some(at);
            break;
        };
        replayed.covered.before(&station, &record);
        let due = order.before(&station, &record);
        let (before, listed) = (station.latest_reading(), station.listed());
        let oldest = station.log().first().filter(|_| station.log().len() == 64).map(|event| event.body.ty());
        let mut chosen = None;
        let printed = run_record(rule, &mut station, &record, &mut chosen);
        replayed.covered.after(&record, oldest, &printed, chosen.as_ref());
        replayed.covered.timed(before, &station, &record, &printed);
        replayed.covered.ordered(&due, chosen.as_ref());
        replayed.covered.listed(&listed, &record, &printed);
        replayed.covered.explained(station.log(), &record);
        replayed.chosen.extend(chosen);
        replayed.ages.push(station.longest_age());
        replayed.outstanding.push(station.outstanding());
        replayed.printed += &printed;
        at += length;
    }
    if input.len() > LONGEST_TRACE {
        replayed.refused = Some(at);
    }
    replayed.log = station.log().to_vec();
    replayed.printed += &refused_line(replayed.refused);
    replayed
}

/// "prints `trace refused at P`, P the record's first octet"; nothing for a trace that was not refused.
fn refused_line(refused: Option<usize>) -> String {
    refused.map_or(String::new(), |at| format!("trace refused at {at}\n"))
}

/// The program `explain`: it "reads the same fields and then a trace, runs the trace without printing and prints
/// that line; a trace that is refused prints `trace refused at P`, P counted in the trace; if its own fields are
/// cut or the length is over 4,096 it prints `trace refused at 0`; the limit of 262,144 is the trace's alone."
pub fn explain_input(input: &[u8]) -> String {
    let mut fields = Fields { input, at: 0 };
    let Some(question) = fields.question() else {
        return refused_line(Some(0));
    };
    let replayed = run_trace(Rule::Elapsed, &input[fields.at..]);
    match replayed.refused {
        None => question.line(&replayed.log),
        refused => refused_line(refused),
    }
}

/// What `replay` prints.
pub fn replay(input: &[u8]) -> String {
    run_trace(Rule::Elapsed, input).printed
}
