//! Made-up traces.

use crate::clock::{Rule, TURN};
use crate::damage::part;
use crate::form::Console;
use crate::make_events::{log_record, published_time, rsna_logging, transition};
use crate::make_identity::{console_list, identity, STATION};
use crate::make_questions::question;
use crate::make_reports::{report_frame, MadeReport};
use crate::make_requests::{crowded_request, handed_condition, request_frame, Taste};
use crate::octets::{Address, Kind};
use crate::random::Random;
use crate::request::Wanted;
use crate::rsna::RsnaLogging;
use crate::setup::{identity_is_good, list_is_good};
use crate::station::{Logging, Station};
use crate::trace::{handed_lengths, write_record, Record, LONGEST_TRACE};

/// Lengths of lent buffers at which something changes: the least buffer, one to several transitions of 35
/// octets, or of 49 in form 1, reports of 5, the longest identity twice, the longest frame.
const BUFFERS: [usize; 34] = [
    0, 1, 2, 3, 258, 259, 260, 260, 260, 261, 262, 264, 265, 266, 267, 268, 283, 293, 294, 295, 296, 297,
    300, 318, 346, 516, 517, 518, 2303, 2304, 2305, 2306, 4095, 4096,
];

/// How often each call comes: clock, logging, event frame, diagnostic frame, report call, move, network
/// change, setup, request writer, report reader, the calls around a timeout, two transitions and a diagnostic
/// over a turn, a request that takes many report calls, a question to `explain`.
type Weights = [usize; 15];

/// What a trace is like as a whole.
struct Plan {
    weights: Weights,
    taste: Taste,
    loggings_first: usize,
    /// How often each kind is logged: transitions, RSNA events, peer links.
    kinds: [usize; 3],
    steps: [usize; 7],
    short_buffers: bool,
    /// Percent of event frames that fill a report frame.
    crowded: usize,
    /// Whether calls lie days apart, and up to a turn less one.
    far: bool,
}

/// Everyday calls; full logs; little but diagnostics; logs that overtake their reports; many faults.
fn plan(random: &mut Random) -> Plan {
    let taste = Taste { faulty: 12, cancels: 8 };
    let small_steps = [30, 40, 15, 4, 1, 2, 4];
    let everyday = Plan {
        weights: [4, 22, 16, 10, 32, 2, 1, 1, 3, 4, 2, 1, 1, 0, 12],
        taste,
        loggings_first: random.between(0, 20),
        kinds: random.pick(&[[1, 1, 1], [1, 1, 1], [6, 1, 1], [1, 6, 1], [1, 1, 6], [1, 0, 0]]),
        steps: small_steps,
        short_buffers: random.percent(50),
        crowded: 5,
        far: random.percent(65),
    };
    match random.between(0, 6) {
        0 => Plan { loggings_first: random.between(60, 140), ..everyday },
        5 => Plan {
            weights: [1, 5, 30, 2, 50, 1, 0, 0, 0, 0, 0, 1, 0, 1, 12],
            loggings_first: random.between(64, 70),
            short_buffers: false,
            crowded: 50,
            ..everyday
        },
        1 => Plan {
            weights: [10, 2, 2, 30, 30, 1, 1, 1, 0, 0, 10, 0, 6, 1, 2],
            taste: Taste { faulty: 4, ..taste },
            steps: [30, 10, 45, 2, 1, 6, 2],
            ..everyday
        },
        2 => Plan {
            weights: [0, 60, 8, 2, 25, 1, 0, 0, 0, 0, 0, 2, 0, 0, 10],
            taste: Taste { faulty: 0, ..taste },
            loggings_first: 64,
            short_buffers: true,
            ..everyday
        },
        3 => Plan { taste: Taste { faulty: 60, ..taste }, steps: [10, 10, 10, 10, 10, 10, 10], ..everyday },
        4 => Plan {
            weights: [2, 30, 14, 6, 30, 8, 4, 3, 1, 1, 2, 6, 3, 0, 10],
            steps: [20, 30, 10, 20, 10, 5, 5],
            ..everyday
        },
        _ => everyday,
    }
}

/// A trace in the making.
struct Maker<'a> {
    random: &'a mut Random,
    plan: Plan,
    reading: u32,
    listed: Vec<Address>,
    records: Vec<Vec<u8>>,
    size: usize,
    /// A gate that takes the calls but requests: it has the log.
    gate: Station,
}

/// A trace of 50 to 400 calls, as its records; the last one is at times not a whole record.
pub fn trace(random: &mut Random) -> Vec<Vec<u8>> {
    let plan = plan(random);
    let reading = match random.between(0, 3) {
        0 => 0,
        1 => u32::MAX - random.between(0, 100_000) as u32,
        _ => random.bits() as u32,
    };
    let calls = random.between(50, 400);
    let gate = Station::without_requesters(Rule::Elapsed);
    let (listed, records) = (Vec::new(), Vec::new());
    let mut maker = Maker { random, plan, reading, listed, records, size: 0, gate };
    if maker.random.percent(95) {
        maker.setup();
    }
    for _ in 0..maker.plan.loggings_first {
        maker.logging();
    }
    while maker.records.len() < calls && maker.size < LONGEST_TRACE - 8000 {
        maker.call();
    }
    if maker.random.percent(20) {
        maker.bad_record();
    }
    maker.records
}

/// The addresses of a list.
fn addresses(list: &[Console]) -> Vec<Address> {
    list.iter().map(|console| console.address).collect()
}

impl Maker<'_> {
    /// Appends a record.
    fn push(&mut self, record: Record) {
        self.follow(&record);
        self.push_octets(write_record(&record));
    }

    /// What a record does to the log, refused or not.
    fn follow(&mut self, record: &Record) {
        match record {
            Record::Setup { identity, list } => self.gate = Station::setup(Rule::Elapsed, identity, list).1,
            Record::Log { reading, logging } => drop(self.gate.log_transition(*reading, logging)),
            Record::LogRsna { reading, logging } => drop(self.gate.log_rsna(*reading, logging)),
            Record::LogPeerLink { reading, logging } => drop(self.gate.log_peer_link(*reading, logging)),
            Record::Change { reading, list } => drop(self.gate.change_network(*reading, list)),
            other => drop(other.reading().map(|reading| self.gate.clock(reading))),
        }
    }

    /// Appends octets as they are.
    fn push_octets(&mut self, octets: Vec<u8>) {
        self.size += octets.len();
        self.records.push(octets);
    }

    /// The next call's reading: the same, little later, seconds, days, near the rollover, back by one or a
    /// little more, minutes. Where calls are not to lie far apart, a step of days and more is none.
    fn step(&mut self) -> u32 {
        let random = &mut *self.random;
        let forward = match random.weighted(&self.plan.steps) {
            3..=5 if !self.plan.far => 0,
            0 => 0,
            1 => random.between(1, 40) as u32,
            2 => random.pick(&[500, 999, 1000, 1000, 1001, 2000, 2001, 3000, 5001]),
            3 => 86_400_000 * random.between(1, 40) as u32,
            4 => {
                let before = random.between(0, 2000) as u32;
                random.pick(&[u32::MAX - before, u32::MAX, 0, 1]).wrapping_sub(self.reading)
            }
            5 => random.pick(&[u32::MAX, u32::MAX, u32::MAX - 1, u32::MAX - 999, u32::MAX - 59_999]),
            _ => random.pick(&[59_999, 60_000, 60_000, 60_001, 120_000, 300_000]),
        };
        self.reading = self.reading.wrapping_add(forward);
        self.reading
    }

    /// One call, by the plan's weights; a gate with no console is soon set up anew.
    fn call(&mut self) {
        if self.listed.is_empty() && self.random.percent(12) {
            return self.setup();
        }
        match self.random.weighted(&self.plan.weights) {
            0 => {
                let reading = self.step();
                self.push(Record::Clock { reading });
            }
            1 => {
                for _ in 0..self.random.pick(&[1, 1, 1, 2, 5]) {
                    self.logging();
                }
            }
            2 => self.frame(Kind::Event),
            3 => self.frame(Kind::Diagnostic),
            4 => self.report(),
            5 => {
                let (reading, list) = (self.step(), self.list());
                self.push(Record::Roam { reading, list });
            }
            6 => {
                let (reading, list) = (self.step(), self.list());
                self.push(Record::Change { reading, list });
            }
            7 => self.setup(),
            8 => self.write(),
            9 => {
                let MadeReport { told: form, destination, octets } = report_frame(self.random);
                self.push(Record::Read { form, destination, octets });
            }
            10 => self.around_a_timeout(),
            13 => self.long_wait(),
            14 => self.questions(),
            _ if !self.plan.far => self.report(),
            11 => self.transitions_over_a_turn(),
            _ => self.diagnostic_over_a_turn(),
        }
    }

    /// A list for a move or network change; remembered where it will be accepted.
    fn list(&mut self) -> Vec<Console> {
        let list = console_list(self.random);
        if !self.listed.is_empty() && list_is_good(&list) {
            self.listed = addresses(&list);
        }
        list
    }

    /// A setup, at times refused.
    fn setup(&mut self) {
        let list = console_list(self.random);
        let identity = identity(self.random, 6);
        let accepted = list_is_good(&list) && identity_is_good(&identity);
        self.listed = if accepted { addresses(&list) } else { Vec::new() };
        self.push(Record::Setup { identity, list });
    }

    /// A logging: transition times around the edges of TUs and conditions, now and then any.
    fn logging(&mut self) {
        let reading = self.step();
        let random = &mut *self.random;
        let taken = match random.between(0, 9) {
            0 => random.bits() as u32,
            _ => random.pick(&[0, 1, 2, 15, 16, 17, 1000, 67_106, 67_107, 67_108, 67_109]),
        };
        let ty = random.weighted(&self.plan.kinds) as u8;
        let record = log_record(random, ty, reading, taken, 5);
        self.push(record);
    }

    /// Mostly a listed requester.
    fn sender(&mut self) -> Address {
        if self.listed.is_empty() || self.random.percent(6) {
            return self.random.pick(&[[2, 0, 0, 0, 0, 1], [2, 0, 0, 0, 0, 6], [3, 0, 0, 0, 0, 1], [0; 6]]);
        }
        self.random.pick(&self.listed)
    }

    /// A frame call; few dialog tokens, so that they are often equal.
    fn frame(&mut self, kind: Kind) {
        let (reading, source) = (self.step(), self.sender());
        let random = &mut *self.random;
        let dialog = random.pick(&[1, 1, 1, 2, 2, 3, 255]);
        let octets = if kind == Kind::Event && random.percent(self.plan.crowded) {
            crowded_request(random, dialog)
        } else {
            request_frame(random, kind, dialog, self.plan.taste)
        };
        let destination = if random.percent(3) { [255; 6] } else { STATION };
        self.push(Record::Frame { reading, destination, source, octets });
    }

    /// A report call.
    fn report(&mut self) {
        let (reading, console) = (self.step(), self.sender());
        let random = &mut *self.random;
        let kind = random.pick(&[Kind::Event, Kind::Event, Kind::Diagnostic]);
        let buffer = match random.between(0, 9) {
            0 => random.between(0, 4096),
            1..=4 if self.plan.short_buffers => random.between(260, 300),
            _ => random.pick(&BUFFERS),
        };
        let fill = random.pick(&[0, 0xEE, 0xFF]);
        self.push(Record::Report { reading, console, kind, buffer, fill });
    }

    /// One question or several about the log as it stands.
    fn questions(&mut self) {
        for _ in 0..self.random.pick(&[1, 1, 2, 4]) {
            let faulty = 15 + self.plan.taste.faulty / 2;
            let question = question(self.random, self.gate.log(), faulty);
            self.push(Record::Explain(question));
        }
    }

    /// A diagnostic request, a call of any kind at its timeout or one later, at times a step back by one,
    /// and a report call: what was dropped stays dropped, whatever the call between was answered.
    fn around_a_timeout(&mut self) {
        if self.plan.far && self.random.percent(25) {
            self.reading = self.random.pick(&[0, 1, u32::MAX, u32::MAX - 999, u32::MAX - 1000]);
        }
        let (accepted, source) = (self.step(), self.sender());
        let timeout = self.random.between(0, 3) as u16;
        let past = self.random.pick(&[0, 1, 1, 1]);
        let back = u32::from(self.plan.far && self.random.percent(70));
        self.diagnostic(accepted, source, timeout);
        self.reading = accepted.wrapping_add(u32::from(timeout) * 1000 + past);
        self.bystander(source);
        self.reading = self.reading.wrapping_sub(back);
        self.diagnostic_report(source);
    }

    /// Two transitions whose true age is a turn or several, or the longest interval, and up to a minute or so
    /// more, with calls of any kind between them; then a frequent condition is asked of them.
    fn transitions_over_a_turn(&mut self) {
        let reading = self.step();
        let record = log_record(self.random, 0, reading, 16, 0);
        self.push(record);
        let random = &mut *self.random;
        let apart = random.pick(&[TURN, TURN, 2 * TURN, 3 * TURN, 3_932_100_000]);
        let more = random.pick(&[0, 1, 59_999, 60_000, 60_001, 120_000]);
        let calls = apart / TURN + random.pick(&[1, 1, 2]);
        self.pass(apart + more, calls);
        let reading = self.reading;
        let source = self.sender();
        let random = &mut *self.random;
        let record = log_record(random, 0, reading, 17, 0);
        let interval: u16 = random.pick(&[0, 1, 1, 1, 2, 65_535, 65_535]);
        let [low, high] = interval.to_le_bytes();
        let threshold = random.pick(&[0, 1, 1, 1, 2]);
        let octets = vec![10, 0, random.octet().max(1), 78, 8, 5, 0, 255, 4, 3, threshold, low, high];
        self.push(record);
        self.push(Record::Frame { reading, destination: STATION, source, octets });
        self.push(Record::Report { reading, console: source, kind: Kind::Event, buffer: 2304, fill: 0xEE });
    }

    /// A diagnostic request, a call at which it still waits, and a report call at which its age is a turn or a
    /// little more, so that the counter alone would show it in time.
    fn diagnostic_over_a_turn(&mut self) {
        let (accepted, source) = (self.step(), self.sender());
        let timeout = self.random.pick(&[1u16, 2, 3, 60, 65_535]);
        let waits = u32::from(timeout) * 1000 - self.random.pick(&[0, 0, 1, 500]);
        self.diagnostic(accepted, source, timeout);
        self.reading = accepted.wrapping_add(waits);
        self.bystander(source);
        self.reading = accepted.wrapping_add(self.random.pick(&[0, 1, 499, waits - 1]));
        self.diagnostic_report(source);
    }

    /// A request of eight elements for all that there is, and report calls with little room until it is likely to be
    /// over, with calls between them that do not end it.
    fn long_wait(&mut self) {
        let (reading, source) = (self.step(), self.sender());
        let random = &mut *self.random;
        let kind = random.pick(&[Kind::Event, Kind::Diagnostic]);
        let mut octets = vec![10, kind.request_action(), random.octet().max(1)];
        for token in 1..=8 {
            octets.extend(match kind {
                Kind::Event => part(78, &[token, random.weighted(&self.plan.kinds) as u8, 255]),
                Kind::Diagnostic => part(80, &[token, 1, 255, 255]),
            });
        }
        let calls = if kind == Kind::Event { random.pick(&[20, 60, 140]) } else { 10 };
        let request =
            |reading| Record::Frame { reading, destination: STATION, source, octets: octets.clone() };
        self.push(request(reading));
        for _ in 0..calls {
            match self.random.between(0, 19) {
                0 => self.push(Record::Clock { reading: self.reading }),
                1 => self.logging(),
                2 => self.push(request(self.reading)),
                3 => self.report(),
                _ => {}
            }
            let (reading, buffer) = (self.reading, self.random.pick(&[259, 260, 260, 260, 260, 261, 280]));
            self.push(Record::Report { reading, console: source, kind, buffer, fill: 0xEE });
        }
    }

    /// Lets so much time pass in so many steps, each below a turn, with a call behind each but the last.
    fn pass(&mut self, time: u128, steps: u128) {
        let each = time / steps;
        for _ in 1..steps {
            self.reading = self.reading.wrapping_add(each as u32);
            if self.random.percent(20) {
                let (reading, list) = (self.reading, self.list());
                self.push(Record::Roam { reading, list });
            } else {
                let source = self.sender();
                self.bystander(source);
            }
        }
        self.reading = self.reading.wrapping_add((time - each * (steps - 1)) as u32);
    }

    /// A diagnostic request with one element.
    fn diagnostic(&mut self, reading: u32, source: Address, timeout: u16) {
        let random = &mut *self.random;
        let [low, high] = timeout.to_le_bytes();
        let octets = vec![10, 2, random.octet().max(1), 80, 4, 5, random.pick(&[1, 2]), low, high];
        self.push(Record::Frame { reading, destination: STATION, source, octets });
    }

    /// A report call for diagnostics.
    fn diagnostic_report(&mut self, console: Address) {
        let (reading, kind) = (self.reading, Kind::Diagnostic);
        self.push(Record::Report { reading, console, kind, buffer: 300, fill: 0xEE });
    }

    /// A call that leaves this sender's diagnostic request as it is but for its time: most are refused.
    fn bystander(&mut self, source: Address) {
        let reading = self.reading;
        let random = &mut *self.random;
        let kind = Kind::Diagnostic;
        let buffer = random.pick(&[0, 259, 260, 300]);
        let list = console_list(random);
        let (published, moved) = (published_time(random), transition(random));
        let refused_time = Logging { time: [0; 9], published, transition: moved, departure: 0 };
        let refused_element = RsnaLogging { rsn: vec![0; 21], ..rsna_logging(random, 0) };
        let ty = random.pick(&[0, 1, 2]);
        let logged = log_record(random, ty, reading, 0, 0);
        let unlisted = [2, 0, 0, 0, 0, 6];
        let call =
            |destination, source| Record::Frame { reading, destination, source, octets: vec![10, 0, 7] };
        let between = match random.between(0, 10) {
            0 => Record::Clock { reading },
            1 => Record::Log { reading, logging: refused_time },
            2 => call([1; 6], source),
            3 => call(STATION, unlisted),
            4 => call(STATION, source),
            5 => Record::Report { reading, console: unlisted, kind, buffer, fill: 0 },
            6 => Record::Report { reading, console: source, kind: Kind::Event, buffer, fill: 0 },
            7 => Record::Roam { reading, list: Vec::new() },
            8 => Record::LogRsna { reading, logging: refused_element },
            9 => logged,
            _ => Record::Change { reading, list: [list.clone(), list].concat() },
        };
        self.push(between);
    }

    /// A request writer's record.
    fn write(&mut self) {
        let random = &mut *self.random;
        let kind = random.pick(&[Kind::Event, Kind::Event, Kind::Diagnostic]);
        let number = random.pick(&[0, 1, 1, 2, 3, 7, 8, 8, 9, 10]);
        let mut wanted = Vec::new();
        let first = random.between(1, 200) as u8;
        for token in first..first + number {
            let wrong = if token - first >= 8 { 30 } else { 3 };
            let bound = random.pick(&[0u16, 1, 255]);
            let every = random.percent(50);
            let ty = random.pick(&[0, 0, 1, 1, 1, 2, 2, 3, 255]);
            let conditions = handed_lengths(kind, ty).len() as u8;
            let ids: Vec<u8> = (0..conditions).filter(|_| every || random.percent(30)).collect();
            wanted.push(Wanted {
                token: if random.percent(wrong) { random.pick(&[0, first]) } else { token },
                ty,
                bound: if kind == Kind::Event { bound } else { bound * 257 },
                conditions: ids.iter().map(|id| (*id, handed_condition(random, kind, ty, *id))).collect(),
            });
        }
        let buffer = random.pick(&[0, 265, 266, 267, 267, 268, 300, 4096]);
        let (fill, dialog) = (random.pick(&[0, 0xEE]), random.pick(&[0, 1, 7, 7, 7, 255, 255]));
        self.push(Record::Write { buffer, fill, kind, dialog, wanted });
    }

    /// A record that is cut, unknown, or has a field out of its range.
    fn bad_record(&mut self) {
        let random = &mut *self.random;
        let reading = self.reading.to_le_bytes();
        let report = |kind: u8, buffer: u16| {
            let length = buffer.to_le_bytes();
            [&[4][..], &reading, &[2, 0, 0, 0, 0, 1], &[kind], &length, &[0]].concat()
        };
        let write_type = |action: u8, ty: u8, bound: u16, conditions: &[u8]| {
            let bound = bound.to_le_bytes();
            [&[0x10, 11, 1, 0, action, 7, 1, 5, ty][..], &bound, conditions].concat()
        };
        let write = |action: u8, bound: u16, conditions: &[u8]| write_type(action, 0, bound, conditions);
        let ty = random.pick(&[1, 2]);
        let logging = write_record(&log_record(random, ty, self.reading, 0, 5));
        let question = write_record(&Record::Explain(question(random, self.gate.log(), 15)));
        let octets = match random.between(0, 22) {
            0 => vec![random.pick(&[9, 15, 16 + 9, 32, 255])],
            1 => report(2, 300),
            2 => report(0, 4097),
            3 => [&[0x11, 1][..], &[2, 0, 0, 0, 0, 9], &4097u16.to_le_bytes(), &[0; 4097]].concat(),
            4 => write(1, 0, &[0]),
            5 => write(3, 0, &[0]),
            6 => write(0, 256, &[0]),
            7 => write(0, 0, &[1, 3, 2, 0, 0]),
            8 => write(0, 0, &[2, 3, 1, 0, 3, 1, 0]),
            9 => write(2, 0, &[2, 3, 1, 0, 2, 2, 0, 0]),
            10 => write(0, 0, &[1, 5, 0]),
            11 => [&[0x00][..], &4097u16.to_le_bytes(), &[0; 4100]].concat(),
            12 => [&[0x10][..], &4097u16.to_le_bytes(), &[0, 0, 7, 0]].concat(),
            // An EAP method of its own length and not of eight; a source BSSID, which only transitions have.
            13 => write_type(0, 1, 0, &random.pick(&[vec![1, 2, 1, 13], vec![1, 1, 6, 2, 1, 1, 1, 1, 1]])),
            14 => write_type(0, 1, 0, &random.pick(&[vec![1, 4, 3, 0, 0, 0], vec![2, 3, 1, 0, 3, 1, 0]])),
            15 => write_type(0, 2, 0, &random.pick(&[vec![1, 2, 2, 0, 0], vec![1, 1, 6, 2, 1, 1, 1, 1, 1]])),
            // Every other element keeps the lengths of a transition's.
            16 => write_type(random.pick(&[0, 2]), 3, 0, &[1, 1, 2, 81, 6]),
            17 => write_type(2, random.pick(&[1, 2]), 0, &[1, 1, 4, 0, 0, 0, 0]),
            18 => logging[..random.between(1, logging.len() - 1)].to_vec(),
            20 => question[..random.between(1, question.len() - 1)].to_vec(),
            21 => [&[0x12][..], &4097u16.to_le_bytes(), &[78; 4097], &[0; 4]].concat(),
            19 => [&[7][..], &reading, &[255; 32], &[2; 19], &4097u16.to_le_bytes(), &[0; 4097]].concat(),
            _ => {
                let mut cut = random.pick(&self.records);
                cut.truncate(random.between(1, cut.len() - 1));
                cut
            }
        };
        self.push_octets(octets);
    }
}
