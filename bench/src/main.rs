//! The proved code's speed beside that of the same layer in idiomatic Rust (twin.rs).
//!
//! `bench` prints a table of nanoseconds a call and their ratio. A batch prepares some stations of
//! each side, then times one call on each; batches of the two sides take turns, and each pair of
//! batches must give the same answers, buffers and readings. `bench count CASE SIDE CALLS` makes the
//! calls of one side only (SIDE: proved or twin; proved-none or twin-none: preparation alone), for a tool that counts
//! instructions.

mod firmware;
mod twin;

use std::hint::black_box;
use std::time::Instant;

const STATIONS: usize = 8;
/// Where stations lie: the batches take the next eight of these in turn, so that no chance of two
/// addresses' distance, which a copy's speed depends on, lasts for a whole run.
const PLACES: usize = 256;
const BATCHES: usize = 20_001;

const GATE: [u8; 6] = [2, 0, 0, 0, 0, 1];
const CONSOLES: [[u8; 6]; 4] = [
    [2, 0, 0, 0, 0, 16],
    [2, 0, 0, 0, 0, 17],
    [2, 0, 0, 0, 0, 18],
    [2, 0, 0, 0, 0, 19],
];
const IDENTITY: [u8; 17] = [13, 3, 0, 80, 194, 11, 1, b'K', 12, 1, b'G', 14, 1, b'1', 9, 1, b'1'];

/// What both sides answer, in the numbers of include/dultxibe.h.
type Answer = firmware::Reply;

/// A station of either side.
trait Side: Copy {
    /// A console as a list names it.
    type Listed;
    fn listed(address: [u8; 6], form: u8) -> Self::Listed;
    fn set_up(list: &[Self::Listed]) -> Self;
    fn tick(&mut self, reading: u32) -> Answer;
    fn log_transition(&mut self, reading: u32, t: &twin::Transition) -> Answer;
    fn log_rsna(&mut self, reading: u32, e: &twin::RsnaEvent, rsn: &[u8]) -> Answer;
    fn log_peer_link(&mut self, reading: u32, e: &twin::PeerLink) -> Answer;
    fn frame(&mut self, reading: u32, octets: &[u8]) -> Answer;
    fn report(&mut self, reading: u32, kind: u8, buffer: &mut [u8]) -> Answer;
    fn roam(&mut self, reading: u32, list: &[Self::Listed]) -> Answer;
    fn change_network(&mut self, reading: u32, list: &[Self::Listed]) -> Answer;
    /// Validates a report frame in a form, then reads its elements: the count, and a sum over their fields.
    fn read(form: u8, octets: &[u8]) -> (usize, u64);
    fn time_units(age: u32) -> u16;
}

/// The proved side.
impl Side for firmware::Station {
    type Listed = firmware::Requester;

    fn listed(address: [u8; 6], form: u8) -> firmware::Requester {
        firmware::Requester { address, form }
    }

    fn set_up(list: &[firmware::Requester]) -> Self {
        let (identity, length) = (IDENTITY.as_ptr(), IDENTITY.len());
        unsafe { firmware::dultxibe_setup(identity, length, list.as_ptr(), list.len()).station }
    }

    #[inline(never)]
    fn tick(&mut self, reading: u32) -> Answer {
        unsafe { firmware::dultxibe_tick(self, reading) }
    }

    #[inline(never)]
    fn log_transition(&mut self, reading: u32, t: &twin::Transition) -> Answer {
        let t = firmware::Transition {
            times: proved_times(&t.times),
            source: t.source,
            target: t.target,
            reason: t.reason,
            result: t.result,
            signals: t.signals,
            departure: t.departure,
        };
        unsafe { firmware::dultxibe_log_transition(self, reading, t) }
    }

    #[inline(never)]
    fn log_rsna(&mut self, reading: u32, e: &twin::RsnaEvent, rsn: &[u8]) -> Answer {
        let e = firmware::RsnaEvent {
            times: proved_times(&e.times),
            target: e.target,
            authentication: e.authentication,
            method: e.method.0,
            result: e.result,
        };
        unsafe { firmware::dultxibe_log_rsna(self, reading, e, rsn.as_ptr(), rsn.len()) }
    }

    #[inline(never)]
    fn log_peer_link(&mut self, reading: u32, e: &twin::PeerLink) -> Answer {
        let e = firmware::PeerLink {
            times: proved_times(&e.times),
            peer: e.peer,
            class: e.class,
            channel: e.channel,
            power: e.power,
            connection: e.connection,
            status: e.status,
        };
        unsafe { firmware::dultxibe_log_peer_link(self, reading, e) }
    }

    #[inline(never)]
    fn frame(&mut self, reading: u32, octets: &[u8]) -> Answer {
        let (start, length) = (octets.as_ptr(), octets.len());
        unsafe { firmware::dultxibe_frame(self, reading, &GATE, &CONSOLES[1], start, length) }
    }

    #[inline(never)]
    fn report(&mut self, reading: u32, kind: u8, buffer: &mut [u8]) -> Answer {
        let (start, length) = (buffer.as_mut_ptr(), buffer.len());
        unsafe { firmware::dultxibe_report(self, reading, &CONSOLES[1], kind, start, length) }
    }

    #[inline(never)]
    fn roam(&mut self, reading: u32, list: &[firmware::Requester]) -> Answer {
        unsafe { firmware::dultxibe_roam(self, reading, list.as_ptr(), list.len()) }
    }

    #[inline(never)]
    fn change_network(&mut self, reading: u32, list: &[firmware::Requester]) -> Answer {
        unsafe { firmware::dultxibe_change_network(self, reading, list.as_ptr(), list.len()) }
    }

    fn read(form: u8, octets: &[u8]) -> (usize, u64) {
        let (start, length) = (octets.as_ptr(), octets.len());
        let report = unsafe { firmware::dultxibe_read_report(form, &GATE, start, length) };
        if report.cause != 0 {
            return (0, report.cause as u64);
        }
        let (mut at, mut sum) = (3, 0);
        while at < length {
            let step = unsafe { firmware::dultxibe_next_element(form, report.kind, at, start, length) };
            let e = &step.element;
            if step.found != 0 {
                sum += e.token as u64 + e.ty as u64 + e.status as u64;
            }
            if e.logged != 0 {
                sum += read_event(form, e.ty, &octets[step.rest..step.rest + e.length]);
            }
            at = step.next;
        }
        (report.count, sum)
    }

    fn time_units(age: u32) -> u16 {
        unsafe { firmware::tus_of(age) }
    }
}

fn proved_times(times: &twin::Times) -> firmware::Times {
    firmware::Times { time: times.time, tsf: times.tsf, utc_offset: times.utc_offset, time_error: times.time_error }
}

/// A sum over the fields of an event of this type in a form, from the octets behind its status.
fn read_event(form: u8, ty: u8, octets: &[u8]) -> u64 {
    let (start, length) = (octets.as_ptr(), octets.len());
    let (times, sum) = match ty {
        0 => {
            let event = unsafe { firmware::dultxibe_read_transition(form, start, length) };
            (event.times, event.took as u64 + event.target[5] as u64 + event.result as u64)
        }
        1 => {
            let event = unsafe { firmware::dultxibe_read_rsna(form, start, length) };
            let rsn = if event.rsn_length == 0 { 0 } else { event.rsn[21] };
            let sum = event.method[0] as u64 + event.target[5] as u64 + event.result as u64 + rsn as u64;
            (event.times, sum)
        }
        _ => {
            let event = unsafe { firmware::dultxibe_read_peer_link(form, start, length) };
            (event.times, event.channel as u64 + event.peer[5] as u64 + event.connection[0] as u64)
        }
    };
    // Those that the form does not carry are zeros.
    let published = times.tsf[2] as u64 + times.utc_offset[9] as u64 + times.time_error[0] as u64;
    times.time[2] as u64 + published + sum
}

/// The same octets of the time fields that the twin read.
fn sum_times(times: twin::ReportedTimes) -> u64 {
    match times {
        twin::ReportedTimes::Draft(time) => time[2] as u64,
        twin::ReportedTimes::Published { tsf, utc_offset, time_error } => {
            tsf[2] as u64 + utc_offset[9] as u64 + time_error[0] as u64
        }
    }
}

fn answer(answer: twin::Answer) -> Answer {
    let (code, cause, place, length) = match answer {
        twin::Answer::Accepted => (0, 0, 0, 0),
        twin::Answer::Nothing => (1, 0, 0, 0),
        twin::Answer::Length(length) => (2, 0, 0, length),
        twin::Answer::Refused(refusal) => (3, refusal.number, refusal.place, 0),
    };
    Answer { code, cause, place, length }
}

fn kind(number: u8) -> twin::Kind {
    if number == 0 {
        twin::Kind::Event
    } else {
        twin::Kind::Diagnostic
    }
}

/// The calls are not inlined: the archive's are not either.
impl Side for twin::Station {
    type Listed = twin::Listed;

    fn listed(address: [u8; 6], form: u8) -> twin::Listed {
        twin::Listed { address, form }
    }

    fn set_up(list: &[twin::Listed]) -> Self {
        twin::Station::set_up(&IDENTITY, list).0
    }

    #[inline(never)]
    fn tick(&mut self, reading: u32) -> Answer {
        answer(twin::Station::tick(self, reading))
    }

    #[inline(never)]
    fn log_transition(&mut self, reading: u32, t: &twin::Transition) -> Answer {
        answer(twin::Station::log_transition(self, reading, t))
    }

    #[inline(never)]
    fn log_rsna(&mut self, reading: u32, e: &twin::RsnaEvent, rsn: &[u8]) -> Answer {
        answer(twin::Station::log_rsna(self, reading, e, rsn))
    }

    #[inline(never)]
    fn log_peer_link(&mut self, reading: u32, e: &twin::PeerLink) -> Answer {
        answer(twin::Station::log_peer_link(self, reading, e))
    }

    #[inline(never)]
    fn frame(&mut self, reading: u32, octets: &[u8]) -> Answer {
        answer(twin::Station::frame(self, reading, &GATE, &CONSOLES[1], octets))
    }

    #[inline(never)]
    fn report(&mut self, reading: u32, number: u8, buffer: &mut [u8]) -> Answer {
        answer(twin::Station::report(self, reading, &CONSOLES[1], kind(number), buffer))
    }

    #[inline(never)]
    fn roam(&mut self, reading: u32, list: &[twin::Listed]) -> Answer {
        answer(twin::Station::roam(self, reading, list))
    }

    #[inline(never)]
    fn change_network(&mut self, reading: u32, list: &[twin::Listed]) -> Answer {
        answer(twin::Station::change_network(self, reading, list))
    }

    #[inline(never)]
    fn read(form: u8, octets: &[u8]) -> (usize, u64) {
        let report = match twin::read_report(form, &GATE, octets) {
            Ok(report) => report,
            Err(refusal) => return (0, refusal.number as u64),
        };
        let mut sum = 0;
        for e in report.elements() {
            sum += e.token as u64 + e.ty as u64 + e.status as u64;
            sum += match e.event() {
                Some(twin::Event::Transition(event)) => {
                    sum_times(event.times) + event.took as u64 + event.target[5] as u64 + event.result as u64
                }
                Some(twin::Event::Rsna(event)) => {
                    let rsn = event.rsn.map_or(0, |rsn| rsn[21]);
                    let sum = event.method[0] as u64 + event.target[5] as u64 + event.result as u64 + rsn as u64;
                    sum_times(event.times) + sum
                }
                Some(twin::Event::PeerLink(event)) => {
                    sum_times(event.times) + event.channel as u64 + event.peer[5] as u64 + event.connection[0] as u64
                }
                None => 0,
            };
        }
        (report.count, sum)
    }

    #[inline(never)]
    fn time_units(age: u32) -> u16 {
        twin::time_units(age)
    }
}

fn times(n: u32) -> twin::Times {
    twin::Times {
        time: [231, 3, 59, 59, 23, 31, 12, 234, 7],
        tsf: (n as u64 * 1_000_000).to_le_bytes(),
        utc_offset: [234, 7, 12, 31, 23, 59, 59, 231, 3, n as u8],
        time_error: [n as u8, 0, 0, 0, 0],
    }
}

fn transition(n: u32) -> twin::Transition {
    twin::Transition {
        times: times(n),
        source: [2, 1, 1, 1, 1, n as u8 % 4],
        target: [2, 1, 1, 1, 1, n as u8 % 8],
        reason: 6,
        result: (n % 3) as u16,
        signals: [110, 40, 150, 60],
        departure: (n * 1000).wrapping_sub(16 + n),
    }
}

/// An RSNA event, with its EAP method of eight octets one time in four.
fn rsna(n: u32) -> twin::RsnaEvent {
    let first = if n % 4 == 0 { 254 } else { 13 };
    twin::RsnaEvent {
        times: times(n),
        target: [2, 1, 1, 1, 1, n as u8 % 8],
        authentication: [0, 15, 172, 1],
        method: twin::Method([first, 0, 80, 194, 1, 2, 3, n as u8]),
        result: (n % 3) as u8,
    }
}

/// Its RSN element, there one time in four: 64 reports of these have 2,128 octets, which fit a frame.
fn rsn(n: u32) -> &'static [u8] {
    const ELEMENT: [u8; 22] = [48, 20, 1, 0, 0, 15, 172, 4, 1, 0, 0, 15, 172, 4, 1, 0, 0, 15, 172, 1, 0, 5];
    if n % 4 == 1 {
        &ELEMENT
    } else {
        &[]
    }
}

fn peer_link(n: u32) -> twin::PeerLink {
    twin::PeerLink {
        times: times(n),
        peer: [2, 1, 1, 1, 1, n as u8 % 8],
        class: 81,
        channel: n as u8 % 14,
        power: 20,
        connection: [n as u8, 1, 0],
        status: n as u8 % 4,
    }
}

/// One event element of type 0 with a limit and subelements.
fn element(token: u8, limit: u8, subelements: &[u8]) -> Vec<u8> {
    element_of(0, token, limit, subelements)
}

/// The same of any type.
fn element_of(ty: u8, token: u8, limit: u8, subelements: &[u8]) -> Vec<u8> {
    let mut octets = vec![78, 3 + subelements.len() as u8, token, ty, limit];
    octets.extend(subelements);
    octets
}

/// One element of each type that is reported.
fn every_kind() -> Vec<u8> {
    event_frame(&[0, 1, 2].map(|ty| element_of(ty, ty + 1, 255, &[])))
}

fn event_frame(elements: &[Vec<u8>]) -> Vec<u8> {
    let mut octets = vec![10, 0, 7];
    elements.iter().for_each(|e| octets.extend(e));
    octets
}

/// Target of n % 8 = 5, threshold 15 TUs, any result.
const CONDITIONS: [u8; 15] = [0, 6, 2, 1, 1, 1, 1, 5, 2, 2, 15, 0, 3, 1, 3];

/// Target of n % 8 = 5, authentication type, EAP method 13, any result.
const RSNA_CONDITIONS: [u8; 20] = [0, 6, 2, 1, 1, 1, 1, 5, 1, 4, 0, 15, 172, 1, 2, 1, 13, 3, 1, 3];

/// More than three within a minute.
const FREQUENT: [u8; 5] = [4, 3, 3, 1, 0];

/// What fills the log.
enum Log {
    Transitions,
    RsnaEvents,
    /// The three kinds in turn.
    Mixed,
}

enum Call {
    Tick,
    LogTransition,
    LogRsna,
    LogPeerLink,
    Frame(Vec<u8>),
    Report(u8),
    Roam,
    ChangeNetwork,
    Read,
    /// Conversions of ages to TUs.
    Convert(Vec<u32>),
}

struct Case {
    name: &'static str,
    /// The form that the consoles are listed with.
    form: u8,
    log: Log,
    /// Frames taken in preparation.
    taken: Vec<Vec<u8>>,
    call: Call,
}

fn cases() -> Vec<Case> {
    let case = |name, log, taken, call| Case { name, form: 0, log, taken, call };
    let published = |case| Case { form: 1, ..case };
    let all = || event_frame(&[element(5, 255, &[])]);
    let chosen = || event_frame(&[element(5, 8, &CONDITIONS)]);
    let all_rsna = || event_frame(&[element_of(1, 5, 255, &[])]);
    let chosen_rsna = || event_frame(&[element_of(1, 5, 8, &RSNA_CONDITIONS)]);
    let eight = event_frame(&(1..=8).map(|token| element(token, 4, &CONDITIONS)).collect::<Vec<_>>());
    let below = (0..64).map(|n| n * 1_048).collect();
    let above = (0..64).map(|n| 67_109 + n * 67_000_000).collect();
    let diagnostics = || vec![10, 2, 9, 80, 4, 1, 1, 200, 0, 80, 4, 2, 7, 200, 0];
    vec![
        case("tick, nothing outstanding", Log::Transitions, vec![], Call::Tick),
        case("tick, two diagnostics", Log::Transitions, vec![diagnostics()], Call::Tick),
        case("log, full log", Log::Transitions, vec![all()], Call::LogTransition),
        case("log an RSNA event, full log", Log::Mixed, vec![all_rsna()], Call::LogRsna),
        case("log a peer link, full log", Log::Mixed, vec![all_rsna()], Call::LogPeerLink),
        case("frame, 1 element", Log::Transitions, vec![], Call::Frame(chosen())),
        case("frame, 8 elements", Log::Transitions, vec![], Call::Frame(eight)),
        case("report, 8 of 64 events by conditions", Log::Transitions, vec![chosen()], Call::Report(0)),
        case("report, 64 events", Log::Transitions, vec![all()], Call::Report(0)),
        // A frame has room for 46 of these; the other 18 are left for the next call.
        published(case("report, 64 events, published form", Log::Transitions, vec![all()], Call::Report(0))),
        case(
            "report, 61 of 64 events by frequency",
            Log::Transitions,
            vec![event_frame(&[element(5, 255, &FREQUENT)])],
            Call::Report(0),
        ),
        case("report, 8 of 64 RSNA by conditions", Log::RsnaEvents, vec![chosen_rsna()], Call::Report(0)),
        case("report, 64 RSNA events", Log::RsnaEvents, vec![all_rsna()], Call::Report(0)),
        case("report, mixed log of 64", Log::Mixed, vec![every_kind()], Call::Report(0)),
        case("report, two diagnostics", Log::Transitions, vec![diagnostics()], Call::Report(1)),
        case("report, nothing", Log::Transitions, vec![], Call::Report(0)),
        case("move", Log::Transitions, vec![all()], Call::Roam),
        case("network change", Log::Transitions, vec![all()], Call::ChangeNetwork),
        case("read a report of 64 events", Log::Transitions, vec![all()], Call::Read),
        case("read a report of a mixed log of 64", Log::Mixed, vec![every_kind()], Call::Read),
        // The frame of 46 transitions.
        published(case("read a report, published form", Log::Transitions, vec![all()], Call::Read)),
        case("convert 64 ages below the cap", Log::Transitions, vec![], Call::Convert(below)),
        case("convert 64 ages above the cap", Log::Transitions, vec![], Call::Convert(above)),
    ]
}

/// A prepared station and, for a reading, the frame that it reads.
fn prepare<S: Side>(case: &Case, list: &[S::Listed]) -> (S, Vec<u8>) {
    let mut station = S::set_up(list);
    for n in 1..=64 {
        let answer = match (&case.log, n % 3) {
            (Log::Transitions, _) | (Log::Mixed, 0) => station.log_transition(n * 1000, &transition(n)),
            (Log::RsnaEvents, _) | (Log::Mixed, 1) => station.log_rsna(n * 1000, &rsna(n), rsn(n)),
            (Log::Mixed, _) => station.log_peer_link(n * 1000, &peer_link(n)),
        };
        assert_eq!(answer.code, 0);
    }
    for frame in &case.taken {
        assert_eq!(station.frame(65_000, frame).code, 0);
    }
    let mut frame = vec![0; 2304];
    if let Call::Read = case.call {
        let answer = station.report(66_000, 0, &mut frame);
        frame.truncate(answer.length);
    }
    (station, frame)
}

/// What the calls of a batch gave.
#[derive(PartialEq, Debug)]
struct Given {
    answers: [Answer; STATIONS],
    reads: [(usize, u64); STATIONS],
    buffers: Vec<Vec<u8>>,
}

struct Runner<S: Side> {
    list: [S::Listed; 4],
    station: S,
    frame: Vec<u8>,
    places: Vec<S>,
    first: usize,
    given: Given,
}

impl<S: Side> Runner<S> {
    fn new(case: &Case) -> Runner<S> {
        let list = CONSOLES.map(|address| S::listed(address, case.form));
        let (station, frame) = prepare::<S>(case, &list);
        let none = Answer { code: 9, cause: 0, place: 0, length: 0 };
        let given = Given { answers: [none; STATIONS], reads: [(0, 0); STATIONS], buffers: vec![vec![0xAA; 2304]; STATIONS] };
        Runner { list, station, frame, places: vec![station; PLACES], first: 0, given }
    }

    fn stations(&mut self) -> &mut [S] {
        &mut self.places[self.first..self.first + STATIONS]
    }

    fn reset(&mut self) {
        self.first = (self.first + STATIONS) % PLACES;
        let station = black_box(self.station);
        self.stations().fill(station);
    }

    fn calls(&mut self, case: &Case) {
        let given = &mut self.given;
        let stations = &mut self.places[self.first..self.first + STATIONS];
        for (i, station) in stations.iter_mut().enumerate() {
            match &case.call {
                Call::Tick => given.answers[i] = station.tick(black_box(70_000)),
                Call::LogTransition => given.answers[i] = station.log_transition(black_box(70_000), &transition(70)),
                Call::LogRsna => given.answers[i] = station.log_rsna(black_box(70_000), &rsna(69), rsn(69)),
                Call::LogPeerLink => given.answers[i] = station.log_peer_link(black_box(70_000), &peer_link(70)),
                Call::Frame(octets) => given.answers[i] = station.frame(black_box(70_000), octets),
                Call::Report(kind) => given.answers[i] = station.report(black_box(70_000), *kind, &mut given.buffers[i]),
                Call::Roam => given.answers[i] = station.roam(black_box(70_000), black_box(&self.list)),
                Call::ChangeNetwork => given.answers[i] = station.change_network(black_box(70_000), black_box(&self.list)),
                Call::Read | Call::Convert(_) => given.reads[i] = read::<S>(case, &self.frame),
            }
        }
    }

    /// Nanoseconds a call.
    fn batch(&mut self, case: &Case) -> f64 {
        self.reset();
        let start = Instant::now();
        self.calls(case);
        start.elapsed().as_nanos() as f64 / STATIONS as f64
    }
}

/// The answers to every call that follows agree too: what the two stations are after the calls.
fn probe<S: Side>(station: &mut S) -> Vec<(Answer, Vec<u8>)> {
    let mut given = vec![];
    let mut buffer = vec![0x55; 2304];
    for kind in [0, 1, 0] {
        let answer = station.report(71_000, kind, &mut buffer);
        given.push((answer, buffer.clone()));
    }
    station.frame(71_001, &every_kind());
    for _ in 0..2 {
        let answer = station.report(71_002, 0, &mut buffer);
        given.push((answer, buffer.clone()));
    }
    given
}

/// What a call without a station gives: of a frame its reading, of ages their count and the sum of their TUs.
#[inline(never)]
fn read<S: Side>(case: &Case, frame: &[u8]) -> (usize, u64) {
    match &case.call {
        Call::Convert(ages) => (ages.len(), black_box(ages).iter().map(|&age| S::time_units(age) as u64).sum()),
        _ => S::read(case.form, black_box(frame)),
    }
}

fn median(times: &mut [f64]) -> f64 {
    times.sort_by(f64::total_cmp);
    times[times.len() / 2]
}

fn measure(case: &Case) -> (f64, f64, f64) {
    let mut proved = Runner::<firmware::Station>::new(case);
    let mut twin = Runner::<twin::Station>::new(case);
    let (mut ours, mut theirs, mut ratios) = (vec![], vec![], vec![]);
    for batch in 0..BATCHES {
        let (a, b) = if batch % 2 == 0 {
            let a = proved.batch(case);
            (a, twin.batch(case))
        } else {
            let b = twin.batch(case);
            (proved.batch(case), b)
        };
        assert_eq!(proved.given, twin.given, "{}", case.name);
        ours.push(a);
        theirs.push(b);
        ratios.push(a / b);
    }
    assert_eq!(probe(&mut proved.stations()[0]), probe(&mut twin.stations()[0]), "{}", case.name);
    (median(&mut ours), median(&mut theirs), median(&mut ratios))
}

fn count<S: Side>(case: &Case, calls: usize, call: bool) {
    let mut runner = Runner::<S>::new(case);
    for _ in 0..calls / STATIONS {
        runner.reset();
        if call {
            runner.calls(case);
        }
        black_box(&runner.given);
    }
}

fn main() {
    let words: Vec<String> = std::env::args().skip(1).collect();
    let cases = cases();
    match words.iter().map(String::as_str).collect::<Vec<_>>()[..] {
        [] => {
            println!("{:38} {:>10} {:>10} {:>7}", "call", "proved ns", "twin ns", "ratio");
            for case in &cases {
                let (ours, theirs, ratio) = measure(case);
                println!("{:38} {ours:10.0} {theirs:10.0} {ratio:7.2}", case.name);
            }
            println!(
                "station: proved {} octets, twin {} octets",
                size_of::<firmware::Station>(),
                size_of::<twin::Station>()
            );
        }
        ["cases"] => cases.iter().for_each(|case| println!("{}", case.name)),
        ["count", name, side, calls] => {
            let case = cases.iter().find(|case| case.name == name).expect("no such case");
            let calls = calls.parse().expect("calls: a number");
            match side {
                "proved" => count::<firmware::Station>(case, calls, true),
                "proved-none" => count::<firmware::Station>(case, calls, false),
                "twin" => count::<twin::Station>(case, calls, true),
                "twin-none" => count::<twin::Station>(case, calls, false),
                _ => panic!("no such side"),
            }
        }
        _ => panic!("usage: bench, bench cases, bench count CASE SIDE CALLS"),
    }
}
