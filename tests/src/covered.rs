//! What a trace had of requests (a), (c), (d), (f) and (g) of document 02, counted beside the second gate's run of
//! it: a case that no trace had could not have failed.

use crate::clock::{age, TURN};
use crate::condition::{is_near, transitions, Condition};
use crate::event_body::{is_reported, EventBody};
use crate::event_request::Event;
use crate::explained::{self, shown, Shown};
use crate::form::{Console, EventTime, Form};
use crate::make_reports::method_place;
use crate::octets::{is_group, part_at, Address, Kind, HEADER};
use crate::order::Due;
use crate::report::{read_report, ReportElement, ReportFrame, Rest};
use crate::request::{count_subelements, read_request, RequestElement, Wanted};
use crate::rsna::{rsn_is_good, EapMethod, RsnaLogging};
use crate::setup::{addresses_are_good, list_is_good};
use crate::station::Station;
use crate::trace::Record;
use crate::transition::time_is_good;
use std::collections::BTreeMap;

/// The event types 0, 1 and 2.
pub const KINDS: [&str; 3] = ["transition", "RSNA event", "peer link"];
/// The forms 0 and 1.
pub const FORMS: [&str; 2] = ["draft", "published"];

/// What every kind must have had: logged, asked for, reported, in order, written, read.
const OF_EVERY_KIND: [&str; 30] = [
    "logged",
    "logging refused by 14",
    "dropped for one of its kind",
    "dropped for one of another kind",
    "asked for",
    "asked for with a subelement passed over",
    "subelement past the end (7)",
    "subelement of wrong length (7)",
    "subelement repeated (8)",
    "reported, draft",
    "reported, published",
    "none to report",
    "behind a newer one",
    "behind a newer one with its stamp",
    "continued by another call",
    "continued, the oldest dropped meanwhile",
    "a newer one logged after acceptance",
    "the last of the limit, an older one left",
    "no older than the last of an element before",
    "request written",
    "read, draft",
    "read, published",
    "read, published, its front a wrong time",
    "draft, told published (17)",
    "published, told draft (17)",
    "read without event",
    "read with status 1 to 4",
    "wrong body (17)",
    "wrong body and wrong time (17)",
    "wrong time when read (14)",
];

/// The conditions, an EAP method by its length, channel 0 and the results that match values are about apart.
const CONDITIONS: [&str; 15] = [
    "target",
    "source",
    "threshold",
    "match value, result 0",
    "match value, other result",
    "frequent",
    "RSNA target",
    "authentication type",
    "EAP method of 1 octet",
    "EAP method of 8 octets",
    "RSNA match value, result 0",
    "RSNA match value, other result",
    "peer address",
    "channel",
    "channel 0",
];

/// What every condition must have done to an event at a report call.
const OF_EVERY_CONDITION: [&str; 2] = ["let through", "held back by it alone"];

/// What is not said of every kind or condition.
const OTHERS: [(&str, &[&str]); 13] = [
    ("console list", &LISTS),
    ("reader", &READERS),
    ("frequent", &FREQUENT),
    ("call", &CALLS),
    (
        "RSN element",
        &["absent", "of 22 octets", "of another length (17)", "of another length, wrong time (14)"],
    ),
    ("EAP method logged", &["of 8 octets", "of 1 octet, garbage behind it"]),
    ("EAP method asked for", &["254 with 1 octet (7)", "another with 8 octets (7)", "of 0, 2 to 7 or 9 (7)"]),
    ("EAP method written", &["of 8 octets", "of 1 octet, garbage behind it"]),
    ("RSNA event reported", &RSNA_BODIES),
    ("RSNA event read", &RSNA_BODIES),
    (
        "RSNA event refused",
        &[
            "254 in 24 or 46 (17)",
            "another in 31 or 53 (17)",
            "254 in 38 or 60 (17)",
            "another in 45 or 67 (17)",
        ],
    ),
    (
        "type 3 and up",
        &["body that is no subelement list", "answered Incapable", "written with none", "kept unread"],
    ),
    ("log, frame, trace", &WHOLES),
];

/// The body lengths of an RSNA event: of the draft form, and of the published one.
const RSNA_BODIES: [&str; 8] = ["24", "31", "46", "53", "38", "45", "60", "67"];

/// Console lists and their forms.
const LISTS: [&str; 9] = [
    "of both forms, setup",
    "of both forms, move",
    "of both forms, network change",
    "a form alone is wrong, setup (15)",
    "a form alone is wrong, move (15)",
    "a form alone is wrong, network change (15)",
    "repeated with another form (15)",
    "a form changed, move",
    "a form changed, network change",
];

/// What the report reader was told.
const READERS: [&str; 5] = [
    "told draft, no event",
    "told published, no event",
    "told no form (15)",
    "told no form, group destination (15)",
    "told no form, frame under 3 octets (15)",
];

/// What a frequent condition counts: transitions alone, and by elapsed time.
const FREQUENT: [&str; 5] = [
    "other kinds counted too would change it",
    "ages modulo a turn would change it",
    "pair a turn apart",
    "pair 65,535 minutes apart, that interval",
    "pair 65,535 minutes and 1 ms apart, that interval",
];

/// What a call's reading is beside the one of the call before it, and the time of calls that keep it.
const CALLS: [&str; 11] = [
    "first, at a reading other than 0",
    "at the same reading",
    "half a turn or more later",
    "back by one, a turn less one later",
    "refused, half a turn or more later",
    "refused, a turn less one later",
    "in the fourth turn since setup",
    "move with a log, after a turn",
    "network change, after a turn",
    "on a gate with no console, after a turn",
    "transition of more than half a turn",
];

/// Logs, frames and traces as a whole.
const WHOLES: [&str; 9] = [
    "full log of three kinds at a report call",
    "frame with events of three kinds",
    "frame of 2,304 octets",
    "bare header, the rest dropped",
    "trace refused at 07",
    "trace refused at 08",
    "trace refused at 10 with conditions of type 1",
    "trace refused at 10 with conditions of type 2",
    "trace refused at 12",
];

/// What a count is about, and what was seen of it.
type Case = (&'static str, &'static str);

/// All cases, in the order in which they are printed.
fn cases() -> Vec<Case> {
    let of = |names: &[&'static str], seen: &[&'static str]| -> Vec<Case> {
        names.iter().flat_map(|name| seen.iter().map(|what| (*name, *what))).collect()
    };
    let mut all = of(&KINDS, &OF_EVERY_KIND);
    all.extend(of(&CONDITIONS, &OF_EVERY_CONDITION));
    all.extend(of(&KINDS, &explained::OF_EVERY_KIND));
    all.extend(of(&CONDITIONS, &explained::OF_EVERY_CONDITION));
    all.extend(of(&["explain"], &explained::OTHERS));
    all.extend(OTHERS.iter().flat_map(|(name, seen)| of(&[*name], seen)));
    all
}

/// How often each case was seen.
#[derive(Clone, Debug, Default)]
pub struct Covered(BTreeMap<Case, usize>);

impl Covered {
    /// Each case and its count.
    pub fn counts(&self) -> Vec<(Case, usize)> {
        let counts: Vec<_> = cases().into_iter().map(|case| (case, self.count(case))).collect();
        let listed = counts.iter().filter(|(_, number)| *number > 0).count();
        assert_eq!(listed, self.0.len(), "every case that is counted is among those that must be");
        counts
    }

    fn count(&self, case: Case) -> usize {
        self.0.get(&case).copied().unwrap_or(0)
    }

    /// The cases of another trace too.
    pub fn add(&mut self, other: &Covered) {
        for (case, number) in &other.0 {
            *self.0.entry(*case).or_default() += number;
        }
    }

    fn saw(&mut self, name: &'static str, what: &'static str) {
        *self.0.entry((name, what)).or_default() += 1;
    }

    /// The same of a kind; other types are none.
    fn saw_kind(&mut self, ty: u8, what: &'static str) {
        if let Some(name) = KINDS.get(usize::from(ty)) {
            self.saw(name, what);
        }
    }

    fn saw_whole(&mut self, what: &'static str) {
        self.saw("log, frame, trace", what);
    }

    /// What a report call will choose from: each condition by what it does to the events of its element's type.
    pub fn before(&mut self, station: &Station, record: &Record) {
        let Record::Report { console, kind: Kind::Event, buffer: 260.., .. } = record else { return };
        let Some((request, _)) = station.event_request(console) else { return };
        let log = station.log();
        if request.next(log).is_none() && !request.elements.is_empty() {
            self.saw_whole("bare header, the rest dropped");
        }
        if log.len() == 64 && (0..3).all(|ty| log.iter().any(|event| event.body.ty() == ty)) {
            self.saw_whole("full log of three kinds at a report call");
        }
        for (asked, position) in request.candidates(log) {
            let (event, up_to) = (&log[position], &log[..=position]);
            let failed: Vec<&Condition> = asked.iter().filter(|one| !one.admits(event, up_to)).collect();
            match failed[..] {
                [] => asked.iter().for_each(|one| self.saw(condition_name(one, &event.body), "let through")),
                [one] => self.saw(condition_name(one, &event.body), "held back by it alone"),
                _ => {}
            }
            for one in asked {
                if let Condition::Frequent { threshold, interval } = one {
                    let otherwise =
                        |near: usize| (near > usize::from(*threshold)) != one.admits(event, up_to);
                    self.frequent(event, up_to, *interval, otherwise);
                }
            }
        }
    }

    /// A frequent condition that is asked of an event; `otherwise` says whether another count would change it.
    fn frequent(&mut self, event: &Event, up_to: &[Event], interval: u16, otherwise: impl Fn(usize) -> bool) {
        let age_of = |other: &Event| event.stamp.since(other.stamp);
        if otherwise(up_to.iter().filter(|other| is_near(age_of(other), interval)).count()) {
            self.saw("frequent", "other kinds counted too would change it");
        }
        if otherwise(transitions(up_to).filter(|other| is_near(age_of(other) % TURN, interval)).count()) {
            self.saw("frequent", "ages modulo a turn would change it");
        }
        for age in transitions(up_to).map(age_of) {
            match (age, interval) {
                (TURN, _) => self.saw("frequent", "pair a turn apart"),
                (3_932_100_000, 65_535) => self.saw("frequent", "pair 65,535 minutes apart, that interval"),
                (3_932_100_001, 65_535) => {
                    self.saw("frequent", "pair 65,535 minutes and 1 ms apart, that interval");
                }
                _ => {}
            }
        }
    }

    /// A call's reading beside the one of the call `before` it, none where it is the first since setup, and the
    /// gate after it.
    pub fn timed(&mut self, before: Option<u32>, station: &Station, record: &Record, printed: &str) {
        let Some(reading) = record.reading() else { return };
        let refused = printed.starts_with("refused");
        match before.map(|before| age(reading, before)) {
            None if reading != 0 => self.saw("call", "first, at a reading other than 0"),
            None => {}
            Some(0) => self.saw("call", "at the same reading"),
            Some(0xFFFF_FFFF) if refused => self.saw("call", "refused, a turn less one later"),
            Some(0xFFFF_FFFF) => self.saw("call", "back by one, a turn less one later"),
            Some(0x8000_0000..) if refused => self.saw("call", "refused, half a turn or more later"),
            Some(0x8000_0000..) => self.saw("call", "half a turn or more later"),
            Some(_) => {}
        }
        if let Record::Log { logging, .. } = record {
            if !refused && age(reading, logging.departure) > 0x8000_0000 {
                self.saw("call", "transition of more than half a turn");
            }
        }
        if station.elapsed() < TURN {
            return;
        }
        if station.elapsed() >= 3 * TURN {
            self.saw("call", "in the fourth turn since setup");
        }
        if station.listed().is_empty() {
            self.saw("call", "on a gate with no console, after a turn");
        }
        match record {
            Record::Roam { .. } if !refused && !station.log().is_empty() => {
                self.saw("call", "move with a log, after a turn");
            }
            Record::Change { .. } if !refused => self.saw("call", "network change, after a turn"),
            _ => {}
        }
    }

    /// What a call was and what was printed for it. `oldest` is the type of the event that a full log drops
    /// next; `chosen` is what a report call chose.
    pub fn after(
        &mut self,
        record: &Record,
        oldest: Option<u8>,
        printed: &str,
        chosen: Option<&ReportFrame>,
    ) {
        match record {
            Record::Log { .. } => self.logging(0, oldest, printed),
            Record::LogRsna { logging, .. } => {
                self.logging(1, oldest, printed);
                self.rsna_logging(logging);
            }
            Record::LogPeerLink { .. } => self.logging(2, oldest, printed),
            Record::Frame { octets, .. } if printed == "accepted\n" => self.taken(octets),
            Record::Frame { octets, .. } => self.refused_request(octets, printed),
            Record::Write { kind: Kind::Event, wanted, .. } if printed.starts_with("length ") => {
                wanted.iter().for_each(|element| self.written(element));
            }
            Record::Read { form, destination, octets } => match Form::of(*form) {
                Some(form) => self.told(form, destination, octets),
                None => self.told_no_form(destination, octets),
            },
            _ => {}
        }
        if let Some(frame) = chosen {
            self.given(frame, printed);
        }
    }

    /// A list that a call carries, beside the consoles `before` it.
    pub fn listed(&mut self, before: &[(Address, Form)], record: &Record, printed: &str) {
        let (list, [mixed, wrong_form]) = match record {
            Record::Setup { list, .. } => {
                (list, ["of both forms, setup", "a form alone is wrong, setup (15)"])
            }
            Record::Roam { list, .. } => (list, ["of both forms, move", "a form alone is wrong, move (15)"]),
            Record::Change { list, .. } => {
                (list, ["of both forms, network change", "a form alone is wrong, network change (15)"])
            }
            _ => return,
        };
        let addresses: Vec<Address> = list.iter().map(|console| console.address).collect();
        if !list_is_good(list) && addresses_are_good(&addresses) {
            self.saw("console list", wrong_form);
        }
        let same_other =
            |one: &Console, other: &Console| one.address == other.address && one.form != other.form;
        if list.len() <= 4 && list.iter().any(|one| list.iter().any(|other| same_other(one, other))) {
            self.saw("console list", "repeated with another form (15)");
        }
        if printed != "accepted\n" {
            return;
        }
        if list.iter().any(|console| console.form != list[0].form) {
            self.saw("console list", mixed);
        }
        let changed = |console: &Console| {
            before.iter().any(|(address, form)| *address == console.address && form.number() != console.form)
        };
        match record {
            Record::Roam { .. } if list.iter().any(changed) => {
                self.saw("console list", "a form changed, move");
            }
            Record::Change { .. } if list.iter().any(changed) => {
                self.saw("console list", "a form changed, network change");
            }
            _ => {}
        }
    }

    /// The order of what was given, of all that was due.
    pub fn ordered(&mut self, due: &[Due], chosen: Option<&ReportFrame>) {
        let given = chosen.map_or(0, |frame| frame.elements.len());
        for Due { ty, shows } in due.iter().take(given) {
            shows.iter().for_each(|what| self.saw_kind(*ty, what));
        }
    }

    /// What a question shows of this log.
    pub fn explained(&mut self, log: &[Event], record: &Record) {
        let Record::Explain(question) = record else { return };
        shown(log, question, &mut |case| match case {
            Shown::Of(ty, what) => self.saw_kind(ty, what),
            Shown::Named(condition, body, what) => self.saw(condition_name(condition, body), what),
            Shown::Other(what) => self.saw("explain", what),
        });
    }

    /// A record that was refused.
    pub fn refused_record(&mut self, octets: &[u8]) {
        match *octets {
            [7, ..] => self.saw_whole("trace refused at 07"),
            [8, ..] => self.saw_whole("trace refused at 08"),
            [0x12, ..] => self.saw_whole("trace refused at 12"),
            // Length and filling octet, action 0, dialog token, one element: token, type, bound, conditions.
            [0x10, _, _, _, 0, _, 1, _, 1, _, 0, 1..=255, ..] => {
                self.saw_whole("trace refused at 10 with conditions of type 1");
            }
            [0x10, _, _, _, 0, _, 1, _, 2, _, 0, 1..=255, ..] => {
                self.saw_whole("trace refused at 10 with conditions of type 2");
            }
            _ => {}
        }
    }

    fn logging(&mut self, ty: u8, oldest: Option<u8>, printed: &str) {
        if printed == "refused 14 at 0\n" {
            self.saw_kind(ty, "logging refused by 14");
        }
        if printed != "accepted\n" {
            return;
        }
        self.saw_kind(ty, "logged");
        match oldest {
            Some(dropped) if dropped == ty => self.saw_kind(dropped, "dropped for one of its kind"),
            Some(dropped) => self.saw_kind(dropped, "dropped for one of another kind"),
            None => {}
        }
    }

    fn rsna_logging(&mut self, logging: &RsnaLogging) {
        match (rsn_is_good(&logging.rsn), time_is_good(&logging.time)) {
            (false, true) => self.saw("RSN element", "of another length (17)"),
            (false, false) => self.saw("RSN element", "of another length, wrong time (14)"),
            (true, false) => {}
            (true, true) => {
                let absent = logging.rsn.is_empty();
                self.saw("RSN element", if absent { "absent" } else { "of 22 octets" });
                self.eap_handed_in("EAP method logged", &logging.eap);
            }
        }
    }

    /// An EAP method in eight octets.
    fn eap_handed_in(&mut self, name: &'static str, eight: &[u8]) {
        if eight[0] == EapMethod::EXPANDED {
            self.saw(name, "of 8 octets");
        } else if eight[1..] != [0; 7] {
            self.saw(name, "of 1 octet, garbage behind it");
        }
    }

    /// An accepted request frame.
    fn taken(&mut self, octets: &[u8]) {
        let frame = read_request(octets).expect("the frame was accepted");
        if frame.kind == Kind::Diagnostic {
            return;
        }
        for RequestElement { ty, conditions, subelements, .. } in frame.elements {
            self.saw_kind(ty, "asked for");
            if subelements > conditions.len() {
                self.saw_kind(ty, "asked for with a subelement passed over");
            }
        }
        let mut at = HEADER;
        while let Some(element) = part_at(octets, at) {
            let own = element.id == frame.kind.request_id();
            if own && !is_reported(element.body[1]) && count_subelements(element.body, 3).is_err() {
                self.saw("type 3 and up", "body that is no subelement list");
            }
            at = element.next;
        }
    }

    /// A refused request frame: 7 and 8 by the type of their element.
    fn refused_request(&mut self, octets: &[u8], printed: &str) {
        let Some((number @ (7 | 8), place)) = refusal_printed(printed) else { return };
        let mut at = HEADER;
        let mut element = part_at(octets, at);
        while let Some(before) = element.as_ref().filter(|part| part.next <= place) {
            at = before.next;
            element = part_at(octets, at);
        }
        let Some(element) = element.filter(|part| part.id == Kind::Event.request_id()) else { return };
        let ty = element.body[1];
        match (number, part_at(&octets[..element.next], place)) {
            (7, None) => self.saw_kind(ty, "subelement past the end (7)"),
            (7, Some(subelement)) => {
                self.saw_kind(ty, "subelement of wrong length (7)");
                if (ty, subelement.id) == (1, 2) {
                    self.wrong_eap(subelement.body);
                }
            }
            _ => self.saw_kind(ty, "subelement repeated (8)"),
        }
    }

    /// An EAP method that is not as long as its first octet says.
    fn wrong_eap(&mut self, body: &[u8]) {
        let what = match body.len() {
            1 => "254 with 1 octet (7)",
            8 => "another with 8 octets (7)",
            _ => "of 0, 2 to 7 or 9 (7)",
        };
        self.saw("EAP method asked for", what);
    }

    /// An element that the request writer wrote with conditions at hand.
    fn written(&mut self, element: &Wanted) {
        if element.conditions.is_empty() {
            return;
        }
        if !is_reported(element.ty) {
            return self.saw("type 3 and up", "written with none");
        }
        self.saw_kind(element.ty, "request written");
        for (_, eight) in element.conditions.iter().filter(|(id, _)| (element.ty, *id) == (1, 2)) {
            self.eap_handed_in("EAP method written", eight);
        }
    }

    /// A frame that a report call gave.
    fn given(&mut self, frame: &ReportFrame, printed: &str) {
        if printed.starts_with("length 2304\n") {
            self.saw_whole("frame of 2,304 octets");
        }
        let has =
            |ty| frame.elements.iter().any(|one| matches!(&one.rest, Rest::Event(_, b) if b.ty() == ty));
        if (0..3).all(has) {
            self.saw_whole("frame with events of three kinds");
        }
        for ReportElement { ty, status, rest, .. } in &frame.elements {
            match (rest, status) {
                (Rest::Event(time, body), _) => {
                    self.saw_kind(*ty, in_form(time.form(), "reported, draft", "reported, published"));
                    self.rsna_length("RSNA event reported", time, body);
                }
                (Rest::Nothing, 0) => self.saw_kind(*ty, "none to report"),
                (Rest::Nothing, _) => self.saw("type 3 and up", "answered Incapable"),
                _ => {}
            }
        }
    }

    /// The body length of an RSNA event: token, type and status, its time, and its own.
    fn rsna_length(&mut self, name: &'static str, time: &EventTime, body: &EventBody) {
        if let EventBody::Rsna(_) = body {
            let length = (3 + time.octets().len() + body.octets().len()).to_string();
            RSNA_BODIES.iter().filter(|known| **known == length).for_each(|known| self.saw(name, known));
        }
    }

    /// A report frame that the reader was given with one of the forms.
    fn told(&mut self, form: Form, destination: &Address, octets: &[u8]) {
        match read_report(form.number(), destination, octets) {
            Ok(frame) => {
                if frame.first_event().is_none() {
                    self.saw("reader", in_form(form, "told draft, no event", "told published, no event"));
                }
                frame.elements.iter().for_each(|element| self.read(element));
            }
            Err(refusal) => self.refused_report(form, octets, refusal.number, refusal.place),
        }
        let other = read_report(form.other().number(), destination, octets);
        if let Some((_, ty)) = other.ok().and_then(|frame| frame.first_event()) {
            self.saw_kind(ty, in_form(form, "published, told draft (17)", "draft, told published (17)"));
        }
    }

    /// The same with a number that is no form.
    fn told_no_form(&mut self, destination: &Address, octets: &[u8]) {
        self.saw("reader", "told no form (15)");
        if is_group(destination) {
            self.saw("reader", "told no form, group destination (15)");
        }
        if octets.len() < HEADER {
            self.saw("reader", "told no form, frame under 3 octets (15)");
        }
    }

    /// An element that the report reader read.
    fn read(&mut self, element: &ReportElement) {
        let ReportElement { ty, status, rest, .. } = element;
        match (rest, status) {
            (Rest::Event(time, body), _) => {
                self.saw_kind(*ty, in_form(time.form(), "read, draft", "read, published"));
                self.rsna_length("RSNA event read", time, body);
                let front = time.octets().first_chunk().is_some_and(time_is_good);
                if !front {
                    self.saw_kind(*ty, "read, published, its front a wrong time");
                }
            }
            (Rest::Nothing, 0) => self.saw_kind(*ty, "read without event"),
            (Rest::Nothing, _) => self.saw_kind(*ty, "read with status 1 to 4"),
            (Rest::Unread(_), _) => self.saw("type 3 and up", "kept unread"),
            (Rest::Subelements(_), _) => {}
        }
    }

    /// A report frame that was refused at an element, by a reader told this form.
    fn refused_report(&mut self, form: Form, octets: &[u8], number: u8, place: usize) {
        let element = part_at(octets, place).filter(|part| part.id == Kind::Event.report_id());
        let (14 | 17, Some(element)) = (number, element) else { return };
        let [_, ty, 0, rest @ ..] = element.body else { return };
        if number == 14 {
            return self.saw_kind(*ty, "wrong time when read (14)");
        }
        let of_the_other_form =
            EventTime::at_front(form.other(), rest).is_some_and(|(_, own)| EventBody::of(*ty, own).is_some());
        if of_the_other_form {
            return;
        }
        self.saw_kind(*ty, "wrong body (17)");
        if form == Form::Draft && rest.first_chunk().is_some_and(|time| !time_is_good(time)) {
            self.saw_kind(*ty, "wrong body and wrong time (17)");
        }
        let expanded = element.body.get(method_place(form)) == Some(&EapMethod::EXPANDED);
        match (form, ty, element.body.len(), expanded) {
            (Form::Draft, 1, 24 | 46, true) => self.saw("RSNA event refused", "254 in 24 or 46 (17)"),
            (Form::Draft, 1, 31 | 53, false) => self.saw("RSNA event refused", "another in 31 or 53 (17)"),
            (Form::Published, 1, 38 | 60, true) => self.saw("RSNA event refused", "254 in 38 or 60 (17)"),
            (Form::Published, 1, 45 | 67, false) => {
                self.saw("RSNA event refused", "another in 45 or 67 (17)")
            }
            _ => {}
        }
    }
}

/// One of two by the form.
fn in_form(form: Form, draft: &'static str, published: &'static str) -> &'static str {
    match form {
        Form::Draft => draft,
        Form::Published => published,
    }
}

/// The name of a condition, beside the event that it is asked of.
fn condition_name(condition: &Condition, body: &EventBody) -> &'static str {
    match (condition, body) {
        (Condition::Target(_), _) => "target",
        (Condition::Source(_), _) => "source",
        (Condition::Threshold(_), _) => "threshold",
        (Condition::TransitionResult(_), EventBody::Transition(event)) if event.result == 0 => {
            "match value, result 0"
        }
        (Condition::TransitionResult(_), _) => "match value, other result",
        (Condition::Frequent { .. }, _) => "frequent",
        (Condition::RsnaTarget(_), _) => "RSNA target",
        (Condition::Authentication(_), _) => "authentication type",
        (Condition::Eap(method), _) if method.octets().len() == 1 => "EAP method of 1 octet",
        (Condition::Eap(_), _) => "EAP method of 8 octets",
        (Condition::RsnaResult(_), EventBody::Rsna(event)) if event.result == 0 => {
            "RSNA match value, result 0"
        }
        (Condition::RsnaResult(_), _) => "RSNA match value, other result",
        (Condition::Peer(_), _) => "peer address",
        (Condition::Channel { channel: 0, .. }, _) => "channel 0",
        (Condition::Channel { .. }, _) => "channel",
    }
}

/// The number and the place of a printed refusal.
fn refusal_printed(printed: &str) -> Option<(u8, usize)> {
    let (number, place) = printed.strip_prefix("refused ")?.trim_end().split_once(" at ")?;
    Some((number.parse().ok()?, place.parse().ok()?))
}
