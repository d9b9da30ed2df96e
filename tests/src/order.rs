//! What an event report call has of document 02's request (d), newest first, seen beside the second gate's choice.

use crate::event_request::{Event, EventRequest, What};
use crate::form::Form;
use crate::octets::{Address, Kind};
use crate::station::Station;
use crate::trace::Record;
use std::collections::BTreeMap;

/// A report that is due: the type of its element, and what its order shows once it is given.
pub struct Due {
    pub ty: u8,
    pub shows: Vec<&'static str>,
}

/// The oldest event logged at each requester's latest report call.
#[derive(Default)]
pub struct Order(BTreeMap<Address, Option<u64>>);

impl Order {
    /// What a report call will give, in order, and perhaps some more.
    pub fn before(&mut self, station: &Station, record: &Record) -> Vec<Due> {
        let Record::Report { console, kind: Kind::Event, buffer: buffer @ 260.., .. } = record else {
            return Vec::new();
        };
        let oldest = station.log().first().map(|event| event.serial);
        let before = self.0.insert(*console, oldest);
        let request = station.event_request(console);
        let dropped = before != Some(oldest);
        request.map_or(Vec::new(), |(request, form)| due(request, form, station.log(), dropped, *buffer))
    }
}

/// What a request has left, as long as the log stays, up to so many octets; `dropped`: the oldest event went since
/// its latest report call.
fn due(request: &EventRequest, form: Form, log: &[Event], dropped: bool, octets: usize) -> Vec<Due> {
    let mut rest = request.clone();
    let (mut due, mut written) = (Vec::new(), 0);
    while let Some(next) = rest.next(log).filter(|_| written < octets) {
        // ID, length, token, type, status, and what is behind them.
        written += 5 + rest.report(&next, form).1.len();
        let element = &rest.elements[next.index];
        let shows = match next.what {
            What::Event(event) => {
                let continued = request.elements[next.index].last_given == element.last_given;
                shows(&rest, next.index, event, log, continued, dropped)
            }
            What::Empty | What::Incapable => Vec::new(),
        };
        due.push(Due { ty: element.ty, shows });
        rest.give(&next);
    }
    due
}

/// What the order shows in an element's next event. `continued`: what it gave before was given by earlier calls.
fn shows(
    request: &EventRequest,
    index: usize,
    event: &Event,
    log: &[Event],
    continued: bool,
    dropped: bool,
) -> Vec<&'static str> {
    let element = &request.elements[index];
    let mut shows = Vec::new();
    if let Some(given) = element.last_given {
        shows.push("behind a newer one");
        if continued {
            shows.push("continued by another call");
        }
        if continued && dropped {
            shows.push("continued, the oldest dropped meanwhile");
        }
        if log.iter().any(|newer| newer.serial == given && newer.stamp == event.stamp) {
            shows.push("behind a newer one with its stamp");
        }
    } else if element.matching(log).iter().any(|other| other.serial >= request.loggings) {
        shows.push("a newer one logged after acceptance");
    }
    if element.given + 1 == element.limit
        && element.matching(log).iter().any(|older| older.serial < event.serial)
    {
        shows.push("the last of the limit, an older one left");
    }
    if request.elements[..index]
        .iter()
        .any(|before| before.last_given.is_some_and(|last| last <= event.serial))
    {
        shows.push("no older than the last of an element before");
    }
    shows
}
