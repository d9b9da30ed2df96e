//! What a question to `explain` has of document 02's request (f), seen beside the second gate's answer to it.

use crate::condition::Condition;
use crate::event_body::EventBody;
use crate::event_request::Event;
use crate::explain::{matches, Question, Reason};
use crate::octets::{part_at, Kind};
use crate::request::{read_event_element, RequestElement};
use std::ops::Range;

/// What a question must have shown of elements of every kind.
pub const OF_EVERY_KIND: [&str; 16] = [
    "explained: logged after acceptance",
    "explained: logged after acceptance, of another type",
    "explained: wrong type",
    "explained: two conditions fail, the higher ID stands first",
    "explained: limit reached",
    "explained: limit reached by so many newer ones, no older one",
    "explained: limit 0",
    "explained: reported",
    "explained: reported as the last of the limit",
    "explained: reported, as many older ones as the limit",
    "explained: reported, newer ones logged after acceptance",
    "explained: token 0 (6)",
    "explained: 6 before 7 or 8",
    "explained: subelement at fault (7)",
    "explained: subelement repeated (8)",
    "explained: no event (18)",
];

/// What every condition must have been.
pub const OF_EVERY_CONDITION: [&str; 1] = ["named as the reason"];

/// What is not said of every kind or condition.
pub const OTHERS: [&str; 17] = [
    "no element (4)",
    "another ID (4)",
    "element cut (4)",
    "octets behind (4)",
    "another ID with a body under 3 (4)",
    "body under 3 (5)",
    "element refused by 4 to 6, no event",
    "element refused by 7 or 8, no event",
    "empty log (18)",
    "position at the log's length (18)",
    "type 3 and up, logged after acceptance",
    "type 3 and up, wrong type",
    "none before acceptance",
    "count of the log's length",
    "count over the log's length",
    "full log",
    "the oldest of a full log reported",
];

/// A case: of a type, of a condition and the event that it is asked of, or of neither.
pub enum Shown<'a> {
    Of(u8, &'static str),
    Named(&'a Condition, &'a EventBody, &'static str),
    Other(&'static str),
}

/// What a question shows, put to `hand` one by one.
pub fn shown(log: &[Event], question: &Question, hand: &mut dyn FnMut(Shown)) {
    let no_event = usize::from(question.position) >= log.len();
    let element = match read_event_element(&question.element) {
        Ok(element) => element,
        Err(refusal) => return refused(&question.element, refusal.number, no_event, hand),
    };
    let ty = element.ty;
    if no_event {
        hand(Shown::Of(ty, "explained: no event (18)"));
        if log.is_empty() {
            hand(Shown::Other("empty log (18)"));
        } else if usize::from(question.position) == log.len() {
            hand(Shown::Other("position at the log's length (18)"));
        }
        return;
    }
    match usize::from(question.count) {
        0 => hand(Shown::Other("none before acceptance")),
        all if all == log.len() => hand(Shown::Other("count of the log's length")),
        over if over > log.len() => hand(Shown::Other("count over the log's length")),
        _ => {}
    }
    if log.len() == 64 {
        hand(Shown::Other("full log"));
    }
    let reason = question.answer(log).expect("neither the element nor the position is refused");
    reasoned(log, question, &element, reason, hand);
}

/// What a refused element shows.
fn refused(octets: &[u8], number: u8, no_event: bool, hand: &mut dyn FnMut(Shown)) {
    if no_event {
        hand(Shown::Other(match number {
            7 | 8 => "element refused by 7 or 8, no event",
            _ => "element refused by 4 to 6, no event",
        }));
    }
    let own = Kind::Event.request_id();
    match (number, part_at(octets, 0)) {
        (4, None) if octets.is_empty() => hand(Shown::Other("no element (4)")),
        (4, None) => hand(Shown::Other("element cut (4)")),
        (4, Some(part)) if part.id == own => hand(Shown::Other("octets behind (4)")),
        (4, Some(part)) => {
            hand(Shown::Other("another ID (4)"));
            if part.body.len() < 3 {
                hand(Shown::Other("another ID with a body under 3 (4)"));
            }
        }
        (5, _) => hand(Shown::Other("body under 3 (5)")),
        (6, _) => {
            hand(Shown::Of(octets[3], "explained: token 0 (6)"));
            let mut with_token = octets.to_vec();
            with_token[2] = 1;
            if read_event_element(&with_token).is_err() {
                hand(Shown::Of(octets[3], "explained: 6 before 7 or 8"));
            }
        }
        (7, _) => hand(Shown::Of(octets[3], "explained: subelement at fault (7)")),
        _ => hand(Shown::Of(octets[3], "explained: subelement repeated (8)")),
    }
}

/// What a reason shows.
fn reasoned(
    log: &[Event],
    question: &Question,
    element: &RequestElement,
    reason: Reason,
    hand: &mut dyn FnMut(Shown),
) {
    let (ty, position) = (element.ty, usize::from(question.position));
    let (event, accepted) = (&log[position], question.accepted_at(log));
    let number = |places: Range<usize>| places.filter(|place| matches(element, log, *place)).count();
    let limit = usize::from(element.bound);
    match reason {
        Reason::LoggedAfter => {
            hand(Shown::Of(ty, "explained: logged after acceptance"));
            if ty > 2 {
                hand(Shown::Other("type 3 and up, logged after acceptance"));
            } else if event.body.ty() != ty {
                hand(Shown::Of(ty, "explained: logged after acceptance, of another type"));
            }
        }
        Reason::WrongType if ty > 2 => hand(Shown::Other("type 3 and up, wrong type")),
        Reason::WrongType => hand(Shown::Of(ty, "explained: wrong type")),
        Reason::Condition(_) => {
            let up_to = &log[..=position];
            let failed: Vec<&Condition> =
                element.conditions.iter().filter(|asked| !asked.admits(event, up_to)).collect();
            hand(Shown::Named(failed[0], &event.body, "named as the reason"));
            if failed.iter().any(|later| later.id() < failed[0].id()) {
                hand(Shown::Of(ty, "explained: two conditions fail, the higher ID stands first"));
            }
        }
        Reason::LimitReached => {
            hand(Shown::Of(ty, "explained: limit reached"));
            if limit == 0 {
                hand(Shown::Of(ty, "explained: limit 0"));
            } else if number(position + 1..accepted) == limit && number(0..position) == 0 {
                hand(Shown::Of(ty, "explained: limit reached by so many newer ones, no older one"));
            }
        }
        Reason::Reported => {
            hand(Shown::Of(ty, "explained: reported"));
            if number(position + 1..accepted) + 1 == limit {
                hand(Shown::Of(ty, "explained: reported as the last of the limit"));
            }
            if number(0..position) >= limit {
                hand(Shown::Of(ty, "explained: reported, as many older ones as the limit"));
            }
            if number(accepted..log.len()) > 0 {
                hand(Shown::Of(ty, "explained: reported, newer ones logged after acceptance"));
            }
            if log.len() == 64 && position == 0 {
                hand(Shown::Other("the oldest of a full log reported"));
            }
        }
    }
}
