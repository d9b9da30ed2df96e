//! Made-up questions to `explain`.

use crate::condition::own_subelements;
use crate::damage::{damage, part};
use crate::event_body::EventBody;
use crate::event_request::Event;
use crate::explain::{matches, Question};
use crate::make_requests::{condition_body, wrong_element};
use crate::octets::Kind;
use crate::random::Random;
use crate::request::read_event_element;
use crate::trace::LONGEST_FIELD;
use std::iter::repeat_with;

/// A question about this log; `faulty` times in a hundred its element is damaged or wrong.
pub fn question(random: &mut Random, log: &[Event], faulty: usize) -> Question {
    let length = log.len();
    let position = match random.between(0, 19) {
        0 => length,
        1 => random.pick(&[length + 1, 63, 64, 255, 256, 65_535]),
        2 => 0,
        _ => random.between(0, length.max(1) - 1),
    };
    let count = match random.between(0, 11) {
        0..=3 => length,
        4 => random.pick(&[length + 1, 64, 65, 256, 65_535]),
        5 => random.pick(&[0, 0, 1]),
        6 => position,
        7 => position.saturating_add(1),
        _ => random.between(0, length),
    };
    let (count, position) = (count.min(65_535) as u16, position as u16);
    let mut element = asked_element(random, log, count, position);
    if random.percent(faulty) {
        element = faulty_element(random, &element);
    }
    Question { element, count, position }
}

/// An element that is mostly of the event's own type, with conditions in any order that it often meets, and a
/// limit around the number of newer ones that match.
fn asked_element(random: &mut Random, log: &[Event], count: u16, position: u16) -> Vec<u8> {
    let event = log.get(usize::from(position));
    let any = random.pick(&[0, 1, 2, 0, 1, 2, 3, 255]);
    let ty = event.filter(|_| random.percent(85)).map_or(any, |event| event.body.ty());
    let ids: Vec<u8> = (0..own_subelements(ty)).collect();
    let most = random.pick(&[0, 0, 1, 1, 2, 2, 2, 3, 5]);
    let mut inner = Vec::new();
    for id in shuffled(random, ids).into_iter().take(most) {
        if random.percent(10) {
            let (passed_over, length) = (random.pick(&[5, 6, 221, 255]), random.between(0, 4));
            inner.extend(part(passed_over, &random.octets(length)));
        }
        let met = event.filter(|_| random.percent(60)).and_then(|event| met_body(random, event, ty, id));
        inner.extend(part(id, &met.unwrap_or_else(|| condition_body(random, ty, id))));
    }
    if own_subelements(ty) == 0 && random.percent(50) {
        inner = random.octets(3);
    }
    let token = random.between(1, 255) as u8;
    let with_limit = |limit: u8| part(78, &[&[token, ty, limit][..], &inner].concat());
    let newer = newer_matching(log, &with_limit(0), count, position);
    let around = [newer.saturating_sub(1), newer, newer, newer + 1, newer + 1, newer + 2, 0, 255];
    with_limit(random.pick(&around).min(255) as u8)
}

/// How many of those before acceptance and newer than this position match.
fn newer_matching(log: &[Event], element: &[u8], count: u16, position: u16) -> usize {
    let Ok(element) = read_event_element(element) else { return 0 };
    let newer = usize::from(position) + 1..log.len().min(usize::from(count));
    newer.filter(|place| matches(&element, log, *place)).count()
}

/// The IDs in any order.
fn shuffled(random: &mut Random, mut ids: Vec<u8>) -> Vec<u8> {
    for at in 1..ids.len() {
        ids.swap(at, random.between(0, at));
    }
    ids
}

/// The body of a condition that the event meets; none where it has another type.
fn met_body(random: &mut Random, event: &Event, ty: u8, id: u8) -> Option<Vec<u8>> {
    match &event.body {
        EventBody::Transition(transition) if ty == 0 => Some(match id {
            0 => transition.target.to_vec(),
            1 => transition.source.to_vec(),
            2 => transition.time.to_le_bytes().to_vec(),
            3 => vec![random.pick(&[3, if transition.result == 0 { 1 } else { 2 }])],
            _ => vec![0, random.octet(), 0],
        }),
        EventBody::Rsna(rsna) if ty == 1 => Some(match id {
            0 => rsna.target.to_vec(),
            1 => rsna.authentication.to_vec(),
            2 => rsna.eap.octets().to_vec(),
            _ => vec![random.pick(&[3, if rsna.result == 0 { 1 } else { 2 }])],
        }),
        EventBody::PeerLink(link) if ty == 2 => Some(match id {
            0 => link.peer.to_vec(),
            _ => vec![link.class, random.pick(&[0, link.channel])],
        }),
        _ => None,
    }
}

/// An element with a fault: none at all, another ID, cut, with octets behind, too short, token 0, a subelement
/// past the end, of wrong length or repeated, or any damage; at times two of these.
fn faulty_element(random: &mut Random, element: &[u8]) -> Vec<u8> {
    let mut octets = element.to_vec();
    for _ in 0..random.pick(&[1, 1, 2]) {
        octets = match random.between(0, 10) {
            0 => Vec::new(),
            1 => with_octet(octets, 0, random.pick(&[0, 77, 79, 80, 255])),
            2 => octets[..random.between(0, octets.len().max(1) - 1)].to_vec(),
            3 => {
                let number = random.pick(&[1, 2, 5, 300, 4000]);
                octets.into_iter().chain(repeat_with(|| random.octet()).take(number)).collect()
            }
            4 => [element, element].concat(),
            5 => {
                let length = random.between(0, 2);
                part(random.pick(&[78, 78, 79]), octets.get(2..2 + length).unwrap_or(&[]))
            }
            6 => with_octet(octets, 2, 0),
            7 | 8 => extended(random, &octets),
            9 => wrong_element(random, Kind::Event, 0),
            _ => damage(random, &octets),
        };
    }
    octets.truncate(LONGEST_FIELD);
    octets
}

/// The same with one octet replaced, if it is there.
fn with_octet(mut octets: Vec<u8>, at: usize, value: u8) -> Vec<u8> {
    octets.iter_mut().skip(at).take(1).for_each(|octet| *octet = value);
    octets
}

/// The element with one more subelement: one that stands already, of a wrong length, or past the end.
fn extended(random: &mut Random, element: &[u8]) -> Vec<u8> {
    let [78, _, body @ ..] = element else { return element.to_vec() };
    let Some(ty) = body.get(1).copied().filter(|_| body.len() < 200) else { return element.to_vec() };
    let id = random.pick(&[0, 1, 1, 2, 3, 4, 5]);
    let more = match random.between(0, 3) {
        0 => vec![id],
        1 => part(id, &random.octets(5)),
        2 => [vec![id, 40], random.octets(3)].concat(),
        _ => {
            let twice = part(id, &condition_body(random, ty, id));
            [twice.clone(), twice].concat()
        }
    };
    part(78, &[body, &more].concat())
}
