//! Made-up request frames.

use crate::condition::own_subelements;
use crate::damage::{damage, noise, part};
use crate::make_events::{channel, method, method_in_eight, suite, BSSIDS};
use crate::octets::Kind;
use crate::random::Random;

/// What a made-up request is like.
#[derive(Clone, Copy)]
pub struct Taste {
    /// Percent of frames that are damaged or noise.
    pub faulty: usize,
    /// Percent of diagnostic elements that cancel.
    pub cancels: usize,
}

/// A request frame: valid, damaged, or noise.
pub fn request_frame(random: &mut Random, kind: Kind, dialog: u8, taste: Taste) -> Vec<u8> {
    if random.percent(taste.faulty / 4) {
        return noise(random, [10, kind.request_action(), dialog]);
    }
    let mut frame = valid_request(random, kind, dialog, taste);
    if !random.percent(taste.faulty) {
        return frame;
    }
    if random.percent(60) {
        return damage(random, &frame);
    }
    for _ in 0..random.pick(&[1, 1, 2]) {
        let token = frame.get(5).map_or(0, |first| *first);
        frame.extend(wrong_element(random, kind, token));
    }
    frame
}

/// An element with one or two faults, so that the order of the causes shows: too short, a token that
/// stands already (`token`) or 0, a subelement past the end, of wrong length, or repeated.
pub fn wrong_element(random: &mut Random, kind: Kind, token: u8) -> Vec<u8> {
    let own_token = random.pick(&[token, 0, 250, 251, 252, 253, 254, 255, 255, 255]);
    let ty = random.pick(&[0, 0, 1, 1, 1, 2, 2, 3, 255]);
    let mut body = vec![own_token, ty];
    body.extend(random.octets(kind.shortest_request() - 2));
    for _ in 0..random.pick(&[0, 1, 1, 2, 3]) {
        let id = random.pick(&[0, 1, 1, 2, 2, 2, 3, 3, 4, 5]);
        let inner =
            if random.percent(40) { wrong_condition(random, ty, id) } else { condition_body(random, ty, id) };
        body.extend(part(id, &inner));
    }
    if random.percent(30) {
        body.truncate(random.between(0, body.len()));
    }
    let mut octets = part(kind.request_id(), &body);
    if random.percent(20) {
        octets[1] += 1;
    }
    octets
}

/// The body of a condition with a wrong length; an EAP method that is not as long as its first octet says.
fn wrong_condition(random: &mut Random, ty: u8, id: u8) -> Vec<u8> {
    let mut body = condition_body(random, ty, id);
    if (ty, id) == (1, 2) {
        body.resize(random.pick(&[0, 1, 1, 2, 3, 7, 8, 8, 9]), 0);
        let wrong_first = match body.len() {
            1 => 254,
            8 => random.pick(&[13, 253, 255]),
            _ => random.pick(&[13, 254]),
        };
        body.iter_mut().take(1).for_each(|first| *first = wrong_first);
    } else if random.percent(50) {
        body.push(random.octet());
    } else {
        body.pop();
    }
    body
}

/// An event request that fills a frame on a full log of three kinds: eight elements of any type, so that
/// frames end anywhere up to 2,304 octets.
fn crowded_by_kinds(random: &mut Random, dialog: u8) -> Vec<u8> {
    let mut frame = vec![10, 0, dialog];
    for token in 1..=8 {
        let ty = random.pick(&[0, 0, 1, 1, 2, 2, 5]);
        let limit = random.pick(&[1, 2, 255, 255, 255]);
        frame.extend(part(78, &[token, ty, limit]));
    }
    frame
}

/// One of these; or one that fills a frame of 2,304 octets to within one on a full log of transitions: 65
/// events (35 octets each) and five Incapable (5 each) make 2,303 with the header; an eighth element is left
/// or not.
pub fn crowded_request(random: &mut Random, dialog: u8) -> Vec<u8> {
    if random.percent(70) {
        return crowded_by_kinds(random, dialog);
    }
    let mut elements = vec![[0, 255], [0, 1], [5, 0], [5, 0], [5, 0], [5, 0], [5, 0]];
    if random.percent(50) {
        elements.push(random.pick(&[[0, 0], [0, 1], [7, 9]]));
    }
    for at in 1..elements.len() {
        elements.swap(at, random.between(0, at));
    }
    let mut frame = vec![10, 0, dialog];
    for (index, [ty, limit]) in elements.into_iter().enumerate() {
        frame.extend(part(78, &[1 + index as u8, ty, limit]));
    }
    frame
}

/// A frame that is hardly ever refused (a random token may repeat, rarely).
fn valid_request(random: &mut Random, kind: Kind, dialog: u8, taste: Taste) -> Vec<u8> {
    let number = match random.between(0, 19) {
        0 => usize::from(kind == Kind::Diagnostic),
        1..=9 => 1,
        10..=14 => 2,
        15..=17 => random.between(3, 7),
        18 => 8,
        _ => random.pick(&[8, 8, 9]),
    };
    let mut frame = vec![10, kind.request_action(), dialog];
    let mut token = random.between(1, 240) as u8;
    if kind == Kind::Diagnostic && random.percent(20) {
        token = 0;
    }
    for _ in 0..number {
        if random.percent(10) {
            let body = some_octets(random, 6);
            let other_request = 158 - kind.request_id();
            frame.extend(part(random.pick(&[0, 77, other_request, 79, 81, 221, 255]), &body));
        }
        frame.extend(match kind {
            Kind::Event => event_element(random, token),
            Kind::Diagnostic => diagnostic_element(random, token, taste),
        });
        token += 1;
    }
    if random.percent(5) {
        frame.extend(part(random.pick(&[0, 79, 81, 221]), &some_octets(random, 250)));
    }
    frame
}

/// At most `most` random octets.
fn some_octets(random: &mut Random, most: usize) -> Vec<u8> {
    let number = random.between(0, most);
    random.octets(number)
}

/// An element of an Event Request frame.
fn event_element(random: &mut Random, token: u8) -> Vec<u8> {
    let other = random.pick(&[3, 4, 221, 255]);
    let ty = random.pick(&[0, 0, 0, 0, 0, 0, 1, 1, 1, 1, 2, 2, 2, other]);
    let limit = random.pick(&[0, 1, 1, 2, 3, 5, 10, 64, 65, 255, 255]);
    let mut body = vec![token, ty, limit];
    if own_subelements(ty) > 0 {
        body.extend(condition_parts(random, ty));
    } else {
        body.extend(some_octets(random, 4));
    }
    part(78, &body)
}

/// The body of the condition with this type and ID, as it goes on the air.
pub fn condition_body(random: &mut Random, ty: u8, id: u8) -> Vec<u8> {
    match (ty, id) {
        (_, 0) => random.pick(&BSSIDS).to_vec(),
        (1, 1) => suite(random).to_vec(),
        (1, 2) => method(random).to_vec(),
        (2, 1) => channel(random).to_vec(),
        (_, 1) => random.pick(&BSSIDS).to_vec(),
        (_, 2) => random.pick(&[0u16, 1, 2, 14, 15, 16, 1000, 65_534, 65_535]).to_le_bytes().to_vec(),
        (_, 3) => vec![random.pick(&[0, 1, 1, 2, 2, 3, 3, 4, 253, 254, 255])],
        _ => {
            let interval = random.pick(&[0u16, 0, 1, 1, 2, 5, 60, 1440, 7282, 7283, 65_535]);
            let mut body = vec![random.pick(&[0, 0, 1, 1, 2, 3, 5, 62, 63, 64, 255])];
            body.extend(interval.to_le_bytes());
            body
        }
    }
}

/// The body of the condition as the request writer is handed it.
pub fn handed_condition(random: &mut Random, kind: Kind, ty: u8, id: u8) -> Vec<u8> {
    match (kind, ty, id) {
        (Kind::Event, 1, 2) => method_in_eight(random).to_vec(),
        (Kind::Event, 1 | 2, _) => condition_body(random, ty, id),
        _ => condition_body(random, 0, id),
    }
}

/// Conditions of this type in any order, with subelements that are passed over between them.
fn condition_parts(random: &mut Random, ty: u8) -> Vec<u8> {
    let own = own_subelements(ty);
    let mut ids: Vec<u8> = (0..own).filter(|_| random.percent(28)).collect();
    if random.percent(30) {
        ids.reverse();
    }
    let mut octets = Vec::new();
    for id in ids {
        if random.percent(10) {
            let body = some_octets(random, 4);
            octets.extend(part(random.pick(&[own, own, own + 1, 221, 255]), &body));
        }
        octets.extend(part(id, &condition_body(random, ty, id)));
    }
    if random.percent(8) {
        let id = random.pick(&[0, 1, 2, 3, 4, 5, 255]);
        let body = if id < own { condition_body(random, ty, id) } else { Vec::new() };
        octets.extend(part(id, &body));
    }
    octets
}

/// An element of a Diagnostic Request frame.
fn diagnostic_element(random: &mut Random, token: u8, taste: Taste) -> Vec<u8> {
    let ty = if random.percent(taste.cancels) { 0 } else { random.pick(&[1, 1, 1, 1, 2, 3, 4, 221, 255]) };
    let timeout = random.pick(&[0u16, 0, 1, 1, 2, 2, 3, 5, 60, 3600, 65_535]);
    let mut body = vec![token, ty];
    body.extend(timeout.to_le_bytes());
    if random.percent(20) {
        for _ in 0..random.between(1, 3) {
            let inner = some_octets(random, 4);
            body.extend(part(random.octet(), &inner));
        }
    }
    part(80, &body)
}
