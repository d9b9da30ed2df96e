//! Made-up report frames.

use crate::damage::{damage, noise, part};
use crate::form::Form;
use crate::make_events::{event_body, event_time, time};
use crate::make_identity::bad_form;
use crate::octets::{Address, Kind};
use crate::random::Random;

/// A report frame, valid, damaged, or noise; its destination; and the form that the reader is told: mostly its own,
/// at times the other one, or none.
pub struct MadeReport {
    pub told: u8,
    pub destination: Address,
    pub octets: Vec<u8>,
}

/// One of these.
pub fn report_frame(random: &mut Random) -> MadeReport {
    let form = random.pick(&[Form::Draft, Form::Published]);
    let told = match random.between(0, 19) {
        0 => bad_form(random),
        1..=3 => form.other().number(),
        _ => form.number(),
    };
    let kind = random.pick(&[Kind::Event, Kind::Event, Kind::Diagnostic]);
    let dialog = random.pick(&[0, 1, 7, 255]);
    let octets = match random.between(0, 9) {
        0 => noise(random, [10, kind.report_action(), dialog]),
        1..=4 => {
            let frame = valid_report(random, form, kind, dialog);
            damage(random, &frame)
        }
        _ => valid_report(random, form, kind, dialog),
    };
    let destination = if random.percent(3) { [1, 0, 0, 0, 0, 9] } else { [2, 0, 0, 0, 0, 9] };
    MadeReport { told, destination, octets }
}

/// A frame that is seldom refused in its own form.
fn valid_report(random: &mut Random, form: Form, kind: Kind, dialog: u8) -> Vec<u8> {
    let mut frame = vec![10, kind.report_action(), dialog];
    let number =
        if random.percent(3) { random.between(9, 70) } else { random.pick(&[0, 1, 1, 1, 2, 2, 3, 8]) };
    for _ in 0..number {
        if random.percent(8) {
            let length = random.between(0, 8);
            let body = random.octets(length);
            let other_report = 160 - kind.report_id();
            frame.extend(part(random.pick(&[0, 78, 80, other_report, 221]), &body));
        }
        let element = match kind {
            Kind::Event => event_element(random, form),
            Kind::Diagnostic => diagnostic_element(random),
        };
        frame.extend(element);
    }
    frame
}

/// An element of an Event Report frame.
fn event_element(random: &mut Random, form: Form) -> Vec<u8> {
    let token = random.pick(&[0, 1, 5, 255]);
    let mut body = match random.between(0, 9) {
        0 => vec![token, random.pick(&[0, 1, 2, 255]), random.between(1, 4) as u8],
        1 => vec![token, random.pick(&[0, 1, 2]), 0],
        2 => {
            let mut body = vec![token, random.pick(&[3, 4, 221, 255]), 0];
            let length = random.pick(&[0, 1, 5, 29, 30, 31, 252]);
            body.extend(random.octets(length));
            body
        }
        _ => {
            let ty = random.pick(&[0, 0, 1, 1, 2]);
            let mut body = vec![token, ty, 0];
            body.extend(event_time(random, form, 4).octets());
            body.extend(event_body(random, ty).octets());
            body
        }
    };
    if random.percent(2) {
        body[2] = random.pick(&[1, 4, 5, 255]);
    }
    if random.percent(5) {
        wrong_event(random, form, &mut body);
    }
    part(79, &body)
}

/// Where the EAP method of an RSNA event starts in a body: token, type and status 3, the time 9 or 23, target 6,
/// authentication type 4.
pub fn method_place(form: Form) -> usize {
    match form {
        Form::Draft => 22,
        Form::Published => 36,
    }
}

/// Lengths of bodies in both forms, and some near them.
const LENGTHS: [usize; 22] =
    [3, 4, 11, 12, 22, 23, 24, 25, 26, 31, 33, 36, 37, 38, 39, 45, 46, 47, 53, 60, 67, 68];

/// An event body that is too long or too short, of another event's length, or with an EAP method of another
/// length than its first octet says; at times with a wrong time beside it, so that the order of causes shows.
fn wrong_event(random: &mut Random, form: Form, body: &mut Vec<u8>) {
    let method = method_place(form);
    if body.len() > 12 && random.percent(30) {
        body[3..12].copy_from_slice(&time(random, 100));
    }
    match random.between(0, 5) {
        0 => body.push(random.octet()),
        1 => drop(body.pop()),
        2 => body.resize(random.pick(&LENGTHS), 0),
        3 => body[1] = random.pick(&[0, 1, 2, 3]),
        _ if body.len() > method => body[method] = random.pick(&[13, 253, 254, 254, 255]),
        _ => body.push(0),
    }
}

/// An element of a Diagnostic Report frame.
fn diagnostic_element(random: &mut Random) -> Vec<u8> {
    let mut body = vec![random.pick(&[0, 1, 5, 255]), random.pick(&[0, 1, 1, 2, 255])];
    body.push(random.pick(&[0, 0, 0, 1, 2, 3, 4, 4, 5]));
    for _ in 0..random.pick(&[0, 1, 2, 5]) {
        let length = random.pick(&[0, 1, 3, 8]);
        let inner = random.octets(length);
        body.extend(part(random.octet(), &inner));
    }
    if random.percent(3) {
        body.push(random.octet());
    }
    part(81, &body)
}
