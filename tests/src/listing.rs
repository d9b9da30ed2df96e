//! The exact text of the programs `frame` and `report`.

use crate::event_body::EventBody;
use crate::form::{EventTime, Form};
use crate::octets::{address_of, u16_of, Address, Kind};
use crate::peer_link::PeerLink;
use crate::refusal::refusal;
use crate::report::{read_report, ReportElement, ReportFrame, Rest};
use crate::request::{read_request, RequestElement};
use crate::rsna::RsnaEvent;
use crate::trace::hexadecimal;
use crate::transition::{Time, Transition};

/// "It reads one request frame's raw octets from standard input. ... Line one: action, dialog token,
/// request elements. Then one line each". "A refusal prints one line".
pub fn list_request(input: &[u8]) -> String {
    match read_request(input) {
        Err(refusal) => refusal.to_string(),
        Ok(frame) => {
            let action = frame.kind.request_action();
            let first =
                format!("frame {} dialog {} elements {}\n", action, frame.dialog, frame.elements.len());
            let lines = frame.elements.iter().map(|element| request_line(frame.kind, element));
            first + &lines.collect::<String>()
        }
    }
}

/// "ID, token, type, limit (for 80 `timeout` and seconds), subelements walked, passed-over ones
/// included; 0 where the body is not read."
fn request_line(kind: Kind, element: &RequestElement) -> String {
    let bound = match kind {
        Kind::Event => "limit",
        Kind::Diagnostic => "timeout",
    };
    format!(
        "element {} token {} type {} {} {} subs {}\n",
        kind.request_id(),
        element.token,
        element.ty,
        bound,
        element.bound,
        element.subelements
    )
}

/// The program `report`: its input begins "with the form (1), then the destination", then one report frame. "Input of
/// `report` under seven octets: `refused 15 at 0` where its first octet is there and no form, otherwise `refused 1
/// at 0`."
pub fn list_report_input(input: &[u8]) -> String {
    match input {
        [form, behind @ ..] if behind.len() >= 6 => list_report(*form, &address_of(behind), &behind[6..]),
        [form, ..] if Form::of(*form).is_none() => refusal(15, 0).to_string(),
        _ => refusal(1, 0).to_string(),
    }
}

/// The listing of a report frame, or the refusal.
pub fn list_report(form: u8, destination: &Address, octets: &[u8]) -> String {
    match read_report(form, destination, octets) {
        Err(refusal) => refusal.to_string(),
        Ok(frame) => report_text(&frame),
    }
}

/// "First line `report ACTION dialog D elements N` ..., then one line each".
pub fn report_text(frame: &ReportFrame) -> String {
    let action = frame.kind.report_action();
    let first = format!("report {} dialog {} elements {}\n", action, frame.dialog, frame.elements.len());
    let lines = frame.elements.iter().map(|element| report_line(frame.kind, element));
    first + &lines.collect::<String>()
}

/// "`element ID token T type Y status S`, followed on the same line, for an event, by ` time ...`"; for
/// status 0 of an event type that is not read by "` rest N`"; "for a diagnostic by ` subs N`."
fn report_line(kind: Kind, element: &ReportElement) -> String {
    let rest = match &element.rest {
        Rest::Nothing => String::new(),
        Rest::Unread(octets) => format!(" rest {octets}"),
        Rest::Subelements(number) => format!(" subs {number}"),
        Rest::Event(time, body) => event_time_text(time) + &event_text(body),
    };
    format!(
        "element {} token {} type {} status {}{}\n",
        kind.report_id(),
        element.token,
        element.ty,
        element.status,
        rest
    )
}

/// "` time 2026-12-31 23:59:59.999`", and "for form 1, in place of the time, ` tsf HEX offset HEX error HEX` as the
/// octets stand."
fn event_time_text(time: &EventTime) -> String {
    match time {
        EventTime::Draft(time) => format!(" time {}", time_text(time)),
        EventTime::Published(published) => format!(
            " tsf {} offset {} error {}",
            hexadecimal(&published.tsf),
            hexadecimal(&published.offset),
            hexadecimal(&published.error)
        ),
    }
}

/// What stands behind an event's time.
fn event_text(body: &EventBody) -> String {
    match body {
        EventBody::Transition(transition) => transition_text(transition),
        EventBody::Rsna(rsna) => rsna_text(rsna),
        EventBody::PeerLink(link) => peer_link_text(link),
    }
}

/// "` source 02:01:01:01:01:01 target 02:01:01:01:01:02 transition N reason N result N source-rcpi N
/// source-rsni N target-rcpi N target-rsni N`".
fn transition_text(transition: &Transition) -> String {
    format!(
        " source {} target {} transition {} reason {} result {} source-rcpi {} source-rsni {} \
         target-rcpi {} target-rsni {}",
        colon_text(&transition.source),
        colon_text(&transition.target),
        transition.time,
        transition.reason,
        transition.result,
        transition.signal[0],
        transition.signal[1],
        transition.signal[2],
        transition.signal[3]
    )
}

/// "` target XX:XX:XX:XX:XX:XX authentication XX:XX:XX:XX eap N`, then for EAP 254 ` vendor XX:XX:XX
/// vendor-type XX:XX:XX:XX`, then ` result N` and, where an RSN element is there, ` rsn HEX`".
fn rsna_text(rsna: &RsnaEvent) -> String {
    let method = rsna.eap.octets();
    let vendor = match method {
        [_, vendor @ ..] if vendor.len() == 7 => {
            format!(" vendor {} vendor-type {}", colon_text(&vendor[..3]), colon_text(&vendor[3..]))
        }
        _ => String::new(),
    };
    let rsn = if rsna.rsn.is_empty() { String::new() } else { format!(" rsn {}", hexadecimal(&rsna.rsn)) };
    format!(
        " target {} authentication {} eap {}{vendor} result {}{rsn}",
        colon_text(&rsna.target),
        colon_text(&rsna.authentication),
        method[0],
        rsna.result
    )
}

/// "` peer XX:XX:XX:XX:XX:XX class N channel N power N connection N peer-status N`".
fn peer_link_text(link: &PeerLink) -> String {
    format!(
        " peer {} class {} channel {} power {} connection {} peer-status {}",
        colon_text(&link.peer),
        link.class,
        link.channel,
        link.power,
        link.connection,
        link.status
    )
}

/// "year at least four digits, milliseconds three, the other time fields two".
fn time_text(time: &Time) -> String {
    let octet = |at: usize| field_text(u16::from(time[at]), 255, 2);
    format!(
        "{}-{}-{} {}:{}:{}.{}",
        field_text(u16_of(&time[7..]), 65_535, 4),
        octet(6),
        octet(5),
        octet(4),
        octet(3),
        octet(2),
        field_text(u16_of(time), 65_535, 3)
    )
}

/// "an unknown field prints as a single `?` in its place".
fn field_text(value: u16, unknown: u16, digits: usize) -> String {
    if value == unknown {
        "?".to_string()
    } else {
        format!("{value:0digits$}")
    }
}

/// "Addresses are lowercase hexadecimal."
fn colon_text(octets: &[u8]) -> String {
    octets.iter().map(|octet| format!("{octet:02x}")).collect::<Vec<_>>().join(":")
}
