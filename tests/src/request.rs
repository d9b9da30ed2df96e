//! Request frames, read and written.

use crate::condition::{own_subelements, Condition};
use crate::event_body::is_reported;
use crate::octets::{part_at, u16_of, Kind, Part, CATEGORY, HEADER, LONGEST_FRAME};
use crate::refusal::{refusal, Refusal};
use crate::rsna::EapMethod;
use std::mem::discriminant;

/// "Event Request body: token, type, response limit, subelements. Diagnostic Request body: token,
/// type, timeout in seconds (2 octets), subelements." `bound` is the limit or the timeout;
/// the conditions are those of an event type that is read, in the order of their subelements.
#[derive(Clone, Debug, PartialEq, Eq)]
pub struct RequestElement {
    pub token: u8,
    pub ty: u8,
    pub bound: u16,
    pub conditions: Vec<Condition>,
    pub subelements: usize,
}

/// A request frame that was read without refusal.
#[derive(Clone, Debug, PartialEq, Eq)]
pub struct RequestFrame {
    pub kind: Kind,
    pub dialog: u8,
    pub elements: Vec<RequestElement>,
}

/// "1, 2, 3, then elements from the front, ... and 10 at the end."
pub fn read_request(frame: &[u8]) -> Result<RequestFrame, Refusal> {
    if frame.len() < HEADER || frame.len() > LONGEST_FRAME {
        return Err(refusal(1, 0));
    }
    let kind = match (frame[0], frame[1]) {
        (CATEGORY, 0) => Kind::Event,
        (CATEGORY, 2) => Kind::Diagnostic,
        _ => return Err(refusal(2, 0)),
    };
    let dialog = frame[2];
    if dialog == 0 {
        return Err(refusal(3, 0));
    }
    let elements = read_elements(kind, frame, HEADER, Vec::new())?;
    if kind == Kind::Diagnostic && elements.is_empty() {
        return Err(refusal(10, 0));
    }
    Ok(RequestFrame { kind, dialog, elements })
}

/// "Elements follow: ID, length, body. In each frame only its own element ID counts ...; others are
/// passed over." Cause 4 is due for each element.
fn read_elements(
    kind: Kind,
    frame: &[u8],
    at: usize,
    mut before: Vec<RequestElement>,
) -> Result<Vec<RequestElement>, Refusal> {
    if at == frame.len() {
        return Ok(before);
    }
    let element = part_at(frame, at).ok_or(refusal(4, at))?;
    if element.id == kind.request_id() {
        let read = read_element(kind, frame, &element, &before)?;
        before.push(read);
    }
    read_elements(kind, frame, element.next, before)
}

/// One element of an Event Request by itself: its "own refusals 4 to 8; 4 at 0 also meets another ID or octets
/// behind", and no element at all.
pub fn read_event_element(octets: &[u8]) -> Result<RequestElement, Refusal> {
    let own = |part: &Part| part.id == Kind::Event.request_id() && part.next == octets.len();
    let element = part_at(octets, 0).filter(own).ok_or(refusal(4, 0))?;
    read_element(Kind::Event, octets, &element, &[])
}

/// "each 4, 9, 5, 6, then its subelements from the front": from 9 on.
fn read_element(
    kind: Kind,
    frame: &[u8],
    element: &Part,
    before: &[RequestElement],
) -> Result<RequestElement, Refusal> {
    if before.len() == 8 {
        return Err(refusal(9, element.start));
    }
    if element.body.len() < kind.shortest_request() {
        return Err(refusal(5, element.start));
    }
    let token = element.body[0];
    if token_is_wrong(kind, token, before.iter().map(|earlier| earlier.token)) {
        return Err(refusal(6, element.start));
    }
    let ty = element.body[1];
    let bound = match kind {
        Kind::Event => u16::from(element.body[2]),
        Kind::Diagnostic => u16_of(&element.body[2..]),
    };
    let inside = &frame[..element.next];
    let first = element.start + 2 + kind.shortest_request();
    let mut conditions = Vec::new();
    let subelements = match kind {
        Kind::Event if is_reported(ty) => read_conditions(ty, inside, first, &mut conditions)?,
        Kind::Event => 0,
        Kind::Diagnostic => count_subelements(inside, first)?,
    };
    Ok(RequestElement { token, ty, bound, conditions, subelements })
}

/// "Token repeated among a frame's requests, or event token 0".
fn token_is_wrong(kind: Kind, token: u8, mut before: impl Iterator<Item = u8>) -> bool {
    (kind == Kind::Event && token == 0) || before.any(|earlier| earlier == token)
}

/// "its subelements from the front (in each 7 before 8)"; the answer is the number walked. IDs that are
/// not the type's own "are passed over", may repeat and are counted.
fn read_conditions(ty: u8, inside: &[u8], at: usize, before: &mut Vec<Condition>) -> Result<usize, Refusal> {
    if at == inside.len() {
        return Ok(0);
    }
    let subelement = part_at(inside, at).ok_or(refusal(7, at))?;
    if subelement.id < own_subelements(ty) {
        let condition = Condition::read(ty, subelement.id, subelement.body).ok_or(refusal(7, at))?;
        if before.iter().any(|earlier| discriminant(earlier) == discriminant(&condition)) {
            return Err(refusal(8, at));
        }
        before.push(condition);
    }
    Ok(1 + read_conditions(ty, inside, subelement.next, before)?)
}

/// "In diagnostics the subelements are walked for their edges only": how many there are.
pub fn count_subelements(inside: &[u8], at: usize) -> Result<usize, Refusal> {
    if at == inside.len() {
        return Ok(0);
    }
    let subelement = part_at(inside, at).ok_or(refusal(7, at))?;
    Ok(1 + count_subelements(inside, subelement.next)?)
}

/// What a requester hands to the request writer for one element: the conditions are subelement IDs in
/// rising order, with their bodies; an EAP method always as eight octets.
#[derive(Clone, Debug, PartialEq, Eq)]
pub struct Wanted {
    pub token: u8,
    pub ty: u8,
    pub bound: u16,
    pub conditions: Vec<(u8, Vec<u8>)>,
}

/// "Request writer: 13, 3, then 9, 6 in element order, then 10, with the place the element would have
/// had." "The answer is the frame's length; octets past it keep their values, for the request writer
/// too."
pub fn write_request(buffer: &mut [u8], kind: Kind, dialog: u8, wanted: &[Wanted]) -> Result<usize, Refusal> {
    if buffer.len() < 267 {
        return Err(refusal(13, 0));
    }
    if dialog == 0 {
        return Err(refusal(3, 0));
    }
    let mut frame = vec![CATEGORY, kind.request_action(), dialog];
    for (index, element) in wanted.iter().enumerate() {
        if index == 8 {
            return Err(refusal(9, frame.len()));
        }
        if token_is_wrong(kind, element.token, wanted[..index].iter().map(|earlier| earlier.token)) {
            return Err(refusal(6, frame.len()));
        }
        let body = request_body(kind, element);
        frame.push(kind.request_id());
        frame.push(body.len() as u8);
        frame.extend(body);
    }
    if kind == Kind::Diagnostic && wanted.is_empty() {
        return Err(refusal(10, 0));
    }
    buffer[..frame.len()].copy_from_slice(&frame);
    Ok(frame.len())
}

/// "Writers put subelements in rising ID order; diagnostic requests and event types other than 0 are
/// written, and read back, with none"; of RSNA and peer link events "the request writer writes these too".
fn request_body(kind: Kind, element: &Wanted) -> Vec<u8> {
    let mut body = vec![element.token, element.ty];
    match kind {
        Kind::Event => body.push(element.bound as u8),
        Kind::Diagnostic => body.extend(element.bound.to_le_bytes()),
    }
    if kind == Kind::Event && is_reported(element.ty) {
        for (id, handed_in) in &element.conditions {
            let value = written_condition(element.ty, *id, handed_in);
            body.push(*id);
            body.push(value.len() as u8);
            body.extend(value);
        }
    }
    body
}

/// A condition's octets as they go on the air: all that were handed in, but an EAP method by its own length.
fn written_condition(ty: u8, id: u8, handed_in: &[u8]) -> Vec<u8> {
    match ((ty, id), handed_in.first_chunk()) {
        ((1, 2), Some(eight)) => EapMethod::handed_in(eight).octets().to_vec(),
        _ => handed_in.to_vec(),
    }
}
