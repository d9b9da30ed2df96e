//! Report frames: their fields, and the reader.

use crate::event_body::{is_reported, EventBody};
use crate::form::{EventTime, Form};
use crate::octets::{is_group, part_at, Address, Kind, Part, CATEGORY, HEADER, LONGEST_FRAME};
use crate::refusal::{refusal, Refusal};
use crate::request::count_subelements;

/// What follows token, type and status.
#[derive(Clone, Debug, PartialEq, Eq)]
pub enum Rest {
    Nothing,
    Event(EventTime, EventBody),
    Unread(usize),
    Subelements(usize),
}

/// "Report body: token, type, status", and the rest.
#[derive(Clone, Debug, PartialEq, Eq)]
pub struct ReportElement {
    pub token: u8,
    pub ty: u8,
    pub status: u8,
    pub rest: Rest,
}

/// A report frame's fields: read without refusal, or chosen by the gate; in the form that the reader was told, or
/// of the console that it was chosen for.
#[derive(Clone, Debug, PartialEq, Eq)]
pub struct ReportFrame {
    pub form: Form,
    pub kind: Kind,
    pub dialog: u8,
    pub elements: Vec<ReportElement>,
}

impl ReportFrame {
    /// The index and the type of the first element that has an event.
    pub fn first_event(&self) -> Option<(usize, u8)> {
        let has_event = |element: &ReportElement| matches!(element.rest, Rest::Event(..));
        let index = self.elements.iter().position(has_event)?;
        Some((index, self.elements[index].ty))
    }
}

/// "Reading a report frame, given its destination: 11, 1, 2, then each element 4, 5, 17, then 14 or 7." "a form
/// number other than 0 or 1 with 15 (a reader before all else)".
pub fn read_report(form: u8, destination: &Address, frame: &[u8]) -> Result<ReportFrame, Refusal> {
    let form = Form::of(form).ok_or(refusal(15, 0))?;
    if is_group(destination) {
        return Err(refusal(11, 0));
    }
    if frame.len() < HEADER || frame.len() > LONGEST_FRAME {
        return Err(refusal(1, 0));
    }
    let kind = match (frame[0], frame[1]) {
        (CATEGORY, 1) => Kind::Event,
        (CATEGORY, 3) => Kind::Diagnostic,
        _ => return Err(refusal(2, 0)),
    };
    let elements = read_elements(form, kind, frame, HEADER, Vec::new())?;
    Ok(ReportFrame { form, kind, dialog: frame[2], elements })
}

/// "In each frame only its own element ID counts ...; others are passed over." Cause 4 is due for each.
fn read_elements(
    form: Form,
    kind: Kind,
    frame: &[u8],
    at: usize,
    mut before: Vec<ReportElement>,
) -> Result<Vec<ReportElement>, Refusal> {
    if at == frame.len() {
        return Ok(before);
    }
    let element = part_at(frame, at).ok_or(refusal(4, at))?;
    if element.id == kind.report_id() {
        before.push(read_element(form, kind, frame, &element)?);
    }
    read_elements(form, kind, frame, element.next, before)
}

/// "each element 4, 5, 17, then 14 or 7": from 5 on. "Report status over 4; event body not 3 with
/// status 1 to 4; event type 0 Successful not 3 or 33"; of types 1 and 2 "a wrong report body with 17, in the
/// places these already have", and in form 1 the lengths of form 1. The rest of types 3 and up "is kept unread".
fn read_element(form: Form, kind: Kind, frame: &[u8], element: &Part) -> Result<ReportElement, Refusal> {
    let body = element.body;
    if body.len() < 3 {
        return Err(refusal(5, element.start));
    }
    let (token, ty, status) = (body[0], body[1], body[2]);
    let rest = match (kind, ty, status, body.len()) {
        (_, _, 5.., _) => return Err(refusal(17, element.start)),
        (Kind::Diagnostic, ..) => {
            Rest::Subelements(count_subelements(&frame[..element.next], element.start + 5)?)
        }
        (Kind::Event, _, 0, length) if !is_reported(ty) => Rest::Unread(length - 3),
        (Kind::Event, _, _, 3) => Rest::Nothing,
        (Kind::Event, _, 0, _) => read_event(form, ty, element)?,
        (Kind::Event, ..) => return Err(refusal(17, element.start)),
    };
    Ok(ReportElement { token, ty, status, rest })
}

/// The time in the form that the reader was told, and the event's own octets; 17 for their number, "a body of the
/// other form's length" too, then 14 at the element start "when reading".
fn read_event(form: Form, ty: u8, element: &Part) -> Result<Rest, Refusal> {
    let wrong = refusal(17, element.start);
    let (time, own) = EventTime::at_front(form, &element.body[3..]).ok_or(wrong)?;
    let body = EventBody::of(ty, own).ok_or(wrong)?;
    if !time.is_good() {
        return Err(refusal(14, element.start));
    }
    Ok(Rest::Event(time, body))
}
