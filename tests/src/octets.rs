//! Octets, addresses, the two kinds of frame, and the parts that frames are made of.

/// A station's or requester's address.
pub type Address = [u8; 6];

/// "Group destination (low bit of first octet)".
pub fn is_group(address: &Address) -> bool {
    address[0] & 1 == 1
}

/// "All multi-octet fields are least octet first."
pub fn u16_of(octets: &[u8]) -> u16 {
    u16::from(octets[0]) + 256 * u16::from(octets[1])
}

/// Six octets as an address.
pub fn address_of(octets: &[u8]) -> Address {
    [octets[0], octets[1], octets[2], octets[3], octets[4], octets[5]]
}

/// "Event Request, Event Report, Diagnostic Request, Diagnostic Report": two kinds of each.
#[derive(Clone, Copy, Debug, PartialEq, Eq)]
pub enum Kind {
    Event,
    Diagnostic,
}

impl Kind {
    /// "Actions: 0 Event Request, ... 2 Diagnostic Request".
    pub fn request_action(self) -> u8 {
        match self {
            Kind::Event => 0,
            Kind::Diagnostic => 2,
        }
    }

    /// "Actions: ... 1 Event Report, ... 3 Diagnostic Report."
    pub fn report_action(self) -> u8 {
        self.request_action() + 1
    }

    /// "In each frame only its own element ID counts (78, 79, 80, 81 in that order)".
    pub fn request_id(self) -> u8 {
        78 + self.request_action()
    }

    /// The same sentence, for reports.
    pub fn report_id(self) -> u8 {
        78 + self.report_action()
    }

    /// "Body under 3 (Diagnostic Request: 4)".
    pub fn shortest_request(self) -> usize {
        match self {
            Kind::Event => 3,
            Kind::Diagnostic => 4,
        }
    }
}

/// "Octets 0, 1, 2: category 10, action, dialog token."
pub const CATEGORY: u8 = 10;
pub const HEADER: usize = 3;
/// "No frame passes 2,304 octets".
pub const LONGEST_FRAME: usize = 2304;

/// An element or a subelement: "ID, length, body", and where the next one starts.
pub struct Part<'a> {
    pub start: usize,
    pub id: u8,
    pub body: &'a [u8],
    pub next: usize,
}

/// The part at `start`, or nothing where its "header or body passes the end".
pub fn part_at(octets: &[u8], start: usize) -> Option<Part<'_>> {
    let id = *octets.get(start)?;
    let length = usize::from(*octets.get(start + 1)?);
    let next = start + 2 + length;
    let body = octets.get(start + 2..next)?;
    Some(Part { start, id, body, next })
}
