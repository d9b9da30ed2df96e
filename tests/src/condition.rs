//! Conditions: what the subelements of an event request ask of an event, type by type.

use crate::event_body::EventBody;
use crate::event_request::Event;
use crate::octets::{address_of, u16_of, Address};
use crate::rsna::EapMethod;

/// One subelement of an event request that is not passed over.
#[derive(Clone, Debug, PartialEq, Eq)]
pub enum Condition {
    Target(Address),
    Source(Address),
    Threshold(u16),
    TransitionResult(u8),
    /// "frequent transition 3 (count threshold 1, interval in minutes 2)".
    Frequent {
        threshold: u8,
        interval: u16,
    },
    RsnaTarget(Address),
    Authentication([u8; 4]),
    Eap(EapMethod),
    RsnaResult(u8),
    Peer(Address),
    Channel {
        class: u8,
        channel: u8,
    },
}

/// How many subelement IDs are a type's own, counted from 0: the transition's 0 to 4; 001, Tables v3 and v4.
/// Higher ones are passed over. The bodies of "types 3 and up" are not read.
pub fn own_subelements(ty: u8) -> u8 {
    match ty {
        0 => 5,
        1 => 4,
        2 => 2,
        _ => 0,
    }
}

impl Condition {
    /// What the subelement with this ID asks for; nothing where its body has a wrong length.
    pub fn read(ty: u8, id: u8, body: &[u8]) -> Option<Condition> {
        Some(match (ty, id, body) {
            (0, 0, [_, _, _, _, _, _]) => Condition::Target(address_of(body)),
            (0, 1, [_, _, _, _, _, _]) => Condition::Source(address_of(body)),
            (0, 2, [_, _]) => Condition::Threshold(u16_of(body)),
            (0, 3, [bits]) => Condition::TransitionResult(*bits),
            (0, 4, [threshold, interval @ ..]) if interval.len() == 2 => {
                Condition::Frequent { threshold: *threshold, interval: u16_of(interval) }
            }
            (1, 0, [_, _, _, _, _, _]) => Condition::RsnaTarget(address_of(body)),
            (1, 1, [a, b, c, d]) => Condition::Authentication([*a, *b, *c, *d]),
            (1, 2, _) => Condition::Eap(EapMethod::whole(body)?),
            (1, 3, [bits]) => Condition::RsnaResult(*bits),
            (2, 0, [_, _, _, _, _, _]) => Condition::Peer(address_of(body)),
            (2, 1, [class, channel]) => Condition::Channel { class: *class, channel: *channel },
            _ => return None,
        })
    }

    /// The ID of the subelement that asks for it.
    pub fn id(&self) -> u8 {
        match self {
            Condition::Target(_) | Condition::RsnaTarget(_) | Condition::Peer(_) => 0,
            Condition::Source(_) | Condition::Authentication(_) | Condition::Channel { .. } => 1,
            Condition::Threshold(_) | Condition::Eap(_) => 2,
            Condition::TransitionResult(_) | Condition::RsnaResult(_) => 3,
            Condition::Frequent { .. } => 4,
        }
    }

    /// Whether an event meets it. `up_to` are the log's "events up to and including this one". A condition of
    /// another type than the event's is never asked; its answer is no.
    pub fn admits(&self, event: &Event, up_to: &[Event]) -> bool {
        match (self, &event.body) {
            (Condition::Target(target), EventBody::Transition(transition)) => *target == transition.target,
            (Condition::Source(source), EventBody::Transition(transition)) => *source == transition.source,
            (Condition::Threshold(threshold), EventBody::Transition(transition)) => {
                transition.time >= *threshold
            }
            (Condition::TransitionResult(bits), EventBody::Transition(transition)) => {
                match_value_admits(*bits, transition.result)
            }
            (Condition::Frequent { threshold, interval }, EventBody::Transition(_)) => {
                transitions_near(event, up_to, *interval) > usize::from(*threshold)
            }
            (Condition::RsnaTarget(target), EventBody::Rsna(rsna)) => *target == rsna.target,
            (Condition::Authentication(suite), EventBody::Rsna(rsna)) => *suite == rsna.authentication,
            (Condition::Eap(method), EventBody::Rsna(rsna)) => *method == rsna.eap,
            (Condition::RsnaResult(bits), EventBody::Rsna(rsna)) => {
                match_value_admits(*bits, u16::from(rsna.result))
            }
            (Condition::Peer(peer), EventBody::PeerLink(link)) => *peer == link.peer,
            (Condition::Channel { class, channel }, EventBody::PeerLink(link)) => {
                *class == link.class && [0, link.channel].contains(channel)
            }
            _ => false,
        }
    }
}

/// "match value bit 0 admits result 0, bit 1 admits other results".
fn match_value_admits(bits: u8, result: u16) -> bool {
    let bit = if result == 0 { 1 } else { 2 };
    bits & bit != 0
}

/// "the events up to and including this one whose age to it is at most interval times 60,000"; "frequent
/// transition counts transitions alone".
fn transitions_near(event: &Event, up_to: &[Event], interval: u16) -> usize {
    transitions(up_to).filter(|other| is_near(event.stamp.since(other.stamp), interval)).count()
}

/// The transitions in a log.
pub fn transitions(log: &[Event]) -> impl Iterator<Item = &Event> {
    log.iter().filter(|event| matches!(event.body, EventBody::Transition(_)))
}

/// "at most interval times 60,000".
pub fn is_near(age: u128, interval: u16) -> bool {
    age <= u128::from(interval) * 60_000
}
