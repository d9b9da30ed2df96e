//! Made-up events of the three kinds: times, fields, and the records that log them.

use crate::event_body::EventBody;
use crate::form::{EventTime, Form, PublishedTime};
use crate::octets::Address;
use crate::peer_link::{PeerLink, PeerLogging};
use crate::random::Random;
use crate::rsna::{EapMethod, RsnaLogging};
use crate::station::Logging;
use crate::trace::Record;
use crate::transition::{Time, Transition};

/// The few BSSIDs and peers that events and conditions share, so that conditions are met often.
pub const BSSIDS: [Address; 3] = [[2, 1, 1, 1, 1, 1], [2, 1, 1, 1, 1, 2], [3, 1, 1, 1, 1, 1]];
/// The authentication types, for the same reason.
const SUITES: [[u8; 4]; 3] = [[0, 0x0F, 0xAC, 1], [0, 0x0F, 0xAC, 2], [1, 0x0F, 0xAC, 1]];
/// EAP methods of one octet, and of eight that differ in the last, the fifth or the second.
const METHODS: [&[u8]; 8] = [
    &[0],
    &[13],
    &[253],
    &[255],
    &[254, 0, 0x50, 0xC2, 1, 0, 0, 0],
    &[254, 0, 0x50, 0xC2, 1, 0, 0, 1],
    &[254, 0, 0x50, 0xC2, 2, 0, 0, 0],
    &[254, 13, 0x50, 0xC2, 1, 0, 0, 0],
];

/// A time; `wrong` times in a hundred one field is just out of its range.
pub fn time(random: &mut Random, wrong: usize) -> Time {
    let milliseconds = random.pick(&[0u16, 7, 255, 256, 512, 767, 999, 65_535]).to_le_bytes();
    let year = random.pick(&[0u16, 7, 99, 999, 2026, 9999, 10_000, 65_534, 65_535]).to_le_bytes();
    let mut time = [
        milliseconds[0],
        milliseconds[1],
        random.pick(&[0, 9, 10, 59, 255]),
        random.pick(&[0, 9, 10, 59, 255]),
        random.pick(&[0, 9, 10, 23, 255]),
        random.pick(&[1, 9, 10, 30, 31, 255]),
        random.pick(&[1, 2, 9, 10, 12, 255]),
        year[0],
        year[1],
    ];
    if random.percent(wrong) {
        let field = random.between(1, 6);
        if field == 1 {
            let over = random.pick(&[1000u16, 1023, 32_768, 65_280, 65_534]).to_le_bytes();
            time[0] = over[0];
            time[1] = over[1];
        } else {
            let wrong_values: [&[u8]; 5] =
                [&[60, 61, 128, 254], &[60, 61, 254], &[24, 25, 254], &[0, 32, 254], &[0, 13, 254]];
            time[field] = random.pick(wrong_values[field - 2]);
        }
    }
    time
}

/// The published time fields: any octets, of which the first nine are at times a good time of the draft form.
pub fn published_time(random: &mut Random) -> PublishedTime {
    let mut octets = random.octets(23);
    if random.percent(20) {
        octets[..9].copy_from_slice(&time(random, 0));
    }
    PublishedTime::at_front(&octets).expect("there are 23 octets").0
}

/// A time as a report of this form has it; `wrong` times in a hundred, in the draft form, one field is wrong.
pub fn event_time(random: &mut Random, form: Form, wrong: usize) -> EventTime {
    match form {
        Form::Draft => EventTime::Draft(time(random, wrong)),
        Form::Published => EventTime::Published(published_time(random)),
    }
}

/// A transition with the BSSIDs that conditions name, and any transition time.
pub fn transition(random: &mut Random) -> Transition {
    Transition {
        source: random.pick(&BSSIDS),
        target: random.pick(&BSSIDS),
        time: random.bits() as u16,
        reason: random.octet(),
        result: random.pick(&[0, 0, 0, 1, 1, 256, 65_535]),
        signal: [random.octet(), random.octet(), random.octet(), random.octet()],
    }
}

/// An authentication type.
pub fn suite(random: &mut Random) -> [u8; 4] {
    random.pick(&SUITES)
}

/// An EAP method's own octets.
pub fn method(random: &mut Random) -> &'static [u8] {
    random.pick(&METHODS)
}

/// An EAP method as calls hand it in: eight octets, of which those past a method of one are mostly garbage, at
/// times the octet that makes a method of eight.
pub fn method_in_eight(random: &mut Random) -> [u8; 8] {
    let own = method(random);
    let garbage = random.bits().to_le_bytes();
    let mut eight = random.pick(&[[0; 8], [EapMethod::EXPANDED; 8], garbage, garbage, garbage]);
    eight[..own.len()].copy_from_slice(own);
    eight
}

/// An RSN element: absent, 22 octets of any value, or, `wrong` times in a hundred, of another length.
fn rsn(random: &mut Random, wrong: usize) -> Vec<u8> {
    let length = if random.percent(wrong) {
        random.pick(&[1, 2, 20, 21, 23, 24, 44, 255, 256, 278])
    } else {
        random.pick(&[0, 22])
    };
    random.octets(length)
}

/// An RSNA event to be logged; `wrong` times in a hundred its time is wrong, as often its RSN element.
pub fn rsna_logging(random: &mut Random, wrong: usize) -> RsnaLogging {
    let both = random.percent(wrong / 3);
    RsnaLogging {
        time: time(random, if both { 100 } else { wrong }),
        published: published_time(random),
        target: random.pick(&BSSIDS),
        authentication: suite(random),
        eap: method_in_eight(random),
        result: random.pick(&[0, 0, 0, 1, 2, 128, 255]),
        rsn: rsn(random, if both { 100 } else { wrong }),
    }
}

/// A regulatory class and a channel, for events and conditions; 0 is a channel like others in an event.
pub fn channel(random: &mut Random) -> [u8; 2] {
    [random.pick(&[81, 81, 115, 0]), random.pick(&[0, 0, 6, 6, 36])]
}

/// A peer link event.
fn peer_link(random: &mut Random) -> PeerLink {
    let [class, channel] = channel(random);
    PeerLink {
        peer: random.pick(&BSSIDS),
        class,
        channel,
        power: random.octet(),
        connection: random.pick(&[0, 1, 255, 256, 65_535, 65_536, 0x0003_0201, 16_777_215]),
        status: random.pick(&[0, 1, 2, 3, 4, 255]),
    }
}

/// An event of this type, as a report has it.
pub fn event_body(random: &mut Random, ty: u8) -> EventBody {
    match ty {
        0 => EventBody::Transition(transition(random)),
        1 => EventBody::Rsna(rsna_logging(random, 0).event()),
        _ => EventBody::PeerLink(peer_link(random)),
    }
}

/// The record that logs an event of this type; `wrong` times in a hundred its time is wrong, as often an RSN
/// element's length. A transition took `taken` milliseconds.
pub fn log_record(random: &mut Random, ty: u8, reading: u32, taken: u32, wrong: usize) -> Record {
    match ty {
        0 => {
            let (time, published) = (time(random, wrong), published_time(random));
            let (transition, departure) = (transition(random), reading.wrapping_sub(taken));
            Record::Log { reading, logging: Logging { time, published, transition, departure } }
        }
        1 => Record::LogRsna { reading, logging: rsna_logging(random, wrong) },
        _ => {
            let (time, published) = (time(random, wrong), published_time(random));
            let logging = PeerLogging { time, published, link: peer_link(random) };
            Record::LogPeerLink { reading, logging }
        }
    }
}
