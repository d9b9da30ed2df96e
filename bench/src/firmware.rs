//! The proved code, as include/dultxibe.h declares it, and the conversion to TUs by itself (crates/conversion).

use std::mem::{offset_of, size_of};

#[derive(Clone, Copy, PartialEq, Eq, Debug)]
#[repr(C)]
pub struct Reply {
    pub code: u8,
    pub cause: u8,
    pub place: usize,
    pub length: usize,
}

#[derive(Clone, Copy)]
#[repr(C)]
pub struct Station {
    opaque: [u64; 981],
}

#[derive(Clone, Copy)]
#[repr(C)]
pub struct Outcome {
    pub station: Station,
    pub reply: Reply,
}

#[derive(Clone, Copy)]
#[repr(C)]
pub struct Requester {
    pub address: [u8; 6],
    pub form: u8,
}

#[derive(Clone, Copy)]
#[repr(C)]
pub struct Times {
    pub time: [u8; 9],
    pub tsf: [u8; 8],
    pub utc_offset: [u8; 10],
    pub time_error: [u8; 5],
}

#[derive(Clone, Copy)]
#[repr(C)]
pub struct Transition {
    pub times: Times,
    pub source: [u8; 6],
    pub target: [u8; 6],
    pub reason: u8,
    pub result: u16,
    pub signals: [u8; 4],
    pub departure: u32,
}

#[derive(Clone, Copy)]
#[repr(C)]
pub struct RsnaEvent {
    pub times: Times,
    pub target: [u8; 6],
    pub authentication: [u8; 4],
    pub method: [u8; 8],
    pub result: u8,
}

#[derive(Clone, Copy)]
#[repr(C)]
pub struct PeerLink {
    pub times: Times,
    pub peer: [u8; 6],
    pub class: u8,
    pub channel: u8,
    pub power: u8,
    pub connection: [u8; 3],
    pub status: u8,
}

#[derive(Clone, Copy, Debug)]
#[repr(C)]
pub struct ReportFrame {
    pub cause: u8,
    pub kind: u8,
    pub dialog: u8,
    pub place: usize,
    pub count: usize,
}

#[derive(Clone, Copy)]
#[repr(C)]
pub struct Element {
    pub token: u8,
    pub ty: u8,
    pub status: u8,
    pub logged: u8,
    pub length: usize,
    pub subs: usize,
}

#[derive(Clone, Copy)]
#[repr(C)]
pub struct Step {
    pub cause: u8,
    pub found: u8,
    pub place: usize,
    pub rest: usize,
    pub next: usize,
    pub element: Element,
}

#[derive(Clone, Copy)]
#[repr(C)]
pub struct TransitionReport {
    pub times: Times,
    pub source: [u8; 6],
    pub target: [u8; 6],
    pub took: u16,
    pub reason: u8,
    pub result: u16,
    pub signals: [u8; 4],
}

#[derive(Clone, Copy)]
#[repr(C)]
pub struct RsnaReport {
    pub times: Times,
    pub target: [u8; 6],
    pub authentication: [u8; 4],
    pub method: [u8; 8],
    pub result: u8,
    pub rsn: [u8; 22],
    pub rsn_length: usize,
}

#[derive(Clone, Copy)]
#[repr(C)]
pub struct PeerLinkReport {
    pub times: Times,
    pub peer: [u8; 6],
    pub class: u8,
    pub channel: u8,
    pub power: u8,
    pub connection: [u8; 3],
    pub status: u8,
}

const _: () = assert!(size_of::<Reply>() == 24 && size_of::<Station>() == 7848);
const _: () = assert!(size_of::<Outcome>() == 7872 && size_of::<Transition>() == 56);
const _: () = assert!(size_of::<Requester>() == 7 && size_of::<Times>() == 32);
const _: () = assert!(size_of::<RsnaEvent>() == 51 && size_of::<PeerLink>() == 45);
const _: () = assert!(size_of::<ReportFrame>() == 24 && size_of::<Step>() == 56);
const _: () = assert!(offset_of!(Step, element) == 32 && size_of::<Element>() == 24);
const _: () = assert!(size_of::<TransitionReport>() == 54 && size_of::<PeerLinkReport>() == 45);
const _: () = assert!(size_of::<RsnaReport>() == 88 && offset_of!(RsnaReport, rsn_length) == 80);

extern "C" {
    pub fn dultxibe_setup(
        identity: *const u8,
        length: usize,
        requesters: *const Requester,
        count: usize,
    ) -> Outcome;
    pub fn dultxibe_tick(station: *mut Station, reading: u32) -> Reply;
    pub fn dultxibe_log_transition(station: *mut Station, reading: u32, transition: Transition) -> Reply;
    pub fn dultxibe_log_rsna(
        station: *mut Station,
        reading: u32,
        event: RsnaEvent,
        rsn: *const u8,
        length: usize,
    ) -> Reply;
    pub fn dultxibe_log_peer_link(station: *mut Station, reading: u32, event: PeerLink) -> Reply;
    pub fn dultxibe_frame(
        station: *mut Station,
        reading: u32,
        destination: *const [u8; 6],
        source: *const [u8; 6],
        frame: *const u8,
        length: usize,
    ) -> Reply;
    pub fn dultxibe_report(
        station: *mut Station,
        reading: u32,
        requester: *const [u8; 6],
        kind: u8,
        buffer: *mut u8,
        length: usize,
    ) -> Reply;
    pub fn dultxibe_roam(station: *mut Station, reading: u32, requesters: *const Requester, count: usize) -> Reply;
    pub fn dultxibe_change_network(
        station: *mut Station,
        reading: u32,
        requesters: *const Requester,
        count: usize,
    ) -> Reply;
    pub fn dultxibe_read_report(form: u8, destination: *const [u8; 6], frame: *const u8, length: usize) -> ReportFrame;
    pub fn dultxibe_next_element(form: u8, kind: u8, position: usize, frame: *const u8, length: usize) -> Step;
    pub fn dultxibe_read_transition(form: u8, octets: *const u8, length: usize) -> TransitionReport;
    pub fn dultxibe_read_rsna(form: u8, octets: *const u8, length: usize) -> RsnaReport;
    pub fn dultxibe_read_peer_link(form: u8, octets: *const u8, length: usize) -> PeerLinkReport;
    pub fn tus_of(age: u32) -> u16;
}
