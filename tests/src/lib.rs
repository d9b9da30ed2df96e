//! A separately written reader and gate for document 01 and requests (a), (c), (d), (f) and (g) of document 02, and
//! the differential tests made with it.

// The reader and the gate.
pub mod clock;
pub mod condition;
pub mod event_body;
pub mod event_request;
pub mod explain;
pub mod form;
pub mod listing;
pub mod octets;
pub mod peer_link;
pub mod refusal;
pub mod report;
pub mod request;
pub mod rsna;
pub mod setup;
pub mod station;
pub mod trace;
pub mod transition;

// Made-up input.
pub mod cases;
pub mod clock_cases;
pub mod damage;
pub mod explain_cases;
pub mod forms_cases;
pub mod kind_cases;
pub mod make_events;
pub mod make_identity;
pub mod make_questions;
pub mod make_reports;
pub mod make_requests;
pub mod make_traces;
pub mod order_cases;
pub mod random;
pub mod script;
pub mod waiting_cases;

// The runner.
pub mod absent;
pub mod agreement;
pub mod answers;
pub mod compare;
pub mod covered;
pub mod exchange;
pub mod explained;
pub mod independence;
pub mod order;
pub mod phases;
pub mod program;
pub mod read_back;
pub mod shrink;
pub mod tally;
pub mod waiting;
