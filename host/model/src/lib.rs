//! A model of shaper records and their summaries, ringlet choice and path, and the
//! station, as the paper defines them.
//!
//! It shares no code with the library. It is slow and direct: every sum is kept
//! in 128 bits, a record's summary is joined from its events one by one, and a frame
//! moves over the ring link by link.

#![forbid(unsafe_code)]

pub mod apart;
pub mod cases;
pub mod command;
pub mod compare;
pub mod entry_script;
pub mod heartbeat;
pub mod heartbeats;
pub mod hops;
pub mod host;
pub mod item;
pub mod lent;
pub mod lent_call;
pub mod line;
pub mod make;
pub mod make_broken;
pub mod make_call;
pub mod make_damage;
pub mod make_heartbeat;
pub mod make_method;
pub mod make_pair;
pub mod make_runs;
pub mod make_short;
pub mod make_station;
pub mod make_text;
pub mod methods;
pub mod movers;
pub mod random;
pub mod record;
pub mod refusal;
pub mod report;
pub mod ring;
pub mod ring_cases;
pub mod shortfalls;
pub mod station;
pub mod station_call;
pub mod station_script;
pub mod steady;
pub mod summary;
pub mod tally;
pub mod text;
pub mod trial;
pub mod walk;
