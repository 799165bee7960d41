//! A call on a station with its arguments, as a value.

use crate::station::{calls, Station};
use crate::text;
use std::fmt;

#[derive(Clone, Debug, PartialEq, Eq)]
pub enum Call {
    /// Whether A, B, C traffic waits.
    Tick([u64; 3]),
    /// Class, size, hops.
    Client([u64; 3]),
    /// Class, size, hops, eligible.
    Transit([u64; 4]),
    Control(u64),
    Select,
    Age,
    Hear(Vec<u8>),
    /// The room's length.
    Tell(usize),
    Show(usize),
}

impl Call {
    /// One of each call, with arguments in range on every ring.
    pub fn one_of_each() -> Vec<Call> {
        vec![
            Call::Tick([1, 0, 1]),
            Call::Client([2, 20, 1]),
            Call::Transit([1, 20, 1, 1]),
            Call::Control(20),
            Call::Select,
            Call::Age,
            Call::Hear(vec![255, 0xa0, 0, 0, 0, 0, 0, 9, 0, 0, 0, 5]),
            Call::Tell(12),
            Call::Show(124),
        ]
    }

    pub fn function(&self) -> &'static str {
        match self {
            Call::Tick(_) => "rpr_tick",
            Call::Client(_) => "rpr_offer_client",
            Call::Transit(_) => "rpr_offer_transit",
            Call::Control(_) => "rpr_offer_control",
            Call::Select => "rpr_select",
            Call::Age => "rpr_age",
            Call::Hear(_) => "rpr_read_frame",
            Call::Tell(_) => "rpr_write_frame",
            Call::Show(_) => "rpr_show",
        }
    }

    /// The other slice that the call lends: a frame to read, or a room of these bytes.
    pub fn other_slice(&self, fill: u8) -> Vec<u8> {
        match self {
            Call::Hear(frame) => frame.clone(),
            Call::Tell(length) | Call::Show(length) => vec![fill; *length],
            _ => Vec::new(),
        }
    }

    /// The answer, and what the other slice holds afterwards.
    pub fn apply(&self, station: &mut Station, other: &[u8]) -> (u64, Vec<u8>) {
        let answer = match self {
            Call::Tick([a, b, c]) => calls::tick(station, *a, *b, *c),
            Call::Client([class, size, hops]) => calls::offer_client(station, *class, *size, *hops),
            Call::Transit([class, size, hops, eligible]) => {
                calls::offer_transit(station, *class, *size, *hops, *eligible)
            }
            Call::Control(size) => calls::offer_control(station, *size),
            Call::Select => calls::select(station),
            Call::Age => calls::age(station),
            Call::Hear(frame) => calls::read_frame(station, frame),
            Call::Tell(_) => return calls::write_frame(station, other),
            Call::Show(_) => return calls::show(station, other),
        };
        (answer, other.to_vec())
    }
}

/// The line of a script.
impl fmt::Display for Call {
    fn fmt(&self, out: &mut fmt::Formatter<'_>) -> fmt::Result {
        match self {
            Call::Tick([a, b, c]) => write!(out, "tick {a} {b} {c}"),
            Call::Client([class, size, hops]) => write!(out, "client {class} {size} {hops}"),
            Call::Transit([class, size, hops, eligible]) => {
                write!(out, "transit {class} {size} {hops} {eligible}")
            }
            Call::Control(size) => write!(out, "control {size}"),
            Call::Select => write!(out, "select"),
            Call::Age => write!(out, "age"),
            Call::Hear(frame) => write!(out, "hear {}", text::encode(frame)),
            Call::Tell(length) => write!(out, "tell {length}"),
            Call::Show(length) => write!(out, "show {length}"),
        }
    }
}
