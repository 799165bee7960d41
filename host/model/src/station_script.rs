//! A script of calls on one station: one call on each line, one line printed for each
//! call.
//!
//! `start W0 .. W33`, `tick A B C`, `client CLASS SIZE HOPS`,
//! `transit CLASS SIZE HOPS ELIGIBLE`, `control SIZE`, `select`, `age`, `hear HEX`,
//! `tell`, `show`; `tell LENGTH` and `show LENGTH` lend a room of so many bytes.
//! `N*CALL` is this call N times. Numbers are decimal or hex after `0x`. Lines that are
//! empty or begin with `#` print nothing.

use crate::line::{byte, number, numbers, short, words};
use crate::station::fairness::FRAME_LENGTH;
use crate::station::reading::{NAMES, READING_LENGTH};
use crate::station::{calls, settings, Station};
use crate::text;

#[derive(Default)]
pub struct Script {
    station: Option<Station>,
}

type Printed = Result<String, String>;

/// What an answer prints: the refusal, and behind it a shortfall where there is one, or
/// what is said of a call carried out.
fn said(answer: u64, done: &str) -> String {
    match (byte(answer, 0), short(answer)) {
        (0, _) => done.to_string(),
        (refusal, 0) => format!("refused {refusal}"),
        (refusal, short) => format!("refused {refusal} short {short}"),
    }
}

impl Script {
    pub fn station(&self) -> Option<&Station> {
        self.station.as_ref()
    }

    /// What a line prints; the error names what is wrong with the line.
    pub fn print(&mut self, line: &str) -> Result<Option<String>, String> {
        let words = words(line);
        let Some((call, arguments)) = words.split_first() else {
            return Ok(None);
        };
        let printed = self.repeat(call, arguments);
        printed
            .map(Some)
            .map_err(|fault| format!("{line}: {fault}"))
    }

    fn repeat(&mut self, call: &str, arguments: &[&str]) -> Printed {
        let (times, call) = match call.split_once('*') {
            Some((times, call)) => (number(times)?, call),
            None => (1, call),
        };
        let mut lines = String::new();
        for _ in 0..times {
            let printed = match call {
                "start" => self.start(arguments),
                _ => self.call(call, arguments),
            }?;
            lines += &format!("{call} {printed}\n");
        }
        Ok(lines)
    }

    /// Words of 4 bytes, 34 or another number of them.
    fn start(&mut self, arguments: &[&str]) -> Printed {
        let mut words: Vec<u32> = Vec::new();
        for argument in arguments {
            let word = number(argument)?.try_into();
            words.push(word.map_err(|_| format!("more than 32 bits: {argument}"))?);
        }
        let answer = calls::start(&settings::to_bytes(&words), &mut self.station);
        Ok(said(answer, "done"))
    }

    fn call(&mut self, call: &str, arguments: &[&str]) -> Printed {
        let station = self.station.as_mut().ok_or("no station yet")?;
        match call {
            "client" => client(station, arguments),
            "select" => select(station, arguments),
            "tell" => tell(station, arguments),
            "show" => show(station, arguments),
            _ => plain(station, call, arguments).map(|answer| said(answer, "done")),
        }
    }
}

/// The calls that answer nothing but whether they were carried out.
fn plain(station: &mut Station, call: &str, arguments: &[&str]) -> Result<u64, String> {
    match call {
        "tick" => {
            let [a, b, c] = numbers(arguments)?;
            Ok(calls::tick(station, a, b, c))
        }
        "transit" => {
            let [class, size, hops, eligible] = numbers(arguments)?;
            Ok(calls::offer_transit(station, class, size, hops, eligible))
        }
        "control" => {
            let [size] = numbers(arguments)?;
            Ok(calls::offer_control(station, size))
        }
        "age" => {
            let [] = numbers(arguments)?;
            Ok(calls::age(station))
        }
        "hear" => {
            let hex = arguments.concat();
            let frame = text::decode(hex.as_bytes()).map_err(|_| "not hex")?;
            Ok(calls::read_frame(station, &frame))
        }
        _ => Err("not a call".to_string()),
    }
}

fn client(station: &mut Station, arguments: &[&str]) -> Printed {
    let [class, size, hops] = numbers(arguments)?;
    let answer = calls::offer_client(station, class, size, hops);
    Ok(said(answer, &format!("eligible {}", byte(answer, 4))))
}

fn select(station: &mut Station, arguments: &[&str]) -> Printed {
    let [] = numbers(arguments)?;
    let answer = calls::select(station);
    let [origin, class, hops, eligible] = [1, 2, 3, 4].map(|at| byte(answer, at));
    let size = answer >> 48;
    let done = format!("origin {origin} class {class} hops {hops} eligible {eligible} size {size}");
    Ok(said(answer, &done))
}

/// The room's length: the one given, else the usual one.
fn room(arguments: &[&str], usual: usize) -> Result<Vec<u8>, String> {
    let length = match arguments {
        [] => usual,
        [length] => number(length)?.min(4_096) as usize,
        _ => return Err("more than a length".to_string()),
    };
    Ok(vec![0; length])
}

fn tell(station: &Station, arguments: &[&str]) -> Printed {
    let (answer, room) = calls::write_frame(station, &room(arguments, FRAME_LENGTH)?);
    Ok(said(answer, &text::encode(&room)))
}

fn show(station: &Station, arguments: &[&str]) -> Printed {
    let (answer, room) = calls::show(station, &room(arguments, READING_LENGTH)?);
    let words = room.chunks(4).zip(NAMES).map(|(word, name)| {
        let word = word.try_into().map_or(0, u32::from_le_bytes);
        format!("{name} {word}")
    });
    Ok(said(answer, &words.collect::<Vec<_>>().join(" ")))
}
