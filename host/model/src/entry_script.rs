//! A script of calls on a shaper and on a station that stay where their owner keeps them: for each call a line of
//! what it answers and of what it leaves.
//!
//! `shaper LO HI` is a fresh shaper, `charge SIZE`, `waiting AMOUNT` and `idle AMOUNT` are calls on it; `start W0 .. W33`
//! is a fresh station, and `tick A B C`, `client CLASS SIZE HOPS`, `transit CLASS SIZE HOPS ELIGIBLE`, `control SIZE`,
//! `select`, `age` and `hear HEX` are calls on it. Lines that are empty or begin with `#` print nothing.

use crate::line::{byte, number, numbers, short, words};
use crate::station::settings::{to_bytes, Limits};
use crate::station::shaper::Shaper;
use crate::station::{calls, Station};
use crate::station_call::Call;
use crate::text;

#[derive(Default)]
pub struct Script {
    shaper: Option<Shaper>,
    station: Option<Station>,
}

type Printed = Result<String, String>;

impl Script {
    /// What a line prints; the error names what is wrong with the line.
    pub fn print(&mut self, line: &str) -> Result<Option<String>, String> {
        let words = words(line);
        let Some((call, arguments)) = words.split_first() else {
            return Ok(None);
        };
        let printed = match *call {
            "shaper" | "charge" | "waiting" | "idle" => self.shaper(call, arguments),
            "start" => self.start(arguments),
            _ => self.call(call, arguments),
        };
        printed
            .map(Some)
            .map_err(|fault| format!("{line}: {fault}"))
    }

    fn shaper(&mut self, call: &str, arguments: &[&str]) -> Printed {
        if call == "shaper" {
            let [lo_limit, hi_limit] = numbers(arguments)?;
            self.shaper = Some(Shaper::new(Limits {
                lo_limit,
                hi_limit,
                amount: 0,
            }));
            return Ok(String::new());
        }
        let [n] = numbers(arguments)?;
        let shaper = self.shaper.as_mut().ok_or("no shaper yet")?;
        if call != "charge" {
            shaper.tick(n, call == "waiting");
            return Ok(format!("shaper tick credit {}\n", shaper.credit));
        }
        // "6: a needed shaper doesn't permit"; "refusal 6 returns its number and this shortfall."
        let (refusal, short) = if shaper.permits() {
            (0, 0)
        } else {
            (6, shaper.shortfall())
        };
        if refusal == 0 {
            shaper.charge(n);
        }
        Ok(format!(
            "shaper charge {refusal} short {short} credit {}\n",
            shaper.credit
        ))
    }

    fn start(&mut self, arguments: &[&str]) -> Printed {
        let mut words: Vec<u32> = Vec::new();
        for argument in arguments {
            words.push(
                number(argument)?
                    .try_into()
                    .map_err(|_| "more than 32 bits")?,
            );
        }
        match calls::start(&to_bytes(&words), &mut self.station) {
            0 => Ok(String::new()),
            answer => Err(format!("refused {answer}")),
        }
    }

    fn call(&mut self, name: &str, arguments: &[&str]) -> Printed {
        let station = self.station.as_mut().ok_or("no station yet")?;
        let call = parsed(name, arguments)?;
        let (answer, _) = call.apply(station, &call.other_slice(0));
        let said = match call {
            Call::Client(_) => format!("mark {} short {} ", mark(answer), short(answer)),
            Call::Select => format!("origin {} size {} ", byte(answer, 1), answer >> 48),
            _ => String::new(),
        };
        Ok(format!(
            "{said}{name} {} {}\n",
            byte(answer, 0),
            left(station)
        ))
    }
}

/// The mark that a client frame got; 0 where it was refused.
fn mark(answer: u64) -> u8 {
    match byte(answer, 0) {
        0 => byte(answer, 4),
        _ => 0,
    }
}

fn parsed(name: &str, arguments: &[&str]) -> Result<Call, String> {
    Ok(match name {
        "tick" => Call::Tick(numbers(arguments)?),
        "client" => Call::Client(numbers(arguments)?),
        "transit" => Call::Transit(numbers(arguments)?),
        "control" => Call::Control(numbers::<1>(arguments)?[0]),
        "select" => Call::Select,
        "age" => Call::Age,
        "hear" => Call::Hear(text::decode(arguments.concat().as_bytes()).map_err(|_| "not hex")?),
        _ => return Err("not a call".to_string()),
    })
}

/// The credits, the bytes that the three queues hold, and the received rate.
fn left(station: &Station) -> String {
    let words = station.reading();
    let joined = |places: &[usize]| {
        places
            .iter()
            .map(|at| words[*at].to_string())
            .collect::<Vec<_>>()
            .join(" ")
    };
    format!(
        "credits {} held {} received {}",
        joined(&[0, 1, 2, 3, 4]),
        joined(&[6, 8, 10]),
        words[30]
    )
}
