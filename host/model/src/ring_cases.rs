//! The case file of rings: one call on each line.
//!
//! `choose STATIONS OWN TARGET LINKS SIDE PROTECTION RING` and
//! `path STATIONS OWN TARGET LINKS HOME`, numbers in decimal or hex after `0x`.
//! Lines that are empty or begin with `#` print nothing.

use crate::host;
use crate::line::{byte, numbers, words};

/// What a line prints; the error names what is wrong with the line.
pub fn print(line: &str) -> Result<Option<String>, String> {
    let words = words(line);
    let Some((call, arguments)) = words.split_first() else {
        return Ok(None);
    };
    let printed = match *call {
        "choose" => choose(arguments),
        "path" => path(arguments),
        _ => Err("not a call".to_string()),
    };
    let printed = printed.map_err(|fault| format!("{line}: {fault}"))?;
    Ok(Some(printed))
}

fn choose(arguments: &[&str]) -> Result<String, String> {
    let [stations, own, target, links, side, protection, ring] = numbers(arguments)?;
    let answer = host::choose(stations, own, target, links, side, protection, ring);
    if byte(answer, 0) != 0 {
        return Ok(format!("choose refused {}\n", byte(answer, 0)));
    }
    let [side, distance, ttl, mark] = [1, 2, 3, 4].map(|at| byte(answer, at));
    Ok(format!(
        "choose side {side} distance {distance} ttl {ttl} mark {mark}\n"
    ))
}

fn path(arguments: &[&str]) -> Result<String, String> {
    let [stations, own, target, links, home] = numbers(arguments)?;
    let answer = host::path(stations, own, target, links, home);
    if byte(answer, 0) != 0 {
        return Ok(format!("path refused {}\n", byte(answer, 0)));
    }
    let [delivered, hops] = [1, 2].map(|at| byte(answer, at));
    Ok(format!("path delivered {delivered} hops {hops}\n"))
}
