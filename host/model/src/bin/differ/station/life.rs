//! The same station in the library's memory and in the model.

use super::difference::{part_by_part, slices};
use super::library;
use model::lent::Lent;
use model::lent_call::{self, After};
use model::make::wrong_length;
use model::random::Random;
use model::report::Outcome;
use model::station::layout;
use model::station::reading::READING_LENGTH;
use model::station::Station;
use model::station_call::Call;
use model::text;

#[derive(Clone)]
pub struct Life {
    pub memory: Vec<u8>,
    pub model: Station,
    /// The calls so far, as a script.
    pub script: Vec<String>,
    /// It began with a start, so calls alone led to its state.
    pub started: bool,
}

/// Makes the call on lent bytes and compares its answer and every byte with what the
/// model says. The answer.
pub fn same(
    random: &mut Random,
    call: &Call,
    station: &mut [u8],
    other: &[u8],
    after: &After,
) -> Outcome<u64> {
    let mut lent = Lent::new(random, station);
    let mut lent_other = Lent::new(random, other);
    let answer = library::call(call, lent.bytes_mut(), lent_other.bytes_mut());
    station.copy_from_slice(lent.bytes());
    let expected = after.answer;
    if answer != expected {
        return Err(format!("answer {answer:#018x}, model {expected:#018x}"));
    }
    if !lent.guards_intact() || !lent_other.guards_intact() {
        return Err("bytes beside a lent slice changed".to_string());
    }
    if lent_other.bytes() != after.other {
        return Err(slices(lent_other.bytes(), &after.other));
    }
    if station != after.station {
        return Err(part_by_part(station, &after.station, "model"));
    }
    Ok(answer)
}

impl Life {
    pub fn fault(&self, what: &str) -> String {
        format!("{what}; the script:\n{}", self.script.join("\n"))
    }

    /// A life that begins with these bytes, where they are in range.
    pub fn of_bytes(bytes: &[u8]) -> Option<Life> {
        Some(Life {
            memory: bytes.to_vec(),
            model: layout::read(bytes).ok()?,
            script: vec![format!("a station of the bytes {}", text::encode(bytes))],
            started: false,
        })
    }

    /// Makes the call in both, and compares answer and bytes. The model goes on from its
    /// own state, not from what the library wrote.
    pub fn make(&mut self, random: &mut Random, call: &Call) -> Outcome<u64> {
        self.script.push(call.to_string());
        let before = call.other_slice(random.word() as u8);
        let (answer, other) = call.apply(&mut self.model, &before);
        let after = After {
            answer,
            station: layout::write(&self.model),
            other,
        };
        same(random, call, &mut self.memory, &before, &after).map_err(|what| self.fault(&what))
    }

    /// Makes a call that must be carried out.
    pub fn carry_out(&mut self, random: &mut Random, call: &Call) -> Outcome<()> {
        let answer = self.make(random, call)?;
        match answer as u8 {
            0 => Ok(()),
            _ => Err(self.fault(&format!("{call} is refused: {answer:#x}"))),
        }
    }

    /// The readings are the same.
    pub fn compare(&mut self, random: &mut Random) -> Outcome<()> {
        self.make(random, &Call::Show(READING_LENGTH))?;
        self.script.pop();
        Ok(())
    }

    /// Another length of station: 2, and nothing changes.
    pub fn another_length(&self, random: &mut Random, call: &Call) -> Outcome<u64> {
        let mut bytes = self.memory.clone();
        bytes.resize(wrong_length(random, self.memory.len()), 0);
        let other = call.other_slice(random.word() as u8);
        let after = lent_call::apply(call, &bytes, &other);
        let length = bytes.len();
        same(random, call, &mut bytes, &other, &after)
            .map_err(|what| format!("{call} on {length} bytes: {what}"))
    }
}
