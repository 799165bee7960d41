//! What a differential test says when a call differs.

use crate::item;
use crate::lent::Lent;
use crate::text;

/// The error is the message to print.
pub type Outcome<T> = Result<T, String>;

/// Hex in the case file's notation, a repeated item written `N*HEX`.
pub fn notation(bytes: &[u8]) -> String {
    let parts = item::parts(bytes);
    let words = parts.chunk_by(|one, next| one == next).map(|equal| {
        let hex = text::encode(equal[0]);
        match equal.len() {
            1 => hex,
            times => format!("{times}*{hex}"),
        }
    });
    words.collect::<Vec<_>>().join(" ")
}

/// One call's inputs, for the message when it differs.
pub struct Call<'a> {
    pub function: &'static str,
    pub slices: Vec<(&'static str, &'a [u8])>,
    /// A number's name and value.
    pub number: Option<(&'static str, u64)>,
}

impl Call<'_> {
    pub fn fault(&self, what: &str) -> String {
        let mut fault = format!("{}: {what}", self.function);
        for (name, bytes) in &self.slices {
            let hex = match *name {
                "record" | "pattern" => notation(bytes),
                _ => text::encode(bytes),
            };
            fault += &format!("\n  {name} ({} bytes): {hex}", bytes.len());
        }
        if let Some((name, number)) = self.number {
            fault += &format!("\n  {name}: {number}");
        }
        fault
    }

    pub fn same_answer(&self, expected: u64, got: u64) -> Outcome<()> {
        if expected == got {
            return Ok(());
        }
        Err(self.fault(&format!("answer {got:#018x}, model {expected:#018x}")))
    }

    pub fn same_bytes(&self, name: &str, expected: &[u8], lent: &Lent) -> Outcome<()> {
        if !lent.guards_intact() {
            return Err(self.fault(&format!("bytes beside the lent {name} changed")));
        }
        if lent.bytes() == expected {
            return Ok(());
        }
        let got = text::encode(lent.bytes());
        let expected = text::encode(expected);
        Err(self.fault(&format!("{name} afterwards\n  {got}, model\n  {expected}")))
    }
}
