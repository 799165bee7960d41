//! Random hex text of a record, and text that is no hex.

use crate::item;
use crate::random::Random;

/// The bytes in hex: without a blank, a line an item, with blanks anywhere, by turns.
pub fn hex(random: &mut Random, turn: usize, bytes: &[u8]) -> Vec<u8> {
    let line_end = random.pick(&["\n", "\r\n"]);
    let capitals = random.pick(&[0, 1, 2]);
    let mut text = Vec::with_capacity(3 * bytes.len());
    for (place, part) in item::parts(bytes).into_iter().enumerate() {
        if turn % 3 == 1 && place > 0 {
            text.extend(line_end.bytes());
        }
        for half in part.iter().flat_map(|byte| [byte >> 4, byte & 15]) {
            if turn % 3 == 2 && random.one_in(4) {
                let count = 1 + random.below(3);
                text.extend((0..count).map(|_| random.pick(b" \t\r\n")));
            }
            text.push(digit(
                half,
                capitals == 1 || capitals == 2 && random.one_in(2),
            ));
        }
    }
    if random.one_in(2) {
        text.extend(line_end.bytes());
    }
    text
}

fn digit(half: u8, capital: bool) -> u8 {
    let digits = match capital {
        true => b"0123456789ABCDEF",
        false => b"0123456789abcdef",
    };
    digits[usize::from(half)]
}

/// A byte that is no digit and no blank set anywhere, or an odd digit at the end. (An odd digit
/// elsewhere makes another record of what follows, whose own 2 may be told first.)
pub fn spoil(random: &mut Random, text: &mut Vec<u8>) {
    let place = random.below(text.len() + 1);
    let byte = match random.below(4) {
        0 => return text.push(random.pick(b"0aF")),
        1 => random.pick(b"gG/:@`x-\0\x0b\x0c\x7f\x80\xff"),
        _ => loop {
            let any = random.word() as u8;
            if !any.is_ascii_hexdigit() && !b" \t\r\n".contains(&any) {
                break any;
            }
        },
    };
    text.insert(place, byte);
}
