//! Damage to a queue: its frames, empty slots, bytes held, head, count and capacity.

use super::{change_frame, fit, frame, too_far};
use crate::random::Random;
use crate::station::layout::{
    put_word, setting, slot_at, word, Slot, COUNT, HEAD, HELD, QUEUES, SETTINGS,
};
use crate::station::queue::SLOTS;

/// How many changes `change` knows.
pub const STEPS: usize = 22;

/// How many places `far` knows.
pub const PLACES: usize = 5;

/// The largest capacity.
const MOST_HELD: u64 = 1_048_576;

/// Head and count, or what of them makes sense.
fn ends_of(bytes: &[u8], at: usize) -> (usize, usize) {
    let (head, count) = (bytes[at + HEAD] as usize, bytes[at + COUNT] as usize);
    (head % SLOTS, count.min(SLOTS))
}

/// A frame of the queue changed, the bytes held with it. Where there is none one comes.
pub fn change_held(random: &mut Random, bytes: &mut [u8], at: usize, which: usize) {
    if bytes[at + COUNT] == 0 {
        refill(random, bytes, at, 1);
    }
    let (head, count) = ends_of(bytes, at);
    let place = slot_at(at, head + random.below(count));
    let slot = Slot::of_word(word(bytes, place));
    let changed = change_frame(random, slot, which, bytes);
    put_word(bytes, place, changed.word());
    let held = word(bytes, at + HELD) + changed.size;
    put_word(bytes, at + HELD, held.wrapping_sub(slot.size));
}

/// So many frames from any slot on, and the bytes that they hold.
fn refill(random: &mut Random, bytes: &mut [u8], at: usize, count: usize) -> u64 {
    bytes[at..at + HELD].fill(0);
    let head = random.below(SLOTS);
    let mut sum = 0;
    for behind in 0..count {
        let slot = frame(random, bytes);
        sum += slot.size;
        put_word(bytes, slot_at(at, head + behind), slot.word());
    }
    put_word(bytes, at + HELD, sum);
    bytes[at + HEAD] = head as u8;
    bytes[at + COUNT] = count as u8;
    sum
}

/// Sizes, as even as can be, that make the queue's frames hold so much.
fn spread(bytes: &mut [u8], at: usize, held: u64) {
    let (head, count) = ends_of(bytes, at);
    let frames = count as u64;
    for behind in 0..count {
        let place = slot_at(at, head + behind);
        let size = held / frames + u64::from((behind as u64) < held % frames);
        let slot = Slot::of_word(word(bytes, place));
        put_word(bytes, place, Slot { size, ..slot }.word());
    }
    put_word(bytes, at + HELD, held);
}

/// One frame gets a hop more than the ring has: the first, one in the middle, the last, the
/// last of 128, the one in slot 127. Where the queue has too few frames small ones come in
/// their place, and space for them.
pub fn far(random: &mut Random, bytes: &mut [u8], queue: usize, place: usize) {
    let at = QUEUES[queue];
    let needed = if place < 3 { 3 } else { SLOTS };
    if ends_of(bytes, at).1 < needed {
        let held = 16 * needed as u64;
        refill(random, bytes, at, needed);
        spread(bytes, at, held);
        let capacity = setting(bytes, 19 + queue).max(held);
        put_word(bytes, SETTINGS + 4 * (19 + queue), capacity);
    }
    let (head, count) = ends_of(bytes, at);
    let behind = match place {
        0 => 0,
        1 => 1 + random.below(count - 2),
        4 => SLOTS - 1 - head,
        _ => count - 1,
    };
    let place = slot_at(at, head + behind);
    let slot = too_far(Slot::of_word(word(bytes, place)), bytes);
    put_word(bytes, place, slot.word());
}

/// The largest capacity, with so many bytes held.
fn brim(random: &mut Random, bytes: &mut [u8], queue: usize, held: u64) {
    let at = QUEUES[queue];
    put_word(bytes, SETTINGS + 4 * 3, 9_216);
    fit::fit(bytes, 3);
    put_word(bytes, SETTINGS + 4 * (19 + queue), MOST_HELD);
    let count = random.between(114, SLOTS as i128) as usize;
    refill(random, bytes, at, count);
    spread(bytes, at, held);
}

/// All slots moved on, the head with them: the same queue elsewhere.
fn turn(random: &mut Random, bytes: &mut [u8], at: usize) {
    let by = 1 + random.below(SLOTS - 1);
    let (head, _) = ends_of(bytes, at);
    bytes[at..at + HELD].rotate_right(4 * by);
    bytes[at + HEAD] = ((head + by) % SLOTS) as u8;
}

pub fn change(random: &mut Random, bytes: &mut [u8], queue: usize, which: usize) {
    let at = QUEUES[queue];
    match which {
        0..=8 => change_count(random, bytes, queue, which),
        9..=11 => change_empty_slot(random, bytes, at, which),
        12 => bytes[at + HEAD] = bytes[at + HEAD].wrapping_add(1),
        13 => bytes[at + HEAD] = random.below(SLOTS) as u8,
        14 => bytes[at + HEAD] = random.pick(&[128, 255, bytes[at + HEAD] | 128]),
        15 => turn(random, bytes, at),
        20 | 21 => brim(random, bytes, queue, MOST_HELD + u64::from(which == 21)),
        _ => {
            let most = random.pick(&[1, 8, SLOTS]);
            let count = match which {
                16 => SLOTS,
                17 => random.below(most + 1),
                _ => random.between(1, SLOTS as i128) as usize,
            };
            let sum = refill(random, bytes, at, count);
            // The capacity is what is held, or one less.
            if which >= 18 {
                let capacity = sum - u64::from(which == 19);
                put_word(bytes, SETTINGS + 4 * (19 + queue), capacity);
            }
        }
    }
}

/// Bytes held or count changed, the slots not.
fn change_count(random: &mut Random, bytes: &mut [u8], queue: usize, which: usize) {
    let at = QUEUES[queue];
    let (held, count) = (word(bytes, at + HELD), bytes[at + COUNT]);
    let capacity = setting(bytes, 19 + queue);
    match which {
        0 => put_word(bytes, at + HELD, held.wrapping_add(1)),
        1 => put_word(bytes, at + HELD, held.wrapping_sub(1)),
        2 => put_word(bytes, at + HELD, capacity),
        3 => put_word(bytes, at + HELD, capacity + 1),
        4 => bytes[at + COUNT] = count.wrapping_add(1),
        5 => bytes[at + COUNT] = count.wrapping_sub(1),
        6 => bytes[at + COUNT] = 128,
        7 => bytes[at + COUNT] = random.pick(&[129, 255, 128 | count.max(1)]),
        _ => bytes[at + COUNT] = random.below(SLOTS + 1) as u8,
    }
}

/// A slot outside the queue's frames made non-zero.
fn change_empty_slot(random: &mut Random, bytes: &mut [u8], at: usize, which: usize) {
    let (head, count) = ends_of(bytes, at);
    if count == SLOTS {
        return;
    }
    let any = count + random.below(SLOTS - count);
    let behind = random.pick(&[count, SLOTS - 1, any]);
    let slot = match which {
        9 => 1,
        10 => 1 << random.below(32),
        _ => frame(random, bytes).word(),
    };
    put_word(bytes, slot_at(at, head + behind), slot);
}

/// The head of a queue without frames, or full of them, may be any slot.
pub fn move_head(random: &mut Random, bytes: &mut [u8]) {
    let free = |queue: &usize| [0, SLOTS].contains(&(bytes[queue + COUNT] as usize));
    let free: Vec<usize> = QUEUES.into_iter().filter(free).collect();
    if !free.is_empty() {
        bytes[random.pick(&free) + HEAD] = random.below(SLOTS) as u8;
    }
}
