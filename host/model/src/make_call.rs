//! Random calls on a station.

use crate::make::wrong_length;
use crate::random::Random;
use crate::station::fairness::FRAME_LENGTH;
use crate::station::reading::READING_LENGTH;
use crate::station::Station;
use crate::station_call::Call;

/// How often each call comes, of 100: tick, client, transit, control, select, age, hear,
/// tell; show is the rest.
type Mood = [usize; 8];

/// Quiet, crowded by transit, busy with own traffic, crowded by control frames; with short
/// intervals crowded, and emptying.
const MOODS: [Mood; 6] = [
    [26, 9, 12, 8, 26, 5, 6, 4],
    [8, 4, 58, 3, 14, 4, 4, 3],
    [33, 14, 5, 2, 31, 5, 5, 3],
    [8, 4, 22, 40, 14, 4, 4, 2],
    [14, 7, 20, 2, 14, 34, 3, 4],
    [24, 2, 1, 1, 34, 34, 1, 2],
];

/// How a host behaves for a while.
#[derive(Clone, Copy)]
pub struct Habit {
    mood: Mood,
    /// Small frames fill a queue's slots before its bytes.
    small: bool,
    /// The class of most frames.
    class: Option<u64>,
}

impl Habit {
    pub fn new(random: &mut Random) -> Habit {
        Habit {
            mood: random.pick(&MOODS),
            small: random.one_in(3),
            class: random.pick(&[None, None, Some(0), Some(0), Some(1), Some(2)]),
        }
    }
}

/// A number that is mostly no code: just beyond, a code with a high bit, or any.
fn raw(random: &mut Random, beyond: u64) -> u64 {
    let any = random.word();
    let small = random.below(3) as u64;
    match random.below(5) {
        0 | 1 => beyond,
        2 => small | 1 << random.pick(&[8, 16, 32, 63]),
        3 => any >> random.below(64),
        _ => u64::MAX,
    }
}

/// A frame's size in range.
fn size(random: &mut Random, station: &Station, small: bool) -> u64 {
    let mtu = i128::from(station.settings.mtu);
    match small {
        true => random.between(16, 20) as u64,
        false => random.often_extreme(16, mtu) as u64,
    }
}

fn bad_size(random: &mut Random, station: &Station) -> u64 {
    let mtu = station.settings.mtu;
    let good = size(random, station, false);
    let any = raw(random, mtu + 1);
    random.pick(&[0, 15, mtu + 1, good | 1 << 16, good | 1 << 32, any])
}

/// Hops that the ring has, often its first, its last or the one before.
fn hops(random: &mut Random, station: &Station) -> u64 {
    let most = station.settings.stations - 1;
    match random.one_in(6) {
        true => most.max(2) - 1,
        false => random.often_extreme(1, i128::from(most)) as u64,
    }
}

/// As many hops as stations or one more, or any up to 64, the first that no ring accepts.
fn far_hops(random: &mut Random, station: &Station) -> u64 {
    let stations = station.settings.stations;
    let any = random.between(i128::from(stations), 64) as u64;
    random.pick(&[stations, stations, stations + 1, 63, any])
}

/// Class, size and hops. Now and then the ring hasn't such hops, or one of them is spoiled.
fn frame(random: &mut Random, station: &Station, habit: &Habit) -> [u64; 3] {
    let class = match habit.class {
        Some(class) if !random.one_in(12) => class,
        _ => random.pick(&[0, 1, 1, 2, 2]),
    };
    let mut frame = [
        class,
        size(random, station, habit.small),
        match random.one_in(16) {
            true => far_hops(random, station),
            false => hops(random, station),
        },
    ];
    if random.one_in(25) {
        match random.below(3) {
            0 => frame[0] = raw(random, 3),
            1 => frame[1] = bad_size(random, station),
            _ => frame[2] = random.pick(&[0, 64, 257, u64::MAX]),
        }
    }
    frame
}

/// A client frame in range, of this class.
pub fn client(random: &mut Random, station: &Station, class: u64) -> Call {
    let size = size(random, station, false);
    Call::Client([class, size, hops(random, station)])
}

fn transit(random: &mut Random, station: &Station, habit: &Habit) -> Call {
    let [class, size, hops] = frame(random, station, habit);
    let eligible = match class {
        0 if !random.one_in(25) => 0,
        _ if random.one_in(40) => raw(random, 2),
        _ => random.below(2) as u64,
    };
    Call::Transit([class, size, hops, eligible])
}

fn tick(random: &mut Random) -> Call {
    let mut waits = [0; 3].map(|_| u64::from(!random.one_in(4)));
    if random.one_in(30) {
        waits[random.below(3)] = raw(random, 2);
    }
    Call::Tick(waits)
}

/// A rate near what decides: 0, the own rate, full.
fn rate(random: &mut Random, station: &Station) -> u16 {
    let own = station.own_rate as u16;
    let near = own.wrapping_add(random.pick(&[0, 1, u16::MAX]));
    let few = random.below(100) as u16;
    random.pick(&[0, 1, few, few, near, 65_534, 65_535])
}

/// A fairness frame for the station, or one that is refused now and then.
fn heard(random: &mut Random, station: &Station) -> Vec<u8> {
    let ringlet = 1 - station.settings.ringlet as u8;
    let own = station.settings.address;
    let mut address = own;
    if !random.one_in(12) {
        address[random.below(6)] ^= 1 << random.below(8);
    }
    let ttl = match random.below(12) {
        0 => random.pick(&[0, 192, 63, 128]),
        1 | 2 => (256 - far_hops(random, station)) as u8,
        _ => (256 - hops(random, station)) as u8,
    };
    let unseen = random.word();
    let mut frame = vec![ttl, ringlet << 7 | 0x20 | unseen as u8 & 0x4f];
    frame.extend(address);
    frame.extend([(unseen >> 8) as u8 & 0x1f, (unseen >> 16) as u8]);
    frame.extend(rate(random, station).to_be_bytes());
    match random.below(25) {
        0 => frame[1] ^= random.pick(&[0x80, 0x10, 0x20, 0x30]),
        1 => frame[8] |= random.pick(&[0x20, 0x40, 0x80]),
        2 => frame.resize(wrong_length(random, FRAME_LENGTH), 0),
        _ => {}
    }
    frame
}

/// The right length, or now and then another.
fn room(random: &mut Random, right: usize) -> usize {
    match random.one_in(15) {
        true => wrong_length(random, right),
        false => right,
    }
}

/// The nine calls on a station.
pub const KINDS: usize = 9;

/// A random call of one kind.
pub fn of_kind(random: &mut Random, kind: usize, station: &Station, habit: &Habit) -> Call {
    match kind {
        0 => tick(random),
        1 => Call::Client(frame(random, station, habit)),
        2 => transit(random, station, habit),
        3 if random.one_in(25) => Call::Control(bad_size(random, station)),
        3 => Call::Control(size(random, station, habit.small)),
        4 => Call::Select,
        5 => Call::Age,
        6 => Call::Hear(heard(random, station)),
        7 => Call::Tell(room(random, FRAME_LENGTH)),
        _ => Call::Show(room(random, READING_LENGTH)),
    }
}

/// A random call.
pub fn call(random: &mut Random, station: &Station, habit: &Habit) -> Call {
    let mood = habit.mood;
    let mut at = random.below(100);
    let mut kind = 0;
    while kind < mood.len() && at >= mood[kind] {
        at -= mood[kind];
        kind += 1;
    }
    of_kind(random, kind, station, habit)
}
