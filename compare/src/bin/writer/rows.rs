//! The rows of a call: events that a session file can hold, bad ones among
//! them, and numbers that are no whole event.

use compare::fields::*;
use compare::file::{record, widths};
use compare::rng::Rng;

/// "six numbers each (kind, then fields)"
pub const ROW: usize = 6;

/// Kinds that are none. The low byte of some is one.
pub const UNKNOWN: [u32; 14] = [
    0,
    10,
    11,
    255,
    256,
    0x100 + POWER_UP,
    0x100 + WRITE,
    0x100 + READ,
    0x100 + TICK,
    0x100 + SETTLED,
    0x1_0000 + TICK,
    0x0400_0000,
    0x8000_0000 + TICK,
    u32::MAX,
];

/// What can be wrong with an event.
#[derive(Clone, Copy)]
enum Damage {
    /// "13 an unknown kind"
    Kind,
    /// The same, and its other numbers are not 0.
    KindAndFields,
    /// "30 a field too large for its bytes"
    TooLarge,
    /// "or not 0 where the kind has none"
    NotZero,
}

const DAMAGE: [Damage; 4] = [
    Damage::Kind,
    Damage::KindAndFields,
    Damage::TooLarge,
    Damage::NotZero,
];

/// The whole events of a slice.
pub fn events(rows: &[u32]) -> impl DoubleEndedIterator<Item = Event> + '_ {
    rows.chunks_exact(ROW)
        .map(|row| std::array::from_fn(|i| row[i]))
}

/// How long the session of these rows is; a bad event counts as its bytes would.
pub fn session(rows: &[u32]) -> usize {
    let records = events(rows).map(|event| record(&event).len());
    1 + records.sum::<usize>()
}

/// The rows of a call: mostly good events.
pub fn choose(rng: &mut Rng) -> Vec<u32> {
    let mut rows: Vec<Event> = (0..length(rng)).map(|_| good(rng)).collect();
    let bads = rng.pick(&[0, 0, 0, 0, 0, 0, 1, 1, 2, 4]);
    if rows.len() >= bads {
        for _ in 0..bads {
            let at = rng.below(rows.len() as u32) as usize;
            let at = rng.pick(&[0, at, at, rows.len() - 1]);
            rows[at] = bad(rng);
        }
    }
    let mut rows = rows.concat();
    if rng.chance(1, 12) {
        cut(&mut rows, rng);
    }
    rows
}

/// How many events: now and then so many that the session is longer than what
/// `rehearse` reads.
fn length(rng: &mut Rng) -> u32 {
    let long = 5_000 + rng.below(13_000);
    match rng.below(400) {
        0..=1 => long,
        2..=20 => 0,
        21..=80 => 1,
        81..=140 => 2,
        141..=340 => 2 + rng.below(12),
        _ => rng.below(120),
    }
}

/// An event that a session file can hold, whether the board takes it or not.
fn good(rng: &mut Rng) -> Event {
    let kind = rng.pick(&[1, 1, 2, 2, 2, 3, 3, 4, 5, 6, 7, 8, 9]);
    let mut event = simple(kind);
    for (i, width) in widths(kind).unwrap_or(&[]).iter().enumerate() {
        event[i + 1] = field(*width, rng);
    }
    event
}

/// The largest number that so many bytes hold.
pub fn most(width: usize) -> u32 {
    u32::MAX >> (32 - 8 * width)
}

fn field(width: usize, rng: &mut Rng) -> u32 {
    let most = most(width);
    let any = rng.word() & most;
    let bit = 1 << rng.below(8 * width as u32);
    rng.pick(&[0, 1, most, most - 1, most / 2 + 1, bit, any, any])
}

fn bad(rng: &mut Rng) -> Event {
    let damage = rng.pick(&DAMAGE);
    let mut event = good(rng);
    match damage {
        Damage::Kind => event = simple(unknown(rng)),
        Damage::KindAndFields => {
            event[0] = unknown(rng);
            let at = 1 + rng.below(5) as usize;
            event[at] = beyond(0, rng);
        }
        Damage::TooLarge => {
            while event[0] > READ {
                event = good(rng);
            }
            // The value of a write has four bytes, which hold any number.
            let fields = if event[0] == POWER_UP { 5 } else { 1 };
            let at = rng.below(fields) as usize;
            let width = widths(event[0]).unwrap_or(&[])[at];
            event[at + 1] = beyond(most(width), rng);
        }
        Damage::NotZero => {
            while event[0] == POWER_UP {
                event = good(rng);
            }
            let fields = widths(event[0]).unwrap_or(&[]).len();
            let at = fields + rng.below((5 - fields) as u32) as usize;
            event[at + 1] = beyond(0, rng);
        }
    }
    event
}

fn unknown(rng: &mut Rng) -> u32 {
    let any = rng.word() | 0x10;
    let known = rng.pick(&UNKNOWN);
    rng.pick(&[known, known, known, any])
}

/// A number above this one: by one, or the same in its low bits, or far.
fn beyond(most: u32, rng: &mut Rng) -> u32 {
    let low = rng.word() & most;
    let bit = 32 - most.leading_zeros() + rng.below(most.leading_zeros());
    let above = low | 1 << bit;
    rng.pick(&[most + 1, most + 1, most + 1 + low, above, above, u32::MAX])
}

/// "a slice not of whole events": one to five numbers more, or fewer.
fn cut(rows: &mut Vec<u32>, rng: &mut Rng) {
    let numbers = 1 + rng.below(5) as usize;
    if rows.is_empty() || rng.chance(1, 2) {
        let event = if rng.chance(1, 4) {
            bad(rng)
        } else {
            good(rng)
        };
        rows.extend_from_slice(&event[..numbers]);
    } else {
        rows.truncate(rows.len() - numbers);
    }
}
