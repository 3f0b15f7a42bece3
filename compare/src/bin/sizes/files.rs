//! The session files of a seed: one of `compare/sessions`, and one that is made
//! for the sizes, in turn.

use super::aim::Aim;
use super::stretches;
use compare::damage;
use compare::fields::depth;
use compare::file::{self, LONGEST, OPENING};
use compare::files::{self, File};
use compare::power_ups::DEEPEST;
use compare::rng::Rng;
use std::fmt;

#[derive(Clone, Copy, PartialEq, Eq, PartialOrd, Ord)]
pub enum Sort {
    /// A file of `compare/sessions`.
    Any(files::Sort),
    /// Power-ups, and buffers that fill and run empty.
    Full,
    /// No power-up of it is accepted.
    NoPowerUp,
    /// No record, or only one.
    Bare,
    /// Damaged anywhere, the later the likelier.
    Late,
    /// Damaged in its first record.
    Early,
    /// Longer than what `rehearse` reads.
    Long,
    /// A buffer of this fitted code, deeper than any in `rehearse`, that is more
    /// than half full.
    Deep(u32),
}

impl fmt::Display for Sort {
    fn fmt(&self, f: &mut fmt::Formatter) -> fmt::Result {
        f.write_str(match self {
            Sort::Any(sort) => sort.name(),
            Sort::Full => "buffers that fill",
            Sort::NoPowerUp => "no power-up accepted",
            Sort::Bare => "no record or one",
            Sort::Late => "buffers that fill, damaged",
            Sort::Early => "buffers that fill, the first record damaged",
            Sort::Long => "buffers that fill, longer than 65,536 bytes",
            Sort::Deep(fitted) => {
                return write!(f, "a buffer of fitted code {fitted} that fills");
            }
        })
    }
}

impl Sort {
    /// The memory that must be lent with it, if not any will do.
    pub fn memory(self) -> Option<usize> {
        match self {
            Sort::Deep(fitted) => depth(fitted).map(|depth| depth as usize),
            _ => None,
        }
    }
}

/// How the others are made, beside those of `compare/sessions`.
const SIZES: u64 = 0x0519_2026;

/// Of every ROW files the last is deep. It takes as long as hundreds of others,
/// so there are few; but each code comes in its turn, the highest first.
const ROW: u64 = 2000;
const DEEP: u64 = ROW - 1;

pub fn choose(seed: u64, index: u64) -> (Sort, Vec<u8>) {
    if index % 2 == 1 {
        let mut rng = Rng::new(seed ^ SIZES, index);
        let sort = match index % ROW {
            DEEP => Sort::Deep(15 - (index / ROW % 4) as u32),
            _ => sort(&mut rng),
        };
        return (sort, bytes(sort, &mut rng));
    }
    let File { sort, bytes } = File::new(seed, index / 2);
    (Sort::Any(sort), bytes)
}

fn sort(rng: &mut Rng) -> Sort {
    match rng.below(1000) {
        0..=3 => Sort::Long,
        4..=19 => Sort::Bare,
        20..=59 => Sort::NoPowerUp,
        60..=159 => Sort::Late,
        160..=199 => Sort::Early,
        _ => Sort::Full,
    }
}

fn bytes(sort: Sort, rng: &mut Rng) -> Vec<u8> {
    let mut bytes = vec![OPENING];
    if sort == Sort::Long {
        long(&mut bytes, rng);
        return bytes;
    }
    let events = match sort {
        Sort::NoPowerUp => stretches::refused_events(rng),
        Sort::Deep(fitted) => stretches::deep_events(rng, fitted),
        _ => {
            let aim = Aim::any(rng);
            stretches::events(rng, aim)
        }
    };
    match sort {
        Sort::Bare => file::put(&mut bytes, &events[..rng.below(2) as usize]),
        Sort::Late => {
            file::put(&mut bytes, &events);
            damage::any(&mut bytes, rng);
        }
        Sort::Early => {
            file::put(&mut bytes, &events[..1]);
            damage::any(&mut bytes, rng);
            file::put(&mut bytes, &events[1..]);
        }
        _ => file::put(&mut bytes, &events),
    }
    bytes
}

/// Half of them have the deepest buffer of `rehearse` more than half full, some
/// lose a value there, and the others are many short ones. A quarter is damaged.
fn long(bytes: &mut Vec<u8>, rng: &mut Rng) {
    match rng.below(8) {
        0..=3 => {
            let aim = Aim::at(DEEPEST, rng);
            file::put(bytes, &stretches::events(rng, aim));
        }
        4 => {
            let aim = Aim::over(DEEPEST, rng);
            file::put(bytes, &stretches::events(rng, aim));
        }
        _ => {}
    }
    while bytes.len() <= LONGEST {
        let aim = Aim::small(rng);
        file::put(bytes, &stretches::events(rng, aim));
    }
    if rng.chance(1, 4) {
        damage::any(bytes, rng);
    }
}
