//! The session files of a seed: one of `compare/sessions`, and one that is made
//! for the volts, in turn.

use super::stretches;
use compare::damage;
use compare::file::{self, LONGEST, OPENING};
use compare::files::{self, File};
use compare::rng::Rng;
use std::fmt;

#[derive(Clone, Copy, PartialEq, Eq, PartialOrd, Ord)]
pub enum Sort {
    /// A file of `compare/sessions`.
    Any(files::Sort),
    /// Power-ups, and levels that go far and come back.
    Far,
    /// No power-up of it is accepted.
    NoPowerUp,
    /// No record, or only one.
    Bare,
    /// Damaged anywhere, the later the likelier.
    Late,
    /// Damaged in its first record.
    Early,
    /// Longer than what `rehearse` reads.
    Long,
}

impl fmt::Display for Sort {
    fn fmt(&self, f: &mut fmt::Formatter) -> fmt::Result {
        f.write_str(match self {
            Sort::Any(sort) => sort.name(),
            Sort::Far => "levels that go far",
            Sort::NoPowerUp => "no power-up accepted",
            Sort::Bare => "no record or one",
            Sort::Late => "levels that go far, damaged",
            Sort::Early => "levels that go far, the first record damaged",
            Sort::Long => "levels that go far, longer than 65,536 bytes",
        })
    }
}

/// How the others are made, beside those of `compare/sessions`.
const VOLTS: u64 = 0x0321_2026;

pub fn choose(seed: u64, index: u64) -> (Sort, Vec<u8>) {
    if index % 2 == 1 {
        let mut rng = Rng::new(seed ^ VOLTS, index);
        let sort = sort(&mut rng);
        return (sort, bytes(sort, &mut rng));
    }
    let File { sort, bytes } = File::new(seed, index / 2);
    (Sort::Any(sort), bytes)
}

fn sort(rng: &mut Rng) -> Sort {
    match rng.below(1000) {
        0..=2 => Sort::Long,
        3..=19 => Sort::Bare,
        20..=99 => Sort::NoPowerUp,
        100..=249 => Sort::Late,
        250..=299 => Sort::Early,
        _ => Sort::Far,
    }
}

fn bytes(sort: Sort, rng: &mut Rng) -> Vec<u8> {
    let mut bytes = vec![OPENING];
    match sort {
        Sort::Bare => {
            let events = stretches::events(rng, true);
            file::put(&mut bytes, &events[..rng.below(2) as usize]);
        }
        Sort::NoPowerUp => file::put(&mut bytes, &stretches::events(rng, false)),
        Sort::Late => {
            file::put(&mut bytes, &stretches::events(rng, true));
            damage::any(&mut bytes, rng);
        }
        Sort::Early => {
            let events = stretches::events(rng, true);
            file::put(&mut bytes, &events[..1]);
            damage::any(&mut bytes, rng);
            file::put(&mut bytes, &events[1..]);
        }
        Sort::Long => {
            while bytes.len() <= LONGEST {
                file::put(&mut bytes, &stretches::events(rng, true));
            }
            if rng.chance(1, 2) {
                damage::any(&mut bytes, rng);
            }
        }
        Sort::Any(_) | Sort::Far => file::put(&mut bytes, &stretches::events(rng, true)),
    }
    bytes
}
