//! How a cut is played: "Its events, right after an accepted power-up, with the
//! channels fitted and depth enough", then a write to BCR and one to BOR, in either
//! order, that let the clock through, and ticks.

use super::faults::Faults;
use super::order::Order;
use compare::bits::*;
use compare::fields::*;
use compare::file::MEMORY;
use compare::power_ups::{self, DEEPEST};
use compare::rng::Rng;

/// One play in so many is a session file too.
const FILES: u32 = 8;
/// And one in so many begins with junk in the whole sample memory. The others find
/// it as the last play left it.
const JUNK: u32 = 32;

#[derive(Clone, Copy)]
pub struct Play {
    pub power_up: Event,
    /// What is written to BCR, and to BOR.
    pub bcr: u32,
    pub bor: u32,
    pub bor_first: bool,
    /// It is listed as a session file too.
    pub as_file: bool,
    /// What fills the memory before: the stream of this number.
    pub junk: Option<u32>,
}

impl Play {
    /// How this order is played; none if it is bad, or if no memory holds its values.
    pub fn choose(order: &Order, rng: &mut Rng) -> Option<Play> {
        if !Faults::of(order).none() || order.values() > MEMORY {
            return None;
        }
        let junk = rng.word();
        Some(Play {
            power_up: power_up(order, rng),
            // No bursts, no calibration, no initialise; all other bits are any.
            bcr: rng.word() & !(BURSTS_BIT | CALIBRATE | INITIALISE),
            // Clocks of the generator; an open buffer, which is not cleared.
            bor: rng.word() & !(EXTERNAL_BIT | CIRCULAR_BIT | CLEAR) | ENABLED_BIT,
            bor_first: rng.chance(1, 2),
            as_file: rng.chance(1, FILES),
            junk: rng.chance(1, JUNK).then_some(junk),
        })
    }

    /// "Offset binary makes the level equal the data; two's complement adds 8000h
    /// mod 10000h."
    pub fn is_binary(&self) -> bool {
        self.bcr & BINARY_BIT != 0
    }

    pub fn is_simultaneous(&self) -> bool {
        self.bcr & SIMULTANEOUS_BIT != 0
    }

    /// How many ticks play all: one for each group in simultaneous mode, else one
    /// for each value.
    pub fn ticks(&self, order: &Order) -> usize {
        if self.is_simultaneous() {
            order.taken()
        } else {
            order.values()
        }
    }

    /// The two writes.
    pub fn settings(&self) -> [Event; 2] {
        let (bcr, bor) = (write(BCR, self.bcr), write(BOR, self.bor));
        if self.bor_first {
            [bor, bcr]
        } else {
            [bcr, bor]
        }
    }
}

/// "with the channels fitted and depth enough", often just enough.
fn power_up(order: &Order, rng: &mut Rng) -> Event {
    let holds = |fitted: &u32| 8usize << *fitted >= order.values();
    let least = (0..DEEPEST).find(holds).unwrap_or(DEEPEST);
    let any = least + rng.below(1 + DEEPEST - least);
    let fitted = rng.pick(&[least, any]);
    let has = |kit: &u32| order.mask & !channels(*kit) == 0;
    let kits: Vec<u32> = (0..=2).filter(has).collect();
    let mut event = power_ups::of(fitted, rng);
    event[4] = rng.pick(&kits);
    event
}
