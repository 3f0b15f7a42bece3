//! The sample memory of both sides: the same before a session, and held to be
//! the same after it.

use crate::guarded::{Guarded, Wrongs};
use crate::lending::Lending;
use crate::rng::Rng;

/// What stands beside ours.
const GUARD: u32 = 0xC0DE_FACE;

pub struct Memory {
    pub model: Vec<u32>,
    pub ours: Guarded<u32>,
}

impl Memory {
    /// So many entries, all 0.
    pub fn new(length: usize) -> Memory {
        let mut memory = Memory {
            model: Vec::new(),
            ours: Guarded::new(GUARD),
        };
        memory.set(length, || 0);
        memory
    }

    /// So many entries. Without this it is as the last session left it.
    pub fn set(&mut self, length: usize, entry: impl FnMut() -> u32) {
        self.model.resize(length, 0);
        self.model.fill_with(entry);
        self.ours.set(self.model.iter().copied());
    }

    /// Makes it as it is lent. Answers whether it is full of junk.
    pub fn lend(&mut self, lending: Lending) -> bool {
        let junk = lending.anew || self.model.len() != lending.length;
        if junk {
            let mut rng = Rng::new(lending.junk as u64, 0);
            self.set(lending.length, || rng.word());
        }
        junk
    }

    /// Tells what differs, and makes the model's as ours is.
    pub fn compare(&mut self, wrongs: &mut Wrongs) {
        self.ours.look_beside("words beside the memory", wrongs);
        let ours = self.ours.inside();
        if ours == self.model {
            return;
        }
        let both = self.model.iter().zip(ours).enumerate();
        for (place, (model, ours)) in both.filter(|(_, (model, ours))| model != ours).take(1) {
            wrongs.push(format!("memory[{place}] {model:08X}h/{ours:08X}h"));
        }
        self.model.copy_from_slice(ours);
    }
}
