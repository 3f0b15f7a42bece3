//! `--coverage`: what sorts of session there were, what memories were lent, and
//! what is counted for the question alone.

use super::lent::Found;
use super::{Question, Tally, Tried};
use crate::counts::Counts;
use std::collections::BTreeMap;

pub struct All<Q: Question> {
    sorts: BTreeMap<Q::Sort, u64>,
    memories: Counts,
    own: Q::Tally,
}

impl<Q: Question> All<Q> {
    pub fn new() -> All<Q> {
        All {
            sorts: BTreeMap::new(),
            memories: Counts::default(),
            own: Q::Tally::default(),
        }
    }

    pub fn note(&mut self, tried: &Tried<Q>, found: &Found<Q>) {
        *self.sorts.entry(tried.sort).or_default() += 1;
        if let Some(said) = &found.model {
            let memory = tried.memory;
            memory.count(Q::LONGER, found.junk, &mut self.memories);
            self.own.note(tried, said);
        }
    }

    pub fn print(&self) {
        println!("sessions:");
        for (sort, number) in &self.sorts {
            println!("  {number:9}  {sort}");
        }
        println!("memories:");
        self.memories.print();
        for (head, counts) in self.own.parts() {
            println!("{head}");
            counts.print();
        }
    }
}
